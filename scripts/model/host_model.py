"""A model of the host's side of all calls but `proc_exit`, for `compare-calls` and `file-rows`.

It was written from the table of the profile and from no code: which error a call answers, in which
order it looks for faults, and what it changes where there is none. Numbers are those of WASI
preview 1. Each call is a method of `Host` with the call's name and parameters, which are natural
numbers here: a signed one is turned where it is used.
"""
import struct
from dataclasses import dataclass, field

from model.chacha import taken

BADF, EXIST, FAULT, FBIG, ILSEQ, INVAL, ISDIR, MFILE = 8, 20, 21, 22, 25, 28, 31, 33
NAMETOOLONG, NOENT, NOSPC, NOTDIR, NOTEMPTY, SPIPE, NOTCAPABLE = 37, 44, 51, 54, 55, 70, 76

# The parameters of each call. Those with `:l` are of type i64, all others of type i32.
PARAMETERS = {
    "args_get": "argv buf",
    "args_sizes_get": "count size",
    "environ_get": "argv buf",
    "environ_sizes_get": "count size",
    "clock_res_get": "id ret",
    "clock_time_get": "id precision:l ret",
    "fd_close": "fd",
    "fd_datasync": "fd",
    "fd_sync": "fd",
    "fd_fdstat_get": "fd ret",
    "fd_fdstat_set_flags": "fd flags",
    "fd_filestat_get": "fd ret",
    "fd_filestat_set_size": "fd size:l",
    "fd_pread": "fd iovs count offset:l ret",
    "fd_prestat_get": "fd ret",
    "fd_prestat_dir_name": "fd path len",
    "fd_pwrite": "fd iovs count offset:l ret",
    "fd_read": "fd iovs count ret",
    "fd_readdir": "fd buf len cookie:l ret",
    "fd_seek": "fd delta:l whence ret",
    "fd_tell": "fd ret",
    "fd_write": "fd iovs count ret",
    "path_create_directory": "fd path len",
    "path_filestat_get": "fd flags path len ret",
    "path_open": "fd dirflags path len oflags base:l inheriting:l fdflags ret",
    "path_remove_directory": "fd path len",
    "path_rename": "fd path len fd2 path2 len2",
    "path_unlink_file": "fd path len",
    "random_get": "buf len",
    "sched_yield": "",
}

# Rights, by the number of their bit.
(DATASYNC, READ, SEEK, SET_FLAGS, SYNC, TELL, WRITE) = range(7)
(CREATE_DIRECTORY, CREATE_FILE, OPEN, READDIR, RENAME_SOURCE, RENAME_TARGET) = 9, 10, 13, 14, 16, 17
(PATH_STAT, TRUNCATE, STAT, RESIZE, REMOVE_DIRECTORY, UNLINK) = 18, 19, 21, 22, 25, 26
FILE_RIGHTS, DIRECTORY_RIGHTS, ALL_RIGHTS = 0x0060007F, 0x062F6611, 0x066F667F
INPUT_RIGHTS, OUTPUT_RIGHTS = 0x00200002, 0x00200040

CHARACTER_DEVICE, DIRECTORY, REGULAR_FILE = 2, 3, 4
CREATE, ONLY_DIRECTORY, EXCLUSIVE, TRUNCATES = 1, 2, 4, 8
APPEND = 1

UNIT = 65536
MOVED, IOVECS, LINE, PATH, NAME = 65536, 1024, 4096, 4096, 255
FILE_SIZE, NODES, DESCRIPTORS = 1 << 20, 1024, 64
PREOPENED, ROOT = 3, 1
LAST_CLOCK, RESOLUTION, RANDOM = 1, 1, 4096

# The stream of random words of the first run of a worker: the generation that its opening commits.
# The creation has committed generation 1.
STREAM = 2


@dataclass
class Outside:
    """What a process is given beside its requests: texts, the time of both clocks, and a seed."""

    arguments: list = field(default_factory=list)
    environment: list = field(default_factory=list)
    clock: int = 0
    seed: bytes = bytes(32)


class Refusal(Exception):
    """A call answers an error number other than 0."""

    def __init__(self, error):
        super().__init__(error)
        self.error = error


class Parked(Exception):
    """A call asks for a request, and there is none."""


def demand(holds, error):
    """Refuses with an error unless something holds."""
    if not holds:
        raise Refusal(error)


def integer(word):
    """The signed number of an i64."""
    return word - (1 << 64) if word >> 63 else word


def bit(number):
    """The set of one right."""
    return 1 << number


class Node:
    """A file or a directory. One without a name and without descriptors is forgotten."""

    def __init__(self, number, is_directory):
        self.number, self.is_directory, self.is_named = number, is_directory, True
        self.content, self.entries = bytearray(), {}

    def kind(self):
        """The number of its file type."""
        return DIRECTORY if self.is_directory else REGULAR_FILE


class Descriptor:
    """What a descriptor number means. A stream has no node."""

    def __init__(self, node, base, inheriting, flags=0):
        self.node, self.base, self.inheriting = node, base, inheriting
        self.flags, self.offset = flags, 0

    def kind(self):
        """The number of its file type."""
        return self.node.kind() if self.node else CHARACTER_DEVICE


def refuse_unless_file(it):
    """Streams and directories are no files."""
    demand(it.node, SPIPE)
    demand(not it.node.is_directory, ISDIR)


def refuse_directory(it):
    """A directory can't be read or written as bytes."""
    demand(it.kind() != DIRECTORY, ISDIR)


def refuse_unless_directory(it):
    """Paths are walked from directories, and only they have entries."""
    demand(it.kind() == DIRECTORY, NOTDIR)


def parts_of(text):
    """The parts of a path of a good form, without empty ones and `.`."""
    demand(text, NOENT)
    demand(len(text) <= PATH, NAMETOOLONG)
    try:
        text.decode("utf-8")
    except UnicodeDecodeError:
        raise Refusal(ILSEQ) from None
    demand(b"\0" not in text, INVAL)
    demand(not text.startswith(b"/"), NOTCAPABLE)
    parts = [part for part in text.split(b"/") if part not in (b"", b".")]
    demand(all(len(part) <= NAME for part in parts), NAMETOOLONG)
    return parts


def walk(start, parts):
    """The directory that a path leads to, and the name after it, or none for a self path."""
    leaf = parts[-1] if parts and parts[-1] != b".." else None
    behind = [start]
    for part in parts if leaf is None else parts[:-1]:
        if part == b"..":
            demand(len(behind) > 1, NOTCAPABLE)
            behind.pop()
        else:
            node = behind[-1].entries.get(part)
            demand(node, NOENT)
            demand(node.is_directory, NOTDIR)
            behind.append(node)
    return behind[-1], leaf


def leaf_of(start, parts):
    """As `walk`, for calls that a self path is no argument of."""
    directory, leaf = walk(start, parts)
    demand(leaf is not None, INVAL)
    return directory, leaf


class Host:
    """Memory, descriptors, files and lines of one process."""

    def __init__(self, memory, file_units, requests=(), outside=None):
        self.memory, self.room = memory, file_units * UNIT
        self.outside, self.words = outside or Outside(), 0
        self.root = Node(ROOT, True)
        self.nodes, self.next_number = {ROOT: self.root}, ROOT + 1
        self.descriptors = {0: Descriptor(None, INPUT_RIGHTS, 0)}
        self.descriptors |= {number: Descriptor(None, OUTPUT_RIGHTS, 0) for number in (1, 2)}
        self.descriptors[PREOPENED] = Descriptor(self.root, DIRECTORY_RIGHTS, ALL_RIGHTS)
        self.lines, self.unfinished = [], {1: bytearray(), 2: bytearray()}
        self.requests, self.unread = list(requests), b""

    def call(self, name, arguments):
        """The error number of a call, which takes effect where that is 0."""
        try:
            getattr(self, name)(*arguments)
        except Refusal as refusal:
            return refusal.error
        return 0

    def end(self):
        """Emits what is left of the lines."""
        for stream, text in self.unfinished.items():
            if text:
                self.emit(stream)

    # Descriptors and rights.

    def opened(self, fd):
        """What an open descriptor means."""
        demand(fd in self.descriptors, BADF)
        return self.descriptors[fd]

    def checked(self, fd, refuse, *rights):
        """What a descriptor of a fitting kind and with some rights means."""
        it = self.opened(fd)
        if refuse:
            refuse(it)
        demand(all(it.base & bit(right) for right in rights), NOTCAPABLE)
        return it

    # The guest's memory.

    def demand_range(self, at, length):
        """Refuses a range that isn't inside of memory."""
        demand(at + length <= len(self.memory), FAULT)

    def put(self, at, data):
        """Writes bytes to a range that was checked."""
        self.memory[at : at + len(data)] = data

    def put_u32(self, at, value):
        self.put(at, struct.pack("<I", value))

    def put_u64(self, at, value):
        self.put(at, struct.pack("<Q", value))

    def buffers(self, iovs, count):
        """The address and the length of each buffer, all inside of memory."""
        demand(count <= IOVECS, INVAL)
        self.demand_range(iovs, 8 * count)
        found = list(struct.iter_unpack("<II", bytes(self.memory[iovs : iovs + 8 * count])))
        for at, length in found:
            self.demand_range(at, length)
        return found

    def scatter(self, buffers, data):
        """Puts bytes into one buffer after the other."""
        for at, length in buffers:
            self.put(at, data[:length])
            data = data[length:]

    def gather(self, buffers):
        """The bytes of all buffers, as many as one call moves."""
        data = b""
        for at, length in buffers:
            data += self.memory[at : at + min(length, MOVED - len(data))]
        return data

    def text(self, at, length):
        """The bytes of a path argument."""
        self.demand_range(at, length)
        return bytes(self.memory[at : at + length])

    # Nodes.

    def add(self, directory, name, is_directory):
        """A new node under a free name."""
        demand(len(self.nodes) < NODES, NOSPC)
        node = Node(self.next_number, is_directory)
        self.next_number += 1
        self.nodes[node.number] = directory.entries[name] = node
        return node

    def remove(self, directory, name):
        """Takes a name away, and its node unless that is open."""
        node = directory.entries.pop(name)
        node.is_named = False
        self.forget(node)

    def forget(self, node):
        """Drops a node that nothing leads to any more."""
        if not node.is_named and all(it.node is not node for it in self.descriptors.values()):
            del self.nodes[node.number]

    def resize(self, file, size):
        """Cuts a file, or puts zeros after it."""
        demand(size <= FILE_SIZE, FBIG)
        others = sum(len(node.content) for node in self.nodes.values() if node is not file)
        demand(others + size <= self.room, NOSPC)
        del file.content[size:]
        file.content.extend(bytes(size - len(file.content)))

    def overwrite(self, file, offset, data):
        """Writes some bytes into a file, which grows where they end past it."""
        if data:
            self.resize(file, max(len(file.content), offset + len(data)))
            file.content[offset : offset + len(data)] = data

    def stat(self, node):
        """The bytes of a filestat. That of a stream has no node."""
        if node is None:
            return struct.pack("<QQB7xQQ24x", 0, 0, CHARACTER_DEVICE, 1, 0)
        size = 0 if node.is_directory else len(node.content)
        return struct.pack("<QQB7xQQ24x", 0, node.number, node.kind(), node.is_named, size)

    # Streams.

    def emit(self, stream):
        """Ends the line of a stream."""
        self.lines.append((stream, bytes(self.unfinished[stream])))
        self.unfinished[stream].clear()

    def say(self, stream, data):
        """Writes bytes to the line of a stream."""
        for byte in data:
            if byte == ord("\n"):
                self.emit(stream)
                continue
            if len(self.unfinished[stream]) == LINE:
                self.emit(stream)
            self.unfinished[stream].append(byte)

    def hear(self, most):
        """At most so many bytes of the input. A request that is none ends it."""
        if most and not self.unread:
            if not self.requests:
                raise Parked()
            if self.requests[0] is not None:
                self.unread = self.requests.pop(0) + b"\n"
        heard, self.unread = self.unread[:most], self.unread[most:]
        return heard

    # The calls on texts, clocks and random bytes.

    def put_texts(self, texts, argv, buf):
        """Puts texts, each with a zero byte, and their addresses."""
        data = b"".join(text + b"\0" for text in texts)
        self.demand_range(argv, 4 * len(texts))
        self.demand_range(buf, len(data))
        for number, text in enumerate(texts):
            self.put_u32(argv + 4 * number, buf + sum(len(it) + 1 for it in texts[:number]))
        self.put(buf, data)

    def put_sizes(self, texts, count, size):
        """Puts how many texts there are, and how many bytes they have with their zero bytes."""
        self.demand_range(count, 4)
        self.demand_range(size, 4)
        self.put_u32(count, len(texts))
        self.put_u32(size, sum(len(text) + 1 for text in texts))

    def arguments(self):
        """The name of the program, and its arguments."""
        return [b"worker", *self.outside.arguments]

    def args_get(self, argv, buf):
        self.put_texts(self.arguments(), argv, buf)

    def args_sizes_get(self, count, size):
        self.put_sizes(self.arguments(), count, size)

    def environ_get(self, argv, buf):
        self.put_texts(self.outside.environment, argv, buf)

    def environ_sizes_get(self, count, size):
        self.put_sizes(self.outside.environment, count, size)

    def clock_res_get(self, clock, ret):
        demand(clock <= LAST_CLOCK, INVAL)
        self.demand_range(ret, 8)
        self.put_u64(ret, RESOLUTION)

    def clock_time_get(self, clock, _precision, ret):
        demand(clock <= LAST_CLOCK, INVAL)
        self.demand_range(ret, 8)
        self.put_u64(ret, self.outside.clock)

    def random_get(self, buf, length):
        demand(length <= RANDOM, INVAL)
        self.demand_range(buf, length)
        self.put(buf, taken(self.outside.seed, STREAM, self.words, length))
        self.words += (length + 3) // 4

    # The calls on descriptors.

    def fd_close(self, fd):
        it = self.opened(fd)
        demand(fd != PREOPENED, NOTCAPABLE)
        del self.descriptors[fd]
        if it.node:
            self.forget(it.node)

    def fd_datasync(self, fd):
        self.checked(fd, None, DATASYNC)

    def fd_sync(self, fd):
        self.checked(fd, None, SYNC)

    def fd_fdstat_get(self, fd, ret):
        it = self.opened(fd)
        self.demand_range(ret, 24)
        self.put(ret, struct.pack("<BxH4xQQ", it.kind(), it.flags, it.base, it.inheriting))

    def fd_fdstat_set_flags(self, fd, flags):
        it = self.checked(fd, None, SET_FLAGS)
        demand(flags <= 31, INVAL)
        it.flags = flags

    def fd_filestat_get(self, fd, ret):
        it = self.checked(fd, None, STAT)
        self.demand_range(ret, 64)
        self.put(ret, self.stat(it.node))

    def fd_filestat_set_size(self, fd, size):
        it = self.checked(fd, refuse_unless_file, RESIZE)
        self.resize(it.node, size)

    def read_into(self, it, offset, buffers, ret):
        """Reads a file into buffers, and puts how many bytes these were."""
        most = min(MOVED, sum(length for _, length in buffers))
        data = bytes(it.node.content[offset : offset + most])
        self.scatter(buffers, data)
        self.put_u32(ret, len(data))
        return len(data)

    def fd_pread(self, fd, iovs, count, offset, ret):
        it = self.checked(fd, refuse_unless_file, READ, SEEK)
        buffers = self.buffers(iovs, count)
        self.demand_range(ret, 4)
        self.read_into(it, offset, buffers, ret)

    def fd_prestat_get(self, fd, ret):
        self.opened(fd)
        self.demand_range(ret, 8)
        demand(fd == PREOPENED, BADF)
        self.put(ret, struct.pack("<B3xI", 0, 1))

    def fd_prestat_dir_name(self, fd, path, length):
        self.opened(fd)
        self.demand_range(path, 1)
        demand(fd == PREOPENED, BADF)
        demand(length > 0, NAMETOOLONG)
        self.put(path, b"/")

    def fd_pwrite(self, fd, iovs, count, offset, ret):
        it = self.checked(fd, refuse_unless_file, WRITE, SEEK)
        buffers = self.buffers(iovs, count)
        self.demand_range(ret, 4)
        data = self.gather(buffers)
        self.overwrite(it.node, offset, data)
        self.put_u32(ret, len(data))

    def fd_read(self, fd, iovs, count, ret):
        it = self.checked(fd, refuse_directory, READ)
        buffers = self.buffers(iovs, count)
        self.demand_range(ret, 4)
        if it.node:
            it.offset += self.read_into(it, it.offset, buffers, ret)
        else:
            data = self.hear(min(MOVED, sum(length for _, length in buffers)))
            self.scatter(buffers, data)
            self.put_u32(ret, len(data))

    def fd_readdir(self, fd, buf, length, cookie, ret):
        it = self.checked(fd, refuse_unless_directory, READDIR)
        self.demand_range(buf, length)
        self.demand_range(ret, 4)
        entries = sorted(it.node.entries.items())
        data = b""
        for place, (name, node) in list(enumerate(entries))[cookie:]:
            data += struct.pack("<QQIB3x", place + 1, node.number, len(name), node.kind()) + name
        self.put(buf, data[:length])
        self.put_u32(ret, min(length, len(data)))

    def fd_seek(self, fd, delta, whence, ret):
        it = self.checked(fd, refuse_unless_file, SEEK)
        demand(whence <= 2, INVAL)
        self.demand_range(ret, 8)
        offset = [0, it.offset, len(it.node.content)][whence] + integer(delta)
        demand(0 <= offset < 1 << 63, INVAL)
        it.offset = offset
        self.put_u64(ret, offset)

    def fd_tell(self, fd, ret):
        it = self.checked(fd, refuse_unless_file, TELL)
        self.demand_range(ret, 8)
        self.put_u64(ret, it.offset)

    def fd_write(self, fd, iovs, count, ret):
        it = self.checked(fd, refuse_directory, WRITE)
        buffers = self.buffers(iovs, count)
        self.demand_range(ret, 4)
        data = self.gather(buffers)
        if it.node is None:
            self.say(fd, data)
        elif data:
            offset = len(it.node.content) if it.flags & APPEND else it.offset
            self.overwrite(it.node, offset, data)
            it.offset = offset + len(data)
        self.put_u32(ret, len(data))

    # The calls on paths.

    def path_create_directory(self, fd, path, length):
        it = self.checked(fd, refuse_unless_directory, CREATE_DIRECTORY)
        directory, leaf = leaf_of(it.node, parts_of(self.text(path, length)))
        demand(leaf not in directory.entries, EXIST)
        demand(directory.is_named, NOENT)
        self.add(directory, leaf, True)

    def path_filestat_get(self, fd, flags, path, length, ret):
        it = self.checked(fd, refuse_unless_directory, PATH_STAT)
        demand(flags <= 1, INVAL)
        text = self.text(path, length)
        self.demand_range(ret, 64)
        directory, leaf = walk(it.node, parts_of(text))
        node = directory if leaf is None else directory.entries.get(leaf)
        demand(node, NOENT)
        self.put(ret, self.stat(node))

    def path_open(self, fd, dirflags, path, length, oflags, base, inheriting, fdflags, ret):
        needed = ([OPEN] + [CREATE_FILE] * bool(oflags & CREATE)
                  + [TRUNCATE] * bool(oflags & TRUNCATES))
        it = self.checked(fd, refuse_unless_directory, *needed)
        demand((base | inheriting) & ~it.inheriting == 0, NOTCAPABLE)
        demand(dirflags <= 1 and oflags <= 15 and fdflags <= 31, INVAL)
        demand(not (oflags & CREATE and oflags & ONLY_DIRECTORY), INVAL)
        text = self.text(path, length)
        self.demand_range(ret, 4)
        directory, leaf = walk(it.node, parts_of(text))
        node = directory if leaf is None else directory.entries.get(leaf)
        self.demand_openable(directory, node, oflags, base)
        number = min(set(range(PREOPENED, DESCRIPTORS)) - set(self.descriptors), default=None)
        demand(number is not None, MFILE)
        node = node or self.add(directory, leaf, False)
        if oflags & TRUNCATES:
            node.content.clear()
        kept, passed = (DIRECTORY_RIGHTS, ALL_RIGHTS) if node.is_directory else (FILE_RIGHTS, 0)
        self.descriptors[number] = Descriptor(node, base & kept, inheriting & passed, fdflags)
        self.put_u32(ret, number)

    @staticmethod
    def demand_openable(directory, node, oflags, base):
        """Refuses to open what is there, or to create what isn't."""
        demand(not (node and oflags & CREATE and oflags & EXCLUSIVE), EXIST)
        demand(node or oflags & CREATE, NOENT)
        if node and node.is_directory:
            demand(not oflags & (CREATE | TRUNCATES) and not base & bit(WRITE), ISDIR)
        demand(not node or node.is_directory or not oflags & ONLY_DIRECTORY, NOTDIR)
        demand(node or directory.is_named, NOENT)

    def path_remove_directory(self, fd, path, length):
        it = self.checked(fd, refuse_unless_directory, REMOVE_DIRECTORY)
        directory, leaf = leaf_of(it.node, parts_of(self.text(path, length)))
        node = directory.entries.get(leaf)
        demand(node, NOENT)
        demand(node.is_directory, NOTDIR)
        demand(not node.entries, NOTEMPTY)
        self.remove(directory, leaf)

    def path_unlink_file(self, fd, path, length):
        it = self.checked(fd, refuse_unless_directory, UNLINK)
        directory, leaf = leaf_of(it.node, parts_of(self.text(path, length)))
        node = directory.entries.get(leaf)
        demand(node, NOENT)
        demand(not node.is_directory, ISDIR)
        self.remove(directory, leaf)

    def path_rename(self, fd, path, length, fd2, path2, length2):
        both = [self.opened(fd), self.opened(fd2)]
        for it in both:
            refuse_unless_directory(it)
        for it, right in zip(both, [RENAME_SOURCE, RENAME_TARGET]):
            demand(it.base & bit(right), NOTCAPABLE)
        texts = [self.text(path, length), self.text(path2, length2)]
        parts = [parts_of(text) for text in texts]
        (old, old_name), (new, new_name) = [walk(it.node, its) for it, its in zip(both, parts)]
        demand(old_name is not None and new_name is not None, INVAL)
        node, there = old.entries.get(old_name), new.entries.get(new_name)
        demand(node, NOENT)
        demand(new.is_named, NOENT)
        demand(not self.is_within(new, node), INVAL)
        if node is there:
            return
        if there:
            demand(node.is_directory or not there.is_directory, ISDIR)
            demand(there.is_directory or not node.is_directory, NOTDIR)
            demand(not there.entries, NOTEMPTY)
            self.remove(new, new_name)
        del old.entries[old_name]
        new.entries[new_name] = node

    def is_within(self, directory, node):
        """Whether a directory is a node or is below it."""
        return (directory is node
                or any(self.is_within(directory, it) for it in node.entries.values()))

    def sched_yield(self):
        """Nothing happens."""
