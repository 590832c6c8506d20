"""Random sequences of calls with constant arguments, for `compare-calls`.

A player makes the calls on a model while it chooses them, so that it knows which descriptors are
open and which paths lead somewhere. What it lays into memory for a later call is there from the
start of a run, so that a run may go another way than the player's: nothing here is a prediction.
"""
import random
import struct
from dataclasses import dataclass, field

from model.host_model import (
    ALL_RIGHTS, APPEND, CHARACTER_DEVICE, CREATE, DIRECTORY, DIRECTORY_RIGHTS, DESCRIPTORS,
    FILE_RIGHTS, FILE_SIZE, IOVECS, MOVED, NODES, PREOPENED, REGULAR_FILE, UNIT, WRITE, Host,
    Outside, Parked, bit)

# Where a sequence keeps what. The printer's part is used after the last call.
CELLS, PRINTER, COUNTER = (0, 512), (512, 8192), 544
TEXTS, ARRAYS, BUFFERS = (8192, 24576), (24576, 40960), (40960, 65536)

WEIGHTS = {
    "path_open": 20, "fd_write": 12, "fd_read": 10, "fd_pread": 9, "fd_pwrite": 10, "fd_seek": 8,
    "fd_close": 6, "path_rename": 10, "path_create_directory": 8, "path_unlink_file": 6,
    "path_remove_directory": 6, "path_filestat_get": 5, "fd_readdir": 5, "fd_filestat_get": 4,
    "fd_filestat_set_size": 4, "fd_tell": 3, "fd_fdstat_get": 3, "fd_fdstat_set_flags": 4,
    "fd_sync": 3, "fd_datasync": 3, "fd_prestat_get": 2, "fd_prestat_dir_name": 3, "sched_yield": 1}

# What these calls answer hangs on the words that a run is given.
OUTSIDE_WEIGHTS = {
    "args_get": 2, "args_sizes_get": 2, "environ_get": 2, "environ_sizes_get": 2,
    "clock_res_get": 2, "clock_time_get": 3, "random_get": 6}

NAMES = [b"a", b"b", b"c", b"d", b"ab", b"a.b", b"..a", b"...", b"B",
         b" ", b"\xc3\xa9", b"\xf0\x9f\x8e\xb2"]
PLAIN_NAMES = [b"a", b"b", b"c", b"d", b"ab", b"long name"]
LONGEST, TOO_LONG = b"n" * 255, b"n" * 256

ODD_PATHS = [
    b"", b"/", b"/a", b"//a/b", b".", b"./", b"..", b"../a", b"a/..", b"a/../..", b"./../a",
    b"a/./../b/", b"a//", b"\xff", b"a/\xff", b"/\xff", b"\xff\0", b"\xc0\x80", b"\xed\xa0\x80",
    b"\xe2\x82", b"\xf4\x90\x80\x80", b"\xef\xbf\xbf", b"a\0", b"\0", b"/\0", b"a/\0/b", LONGEST,
    TOO_LONG, b"a/" + TOO_LONG, b"/" + TOO_LONG, TOO_LONG + b"/..", LONGEST + b"/" + LONGEST,
    b"missing/..", b"missing/../..", b"a/b/c/d/e"]
LONG_PATHS = [
    b"./" * 2048, b"./" * 2048 + b"/", b"./" * 2047 + b"/a", b"./" * 2048 + b"a", b"/" * 4097,
    b"\xff" * 4097, (LONGEST + b"/") * 16, TOO_LONG * 16, b"\xff" + b"\0" * 4095]

WORD, LONG = (1 << 32) - 1, (1 << 64) - 1

# How many texts a process has at most, its name among them, and how long each may be.
TEXT_COUNT, TEXT_LENGTH = 64, 1024
SOME_TEXTS = [b"", b"-", b"--", b"--seed", b"a", b"red", b"two words",
              b"=", b"\n", b"\xf0\x9f\x8e\xb2"]


@dataclass
class Step:
    """A call with its arguments, made once or several times, and the memory that it is about.

    A call with a counter is given the turn by two letters at `COUNTER`, and is made each time anew.
    """

    name: str
    arguments: list
    times: int = 1
    is_counted: bool = False
    shown: list = field(default_factory=list)


@dataclass
class Sequence:
    """What a module does: its memory at first, its calls, and the stream on which it prints."""

    pages: int
    data: list
    steps: list
    reporter: int
    requests: list
    outside: Outside | None = None

    def fresh(self, file_units):
        """The host of a process that begins."""
        memory = bytearray(self.pages * UNIT)
        for at, data in self.data:
            memory[at : at + len(data)] = data
        return Host(memory, file_units, self.requests, self.outside)


def letters(turn):
    """The name that a counted call has in a turn."""
    return bytes([ord("A") + turn // 32, ord("A") + turn % 32])


def make(host, step):
    """Makes the calls of a step on a model. Answers one number for all of their errors."""
    if step.times == 1:
        return host.call(step.name, step.arguments)
    folded = 0
    for turn in range(step.times):
        if step.is_counted:
            host.put(COUNTER, letters(turn))
        folded = (33 * folded + host.call(step.name, step.arguments)) & WORD
    return folded


class Player:
    """Chooses a sequence. A plain one has no arguments that only this profile gives a meaning. One
    that is closed asks for no texts, clocks and random bytes."""

    def __init__(self, seed, file_units, without=(), has_requests=False,
                 is_plain=False, is_closed=False):
        self.random = random.Random(seed)
        self.is_plain, self.has_requests = is_plain, has_requests
        self.is_wild, self.is_calm = False, False
        weights = WEIGHTS if is_closed else WEIGHTS | OUTSIDE_WEIGHTS
        self.calls = {name: weight for name, weight in weights.items() if name not in without}
        requests = [b"hello", b"", b"x" * 300, b"\xff\0", None] if has_requests else []
        reporter = 2 if self.odd(8) else 1
        outside = None if is_closed else self.outside()
        self.sequence = Sequence(self.random.choice([1, 1, 1, 2]),
                                 [], [], reporter, requests, outside)
        self.host = self.sequence.fresh(file_units)
        self.size, self.texts = self.sequence.pages * UNIT, {}
        self.next_text, self.next_array, self.shown = TEXTS[0], ARRAYS[0], []
        for at in range(*BUFFERS, 4096):
            texts = [self.random.randbytes(64), b"some words\n" * 9, b"x" * 64]
            self.lay(at, self.random.choice(texts))

    def some_texts(self, most, prefix):
        """At most so many texts after a prefix, and seldom the longest that may be."""
        count = most if self.odd(8) else self.random.randrange(5)
        longest = b"x" * (TEXT_LENGTH - len(prefix))
        return [prefix + self.random.choice([*SOME_TEXTS, longest]) for _ in range(count)]

    def outside(self):
        """What a run is given by its words."""
        arguments = self.some_texts(TEXT_COUNT - 1, b"")
        environment = self.some_texts(TEXT_COUNT, b"NAME=")
        clock = self.random.choice([0, 1, (1 << 63) - 1, 1 << 63,
                                    LONG, self.random.getrandbits(61)])
        return Outside(arguments, environment, clock, self.random.randbytes(32))

    def lay(self, at, data):
        """Puts bytes where a run finds them from its start."""
        self.sequence.data.append((at, data))
        self.host.put(at, data)

    def odd(self, one_in):
        """Whether to choose something odd. A wild call has several odd arguments, a calm one
        none."""
        share = max(2, one_in // 4) if self.is_wild else one_in
        return self.random.randrange(share) == 0 and not self.is_plain and not self.is_calm

    def take(self, step):
        """Adds a step, and makes its calls."""
        self.sequence.steps.append(step)
        try:
            make(self.host, step)
        except Parked:
            self.sequence.steps.pop()

    def played(self, count):
        """A sequence of about so many calls, and some after them that look at everything."""
        if self.odd(6):
            self.fill(self.fill_directory)
        self.is_calm = True
        names = ["path_create_directory", "path_open", "path_open", "fd_write"]
        for name in self.random.choices(names, k=12):
            self.play(name)
        self.is_calm = False
        while len(self.sequence.steps) < count:
            if self.odd(60):
                self.fill(self.random.choice([self.fill_directory,
                                              self.fill_descriptors, self.fill_file]))
            self.play(self.random.choices(list(self.calls), list(self.calls.values()))[0])
        self.look()
        return self.sequence

    def play(self, name):
        """Makes a call, unless it is left out."""
        self.shown, self.is_wild = [], self.odd(6)
        arguments = getattr(self, name)()
        self.is_wild = False
        if name in self.calls and not self.is_left_out(name, arguments):
            self.take(Step(name, arguments, shown=self.shown))

    def is_left_out(self, name, arguments):
        """Closing the printer's stream, reading requests where there are none, and what isn't
        plain."""
        if name == "fd_close":
            return arguments[0] == self.sequence.reporter
        if name == "fd_read" and arguments[0] == 0:
            return not self.has_requests
        return self.is_plain and self.is_own(name, arguments)

    def is_own(self, name, arguments):
        """Whether hosts differ in a call: at the root's descriptor, at a `pwrite` that appends, and
        where a descriptor's directory gets another path."""
        if name in ("fd_datasync", "fd_fdstat_set_flags"):
            return self.host.descriptors[arguments[0]].kind() == DIRECTORY
        if name == "fd_pwrite":
            return bool(self.host.descriptors[arguments[0]].flags & APPEND)
        kinds = [it.kind() for it in self.host.descriptors.values()]
        return name in ("path_rename", "path_remove_directory") and kinds.count(DIRECTORY) > 1

    # Steps of several calls.

    def fill(self, form):
        """Comes near a limit, or some way to it."""
        step = form()
        if step.name in self.calls and step.times > 1:
            self.take(step)

    def fill_directory(self):
        """New directories with names of two letters, as far as there may be nodes or a few."""
        left = NODES - len(self.host.nodes)
        times = self.random.choice([40, 700, left - 1, left, left + 1])
        at = self.descriptor(DIRECTORY)
        return Step("path_create_directory", [at, COUNTER, 2], min(max(times, 0), 1024), True)

    def fill_descriptors(self):
        left = DESCRIPTORS - len(self.host.descriptors)
        times = left + self.random.choice([-20, -1, 0, 1, 3])
        at, length = self.lay_text(self.random.choice([b".", b"a", b"new"]))
        oflags = self.random.choice([0, 0, CREATE])
        base = self.random.choice([FILE_RIGHTS, FILE_RIGHTS & ~bit(WRITE)])
        return Step("path_open", [PREOPENED, 0, at, length, oflags, base, 0, 0, 0], times)

    def fill_file(self):
        iovs = self.lay_array([(0, MOVED)])
        fd, times = self.descriptor(REGULAR_FILE), self.random.choice([2, 8, 15, 16, 17])
        return Step("fd_write", [fd, iovs, 1, 0], times if fd > PREOPENED else 2)

    def look(self):
        """Looks at all descriptors, and at some of what paths lead to."""
        for fd in sorted(self.host.descriptors)[:12]:
            is_file = self.host.descriptors[fd].kind() == REGULAR_FILE
            for name in ["fd_fdstat_get", "fd_filestat_get"] + ["fd_tell"] * is_file:
                self.look_by(name, [fd, 64])
            if is_file:
                self.look_by("fd_pread", [fd, self.lay_array([(BUFFERS[0], 20000)]), 1, 0, 64])
        known = self.known(self.host.root)
        for text, node in self.random.sample(known, min(12, len(known))):
            self.look_by("path_filestat_get", [PREOPENED, 0, *self.lay_text(text), 64])
            if node.is_directory and self.next_text < TEXTS[1] - 600:
                self.look_into(text)
        self.look_by("fd_readdir", [PREOPENED, BUFFERS[0], 20000, 0, 64])

    def look_into(self, text):
        """Lists a directory, if a descriptor is left for it."""
        free = min(set(range(DESCRIPTORS)) - {0, 1, 2} - set(self.host.descriptors), default=None)
        if free:
            self.look_by("path_open",
                         [PREOPENED, 0, *self.lay_text(text), 2, DIRECTORY_RIGHTS & ~1, 0, 0, 64])
            self.look_by("fd_readdir", [free, BUFFERS[0], 1200, 0, 64])
            self.look_by("fd_close", [free])

    def look_by(self, name, arguments):
        """Adds a call that looks, unless a plain run shows other things or it is left out."""
        if name in self.calls and not self.is_plain:
            self.take(Step(name, arguments))

    # What calls take.

    def show(self, at, length):
        """Notes memory that a plain run shows after the call."""
        self.shown.append((at, length))
        return at

    def place(self, width):
        """An address that hardly any call should be given for so many bytes."""
        return WORD & self.random.choice([
            self.size - width, self.size - width + 1, self.size - 1,
            self.size, self.size + 1, 1 << 31, WORD,
            -width, self.random.randrange(self.size),
            self.random.randrange(*ARRAYS), self.next_text - 3])

    def cell(self, width):
        """Where a result goes."""
        return self.place(width) if self.odd(12) else self.random.randrange(CELLS[1] - width)

    def descriptor(self, kind):
        """A descriptor, mostly of a kind."""
        fitting = [number for number, it in self.host.descriptors.items() if it.kind() == kind]
        if self.odd(8) or not fitting:
            closed = self.random.randrange(4, DESCRIPTORS)
            among = (list(self.host.descriptors) if self.odd(2)
                     else [0, 1, 2, closed, 63, 64, 1 << 31, WORD])
            return PREOPENED if self.is_plain else self.random.choice(among)
        removed = [number for number in fitting if number > 2
                   and not self.host.descriptors[number].node.is_named]
        if removed and self.odd(4):
            return self.random.choice(removed)
        return (PREOPENED if kind == DIRECTORY and self.random.randrange(2)
                else self.random.choice(fitting))

    def known(self, start):
        """The paths below a directory, with their nodes."""
        found, rest = [], [(b"", start)]
        while rest and len(found) < 200:
            text, node = rest.pop()
            below = [(text + name, it) for name, it in list(node.entries.items())[-30:]]
            found += below
            rest += [(path + b"/", it) for path, it in below]
        return found

    def lay_text(self, text):
        """Address and length of a path. Where there is no room left, that of another one."""
        if text not in self.texts:
            if self.next_text + len(text) > TEXTS[1]:
                text = self.random.choice(list(self.texts))
            else:
                self.texts[text] = self.next_text
                self.lay(self.next_text, text)
                self.next_text += len(text)
        return self.texts[text], len(text)

    def detour(self, text):
        """Another spelling of a path, or of one near it."""
        return self.random.choice([
            text + b"/", text + b"/.", b"./" + text, text.replace(b"/", b"//"),
            text + b"/..", text + b"/../" + text,
            text + b"/x", b"a/../" + text, text + b"/../.."])

    def path(self, fd, kind, is_new=False, is_open=False):
        """Address and length of a path for a descriptor: to a node of a kind, to one that some
        descriptor stands for, or to none yet."""
        it = self.host.descriptors.get(fd)
        start = it.node if it and it.kind() == DIRECTORY else self.host.root
        known = self.known(start)
        fitting = [text for text, node in known if node.kind() == kind or self.odd(10)]
        if is_open:
            nodes = [it.node for it in self.host.descriptors.values()]
            fitting = ([text for text, node in known if node in nodes and not node.entries]
                       or fitting)
        if self.odd(10):
            return self.odd_path()
        if fitting and self.random.random() < (0.2 if is_new else 0.85):
            text = self.random.choice(fitting)
        else:
            within = [b""] + [text + b"/" for text, node in known if node.is_directory]
            text = (self.random.choice(within)
                    + self.random.choice(PLAIN_NAMES if self.is_plain else NAMES))
        return self.lay_text(self.detour(text) if self.odd(6) else text)

    def odd_path(self):
        if self.odd(3):
            length = self.random.choice([0, 1, 2, 255, 4096, 4097, 1 << 31, WORD])
            return self.place(length), length
        return self.lay_text(self.random.choice(LONG_PATHS if self.odd(10) else ODD_PATHS))

    def rights(self, fd, kind):
        """A set of rights, mostly one that a descriptor may hand on."""
        usual = FILE_RIGHTS if kind == REGULAR_FILE else DIRECTORY_RIGHTS & ~self.is_plain
        it = self.host.descriptors.get(fd)
        own = it.inheriting if it else ALL_RIGHTS
        if self.odd(10):
            odd_bit = bit(self.random.choice([7, 28, 29, 63]))
            return self.random.choice([0, own, ALL_RIGHTS, LONG,
                                       usual | odd_bit, odd_bit, FILE_RIGHTS])
        if self.odd(3):
            return usual & own & self.random.choice([~bit(self.random.randrange(27)),
                                                     self.random.getrandbits(27)])
        return usual & own

    def lay_array(self, pairs):
        """The address of an iovec array."""
        data = b"".join(struct.pack("<II", *pair) for pair in pairs)
        if self.next_array + len(data) > ARRAYS[1]:
            return self.random.randrange(ARRAYS[0], self.next_array - len(data))
        self.next_array += len(data)
        self.lay(self.next_array - len(data), data)
        return self.next_array - len(data)

    def iovecs(self):
        """Address and count of an iovec array."""
        if self.is_plain:
            return self.lay_array([(self.random.randrange(50000, 60000),
                                    self.random.randrange(1, 200))]), 1
        if self.odd(12):
            return self.odd_iovecs()
        if self.odd(30):
            return self.lay_array([(BUFFERS[0], 24000)] * 3), 3
        most = self.random.choice([0, 1, 5, 20, 100, 1000, 5000])
        count = self.random.choice([0, 1, 1, 2, 2, 3, 6])
        pairs = [(self.random.randrange(*BUFFERS), self.random.randint(0, most))
                 for _ in range(count)]
        if pairs and self.odd(6):
            pairs[self.random.randrange(len(pairs))] = self.odd_pair()
        return self.lay_array(pairs), len(pairs)

    def odd_pair(self):
        """A buffer that is out of memory, at its end, long, or over something else."""
        length = self.random.choice([0, 1, 8, 40000, self.size, self.size + 1, 1 << 31, WORD])
        return self.random.choice([self.place(length), 0,
                                   self.next_array, self.next_array + 4]), length

    def odd_iovecs(self):
        count = self.random.choice([0, 1, IOVECS, IOVECS + 1, 1 << 29, (1 << 29) + 1, WORD])
        if count in (IOVECS, IOVECS + 1) and self.next_array == ARRAYS[0]:
            return self.lay_array([(BUFFERS[0] + place, place % 3)
                                   for place in range(count)]), count
        return self.random.choice([self.place(8 * count & WORD),
                                   ARRAYS[0], self.next_array - 8]), count

    def offset(self, fd):
        """A place in a file, most often near its end or a limit."""
        it = self.host.descriptors.get(fd)
        size = len(it.node.content) if it and it.node else 0
        if not self.odd(3):
            inside = max(0, size - self.random.randrange(10))
            return self.random.choice([0, 0, self.random.randrange(40), inside, size, size + 5])
        left = self.host.room - sum(len(node.content) for node in self.host.nodes.values())
        at = self.random.choice([FILE_SIZE] + 4 * [size + left] + [1 << 32, 1 << 63, 1 << 64])
        return min(max(0, at + self.random.choice([-100, -2, -1, 0, 1])), LONG)

    # The arguments of each call.

    def fd_close(self):
        kinds = [REGULAR_FILE, DIRECTORY, CHARACTER_DEVICE]
        number = self.descriptor(self.random.choices(kinds, [2, 2, 1])[0])
        return [4 if self.is_plain and number <= PREOPENED else number]

    def any_descriptor(self):
        return self.descriptor(self.random.choice([REGULAR_FILE, DIRECTORY]))

    def fd_datasync(self):
        return [self.any_descriptor()]

    fd_sync = fd_datasync

    def fd_fdstat_get(self):
        fd, ret = self.any_descriptor(), self.cell(24)
        return [fd, self.show(ret, 1)]

    def fd_fdstat_set_flags(self):
        flags = self.random.choice([0, 0, 1, 1, 4, 30, 31])
        flags = self.random.choice([32, 33, 1 << 16, WORD]) if self.odd(6) else flags
        return [self.descriptor(REGULAR_FILE), flags & 5 if self.is_plain else flags]

    def shown_stat(self, node, ret):
        """Notes the fields of a filestat that every host fills alike."""
        self.show(ret + 16, 1)
        if node and not node.is_directory:
            self.show(ret + 24, 16)
        return ret

    def fd_filestat_get(self):
        fd, ret = self.any_descriptor(), self.cell(64)
        it = self.host.descriptors.get(fd)
        return [fd, self.shown_stat(it and it.node, ret)]

    def fd_filestat_set_size(self):
        fd = self.descriptor(REGULAR_FILE)
        return [fd, self.offset(fd)]

    def shown_buffers(self, iovs, count, ret):
        """Notes the buffers and the count of a read. The count may be over the first buffer."""
        inside = min(count, 8, max(0, self.size - iovs) // 8)
        pairs = list(struct.iter_unpack("<II", self.host.memory[iovs : iovs + 8 * inside]))
        if self.is_plain:
            for pair in pairs:
                self.show(*pair)
        if pairs and self.odd(12):
            ret = pairs[0][0] + self.random.randrange(-3, 3) & WORD
        return [iovs, count], self.show(ret, 4)

    def fd_pread(self):
        fd = self.descriptor(REGULAR_FILE)
        buffers, ret = self.shown_buffers(*self.iovecs(), self.cell(4))
        return [fd, *buffers, self.offset(fd), ret]

    fd_pwrite = fd_pread

    def fd_prestat_get(self):
        fd = PREOPENED if self.is_plain or self.random.randrange(2) else self.any_descriptor()
        ret = self.cell(8)
        self.show(ret, 1)
        self.show(ret + 4, 4)
        return [fd, ret]

    def fd_prestat_dir_name(self):
        fd = PREOPENED if self.is_plain or self.random.randrange(2) else self.any_descriptor()
        at = self.show(self.cell(1), 1)
        return [fd, at, self.random.choice([0, 1, 2, 4097, WORD]) if self.odd(2) else 1]

    def fd_read(self):
        fd = 0 if self.has_requests and self.odd(4) else self.descriptor(REGULAR_FILE)
        buffers, ret = self.shown_buffers(*self.iovecs(), self.cell(4))
        return [fd, *buffers, ret]

    def fd_write(self):
        stream = self.random.choice([1, 2])
        buffers, ret = self.shown_buffers(*self.iovecs(), self.cell(4))
        return [stream if self.odd(4) else self.descriptor(REGULAR_FILE), *buffers, ret]

    def fd_readdir(self):
        fd, buffer, length, cookie = self.descriptor(DIRECTORY), BUFFERS[0], 1500, 0
        if not self.is_plain:
            buffer = self.random.randrange(*BUFFERS)
            length = self.random.choice([0, 1, 23, 24, 25, 30, 60, 300,
                                         self.size - buffer, self.random.randrange(200)])
            if self.odd(12):
                buffer = self.place(length)
            else:
                length = min(length, self.size - buffer)
            cookie = self.random.choice([0, 0, 0, 1, 2, 3, 5, 1023, 1 << 32, 1 << 63, LONG])
        ret = buffer + self.random.randrange(-3, 30) & WORD if self.odd(12) else self.cell(4)
        return [fd, self.show(buffer, length), length, cookie, self.show(ret, 4)]

    def fd_seek(self):
        fd, whence = self.descriptor(REGULAR_FILE), self.random.randrange(3)
        it = self.host.descriptors.get(fd)
        delta = self.random.choice([0, 1, 3, 10, -1, -2, -10, 1000])
        now = [0, it.offset, len(it.node.content)][whence] if it and it.node else 0
        if self.odd(4):
            near = self.random.choice([-1, 0, 1])
            delta = self.random.choice([near - now, (1 << 63) - 1 + near - now,
                                        (1 << 63) - 1, -(1 << 63), 1 << 40])
        whence = self.random.choice([3, 4, 256, 258, WORD]) if self.odd(12) else whence
        return [fd, delta & LONG, whence, self.show(self.cell(8), 8)]

    def fd_tell(self):
        return [self.descriptor(REGULAR_FILE), self.show(self.cell(8), 8)]

    def path_create_directory(self):
        fd = self.descriptor(DIRECTORY)
        return [fd, *self.path(fd, DIRECTORY, True)]

    def path_filestat_get(self):
        fd = self.descriptor(DIRECTORY)
        flags = self.random.choice([2, 3, WORD]) if self.odd(10) else self.random.randrange(2)
        at, length = self.path(fd, self.random.choice([REGULAR_FILE, DIRECTORY]))
        ret = self.cell(64)
        if self.is_plain:
            start = self.host.descriptors[fd].node
            text = bytes(self.host.memory[at : at + length])
            self.shown_stat(dict(self.known(start)).get(text), ret)
        return [fd, flags, at, length, ret]

    def path_open(self):
        fd = self.descriptor(DIRECTORY)
        kind = self.random.choice([REGULAR_FILE, REGULAR_FILE, DIRECTORY])
        oflags = self.random.choice([0, 0, 0, 1, 1, 1, 5, 9, 8, 4, 13])
        if kind == DIRECTORY:
            oflags = self.random.choice([0, 2, 2])
        if self.odd(8):
            oflags = self.random.choice([*range(16), 16, 17, 24, 1 << 16, WORD])
        dirflags = self.random.choice([2, 3, 1 << 31]) if self.odd(20) else self.random.randrange(2)
        fdflags = self.random.choice([0, 0, 0, 1, 4])
        fdflags = self.random.choice([2, 8, 31, 32, 33, 1 << 16, WORD]) if self.odd(12) else fdflags
        base = self.rights(fd, kind)
        inheriting = 0
        if kind == DIRECTORY or self.odd(8):
            inheriting = self.rights(fd, DIRECTORY) | self.rights(fd, REGULAR_FILE)
        path = self.path(fd, DIRECTORY if self.odd(12) else kind, bool(oflags & CREATE))
        return [fd, dirflags, *path, oflags, base, inheriting, fdflags, self.show(self.cell(4), 4)]

    def path_remove_directory(self):
        fd = self.descriptor(DIRECTORY)
        return [fd, *self.path(fd, DIRECTORY, is_open=self.odd(3))]

    def path_unlink_file(self):
        fd = self.descriptor(DIRECTORY)
        return [fd, *self.path(fd, REGULAR_FILE, is_open=self.odd(3))]

    def path_rename(self):
        kind = self.random.choice([REGULAR_FILE, DIRECTORY])
        both = [self.descriptor(DIRECTORY), self.descriptor(DIRECTORY)]
        if self.random.randrange(2):
            both[1] = both[0]
        source, is_new = self.path(both[0], kind), self.random.randrange(2) == 0
        target = self.path(both[1],
                           REGULAR_FILE + DIRECTORY - kind if self.odd(4) else kind, is_new)
        if self.odd(6):
            text = bytes(self.host.memory[source[0] : sum(source)])[:600]
            target = self.lay_text(text + self.random.choice([b"", b"/", b"/a", b"/b/c"]))
        return [both[0], *source, both[1], *target]

    def sched_yield(self):
        return []

    def args_sizes_get(self):
        return [self.cell(4), self.cell(4)]

    environ_sizes_get = args_sizes_get

    def args_get(self):
        buffer = self.random.randrange(*BUFFERS)
        return [self.cell(256), self.place(9) if self.odd(12) else buffer]

    environ_get = args_get

    def clock(self):
        """The number of a clock."""
        return (self.random.choice([2, 3, 256, 1 << 31, WORD])
                if self.odd(6) else self.random.randrange(2))

    def clock_res_get(self):
        return [self.clock(), self.cell(8)]

    def clock_time_get(self):
        return [self.clock(), self.random.choice([0, 1, LONG]), self.cell(8)]

    def random_get(self):
        length = self.random.choice([0, 1, 3, 4, 5, 60, 64, 65, 256, 1000, 4096])
        if self.odd(8):
            length = self.random.choice([4097, 4100, 1 << 16, 1 << 31, WORD])
        buffer = self.random.randrange(*BUFFERS)
        return [self.place(length) if self.odd(12) else buffer, length]
