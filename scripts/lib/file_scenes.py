"""Worked rows of the calls on files, for `file-rows`: what a guest asks, and what it is answered.

`outside_scenes.py` has those of the other calls.

Each number here was worked out by hand from the numbers and layouts of WASI preview 1 and from the
rules of this project's profile. None was taken from an output of the program or of the model.
"""
import struct
from dataclasses import dataclass, field

from model.host_model import Outside

BADF, EXIST, FAULT, FBIG, ILSEQ, INVAL, ISDIR, MFILE = 8, 20, 21, 22, 25, 28, 31, 33
NAMETOOLONG, NOENT, NOSPC, NOTDIR, NOTEMPTY, SPIPE, NOTCAPABLE = 37, 44, 51, 54, 55, 70, 76

# The rights of a file, of a directory, and of both together; and single ones.
FILE, FOLDER, ALL = 0x0060007F, 0x062F6611, 0x066F667F
READ, WRITE, PATH_OPEN, READDIR = 1 << 1, 1 << 6, 1 << 13, 1 << 14

STREAM, DIRECTORY, REGULAR = 2, 3, 4
CREATE, ONLY_DIRECTORY, EXCLUSIVE, TRUNCATE = 1, 2, 4, 8
APPEND = 1
SET, CURRENT, END = 0, 1, 2

# Of a file, and of all files where nothing else is configured: 16 units of 65,536 bytes.
MEBIBYTE = 1_048_576


@dataclass
class Cell:
    """Room for so many bytes of a result. Its address is the argument."""

    length: int


@dataclass
class At:
    """Room for so many bytes of a result at an address, which is the argument."""

    address: int
    length: int


@dataclass
class Room:
    """Room for so many bytes. Address and length are arguments."""

    length: int


@dataclass
class Into:
    """Iovecs with room for bytes that are read. Address and count are arguments."""

    lengths: list


@dataclass
class From:
    """Iovecs of bytes that are written. Address and count are arguments."""

    texts: list


@dataclass
class TextAndRange:
    """Iovecs of a text, and of any range of memory. Address and count are arguments."""

    text: bytes
    address: int
    length: int


@dataclass
class Row:
    """A call, the error number that it answers, and the results that it puts.

    Bytes as an argument are a path: address and length. `gives` has one text for each cell, room
    and iovec. What is shorter than those leaves their rest as it was, and a refused call leaves
    all. `says` has the lines that the call itself ends, each with its stream.
    """

    call: str
    arguments: list
    error: int = 0
    gives: list = field(default_factory=list)
    says: list = field(default_factory=list)


@dataclass
class Scene:
    """Rows in one process. The results are printed on the stream `reporter`.

    `requests` are the texts of request lines, and `left` the lines that the end of the process
    emits. Where nothing is given from outside, the clocks are the machine's.
    """

    name: str
    rows: list
    reporter: int = 1
    requests: list = field(default_factory=list)
    left: list = field(default_factory=list)
    outside: Outside | None = None


def u32(value):
    """A result of four bytes."""
    return struct.pack("<I", value)


def u64(value):
    """A result of eight bytes."""
    return struct.pack("<Q", value)


def status(node, kind, links, size):
    """The 64 bytes of a filestat: device, node, kind, links, size and three times."""
    return u64(0) + u64(node) + bytes([kind]) + bytes(7) + u64(links) + u64(size) + bytes(24)


def descriptor_status(kind, flags, base, inheriting):
    """The 24 bytes of an fdstat."""
    return bytes([kind, 0, flags, 0]) + bytes(4) + u64(base) + u64(inheriting)


def entry(following, node, kind, name):
    """A directory entry: 24 bytes and the name."""
    return u64(following) + u64(node) + u32(len(name)) + bytes([kind, 0, 0, 0]) + name


# One row of each kind that comes often.


def opens(path, number=None, *, flags=0, base=FILE, inheriting=0, fdflags=0, fd=3, error=0):
    """Opens a path as the descriptor of a number."""
    gives = [] if error else [u32(number)]
    return Row("path_open", [fd, 0, path, flags, base, inheriting, fdflags, Cell(4)], error, gives)


def opens_directory(path, number=None, **given):
    """Opens a directory with all rights of one, which may hand on all."""
    usual = {"base": FOLDER, "inheriting": ALL, "flags": ONLY_DIRECTORY}
    return opens(path, number, **{**usual, **given})


def closes(fd, error=0):
    """Closes a descriptor."""
    return Row("fd_close", [fd], error)


def makes(path, error=0, fd=3):
    """Makes a directory."""
    return Row("path_create_directory", [fd, path], error)


def removes(path, error=0, fd=3):
    """Removes a directory."""
    return Row("path_remove_directory", [fd, path], error)


def unlinks(path, error=0, fd=3):
    """Removes a file."""
    return Row("path_unlink_file", [fd, path], error)


def renames(path, target, error=0):
    """Gives a node another path."""
    return Row("path_rename", [3, path, 3, target], error)


def finds(path, node, kind, links=1, size=0, fd=3):
    """Asks for the status of a path."""
    return Row("path_filestat_get", [fd, 0, path, Cell(64)], 0, [status(node, kind, links, size)])


def misses(path, error=NOENT, fd=3):
    """Asks for the status of a path that leads nowhere."""
    return Row("path_filestat_get", [fd, 0, path, Cell(64)], error)


def is_status(fd, node, kind, links, size):
    """Asks for the status of a descriptor's node."""
    return Row("fd_filestat_get", [fd, Cell(64)], 0, [status(node, kind, links, size)])


def resizes(fd, size, error=0):
    """Sets the size of a file."""
    return Row("fd_filestat_set_size", [fd, size], error)


def writes(fd, *texts, error=0, says=()):
    """Writes at the offset of a descriptor, or on a stream."""
    gives = [] if error else [u32(len(b"".join(texts)))]
    return Row("fd_write", [fd, From(list(texts)), Cell(4)], error, gives, list(says))


def writes_at(fd, offset, text, error=0):
    """Writes at a given offset."""
    gives = [] if error else [u32(len(text))]
    return Row("fd_pwrite", [fd, From([text]), offset, Cell(4)], error, gives)


def reads(fd, length, text, error=0):
    """Reads at the offset of a descriptor, or requests."""
    gives = [] if error else [text, u32(len(text))]
    return Row("fd_read", [fd, Into([length]), Cell(4)], error, gives)


def reads_at(fd, offset, length, text, error=0):
    """Reads at a given offset."""
    gives = [] if error else [text, u32(len(text))]
    return Row("fd_pread", [fd, Into([length]), offset, Cell(4)], error, gives)


def seeks(fd, delta, whence, offset=None, error=0):
    """Moves the offset of a descriptor."""
    gives = [] if error else [u64(offset)]
    return Row("fd_seek", [fd, delta % (1 << 64), whence, Cell(8)], error, gives)


def tells(fd, offset):
    """Asks for the offset of a descriptor."""
    return Row("fd_tell", [fd, Cell(8)], 0, [u64(offset)])


def lists(fd, length, cookie, data):
    """Lists a directory."""
    return Row("fd_readdir", [fd, Room(length), cookie, Cell(4)], 0, [data, u32(len(data))])


# The scenes.

RENAMED = Scene("a renamed file keeps its node, and no number comes twice", [
    opens(b"a", 4, flags=CREATE),
    is_status(4, 2, REGULAR, 1, 0),
    closes(4),
    makes(b"d"),
    finds(b"d", 3, DIRECTORY),
    renames(b"a", b"d/a"),
    finds(b"d/a", 2, REGULAR),
    misses(b"a"),
    removes(b"d", NOTEMPTY),
    unlinks(b"d/a"),
    removes(b"d"),
    misses(b"d"),
    opens(b"a", 4, flags=CREATE),
    finds(b"a", 4, REGULAR),
])

REMOVED = Scene("a removed file counts among all files until its last descriptor closes", [
    opens(b"a", 4, flags=CREATE),
    resizes(4, MEBIBYTE),
    opens(b"a", 5),
    unlinks(b"a"),
    is_status(4, 2, REGULAR, 0, MEBIBYTE),
    misses(b"a"),
    opens(b"b", 6, flags=CREATE),
    writes(6, b"x", error=NOSPC),
    closes(4),
    writes(6, b"x", error=NOSPC),
    resizes(6, 1, NOSPC),
    reads_at(5, MEBIBYTE - 1, 2, b"\0"),
    is_status(5, 2, REGULAR, 0, MEBIBYTE),
    finds(b"b", 3, REGULAR),
    closes(5),
    writes(6, b"x"),
    finds(b"b", 3, REGULAR, 1, 1),
    resizes(6, MEBIBYTE),
])

UNLINKED = Scene("a removed file is read through its descriptor", [
    opens(b"a", 4, flags=CREATE),
    writes(4, b"bytes"),
    seeks(4, 0, SET, 0),
    unlinks(b"a"),
    reads(4, 9, b"bytes"),
    is_status(4, 2, REGULAR, 0, 5),
    opens(b"a", error=NOENT),
    opens(b"a", 5, flags=CREATE),
    is_status(5, 3, REGULAR, 1, 0),
])


def filled():
    """Sixteen files that take all room: 15 of a unit and a byte, one of a unit less 15 bytes."""
    for number in range(16):
        yield opens(b"file %d" % number, 4 + number, flags=CREATE)
        yield resizes(4 + number, 65_521 if number == 15 else 65_537)


FULL = Scene("all files together have 16 units, to the byte", [
    *filled(),
    is_status(19, 17, REGULAR, 1, 65_521),
    seeks(19, 0, END, 65_521),
    writes(19, b"x", error=NOSPC),
    writes_at(4, 65_537, b"x", NOSPC),
    resizes(10, 65_538, NOSPC),
    opens(b"empty", 20, flags=CREATE),
    writes(20, b"x", error=NOSPC),
    writes(20, b""),
    is_status(19, 17, REGULAR, 1, 65_521),
    is_status(10, 8, REGULAR, 1, 65_537),
    writes_at(4, 65_536, b"x"),
    resizes(4, 65_536),
    writes(20, b"x"),
    writes(20, b"y", error=NOSPC),
    is_status(20, 18, REGULAR, 1, 1),
    tells(20, 1),
])

RESIZED = Scene("what a file grows by is zero", [
    opens(b"a", 4, flags=CREATE),
    writes(4, b"a" * 5_000),
    resizes(4, 4_100),
    resizes(4, 5_000),
    reads_at(4, 4_090, 2_000, b"a" * 10 + bytes(900)),
    is_status(4, 2, REGULAR, 1, 5_000),
    reads_at(4, 5_000, 9, b""),
    writes_at(4, 9_000, b"end"),
    reads_at(4, 8_190, 900, bytes(810) + b"end"),
    is_status(4, 2, REGULAR, 1, 9_003),
    tells(4, 5_000),
    opens(b"a", 5, flags=TRUNCATE),
    is_status(4, 2, REGULAR, 1, 0),
    seeks(5, 3, SET, 3),
    writes(5, b"b"),
    reads_at(4, 0, 9, b"\0\0\0b"),
])

EACH = Scene("each call", [
    Row("fd_prestat_get", [3, Cell(8)], 0, [u32(0) + u32(1)]),
    Row("fd_prestat_dir_name", [3, Room(1)], 0, [b"/"]),
    Row("fd_fdstat_get", [0, Cell(24)], 0, [descriptor_status(STREAM, 0, 0x0020_0002, 0)]),
    Row("fd_fdstat_get", [2, Cell(24)], 0, [descriptor_status(STREAM, 0, 0x0020_0040, 0)]),
    Row("fd_fdstat_get", [3, Cell(24)], 0, [descriptor_status(DIRECTORY, 0, FOLDER, ALL)]),
    makes(b"d"),
    opens(b"d/f", 4, flags=CREATE),
    writes(4, b"hello ", b"world"),
    tells(4, 11),
    seeks(4, -5, CURRENT, 6),
    Row("fd_read", [4, Into([3, 8]), Cell(4)], 0, [b"wor", b"ld", u32(5)]),
    reads_at(4, 0, 4, b"hell"),
    writes_at(4, 0, b"J"),
    tells(4, 11),
    reads_at(4, 0, 20, b"Jello world"),
    is_status(4, 3, REGULAR, 1, 11),
    resizes(4, 5),
    is_status(4, 3, REGULAR, 1, 5),
    Row("fd_fdstat_set_flags", [4, APPEND]),
    Row("fd_fdstat_get", [4, Cell(24)], 0, [descriptor_status(REGULAR, APPEND, FILE, 0)]),
    writes(4, b"!"),
    tells(4, 6),
    Row("fd_datasync", [4]),
    Row("fd_sync", [4]),
    renames(b"d/f", b"g"),
    lists(3, 100, 0, entry(1, 2, DIRECTORY, b"d") + entry(2, 3, REGULAR, b"g")),
    finds(b"g", 3, REGULAR, 1, 6),
    closes(4),
    closes(4, BADF),
    unlinks(b"g"),
    removes(b"d"),
    lists(3, 100, 0, b""),
    Row("sched_yield", []),
    is_status(2, 0, STREAM, 1, 0),
    writes(2, b"one", b" line\n", b"half", says=[(2, b"one line")]),
    Row("fd_read", [0, Into([3, 9]), Cell(4)], 0, [b"hel", b"lo\n", u32(6)]),
    reads(0, 2, b"on"),
    reads(0, 9, b"e\n"),
    reads(0, 9, b""),
    closes(3, NOTCAPABLE),
], requests=[b"hello", b"one", None], left=[(2, b"half")])

LINES = Scene("no byte of a refused write comes to a line", [
    Row("fd_write", [1, TextAndRange(b"lost\n", 65_536, 1), Cell(4)], FAULT),
    Row("fd_write", [1, TextAndRange(b"hi\n", 65_536, 0), Cell(4)], 0, [u32(3)], [(1, b"hi")]),
    Row("fd_write", [1, TextAndRange(b"hi\n", 65_535, 2), Cell(4)], FAULT),
    writes(1, b"", b"\n", says=[(1, b"")]),
    writes(1, b"a" * 4_097 + b"\n", says=[(1, b"a" * 4_096), (1, b"a")]),
    writes(1, b"b" * 4_096 + b"\n", says=[(1, b"b" * 4_096)]),
    writes(1, b"no end"),
    closes(1),
    writes(1, b"lost", error=BADF),
], reporter=2, left=[(1, b"no end")])

PATHS = Scene("paths that lead nowhere, and paths of other spellings", [
    opens(b"a", 4, flags=CREATE),
    opens(b"a", flags=CREATE | EXCLUSIVE, error=EXIST),
    opens(b"..", error=NOTCAPABLE),
    opens(b"a/../b", error=NOTDIR),
    opens(b"", error=NOENT),
    opens(b"/a", error=NOTCAPABLE),
    opens(b"a\0", error=INVAL),
    opens(b"\xff", error=ILSEQ),
    opens(b"n" * 256, error=NAMETOOLONG),
    opens(b"./" * 2_048 + b"a", error=NAMETOOLONG),
    opens(b"a/x", error=NOTDIR),
    opens(b"b/x", error=NOENT),
    opens(b"b/x", flags=CREATE, error=NOENT),
    opens(b"a", flags=ONLY_DIRECTORY, error=NOTDIR),
    opens(b".", error=ISDIR),
    opens(b"a", flags=16, error=INVAL),
    finds(b"a/", 2, REGULAR),
    finds(b".//a/./", 2, REGULAR),
    makes(b"d/"),
    makes(b"d", EXIST),
    makes(b".", INVAL),
    makes(b"d//e/"),
    finds(b"d/e", 4, DIRECTORY),
    finds(b"d/e/../../a", 2, REGULAR),
    finds(b"d/..", 1, DIRECTORY),
    misses(b"d/../..", NOTCAPABLE),
    misses(b"d/../../a", NOTCAPABLE),
    opens_directory(b"d", 5),
    finds(b"e", 4, DIRECTORY, fd=5),
    finds(b".", 3, DIRECTORY, fd=5),
    misses(b"..", NOTCAPABLE, fd=5),
    misses(b"e/../../a", NOTCAPABLE, fd=5),
    misses(b"a", NOTDIR, fd=4),
    misses(b"a", NOTDIR, fd=0),
    misses(b"a", BADF, fd=6),
    unlinks(b"d", ISDIR),
    removes(b"a", NOTDIR),
    removes(b"d/..", INVAL),
])

ORDERED = Scene("a directory is listed by name, from its cookie on", [
    opens(b"a", 4, flags=CREATE),
    opens(b"b", 5, flags=CREATE),
    lists(3, 30, 0, entry(1, 2, REGULAR, b"a") + bytes([2, 0, 0, 0, 0])),
    lists(3, 30, 1, entry(2, 3, REGULAR, b"b")),
    lists(3, 30, 2, b""),
    lists(3, 30, 1 << 63, b""),
    lists(3, 0, 0, b""),
    lists(3, 24, 1, entry(2, 3, REGULAR, b"")[:16] + u32(1) + bytes([REGULAR, 0, 0, 0])),
    makes(b"B"),
    makes("é".encode()),
    lists(3, 200, 0, entry(1, 4, DIRECTORY, b"B") + entry(2, 2, REGULAR, b"a")
          + entry(3, 3, REGULAR, b"b") + entry(4, 5, DIRECTORY, b"\xc3\xa9")),
    lists(3, 200, 3, entry(4, 5, DIRECTORY, b"\xc3\xa9")),
    unlinks(b"a"),
    lists(3, 200, 1, entry(2, 3, REGULAR, b"b") + entry(3, 5, DIRECTORY, b"\xc3\xa9")),
    Row("fd_readdir", [4, Room(9), 0, Cell(4)], NOTDIR),
])

OFFSETS = Scene("offsets and the size of one file have their bounds", [
    opens(b"a", 4, flags=CREATE),
    seeks(4, -1, SET, error=INVAL),
    seeks(4, 0, 3, error=INVAL),
    seeks(4, (1 << 63) - 1, SET, (1 << 63) - 1),
    seeks(4, 1, CURRENT, error=INVAL),
    writes(4, b"x", error=FBIG),
    reads(4, 9, b""),
    seeks(4, 0, SET, 0),
    writes_at(4, MEBIBYTE, b"x", FBIG),
    resizes(4, MEBIBYTE + 1, FBIG),
    is_status(4, 2, REGULAR, 1, 0),
    writes_at(4, MEBIBYTE - 1, b"x"),
    is_status(4, 2, REGULAR, 1, MEBIBYTE),
    tells(4, 0),
    seeks(4, -1, END, MEBIBYTE - 1),
    reads(4, 9, b"x"),
    writes(4, b"y", error=FBIG),
    resizes(4, 0),
    opens(b"b", 5, flags=CREATE),
    writes(5, b"z"),
    writes_at(4, MEBIBYTE - 1, b"x", NOSPC),
    writes_at(4, MEBIBYTE - 2, b"x"),
    seeks(1, 0, SET, error=SPIPE),
    seeks(3, 0, SET, error=ISDIR),
    reads(3, 9, b"", ISDIR),
    Row("fd_write", [3, From([b"x"]), Cell(4)], ISDIR),
])

WIDE = Scene("one call moves 65,536 bytes at most, from 1,024 iovecs at most", [
    opens(b"a", 4, flags=CREATE),
    Row("fd_write", [4, TextAndRange(b"x", 0, 65_536), Cell(4)], 0, [u32(65_536)]),
    tells(4, 65_536),
    reads_at(4, 0, 1, b"x"),
    writes(4, *[b"y"] * 1_024),
    writes(4, *[b"y"] * 1_025, error=INVAL),
    is_status(4, 2, REGULAR, 1, 66_560),
    reads_at(4, 66_558, 9, b"yy"),
])

RIGHTS = Scene("a descriptor does what its rights allow, and hands on no others", [
    opens(b"a", 4, flags=CREATE, base=READ),
    Row("fd_fdstat_get", [4, Cell(24)], 0, [descriptor_status(REGULAR, 0, READ, 0)]),
    reads(4, 9, b""),
    reads_at(4, 0, 9, b"", NOTCAPABLE),
    writes(4, b"x", error=NOTCAPABLE),
    writes_at(4, 0, b"x", NOTCAPABLE),
    seeks(4, 0, SET, error=NOTCAPABLE),
    Row("fd_tell", [4, Cell(8)], NOTCAPABLE),
    Row("fd_sync", [4], NOTCAPABLE),
    Row("fd_datasync", [4], NOTCAPABLE),
    Row("fd_fdstat_set_flags", [4, APPEND], NOTCAPABLE),
    Row("fd_filestat_get", [4, Cell(64)], NOTCAPABLE),
    resizes(4, 1, NOTCAPABLE),
    opens(b"a", base=1 << 28, error=NOTCAPABLE),
    opens(b"a", 5, base=ALL, inheriting=ALL),
    Row("fd_fdstat_get", [5, Cell(24)], 0, [descriptor_status(REGULAR, 0, FILE, 0)]),
    makes(b"d"),
    opens_directory(b"d", 6, base=PATH_OPEN | READDIR, inheriting=READ),
    opens(b"f", fd=6, base=READ | WRITE, error=NOTCAPABLE),
    opens(b"f", fd=6, base=READ, flags=CREATE, error=NOTCAPABLE),
    opens(b"f", fd=6, base=READ, error=NOENT),
    lists(6, 30, 0, b""),
    makes(b"e", NOTCAPABLE, fd=6),
    removes(b"e", NOTCAPABLE, fd=6),
    unlinks(b"e", NOTCAPABLE, fd=6),
    misses(b".", NOTCAPABLE, fd=6),
    Row("path_rename", [6, b"e", 3, b"g"], NOTCAPABLE),
    Row("path_rename", [3, b"a", 6, b"g"], NOTCAPABLE),
    opens_directory(b"d", 7, base=READDIR),
    opens(b"f", fd=7, base=0, error=NOTCAPABLE),
    Row("fd_fdstat_set_flags", [3, 0], NOTCAPABLE),
    Row("fd_sync", [3]),
    Row("fd_sync", [1], NOTCAPABLE),
    reads(1, 9, b"", NOTCAPABLE),
    Row("fd_write", [0, From([b"x"]), Cell(4)], NOTCAPABLE),
])

APPENDED = Scene("a descriptor that appends writes behind the end", [
    opens(b"a", 4, flags=CREATE, fdflags=APPEND),
    opens(b"a", 5),
    writes(4, b"ab"),
    seeks(4, 0, SET, 0),
    writes(5, b"X"),
    writes(4, b"c"),
    tells(4, 3),
    reads_at(5, 0, 9, b"Xbc"),
    writes_at(4, 1, b"Y"),
    reads_at(5, 0, 9, b"XYc"),
    Row("fd_fdstat_set_flags", [4, 0]),
    seeks(4, 0, SET, 0),
    writes(4, b"Z"),
    reads_at(5, 0, 9, b"ZYc"),
    Row("fd_fdstat_set_flags", [4, 32], INVAL),
    tells(5, 1),
])

MOVED = Scene("what may be renamed to what", [
    makes(b"d"),
    makes(b"d/e"),
    renames(b"d", b"d/e/x", INVAL),
    renames(b"d", b"d/x", INVAL),
    renames(b"d", b"d"),
    renames(b"d", b"d/", 0),
    renames(b"d/.", b"d/e/..", INVAL),
    renames(b"x", b"y", NOENT),
    opens(b"a", 4, flags=CREATE),
    opens(b"b", 5, flags=CREATE),
    writes(4, b"text"),
    renames(b"a", b"d", ISDIR),
    renames(b"d", b"a", NOTDIR),
    makes(b"f"),
    renames(b"f", b"d", NOTEMPTY),
    renames(b"d", b"f"),
    finds(b"f/e", 3, DIRECTORY),
    misses(b"d"),
    renames(b"a", b"b"),
    finds(b"b", 4, REGULAR, 1, 4),
    is_status(5, 5, REGULAR, 0, 0),
    renames(b"b", b"b"),
    opens_directory(b"f/e", 6),
    Row("path_rename", [3, b"b", 6, b"c"]),
    finds(b"f/e/c", 4, REGULAR, 1, 4),
    renames(b"f/e", b"e"),
    finds(b"c", 4, REGULAR, 1, 4, fd=6),
    Row("path_rename", [6, b"c", 3, b"c"]),
    removes(b"e"),
    is_status(6, 3, DIRECTORY, 0, 0),
    makes(b"x", NOENT, fd=6),
    opens(b"x", fd=6, flags=CREATE, error=NOENT),
    Row("path_rename", [3, b"c", 6, b"x"], NOENT),
])

LOWEST = Scene("a new descriptor is the lowest free number up to 63", [
    *[opens(b".", number, base=READDIR) for number in range(4, 64)],
    opens(b".", base=READDIR, error=MFILE),
    opens(b"a", flags=CREATE, error=MFILE),
    misses(b"a"),
    closes(1),
    opens(b".", base=READDIR, error=MFILE),
    closes(9),
    closes(5),
    opens(b"a", 5, flags=CREATE),
    opens(b"a", 9),
    opens(b"a", error=MFILE),
    writes(9, b"x"),
    is_status(5, 2, REGULAR, 1, 1),
], reporter=2)

SCENES = [
    RENAMED, REMOVED, UNLINKED, FULL, RESIZED, EACH, LINES, PATHS, ORDERED, OFFSETS, WIDE, RIGHTS,
    APPENDED, MOVED, LOWEST]
