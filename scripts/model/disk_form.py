"""The bytes of a worker's disk, written from docs/FORMATS.md and from no code."""
import hashlib
import os
import re
import struct

SECTOR = 512

# The least area, and what it has more for each page of memory and each unit of files.
AREA, AREA_PER_UNIT = 2_048, 128

# The defaults of `create`.
PAGES, FILES, JOURNAL = 16, 16, 256

# Bytes of records in a sector of the journal, and where its stamp is.
PAYLOAD, STAMP = 494, 496

# A page of memory, and phases of a process.
PAGE = 65_536
RUNNING, EXITED, TRAPPED = 1, 2, 3

# Kinds of records.
REQUEST, END, REALTIME, MONOTONIC, RANDOM = range(1, 6)

# Versions of a process, the sectors of a journal that takes the longest record of version 2, and
# the length of a record's payload in each.
ONE, TWO = 1, 2
LEAST_JOURNAL_OF_TWO = 133
LENGTHS = {ONE: "H", TWO: "I"}

# Where the repository begins, and a row of a hex dump: a place, and the bytes there.
ROOT = os.path.join(os.path.dirname(os.path.abspath(__file__)), "..", "..")
ROW = re.compile(r"^ {6,}([0-9a-f]+) {2}(.+)$", re.MULTILINE)

# Where fields of the super and of a head are.
LAYOUT, MODULE_SECTORS, AREA_SECTORS, JOURNAL_SECTORS, DIGEST, LAST_MARK = 8, 20, 24, 28, 32, 504
HEAD_VERSION, IMAGE_LENGTH, IMAGE_DIGEST = 8, 16, 24

# What disagrees on a damaged disk: the second lines of Y4, in the order in which they are judged.
_SUPER = "super, sector 0:"
OTHER_SECTORS = f"{_SUPER} m, the sectors of configuration and module, isn't c + w rounded up\n"
OTHER_DIGEST = f"{_SUPER} the SHA-256 isn't that of configuration and module\n"
NO_CONFIGURATION = "configuration, from sector 3 on: the first c bytes are no configuration\n"
OTHER_AREA = f"{_SUPER} a, the sectors of an area, isn't as the configuration says\n"
OTHER_JOURNAL = f"{_SUPER} j, the sectors of the journal, isn't as the configuration says\n"
SHORT_JOURNAL = f"{_SUPER} j is below 133, and the version in the newest head is 2\n"
LATER = "journal, first sector: the generation is above that of the newest head\n"


def other_mark(area):
    """The same of the image in an area."""
    return f"area {area}: the image has the mark of another version than its head\n"


def sectors(length):
    """So many bytes in sectors, rounded up."""
    return (length + SECTOR - 1) // SECTOR


def padded(data, count=1):
    """Bytes with zeros after them, so many sectors in all."""
    return data + bytes(count * SECTOR - len(data))


def texts(items):
    """A count, and each text after its length."""
    return struct.pack("<I", len(items)) + b"".join(
        struct.pack("<H", len(it)) + it for it in items)


class Form:
    """The disk of a worker of some module and configuration."""

    def __init__(self, module, pages=PAGES, files=FILES, journal=JOURNAL,
                 arguments=(), environment=()):
        numbers = struct.pack("<III", pages, files, journal)
        self.module, self.journal_sectors = module, journal
        self.configuration = numbers + texts([b"worker", *arguments]) + texts(environment)
        self.contents = self.configuration + module
        self.content_sectors = sectors(len(self.contents))
        self.area_sectors = AREA + AREA_PER_UNIT * (pages + files)
        first = 3 + self.content_sectors
        self.areas = [first, first + self.area_sectors]
        self.journal = first + 2 * self.area_sectors
        self.total = self.journal + journal

    def super(self):
        """The first sector."""
        counts = (1, len(self.configuration), len(self.module), self.content_sectors,
                  self.area_sectors, self.journal_sectors)
        fields = b"DWORKER!" + struct.pack("<6I", *counts)
        fields += hashlib.sha256(self.contents).digest()
        return fields + bytes(LAST_MARK - len(fields)) + b"!REKROWD"

    def commit(self, disk, generation, image):
        """Writes an image and its head, of one version, into the bytes of a disk."""
        area = generation % 2
        put(disk, self.areas[area], padded(image, sectors(len(image))))
        version = TWO if image.startswith(b"DWIMAGE2") else ONE
        put(disk, 1 + area, head(generation, image, version))

    def keep(self, disk, generation, place, records):
        """Writes the bytes of records into a sector of the journal."""
        put(disk, self.journal + place - 1, journal_sector(generation, place, records))

    def created(self, image):
        """All bytes of the disk of a worker that was just created, with its first image."""
        disk = bytearray(self.total * SECTOR)
        put(disk, 0, self.super())
        put(disk, 3, padded(self.contents, self.content_sectors))
        self.commit(disk, 1, image)
        return disk


def put(disk, sector, data):
    """Writes bytes to sectors from one on."""
    disk[sector * SECTOR : sector * SECTOR + len(data)] = data


def head(generation, image, version=ONE):
    """The head of an image."""
    fields = b"DWAREA.." + struct.pack("<IxxxxQ", version, len(image))
    fields += hashlib.sha256(image).digest()
    return fields + bytes(STAMP - len(fields)) + struct.pack("<QQ", generation, 1)


def record(step, kind, payload=b"", version=ONE):
    """The record of an answer that a step has taken."""
    return struct.pack(f"<BQ{LENGTHS[version]}", kind, step, len(payload)) + payload


def journal_sector(generation, place, records):
    """A sector of the journal."""
    assert 1 <= len(records) <= PAYLOAD
    used = struct.pack("<H", len(records)) + records
    return used + bytes(STAMP - len(used)) + struct.pack("<QQ", generation, place)


def stream(number, rights):
    """A descriptor of a stream in an image."""
    return struct.pack("<IBQQHQQ", number, number, 0, 0, 0, rights, 0)


def image(counts, state, frames, memory, version=ONE):
    """The image of a process without globals, files and unfinished lines, which has read all of
    its requests. Its counts are steps, answers, requests, lines and the last monotonic time. Its
    state is a phase, the code of its end, and whether the requests are at their end."""
    data = b"DWIMAGE%d" % version + struct.pack("<5QBIB", *counts, *state)
    data += struct.pack("<5I", 0, 0, 0, 0, len(frames))
    for function, position, slots in frames:
        data += struct.pack(f"<3I{len(slots)}Q", function, position, len(slots), *slots)
    data += struct.pack("<I", len(memory) // PAGE) + memory
    # The next node has number 2, and the root has no entries.
    data += struct.pack("<QIQBI", 2, 1, 1, 3, 0)
    rights = [0x00200002, 0x00200040, 0x00200040]
    data += struct.pack("<I", 4) + b"".join(stream(*it) for it in enumerate(rights))
    return data + struct.pack("<IBQQHQQ", 3, 3, 1, 0, 0, 0x062F6611, 0x066F667F)


def fresh_image():
    """The image of a process that has just begun, of a module whose `_start` is its function 0 and
    whose memory has a page of zeros."""
    return image((0,) * 5, (RUNNING, 0, 0), [(0, 0, ())], bytes(PAGE))


def trapped_image(steps, number):
    """The image of such a process that has trapped."""
    return image((steps, 0, 0, 0, 0), (TRAPPED, number, 0), [], bytes(PAGE))


def echo_memory(texts_taken, text_read=None):
    """The memory of `echo` after texts that it has written back, and one that it has just read."""
    # The iovec of the reads, that of the writes, and the two counts that the calls put.
    memory = bytearray(PAGE)
    memory[:12] = struct.pack("<III", 64, 4_096, 64)
    for text in texts_taken:
        memory[12:24] = struct.pack("<I", len(text) + 1) * 3
        memory[64 : 64 + len(text) + 1] = text + b"\n"
    if text_read is not None:
        memory[16:20] = struct.pack("<I", len(text_read) + 1)
        memory[64 : 64 + len(text_read) + 1] = text_read + b"\n"
    return bytes(memory)


def echo_process(counts, frame, memory, version=ONE):
    """The image of `echo` somewhere in its `_start`, its function 2. Its counts are steps, requests
    and lines. In version 2 its widening counts as an answer."""
    steps, requests, lines = counts
    answers = requests + (version == TWO)
    return image((steps, answers, requests, lines, 0), (RUNNING, 0, 0), [(2, *frame)], memory,
                 version)


def echo_image(texts_taken=None, version=ONE):
    """The image of `echo` with one page: a fresh one, or one that has written back some texts and
    asks for the next.

    Then its frame is at the call of `fd_read`, the opcode 5, with four arguments. It asks for
    the first time after 5 steps, and 22 steps later for each next text.
    """
    if texts_taken is None:
        return echo_process((0, 0, 0), (0, ()), echo_memory([]), version)
    count = len(texts_taken)
    memory = echo_memory(texts_taken)
    return echo_process((5 + 22 * count, count, count), (5, (0, 0, 1, 16)), memory, version)


def echo_image_behind(texts_taken, text_read):
    """The image of `echo` right after the step that has read one more text. The answer of that
    call, 0, is the one slot of its frame."""
    count = len(texts_taken)
    memory = echo_memory(texts_taken, text_read)
    return echo_process((6 + 22 * count, count + 1, count), (6, (0,)), memory)


def echo_image_at_end():
    """The image of `echo` that has ended in its eleventh step: the first thing it read was the end
    of the requests."""
    return image((11, 1, 1, 0, 0), (EXITED, 0, 1), [], echo_memory([]))


def read(*names):
    """The bytes of a file of the repository."""
    with open(os.path.join(ROOT, *names), "rb") as file:
        return file.read()


def dumped_disks():
    """The disks that docs/FORMATS.md has in hex: a worker of `echo` as it is created, and after a
    run that takes the request `hello`; and one that was upgraded before such a run."""
    small = Form(read("examples", "echo.wasm"), 1, 1, 64)
    first = small.created(echo_image())
    second = bytearray(first)
    small.commit(second, 2, echo_image())
    small.commit(second, 3, echo_image([b"hello"]))
    small.keep(second, 2, 1, record(6, REQUEST, b"hello"))
    roomy = Form(small.module, 1, 1, JOURNAL)
    third = roomy.created(echo_image())
    for generation, texts_taken, version in [
            (2, None, ONE), (3, [], TWO), (4, [], TWO), (5, [b"hello"], TWO)]:
        roomy.commit(third, generation, echo_image(texts_taken, version))
    roomy.keep(third, 4, 1, record(6, REQUEST, b"hello", TWO))
    return bytes(first), bytes(second), bytes(third)


def dumped_rows():
    """The rows that docs/FORMATS.md has of these disks: places, and the bytes there."""
    sections = read("docs", "FORMATS.md").decode().split("\n## ")[-3:]
    return [[(int(at, 16), bytes.fromhex(row)) for at, row in ROW.findall(it)] for it in sections]


# They are compared each time this is loaded.
for _disk, _rows in zip(dumped_disks(), dumped_rows(), strict=True):
    assert _rows, "docs/FORMATS.md has no rows"
    for _at, _row in _rows:
        assert _disk[_at : _at + len(_row)] == _row, f"docs/FORMATS.md is wrong at {_at:x}"
# One slot more has eight bytes.
assert len(echo_image_behind([], b"hello")) == 65_819
