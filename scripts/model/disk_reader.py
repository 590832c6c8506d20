"""Reads the bytes of a worker's disk as docs/FORMATS.md says, by none of the program's code.

`judged` says by which fault a disk is refused, or what `show` prints of it. It doesn't say whether
the module and the image are accepted: those two rows of the table are left to the program.
"""
import hashlib
import struct
from dataclasses import dataclass, field

from model.disk_form import (
    AREA, AREA_PER_UNIT, END, LATER, LEAST_JOURNAL_OF_TWO, MONOTONIC, NO_CONFIGURATION, ONE,
    OTHER_AREA, OTHER_DIGEST, OTHER_JOURNAL, OTHER_SECTORS, PAYLOAD, RANDOM, REALTIME, SECTOR,
    SHORT_JOURNAL, STAMP, TWO, dumped_disks, other_mark, sectors)

# The ranges of a configuration's numbers, and the most texts of a list and bytes of a text.
RANGES = [range(1, 257), range(1, 65), range(64, 65_537)]
TEXTS, TEXT = 64, 1_024

# By version: the longest payload of a record, the form of what stands before it, the fewest sectors
# of a journal, and the mark of an image.
PAYLOADS = {ONE: 4_096, TWO: 65_536}
BEFORE_PAYLOAD = {ONE: struct.Struct("<BQH"), TWO: struct.Struct("<BQI")}
JOURNALS = {ONE: 64, TWO: LEAST_JOURNAL_OF_TWO}
MARKS = {ONE: b"DWIMAGE1", TWO: b"DWIMAGE2"}


# What `show` prints.
SHOWN = b"generation %d steps %d answers %d lines %d records %d version %d\n"


class Refused(Exception):
    """What a disk is refused for, with the line that says more, if there is one."""


def demand(holds, fault):
    """Refuses the disk where something doesn't hold."""
    if not holds:
        raise Refused(fault)


def agree(holds, line):
    """Refuses the disk as damaged where something disagrees. This line says what."""
    demand(holds, b"Y4 Damaged\n" + line.encode().rstrip())


@dataclass
class Judged:
    """What is known of a disk: the first fault that isn't one of the module or of the image, the
    contents if they have the right digest and form, the image if it is whole, and what `show`
    prints if both are accepted. A fault that comes before those of the module leaves no contents,
    and one that comes before that of the image leaves no image.
    """

    fault: bytes = None
    contents: bytes = None
    image: bytes = None
    generation: int = 0
    version: int = 0
    steps: int = 0
    lines: int = 0
    records: list = field(default_factory=list)
    shown: bytes = b""


class Reader:
    """Reads fields of some bytes. One that isn't there refuses the disk."""

    def __init__(self, data, fault):
        self.data, self.fault, self.place = data, fault, 0

    def bytes(self, length):
        """The next bytes."""
        demand(self.place + length <= len(self.data), self.fault)
        self.place += length
        return self.data[self.place - length : self.place]

    def number(self, length):
        """The next number, of so many bytes."""
        return int.from_bytes(self.bytes(length), "little")


def texts(reader, is_right):
    """Reads the texts of a configuration."""
    count = reader.number(4)
    demand(count <= TEXTS, reader.fault)
    for _ in range(count):
        length = reader.number(2)
        demand(length <= TEXT, reader.fault)
        text = reader.bytes(length)
        demand(0 not in text and is_right(text), reader.fault)


def configured(data):
    """The pages, the file units and the journal's sectors of a configuration."""
    reader = Reader(data, b"Y4 Damaged\n" + NO_CONFIGURATION.encode().rstrip())
    numbers = [reader.number(4) for _ in RANGES]
    demand(all(it in among for it, among in zip(numbers, RANGES)), reader.fault)
    texts(reader, lambda text: True)
    texts(reader, lambda text: text.find(b"=") > 0)
    demand(reader.place == len(data), reader.fault)
    return numbers


def head(disk, area):
    """The generation of the head of an area, or none if it isn't complete."""
    data = disk[(1 + area) * SECTOR : (2 + area) * SECTOR]
    generation, place = struct.unpack_from("<QQ", data, 496)
    is_complete = data[:8] == b"DWAREA.." and place == 1 and generation and generation % 2 == area
    return generation if is_complete else None


def scanned(journal, generation):
    """The bytes of the records of a generation."""
    data = b""
    for number in range(len(journal) // SECTOR):
        sector = journal[number * SECTOR : (number + 1) * SECTOR]
        length, = struct.unpack_from("<H", sector)
        belongs = struct.unpack_from("<QQ", sector, 496) == (generation, number + 1)
        if not (belongs and 1 <= length <= PAYLOAD):
            break
        data += sector[2 : 2 + length]
    return data


def records(version, data):
    """The records of some bytes up to the first that is none: step, kind and payload of each."""
    place, found, before = 0, [], BEFORE_PAYLOAD[version]
    while place + before.size <= len(data):
        kind, step, length = before.unpack_from(data, place)
        lengths = {END: [0], REALTIME: [8], MONOTONIC: [8]}.get(kind, range(PAYLOADS[version] + 1))
        payload = data[place + before.size :][:length]
        if not 1 <= kind <= RANDOM or length not in lengths or len(payload) < length:
            break
        place += before.size + length
        found.append((step, kind, payload))
    return found


def judge(disk, found):
    """Reads a disk in the order in which docs/FORMATS.md says it is judged."""
    total, first = len(disk) // SECTOR, disk[:SECTOR]
    is_worker = total and first[:8] == b"DWORKER!" and first[504:] == b"!REKROWD"
    demand(is_worker, b"Y1 NotAWorker")
    layout, before, module, content, area, journal = struct.unpack_from("<6I", first, 8)
    demand(layout == 1, b"Y2 Version")
    agree(content == sectors(before + module), OTHER_SECTORS)
    demand(total >= 3 + content, b"Y3 TooSmall")
    contents = bytes(disk[3 * SECTOR : 3 * SECTOR + before + module])
    agree(hashlib.sha256(contents).digest() == first[32:64], OTHER_DIGEST)
    pages, files, wanted = configured(contents[:before])
    agree(area == AREA + AREA_PER_UNIT * (pages + files), OTHER_AREA)
    agree(journal == wanted, OTHER_JOURNAL)
    end = 3 + content + 2 * area
    demand(total >= end + journal, b"Y3 TooSmall")
    found.contents = contents
    generations = [it for it in (head(disk, 0), head(disk, 1)) if it]
    demand(generations, b"S2 Damaged")
    found.generation = max(generations)
    number = found.generation % 2
    version, length, digest = struct.unpack_from("<IxxxxQ32s", disk, (1 + number) * SECTOR + 8)
    demand(version in MARKS, b"Y2 Version")
    agree(journal >= JOURNALS[version], SHORT_JOURNAL)
    demand(length <= area * SECTOR, b"S2 Damaged")
    at = (3 + content + number * area) * SECTOR
    image = bytes(disk[at : at + length])
    demand(hashlib.sha256(image).digest() == digest, b"S2 Damaged")
    others = [mark for it, mark in MARKS.items() if it != version]
    agree(not image.startswith(tuple(others)), other_mark(number))
    found.version, found.image = version, image
    later, place = struct.unpack_from("<QQ", disk, end * SECTOR + STAMP)
    agree(place != 1 or later <= found.generation, LATER)
    kept = scanned(disk[end * SECTOR : (end + journal) * SECTOR], found.generation)
    found.records = records(version, kept)


def judged(disk):
    """What has to be found on a disk of some bytes."""
    found = Judged()
    try:
        judge(disk, found)
    except Refused as why:
        found.fault = why.args[0]
        return found
    if len(found.image) >= 40:
        found.steps, answers, _, found.lines = struct.unpack_from("<4Q", found.image, 8)
        row = found.generation, found.steps, answers, found.lines, len(found.records)
        found.shown = SHOWN % (*row, found.version)
    return found


# The disks that docs/FORMATS.md has in hex.
_COUNTS = [(1, 0, 0, 0, 0, ONE), (3, 27, 1, 1, 0, ONE), (5, 27, 2, 1, 0, TWO)]
for _disk, _counts in zip(dumped_disks(), _COUNTS, strict=True):
    assert judged(_disk).shown == SHOWN % _counts, "a disk of docs/FORMATS.md is read wrongly"
