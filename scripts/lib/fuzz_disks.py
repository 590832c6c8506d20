"""Disks that are changed at random: any sector, and fields of the super, of heads, of records and
of images. The digests are fixed after that, or left."""
import hashlib
import struct

from model import disk_form as form
from model import disk_reader
from model.disk_form import SECTOR, Form, padded, record, sectors
from lib.fuzz_modules import EDGES, mangled

# Fields of a super and of a head: where they begin, and how many bytes they have.
SUPER = [(0, 8), *((at, 4) for at in range(8, 32, 4)), (32, 32), (504, 8)]
HEAD = [(0, 8), (8, 4), (16, 8), (24, 32), (496, 8), (504, 8)]

# The fields of a configuration before its texts.
CONFIGURATION = [(0, 4), (4, 4), (8, 4), (12, 4), (16, 2)]

# A node of an image that is a folder, and the bytes of a descriptor.
FOLDER, DESCRIPTOR = 3, [4, 1, 8, 8, 2, 8, 8]


def written(rng, data, at, length):
    """Writes another number, or other bytes, into a field."""
    value, top = int.from_bytes(data[at : at + length], "little"), 1 << 8 * length
    value = rng.choice([
        rng.choice(EDGES), value + rng.choice([-1, 1]), value ^ 1 << rng.randrange(8 * length),
        rng.randrange(top), -rng.choice(EDGES)])
    data[at : at + length] = (value % top).to_bytes(length, "little")


class ImagePlaces(disk_reader.Reader):
    """Reads an image, and notes where its numbers and items are, and where its memory is."""

    def __init__(self, data):
        super().__init__(data, b"I1 NotAnImage")
        self.numbers, self.items, self.memory = [], [], (0, 0)
        self.read()

    def noted(self, length):
        """A number whose place is noted."""
        self.numbers.append((self.place, length))
        return self.number(length)

    def listed(self, read):
        """A counted list whose items are noted, each with the place of their count."""
        at = self.place
        for _ in range(self.noted(4)):
            begin = self.place
            read()
            self.items.append((begin, self.place, at))

    def read(self):
        """All of an image, but its mark."""
        self.bytes(8)
        for length in [8] * 5 + [1, 4, 1]:
            self.noted(length)
        for _ in range(3):
            self.bytes(self.noted(4))
        self.listed(lambda: self.noted(8))
        self.listed(self.frame)
        pages = self.noted(4)
        self.memory = self.place, self.place + pages * form.PAGE
        self.bytes(pages * form.PAGE)
        self.noted(8)
        self.listed(self.node)
        self.listed(lambda: [self.noted(it) for it in DESCRIPTOR])

    def frame(self):
        """A frame."""
        self.noted(4)
        self.noted(4)
        self.listed(lambda: self.noted(8))

    def node(self):
        """A node of the file system."""
        self.noted(8)
        if self.noted(1) == FOLDER:
            self.listed(self.entry)
        else:
            self.bytes(self.noted(8))

    def entry(self):
        """An entry of a folder."""
        self.bytes(self.noted(2))
        self.noted(8)


class Worker:
    """A worker on a disk, files of requests that it may be given, with what they hold, and how a
    run with each of them ends."""

    def __init__(self, module, disk_form, disk, given, ends):
        self.module, self.form = module, disk_form
        self.disk, self.given, self.ends = disk, given, ends
        found = disk_reader.judged(disk)
        assert found.fault is None, f"{module.name}: {found.fault}"
        self.contents, self.generation, self.steps = found.contents, found.generation, found.steps
        self.records, self.image, self.version = found.records, found.image, found.version
        self.places = ImagePlaces(found.image)
        # The digests of images that are accepted.
        self.images = {self.digest(area) for area in (0, 1) if disk_reader.head(disk, area)}

    def digest(self, area):
        """The digest in the head of an area."""
        at = (1 + area) * SECTOR + form.IMAGE_DIGEST
        return self.disk[at : at + 32]

    def has_known(self, found):
        """Whether contents and image of a disk that was read are those of this worker, and so are
        accepted."""
        is_known = hashlib.sha256(found.image).digest() in self.images
        return found.contents == self.contents and is_known


    def right_end(self, found, given):
        """How a run has to end on a disk on which everything that is read is as it was, or none."""
        was = self.contents, self.generation, self.image, self.records
        is_same = (found.contents, found.generation, found.image, found.records) == was
        return self.ends[given] if is_same else None


class DiskMutator:
    """Changes disks, by random numbers of its own."""

    def __init__(self, workers, modules):
        self.workers, self.modules = workers, modules
        self.acts = {
            "sectors": self.sectors, "super": self.super, "heads": self.heads,
            "module": self.module, "configuration": self.configuration, "sizes": self.sizes,
            "image": self.image, "items": self.items, "memory": self.memory,
            "journal": self.journal, "records": self.records, "file": self.file}

    def changed(self, rng):
        """Some worker, the kind of a change, whether digests are fixed, and the bytes."""
        worker, what = rng.choice(self.workers), rng.choice(list(self.acts))
        disk = bytearray(worker.disk)
        # An act changes the disk, or answers another one.
        disk = self.acts[what](rng, worker, disk) or disk
        is_mended = rng.random() < 0.5
        if is_mended:
            mend(disk)
        return worker, what, is_mended, disk

    def place(self, rng, worker):
        """The number of some sector, of each part of the disk as often."""
        at, length = worker.form, sectors(len(worker.image))
        first = at.areas[worker.generation % 2]
        parts = [(0, 1), (1, 2), (3, at.content_sectors), (first, length),
                 (at.areas[1 - worker.generation % 2], length), (at.journal, 4), (0, at.total)]
        begin, count = rng.choice(parts)
        return (begin + rng.randrange(count)) * SECTOR

    def sectors(self, rng, worker, disk):
        """Changes whole sectors, or some bytes in them."""
        for _ in range(rng.choice([1, 1, 1, 2, 4])):
            at, other = self.place(rng, worker), self.place(rng, worker)
            old, new = disk[at : at + SECTOR], disk[other : other + SECTOR]
            kind = rng.randrange(6)
            front = rng.choice([1, 8, 12, 496, 504, rng.randrange(SECTOR)])
            if kind == 0:
                new = bytes(SECTOR)
            elif kind == 1:
                new = rng.randbytes(SECTOR)
            elif kind == 2:
                disk[other : other + SECTOR] = old
            elif kind == 3:
                new = new[:front] + old[front:]
            elif kind == 4:
                new = old
                new[rng.randrange(SECTOR)] ^= 1 << rng.randrange(8)
            disk[at : at + SECTOR] = new

    def super(self, rng, _, disk):
        """Changes fields of the super."""
        for _ in range(rng.choice([1, 1, 2])):
            written(rng, disk, *rng.choice(SUPER))

    def heads(self, rng, worker, disk):
        """Changes fields of the heads, or puts other heads there."""
        area = rng.randrange(2)
        if rng.random() < 0.3:
            number = rng.choice([*EDGES, worker.generation + 1, worker.generation + 2])
            image = rng.choice([worker.image, worker.image[:-1], b""])
            form.put(disk, 1 + area, form.head(number % (1 << 64), image))
            if image:
                form.put(disk, worker.form.areas[area], image)
            return
        for _ in range(rng.choice([1, 1, 2])):
            at, length = rng.choice(HEAD)
            written(rng, disk, (1 + area) * SECTOR + at, length)

    def module(self, rng, worker, disk):
        """Puts a changed module in the place of the worker's."""
        acts = [self.modules.bytes, self.modules.section, self.modules.code, self.modules.code]
        module = rng.choice(acts)(rng, worker.module)
        if rng.random() < 0.1:
            module = rng.choice(self.workers).module.data
        return with_contents(worker, disk, worker.form.configuration, module)

    def configuration(self, rng, worker, disk):
        """Changes fields of the configuration, or any of its bytes."""
        data = bytearray(worker.form.configuration)
        if rng.random() < 0.5:
            data = mangled(rng, data, data)
        else:
            written(rng, data, *rng.choice(CONFIGURATION))
        return with_contents(worker, disk, bytes(data), worker.module.data)

    def sizes(self, rng, worker, _):
        """Puts the worker's image and journal on a disk of another configuration."""
        pages, files = rng.choice([1, 2, 3, 4, 8]), rng.choice([1, 2, 8])
        words = [rng.choice([[], [b"a", b""]]), rng.choice([[], [b"A=b", b"=", b"c"], [b"A="]])]
        other = Form(worker.module.data, pages, files, rng.choice([64, 65, 128]), *words)
        disk = other.created(worker.image)
        other.commit(disk, worker.generation, worker.image)
        length = min(worker.form.journal_sectors, other.journal_sectors)
        at = worker.form.journal * SECTOR
        form.put(disk, other.journal, worker.disk[at : at + length * SECTOR])
        return disk

    def image(self, rng, worker, disk):
        """Changes numbers of the image."""
        data = bytearray(worker.image)
        for _ in range(rng.choice([1, 1, 1, 2, 3])):
            at, length = rng.choice(worker.places.numbers)
            written(rng, data, at, length)
        if rng.random() < 0.1:
            begin, end = worker.places.memory
            data = data[:begin] + data[begin:end] + mangled(rng, data[end:], data[:begin])
        self.put_image(rng, worker, disk, bytes(data))

    def items(self, rng, worker, disk):
        """Changes what the image lists: frames, slots, globals, nodes, entries, descriptors."""
        data = bytearray(worker.image)
        begin, end, count = rng.choice(worker.places.items)
        first, last, _ = rng.choice(worker.places.items)
        kind = rng.randrange(4)
        if kind == 0:
            del data[begin:end]
        elif kind == 1:
            data[end:end] = data[begin:end]
        elif kind == 2:
            data[end:end] = data[first:last]
        else:
            data[begin:end] = data[first:last]
        if rng.random() < 0.9:
            number, = struct.unpack_from("<I", data, count)
            struct.pack_into("<I", data, count, max(number + [-1, 1, 1, 0][kind], 0))
        self.put_image(rng, worker, disk, bytes(data))

    def memory(self, rng, worker, disk):
        """Changes bytes of the guest's memory in the image."""
        data = bytearray(worker.image)
        begin, _ = worker.places.memory
        for _ in range(rng.choice([1, 2, 8])):
            at = begin + rng.randrange(rng.choice([32, 128, 4_096, form.PAGE]))
            data[at : at + 4] = (rng.choice(EDGES) % (1 << 32)).to_bytes(4, "little")
        self.put_image(rng, worker, disk, bytes(data))

    def put_image(self, rng, worker, disk, image):
        """Writes an image over the newest one. Its head says its length, in most of them."""
        area = worker.generation % 2
        image = image[: worker.form.area_sectors * SECTOR]
        form.put(disk, worker.form.areas[area], image)
        if rng.random() < 0.9:
            struct.pack_into("<Q", disk, (1 + area) * SECTOR + form.IMAGE_LENGTH, len(image))

    def journal(self, rng, worker, disk):
        """Changes fields of the journal's sectors, or their order."""
        for _ in range(rng.choice([1, 1, 2])):
            at = (worker.form.journal + rng.randrange(4)) * SECTOR
            if rng.random() < 0.2:
                other = (worker.form.journal + rng.randrange(64)) * SECTOR
                disk[at : at + SECTOR] = disk[other : other + SECTOR]
            else:
                fields = [(0, 2), (2, 1), (3, 8), (11, 2), (13, 1), (496, 8), (504, 8)]
                begin, length = rng.choice(fields)
                written(rng, disk, at + begin, length)

    def records(self, rng, worker, disk):
        """Writes a journal of other records: those of the worker with a change or with more after
        them, or new ones, at steps in which a guest may ask."""
        found, step = list(worker.records), worker.steps
        if found and rng.random() < 0.5:
            place = rng.randrange(len(found))
            step, kind, payload = found[place]
            found[place] = rng.choice([
                (step, kind, rng.randbytes(len(payload))), some_record(rng, step),
                (step + rng.choice([-1, 1]), kind, payload), (rng.choice(EDGES), kind, payload)])
        for _ in range(rng.choice([0, 1, 3, 60])):
            step += rng.choice([6, 22, 22, 22, 0, 1])
            found.append(some_record(rng, step))
        data = b"".join(record(step % (1 << 64), kind, payload, worker.version)
                        for step, kind, payload in found)
        cut = rng.choice([form.PAYLOAD, form.PAYLOAD, 100])
        for place, at in enumerate(range(0, min(len(data), 64 * cut), cut), 1):
            worker.form.keep(disk, worker.generation, place, data[at : at + cut])

    def file(self, rng, worker, disk):
        """Changes the length of the file."""
        ends = [0, 1, SECTOR - 1, SECTOR, 3 * SECTOR, 4 * SECTOR, worker.form.areas[1] * SECTOR,
                worker.form.journal * SECTOR, len(disk) - SECTOR, len(disk) - 1, len(disk)]
        end = max(rng.choice(ends) + rng.choice([0, 0, -1, 1, SECTOR]), 0)
        del disk[end:]
        disk.extend(bytes(min(end, len(worker.disk) + SECTOR) - len(disk)))


def some_record(rng, step):
    """A record of a step: of a request mostly."""
    kind = rng.choice([1, 1, 1, 1, 2, 3, 4, 5, 0, 6])
    texts = [b"", b"a", b"list", rng.randbytes(5), b"x" * 600, b"y" * 4_096, b"z" * 4_097]
    payload = b"" if kind == 2 else rng.randbytes(8) if kind in (3, 4) else rng.choice(texts)
    return step, kind, payload


def with_contents(worker, disk, configuration, module):
    """A disk with other contents. What follows them moves, where they need more sectors."""
    contents = configuration + module
    count = sectors(len(contents))
    struct.pack_into("<3I", disk, 12, len(configuration), len(module), count)
    rest = disk[worker.form.areas[0] * SECTOR :]
    return disk[: 3 * SECTOR] + padded(contents, count) + rest


def mend(disk):
    """Writes the right digests of contents and newest image, as far as the disk has them."""
    if len(disk) < 3 * SECTOR:
        return
    before, module, content, area = struct.unpack_from("<4I", disk, 12)
    contents = disk[3 * SECTOR : 3 * SECTOR + before + module]
    disk[form.DIGEST : form.DIGEST + 32] = hashlib.sha256(contents).digest()
    generations = [it for it in map(lambda it: disk_reader.head(disk, it), (0, 1)) if it]
    if not generations:
        return
    number = max(generations) % 2
    at = (1 + number) * SECTOR
    length, = struct.unpack_from("<Q", disk, at + form.IMAGE_LENGTH)
    begin = (3 + content + number * area) * SECTOR
    image = disk[begin : begin + length]
    disk[at + form.IMAGE_DIGEST : at + form.IMAGE_DIGEST + 32] = hashlib.sha256(image).digest()
