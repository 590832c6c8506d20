"""Says what `inspect`, `files` and `history` print of the bytes of a worker's disk.

It is written from docs/FORMATS.md and docs/COMMANDS.md, and uses none of the program's code. Nobody
may fix it by looking at the code or at an output. What a process waits for follows from its module:
that is given.
"""
import hashlib
import json
import struct

from model.disk_form import END, PAYLOAD, RANDOM, REQUEST, SECTOR
from model.disk_reader import judged

TRAPS = [
    "unreachable", "integer divide by zero", "integer overflow", "out of bounds memory access",
    "undefined element", "uninitialized element", "indirect call type mismatch",
    "stack exhausted"]
RECORDS = {1: "request", 2: "end", 3: "realtime", 4: "monotonic", 5: "random"}
DIRECTORY, FILE = 3, 4
ROOT = 1
UNIT = PAGE = 65_536
NODES = 1_024

# How many steps the slice of a script takes behind the last record.
STEPS_BEHIND = 100_000

# The facts that are one number.
NUMBERS = (
    "layout", "version", "module", "pages", "files", "journal", "generation", "area", "image",
    "steps", "answers", "requests", "lines", "monotonic", "memory", "left")


class Fields:
    """The fields of some bytes, one after another."""

    def __init__(self, data):
        self.data, self.place = data, 0

    def take(self, length):
        self.place += length
        return self.data[self.place - length : self.place]

    def number(self, length):
        return int.from_bytes(self.take(length), "little")

    def sized(self, length):
        """Bytes after their length, which has so many."""
        return self.take(self.number(length))


class Facts:
    """What a disk says."""

    def __init__(self, disk):
        found = judged(disk)
        assert found.fault is None, found.fault
        self.generation, self.version = found.generation, found.version
        self.records, self.image = found.records, found.image
        before, = struct.unpack_from("<I", disk, 12)
        self.module = found.contents[before:]
        config = Fields(found.contents[:before])
        self.pages, self.files, self.journal = (config.number(4) for _ in range(3))
        self.left = self.journal - filled(disk[-self.journal * SECTOR :], self.generation)
        self.arguments = [config.sized(2) for _ in range(config.number(4))]
        self.environment = [config.sized(2) for _ in range(config.number(4))]
        self.read_image(Fields(found.image))

    def read_image(self, image):
        image.take(8)
        self.counts = [image.number(8) for _ in range(5)]
        phase, code = image.number(1), image.number(4)
        self.state = {2: f"exited {code}", 3: f"trapped {TRAPS[code - 1]}"}.get(phase, "running")
        image.take(1)
        for _ in range(3):
            image.sized(4)
        image.take(8 * image.number(4))
        self.frames = []
        for _ in range(image.number(4)):
            function, position, slots = (image.number(4) for _ in range(3))
            image.take(8 * slots)
            self.frames.append((function, position, slots))
        self.memory = image.number(4)
        image.take(PAGE * self.memory)
        image.take(8)
        self.nodes = {}
        for _ in range(image.number(4)):
            number, kind = image.number(8), image.number(1)
            self.nodes[number] = kind, self.content(image, kind)
        self.descriptors = []
        for _ in range(image.number(4)):
            number, kind, node, offset = (image.number(it) for it in (4, 1, 8, 8))
            image.take(2 + 8 + 8)
            self.descriptors.append((number, kind, node, offset))
        assert image.place == len(image.data)

    @staticmethod
    def content(image, kind):
        if kind == FILE:
            return image.sized(8)
        return [(image.sized(2), image.number(8)) for _ in range(image.number(4))]

    def told(self, waits):
        """What `inspect` prints."""
        yield "layout 1"
        yield f"version {self.version}"
        yield f"module {len(self.module)}"
        yield f"digest {hashlib.sha256(self.module).hexdigest()}"
        yield from (f"pages {self.pages}", f"files {self.files}", f"journal {self.journal}")
        yield from (f"argument {spelled(it)}" for it in self.arguments)
        yield from (f"environment {spelled(it)}" for it in self.environment)
        yield f"generation {self.generation}"
        yield f"area {self.generation % 2}"
        yield f"image {len(self.image)}"
        names = ("steps", "answers", "requests", "lines", "monotonic")
        yield from (f"{name} {count}" for name, count in zip(names, self.counts))
        yield f"waits {waits}"
        yield f"state {self.state}"
        yield from ("frame {} {} {}".format(*it) for it in self.frames)
        yield f"memory {self.memory}"
        yield f"nodes {len(self.nodes)} {NODES}"
        bytes_of_files = sum(len(it) for kind, it in self.nodes.values() if kind == FILE)
        yield f"bytes {bytes_of_files} {UNIT * self.files}"
        for number, kind, node, offset in self.descriptors:
            nodes = {DIRECTORY: f"directory {node}", FILE: f"file {node}"}
            word = nodes.get(kind, f"stream {kind}")
            yield f"descriptor {number} {word} {offset}"
        for step, kind, payload in self.records:
            yield f"record {RECORDS[kind]} {step} {len(payload)}"
        yield f"left {self.left}"

    def paths(self):
        """The path of each node that has one, but for the root."""
        found, left = {}, [(ROOT, b"")]
        while left:
            number, front = left.pop()
            for name, node in self.nodes[number][1]:
                found[node] = front + name
                if self.nodes[node][0] == DIRECTORY:
                    left.append((node, front + name + b"/"))
        return found

    def listed(self):
        """What `files` prints."""
        for number, path in sorted(self.paths().items()):
            kind, content = self.nodes[number]
            escaped = any(byte < 32 or byte == 127 for byte in path)
            letter = ("d" if kind == DIRECTORY else "f") + ("x" if escaped else "")
            size = "" if kind == DIRECTORY else f" {len(content)}"
            yield f"{letter}{size} {path.hex() if escaped else path.decode()}"

    def history(self):
        """What `history` prints."""
        number = self.counts[2]
        for step, kind, payload in self.records:
            number += kind in (REQUEST, END)
            yield f"{step} {RECORDS[kind]} {value_of(kind, payload, number)}"

    def life(self):
        """What `history --story` prints."""
        yield "life"
        for _, kind, payload in self.records:
            value = spelled(payload) if kind == REQUEST else value_of(kind, payload, None)
            yield "end" if kind == END else f"{RECORDS[kind]} {value}"
        steps = self.counts[0]
        last = self.records[-1][0] if self.records else steps
        yield f"slice {max(last - steps, 0) + STEPS_BEHIND}"

    def file_at(self, path):
        """What `files` writes of a path."""
        number = next(it for it, own in self.paths().items() if own == path.encode())
        return self.nodes[number][1].decode()


def spelled(data):
    """Bytes as a text. One that is no part of UTF-8 stands for itself."""
    return data.decode(errors="surrogateescape")


def value_of(kind, payload, number):
    """The value of a record, as `history` has it. A request, or their end, has this number."""
    if kind == REQUEST:
        letter, text = ("r", payload.decode()) if is_shown(payload) else ("x", payload.hex())
        return f"{number} {letter} {text}"
    if kind == END:
        return f"{number} e"
    return payload.hex() if kind == RANDOM else str(int.from_bytes(payload, "little"))


def is_shown(data):
    """Whether bytes are UTF-8, and no control byte is among them."""
    try:
        data.decode()
    except UnicodeDecodeError:
        return False
    return not any(byte < 32 or byte == 127 for byte in data)


def text_of(words):
    """What `--json` has for a text: a string, or the bytes of one that isn't UTF-8."""
    data = words.encode(errors="surrogateescape")
    try:
        return data.decode()
    except UnicodeDecodeError:
        return list(data)


def filled(journal, generation):
    """How many sectors of a journal are of a generation, from the first one on."""
    for number in range(len(journal) // SECTOR):
        sector = journal[number * SECTOR : (number + 1) * SECTOR]
        length, = struct.unpack_from("<H", sector)
        stamp = struct.unpack_from("<QQ", sector, 496)
        if stamp != (generation, number + 1) or not 1 <= length <= PAYLOAD:
            return number
    return len(journal) // SECTOR


def tagged(words):
    """A word, or a word with its value, as `--json` has it."""
    word, _, value = words.partition(" ")
    return {word: int(value) if value.isdigit() else value} if value else word


def members_of(lines):
    """The members that `--json` has for the lines of `inspect`, which hold no text with a
    newline."""
    found = {name: [] for name in ("arguments", "environment", "frames", "descriptors", "records")}
    for line in lines:
        name, _, words = line.partition(" ")
        match name:
            case "argument":
                found["arguments"].append(text_of(words))
            case "environment":
                found["environment"].append(text_of(words))
            case "digest":
                found["digest"] = words
            case "waits" | "state":
                found[name] = tagged(words)
            case "nodes" | "bytes":
                found[name] = dict(zip(("used", "limit"), map(int, words.split())))
            case "frame":
                parts = zip(("function", "position", "slots"), map(int, words.split()))
                found["frames"].append(dict(parts))
            case "descriptor":
                number, kind, target, offset = words.split()
                found["descriptors"].append({
                    "kind": kind, "number": int(number), "offset": int(offset),
                    "target": int(target)})
            case "record":
                kind, step, length = words.split()
                found["records"].append({"kind": kind, "length": int(length), "step": int(step)})
            case _ if name in NUMBERS:
                found[name] = int(words)
    return found


def value_fault(text, lines):
    """What is wrong with what `inspect --json` prints, beside the lines of `inspect`, or none. It
    is compared fact by fact."""
    if not text.endswith("\n") or text.count("\n") != 1:
        return "isn't one line"
    found, wanted = json.loads(text), members_of(lines)
    if list(found) != sorted(found):
        return "isn't in the order of its names"
    for name in sorted({*found, *wanted}):
        if found.get(name) != wanted.get(name):
            return f"has {found.get(name)} as {name}, wanted {wanted.get(name)}"
    return None


def inspected(disk, waits):
    return "".join(f"{it}\n" for it in Facts(disk).told(waits))


def listing(disk):
    return "".join(f"{it}\n" for it in Facts(disk).listed())


def history(disk):
    return "".join(f"{it}\n" for it in Facts(disk).history())


def life(disk):
    return "".join(f"{it}\n" for it in Facts(disk).life())


def file_at(disk, path):
    return Facts(disk).file_at(path)
