"""The functions of a WebAssembly module without floats, and their opcodes."""
from lib import wasm_bytes as wasm

CODE = 10

# How many numbers in LEB128 follow an opcode. An opcode with no entry has none.
WITH_ONE = [0x02, 0x03, 0x04, 0x0C, 0x0D, 0x10, *range(0x20, 0x25), 0x3F, 0x40, 0x41, 0x42]
WITH_TWO = [0x11, *range(0x28, 0x3F)]
NUMBERS = {**dict.fromkeys(WITH_ONE, 1), **dict.fromkeys(WITH_TWO, 2)}
BRANCH_TABLE = wasm.BR_TABLE[0]

# The prefix, and how many zero bytes follow the number after it.
PREFIX, ZEROS = wasm.MEMORY_COPY[0], {10: 2, 11: 1}


class Reader:
    """Reads numbers of some bytes, from a place on."""

    def __init__(self, data, place=0):
        self.data, self.place = data, place

    def byte(self):
        self.place += 1
        return self.data[self.place - 1]

    def number(self):
        """A number in LEB128. What is read of a signed one means nothing but its end."""
        byte = self.byte()
        return byte if byte < 0x80 else byte & 0x7F | self.number() << 7

    def taken(self, length):
        self.place += length
        return self.data[self.place - length : self.place]


def sections(module):
    """The sections of a module: each id with its bytes."""
    reader = Reader(module, 8)
    while reader.place < len(module):
        kind = reader.byte()
        yield kind, reader.taken(reader.number())


def functions(module):
    """The functions of a module: for each its declared locals and its body, as bytes."""
    reader = Reader(dict(sections(module)).get(CODE, b"\0"))
    for _ in range(reader.number()):
        entry = Reader(reader.taken(reader.number()))
        for _ in range(entry.number()):
            entry.number()
            entry.byte()
        yield entry.data[: entry.place], entry.data[entry.place :]


def numbers_behind(opcode, reader):
    """How many numbers follow an opcode, once the one that says so is read."""
    if opcode == BRANCH_TABLE:
        return reader.number() + 1
    return ZEROS[reader.number()] if opcode == PREFIX else NUMBERS.get(opcode, 0)


def opcode_count(body):
    """How many opcodes a body has, `else` and `end` with them."""
    reader, count = Reader(body), 0
    while reader.place < len(body):
        opcode = reader.byte()
        for _ in range(numbers_behind(opcode, reader)):
            reader.number()
        count += 1
    return count


def with_code_before(module, code):
    """The module with a code before each of its bodies."""
    parts = []
    for kind, data in sections(module):
        if kind == CODE:
            entries = [wasm.sized(locals_ + code + body) for locals_, body in functions(module)]
            data = wasm.vector(entries)
        parts.append(bytes([kind]) + wasm.sized(data))
    return module[:8] + b"".join(parts)
