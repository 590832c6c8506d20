"""Modules that are changed at random: bytes, and numbers, instructions, items and sections."""
import bisect

from lib import wasm_bytes as wasm
from lib.wasm_opcodes import BRANCH_TABLE, CODE, NUMBERS, Reader

# Ids of sections, from 0 on.
CUSTOM, TYPE, IMPORT, FUNCTION, TABLE, MEMORY, GLOBAL, EXPORT, START, ELEMENT = range(10)
DATA = 11

# Opcodes that begin and end what is inside.
OPENING, CLOSING = b"\x02\x03\x04", 0x0B

# Opcodes that take and give the same types, and have as many numbers.
ALIKE = [range(0x02, 0x04), range(0x46, 0x50), range(0x51, 0x5B), range(0x67, 0x6A),
         range(0x6A, 0x79), range(0x79, 0x7C), range(0x7C, 0x8B), [0x28, *range(0x2C, 0x30)],
         [0x29, *range(0x30, 0x36)], [0x36, 0x3A, 0x3B], [0x37, 0x3C, 0x3D, 0x3E], [0xAC, 0xAD]]
SIMILAR = {opcode: list(kinds) for kinds in ALIKE for opcode in kinds}

# Bytes and numbers at which something ends, or begins to mean something else.
BYTES = [0, 1, 2, 0x0B, 0x3F, 0x40, 0x60, 0x70, 0x7C, 0x7D, 0x7E, 0x7F, 0x80, 0xFE, 0xFF]
EDGES = [0, 1, 2, 63, 64, 127, 128, 255, 256, 4_095, 4_096, 65_535, 65_536, 1 << 20, 1 << 21]
EDGES += [(1 << bits) + by for bits in (31, 32, 63, 64) for by in (-1, 0, 1)]

# By how many bytes a number is made longer than it has to be.
LONGER = [1, 1, 2, 3, 4, 5, 6, 9, 10, 100]


class Places(Reader):
    """Reads a section, and notes where its numbers, items and instructions are, and which of the
    numbers belong to instructions."""

    def __init__(self, data):
        super().__init__(data)
        self.numbers, self.items, self.codes, self.operands = [], [], [], []

    def noted(self):
        """A number whose place is noted."""
        begin = self.place
        value = self.number()
        self.numbers.append((begin, self.place))
        return value

    def vector(self, read):
        """A counted list of what a function reads."""
        for _ in range(self.noted()):
            read()

    def listed(self, read):
        """A counted list whose items are noted."""
        for _ in range(self.noted()):
            begin = self.place
            read()
            self.items.append((begin, self.place))

    def text(self):
        """A length, and as many bytes."""
        self.taken(self.noted())

    def limits(self):
        """A least number, and perhaps a greatest one."""
        for _ in range(self.byte() + 1):
            self.noted()

    def code(self):
        """An expression."""
        depth = 1
        while depth:
            begin = self.place
            opcode = self.byte()
            depth += (opcode in OPENING) - (opcode == CLOSING)
            count = self.noted() + 1 if opcode == BRANCH_TABLE else NUMBERS.get(opcode, 0)
            for _ in range(count):
                self.noted()
                self.operands.append(self.numbers[-1])
            self.codes.append((begin, self.place))

    def function_type(self):
        """A function type."""
        self.byte()
        self.vector(self.byte)
        self.vector(self.byte)

    def imported(self):
        """An import."""
        self.text()
        self.text()
        self.described(self.byte())

    def described(self, kind):
        """What is imported, of a kind: a function, a table, a memory or a global."""
        if kind == 0:
            self.noted()
        elif kind == 3:
            self.taken(2)
        else:
            self.taken(1 if kind == 1 else 0)
            self.limits()

    def table(self):
        """A table type."""
        self.byte()
        self.limits()

    def global_(self):
        """A global."""
        self.taken(2)
        self.code()

    def exported(self):
        """An export."""
        self.text()
        self.byte()
        self.noted()

    def element(self):
        """A segment of a table."""
        self.noted()
        self.code()
        self.vector(self.noted)

    def locals_(self):
        """A run of locals."""
        self.noted()
        self.byte()

    def function(self):
        """A function: its size, locals and code."""
        self.noted()
        self.vector(self.locals_)
        self.code()

    def data_segment(self):
        """A segment of memory."""
        self.noted()
        self.code()
        self.text()


LISTS = {
    TYPE: Places.function_type, IMPORT: Places.imported, FUNCTION: Places.noted,
    TABLE: Places.table, MEMORY: Places.limits, GLOBAL: Places.global_, EXPORT: Places.exported,
    ELEMENT: Places.element, CODE: Places.function, DATA: Places.data_segment}


class Section:
    """A section of a module: its id, its bytes, and the places in them."""

    def __init__(self, kind, data):
        self.kind, self.data, self.places = kind, data, Places(data)
        if kind == START:
            self.places.noted()
        elif kind in LISTS:
            self.places.listed(lambda: LISTS[kind](self.places))

    def edited(self, begin, end, data, is_mended=True):
        """The bytes of this section with others in a place. The length of the function that this
        place is in is fixed."""
        items = self.places.items
        changed = self.data[:begin] + data + self.data[end:]
        if self.kind != CODE or not is_mended or not items:
            return changed
        item = items[bisect.bisect_right(items, (begin, len(self.data))) - 1]
        entry = Reader(self.data, item[0])
        size, more = entry.number(), len(data) - (end - begin)
        if begin < entry.place or end > item[1] or size + more < 0:
            return changed
        return changed[: item[0]] + wasm.unsigned(size + more) + changed[entry.place :]


class Module:
    """A module that is changed."""

    def __init__(self, name, data):
        self.name, self.data, self.sections = name, data, []
        reader = Reader(data, 8)
        while reader.place < len(data):
            self.sections.append(Section(reader.byte(), reader.taken(reader.number())))
        # How often it is taken: the smallest have little to change, and large ones take long.
        weights = [(150, 0.2), (4_096, 1.0), (40_000, 0.1)]
        self.weight = next((it for end, it in weights if len(data) < end), 0.02)


def joined(sections):
    """A module of sections, given as pairs of id and bytes."""
    parts = [bytes([kind]) + wasm.sized(data) for kind, data in sections]
    return b"\0asm\x01\0\0\0" + b"".join(parts)


def longer(value, count):
    """The LEB128 form of a natural number with so many bytes more than it needs."""
    short = wasm.unsigned(value)
    return short[:-1] + bytes([short[-1] | 0x80]) + b"\x80" * (count - 1) + b"\0"


class Mutator:
    """Changes modules, by random numbers of its own."""

    def __init__(self, modules):
        self.modules, self.weights = modules, [it.weight for it in modules]
        self.coded = [it for module in modules for it in module.sections if it.places.codes]
        # Those that mostly keep a module's form come more often.
        self.acts = [self.bytes, self.order, self.size, *[self.section] * 4, *[self.code] * 6]

    def number(self, rng, section):
        """A section with another number, or another form of one."""
        return self.one_number(rng, section, section.places.numbers)

    def operand(self, rng, section):
        """A section with another number of an instruction, or another form of one."""
        return self.one_number(rng, section, section.places.operands)

    def one_number(self, rng, section, places):
        """A section with one of the numbers in these places changed, if there is one."""
        if not places:
            return section.data
        begin, end = rng.choice(places)
        value = Reader(section.data, begin).number()
        form = rng.randrange(4)
        if form == 0:
            data = longer(value, rng.choice(LONGER))
        elif form == 1:
            data = wasm.unsigned(rng.choice(EDGES))
        elif form == 2:
            data = wasm.unsigned(max(value + rng.choice([-2, -1, 1, 1, 2]), 0))
        else:
            data = wasm.signed(rng.choice([-1, 1]) * rng.choice(EDGES))
        return section.edited(begin, end, data, rng.random() < 0.8)

    def instruction(self, rng, section):
        """A section with one instruction more, one less, or another one."""
        if not section.places.codes:
            return self.number(rng, section)
        begin, end = rng.choice(section.places.codes)
        others = rng.choice(self.coded)
        first, last = rng.choice(others.places.codes)
        other = others.data[first:last]
        form = rng.randrange(4)
        if form == 0:
            return section.edited(begin, begin, other)
        if form == 1:
            return section.edited(begin, end, b"")
        if form == 2:
            return section.edited(begin, end, other)
        # Another opcode with the same numbers.
        opcode = rng.choice(SIMILAR.get(section.data[begin], range(256)))
        return section.edited(begin, begin + 1, bytes([opcode]))

    def item(self, rng, section):
        """A section with an item less, twice, or in the place of another. Its count is fixed or
        not."""
        items = section.places.items
        if not items:
            return self.number(rng, section)
        begin, end = rng.choice(items)
        first, last = rng.choice(items)
        form = rng.randrange(3)
        if form == 0:
            data, more = section.data[:begin] + section.data[end:], -1
        elif form == 1:
            data, more = section.data[:end] + section.data[first:last] + section.data[end:], 1
        else:
            data, more = section.data[:begin] + section.data[first:last] + section.data[end:], 0
        count = len(items) + (more if rng.random() < 0.8 else 0)
        return wasm.unsigned(count) + data[section.places.numbers[0][1] :]

    def count(self, rng, section):
        """A section that claims to have more items, or fewer."""
        if not section.places.items:
            return self.number(rng, section)
        _, end = section.places.numbers[0]
        count = len(section.places.items) + rng.choice([-1, 1, 1, 2, 100])
        if rng.random() < 0.5:
            count = rng.choice(EDGES)
        return wasm.unsigned(max(count, 0)) + section.data[end:]

    def inside(self, rng, section):
        """A section with some bytes changed."""
        return mangled(rng, section.data, section.data)

    def section(self, rng, module):
        """A module with a change in one section or a few."""
        sections = [(it.kind, it.data) for it in module.sections]
        acts = [self.number, self.operand, self.instruction, self.item, self.count, self.inside]
        count = min(rng.choice([1, 1, 1, 2, 3]), len(sections))
        for place in rng.sample(range(len(sections)), count):
            section = module.sections[place]
            sections[place] = section.kind, rng.choice(acts)(rng, section)
        return joined(sections)

    def code(self, rng, module):
        """A module with a change in its code."""
        sections = [(it.kind, it.data) for it in module.sections]
        for place, section in enumerate(module.sections):
            if section.kind == CODE:
                act = rng.choice([self.instruction, self.operand])
                sections[place] = CODE, act(rng, section)
        return joined(sections)

    def order(self, rng, module):
        """A module with its sections in another order, or with more, fewer or other ones."""
        sections = [(it.kind, it.data) for it in module.sections]
        place, other = rng.randrange(len(sections)), rng.randrange(len(sections))
        form = rng.randrange(6)
        if form == 0:
            sections[place], sections[other] = sections[other], sections[place]
        elif form == 1:
            del sections[place]
        elif form == 2:
            sections.insert(other, sections[place])
        elif form == 3:
            sections.insert(place, (CUSTOM, rng.randbytes(rng.choice([0, 1, 5, 100]))))
        else:
            foreign = rng.choice(rng.choice(self.modules).sections)
            same = [at for at, it in enumerate(sections) if it[0] == foreign.kind]
            if same and form == 4:
                sections[same[0]] = foreign.kind, foreign.data
            else:
                sections[place] = foreign.kind, foreign.data
        if rng.random() < 0.1:
            kind, data = sections[-1]
            sections[-1] = rng.choice([kind, 12, 13, 127, 255]), data
        return joined(sections)

    def bytes(self, rng, module):
        """A module with some bytes changed."""
        return mangled(rng, module.data, rng.choice(self.modules).data)

    def size(self, rng, module):
        """A module in which a section claims another size."""
        place = rng.randrange(len(module.sections))
        parts = [bytes([it.kind]) + wasm.sized(it.data) for it in module.sections]
        section = module.sections[place]
        size = max(len(section.data) + rng.choice([-1, 1, -2, 2, 1_000]), 0)
        data = wasm.unsigned(rng.choice([size, size, rng.choice(EDGES)]))
        if rng.random() < 0.3:
            data = longer(len(section.data), rng.choice(LONGER))
        parts[place] = bytes([section.kind]) + data + section.data
        return module.data[:8] + b"".join(parts)

    def changed(self, rng):
        """Some module, and its bytes after a change or several."""
        module, = rng.choices(self.modules, self.weights)
        data = rng.choice(self.acts)(rng, module)
        if rng.random() < 0.05:
            data = mangled(rng, data, rng.choice(self.modules).data)
        return module, data


def mangled(rng, data, other):
    """Bytes with a few of them changed, added, or left out, or some of others among them."""
    data = bytearray(data)
    for _ in range(rng.choice([1, 1, 1, 2, 3, 8])):
        if not data:
            return rng.randbytes(4)
        form, place = rng.randrange(10), rng.randrange(len(data))
        if form < 2:
            data[place] ^= 1 << rng.randrange(8)
        elif form < 4:
            data[place] = rng.choice(BYTES)
        elif form < 6:
            data[place] = rng.randrange(256)
        elif form == 6:
            data[place:place] = rng.randbytes(rng.choice([1, 1, 2, 4, 9, 64]))
        elif form == 7:
            del data[place : place + rng.choice([1, 1, 2, 4, 9, 64, len(data)])]
        elif form == 8:
            begin = rng.randrange(len(other))
            part = other[begin : begin + rng.choice([1, 4, 16, 256])]
            data[place : place + rng.choice([0, len(part)])] = part
        else:
            data[place:] = other[rng.randrange(len(other)) :]
    return bytes(data)
