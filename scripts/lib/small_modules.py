"""Small modules: some that are refused, each with its fault, and some that trap. They are spelled
by the grammar of the first standard, and by no code."""
import struct

from lib import wasm_bytes as wasm

# The sections of a module, in order.
SECTIONS = {"types": 1, "imports": 2, "functions": 3, "tables": 4, "memories": 5, "globals": 6,
            "exports": 7, "elements": 9, "bodies": 10, "data": 11}

NOTHING, TAKES_ONE = wasm.function_type([], []), wasm.function_type([wasm.I32], [])
START, MEMORY = wasm.exported(b"_start", 0, 0), wasm.exported(b"memory", 2, 0)

I32_DIV_S, I32_LOAD = b"\x6d", b"\x28"


def pages(count):
    """A memory that begins with so many pages."""
    return [b"\x00" + wasm.unsigned(count)]


def behind(place):
    """Where a segment of the table or of the memory begins."""
    return b"\x00" + wasm.i32(place) + wasm.END


def small(code=b"", **parts):
    """The least accepted module with a code as its `_start`, and with other items in some of its
    sections."""
    items = {"types": [NOTHING], "functions": [wasm.unsigned(0)], "memories": pages(1),
             "exports": [START, MEMORY], "bodies": [wasm.function_body([], code)], **parts}
    return wasm.module_bytes([(it, items.get(name, [])) for name, it in SECTIONS.items()])


# The least accepted module: 50 bytes, whose `_start` does nothing.
LEAST = bytes.fromhex(
    "0061736d01000000 010401600000 03020100 0503010001"
    "071302065f737461727400 00066d656d6f72790200 0a040102000b")
assert small() == LEAST


def imports(name):
    """A module that imports a call without parameters and results."""
    start = wasm.exported(b"_start", 0, 1)
    return small(imports=[wasm.imported_function(name, 0)], exports=[start, MEMORY])


def calls_from_table(code, **parts):
    """A module with a table of one place, and a code that calls from it."""
    return small(code, tables=[b"\x70\x00\x01"], **parts)


def called(place, kind):
    """Calls the function of a place of the table, of a type."""
    return wasm.i32(place) + wasm.CALL_INDIRECT + wasm.unsigned(kind) + b"\x00"


# What comes after the place of floats.
HINT = "; in C printf has floats, but not with -lc-printscan-no-floating-point\n"

F32, F64, F64_ADD = 0x7D, 0x7C, b"\xa0"
GIVES_F64 = wasm.function_type([], [F64])


def name_of(number, name):
    """A section with the name of one function."""
    names = wasm.vector([wasm.unsigned(number) + wasm.sized(name)])
    return b"\x00" + wasm.sized(wasm.sized(b"name") + b"\x01" + wasm.sized(names))


def import_of(module, name, number=0):
    """An import of a function by its two names, with the index of its type."""
    return wasm.sized(module) + wasm.sized(name) + b"\x00" + wasm.unsigned(number)


# Modules with what `check` says of them: the fault, its place if it has one, and the second line,
# where there is one.
REFUSED = [
    (b"", "B1 Malformed", 0),
    # More types than the bytes of their section.
    (b"\0asm\x01\0\0\0" + bytes.fromhex("0105ffffffff0f"), "B1 Malformed", 15),
    # Instructions that came later: a null reference, and two that name a segment or a table.
    (small(b"\xd0\x70" + wasm.DROP), "B1 Malformed", 49),
    (small(wasm.i32(0) * 3 + b"\xfc\x08\x00\x00"), "B1 Malformed", 56),
    (small(wasm.i32(0) * 3 + b"\xfc\x8c\x80\x00\x00\x00"), "B1 Malformed", 56),
    # A count of data segments, which came later too.
    (LEAST[:44] + b"\x0c\x01\x00" + LEAST[44:], "B1 Malformed", 44),
    (small(bodies=[wasm.sized(b"\x01\x01\x7d" + wasm.END)]), "B2 Float", 50,
     "f32 in function 0" + HINT),
    (small(F64_ADD), "B2 Float", 49, "f64.add in function 0" + HINT),
    # Behind all other sections is one with the name of the function, or with none that is printed.
    (small(F64_ADD) + name_of(0, b"compute"), "B2 Float", 49,
     "f64.add in function 0 (compute)" + HINT),
    (small(F64_ADD) + name_of(1, b"compute"), "B2 Float", 49, "f64.add in function 0" + HINT),
    (small(F64_ADD) + name_of(0, b"two\nlines"), "B2 Float", 49, "f64.add in function 0" + HINT),
    # A section of one import has 37 bytes, and the function after it is number 1.
    (small(F64_ADD, imports=[wasm.imported_function(b"fd_close", 0)]), "B2 Float", 86,
     "f64.add in function 1" + HINT),
    (small(types=[NOTHING, GIVES_F64]), "B2 Float", 17, "f64 in type 1 of no function" + HINT),
    # Functions 1 and 2 have the type.
    (small(types=[NOTHING, GIVES_F64], functions=[b"\x00", b"\x01", b"\x01"],
           bodies=[wasm.function_body([], b"")] * 3),
     "B2 Float", 17, "f64 in type 1 of function 1" + HINT),
    # Behind two imports function 2 is the module's own.
    (small(types=[NOTHING, GIVES_F64], imports=[import_of(b"env", b"f"), import_of(b"env", b"g")],
           functions=[b"\x01"]),
     "B2 Float", 17, "f64 in type 1 of function 2" + HINT),
    # A memory is imported before two functions with the type, and the module has one more.
    (small(types=[NOTHING, GIVES_F64], functions=[b"\x01"], memories=[],
           imports=[import_of(b"env", b"f"), wasm.sized(b"env") + wasm.sized(b"m") + b"\x02\x00\x01",
                    import_of(b"env", b"sin", 1), import_of(b"env", b"cos", 1)]),
     "B2 Float", 17, "f64 in type 1 of function 1, import env.sin" + HINT),
    # A section that ends beyond the bytes, so it isn't known which functions there are.
    (small(types=[NOTHING, GIVES_F64])[:-1], "B2 Float", 17, "f64 in type 1" + HINT),
    (small(globals=[bytes([F32]) + b"\x00"]), "B2 Float", 26, "f32 in the global section" + HINT),
    (small(wasm.i32(1) + wasm.IF + bytes([wasm.I32]) + wasm.i32(1) + wasm.END + wasm.DROP),
     "V1 Typing", None),
    (small(wasm.CALL + wasm.unsigned(1)), "V2 Index", None),
    (small(wasm.i32(0) * 3 + wasm.MEMORY_COPY, memories=[], exports=[START]), "V2 Index", None),
    (small(wasm.i32(0) * 3 + wasm.MEMORY_FILL, memories=[], exports=[START]), "V2 Index", None),
    (small(wasm.i32(0) + I32_LOAD + b"\x03\x00" + wasm.DROP), "V3 Limits", None),
    (small(exports=[START, MEMORY, MEMORY]), "V4 DuplicateExport", None),
    (small(exports=[MEMORY]), "L1 NoStart", None),
    (small(types=[TAKES_ONE]), "L1 NoStart", None),
    (small(exports=[START]), "L2 NoMemory", None),
    (imports(b"sock_accept"), "L3 UnknownImport", None,
     "import wasi_snapshot_preview1.sock_accept isn't one of the 31 calls\n"),
    (imports(b"fd_close"), "L4 ImportType", None,
     "import wasi_snapshot_preview1.fd_close has another type than this call\n"),
    (small(data=[behind(65_536) + wasm.sized(b"a")]), "L5 InitRange", None),
    (calls_from_table(b"", elements=[behind(1) + wasm.vector([wasm.unsigned(0)])]),
     "L5 InitRange", None),
    (small(memories=pages(257)), "L6 TooManyPages", None,
     "begins with 257 pages, and a worker has at most 256\n"),
]

# Modules with instructions of edition 2.0 that exit with 0, and after how many steps.
EXITS = [
    (small(wasm.i32(128) + b"\xc0" + wasm.DROP), 3),
    (small(wasm.i32(0) * 3 + wasm.MEMORY_COPY), 4),
    # The number after the prefix in three bytes, and in five.
    (small(wasm.i32(0) * 3 + b"\xfc\x8a\x80\x00\x00\x00"), 4),
    (small(wasm.i32(0) * 3 + b"\xfc\x8b\x80\x80\x80\x00\x00"), 4),
]

A_GLOBAL = bytes([wasm.I32]) + b"\x00" + wasm.i32(0) + wasm.END


def table(entries):
    """A table that begins with so many entries."""
    return [b"\x70\x00" + wasm.unsigned(entries)]


def locals_of(count):
    """A body that declares so many locals in one run, and does nothing."""
    return wasm.sized(b"\x01" + wasm.unsigned(count) + bytes([wasm.I32]) + wasm.END)


# Modules that pass a limit by one (`B3 Limit`), with what there are too many of, where that is
# seen, and in which function if it is in one. It is seen at the count that is too great. Imported
# functions and instructions aren't counted before they are read. There it is the kind of the
# import, or the opcode, that is one too many. Places are counted along the module: LEAST has a
# header of 8 bytes, and sections of 6, 4, 5, 21 and 6.
PAST = [
    # The section's id, a size of two bytes, the count, the entry's size of two bytes, no locals,
    # and 4,096 instructions. The `end` is the one too many.
    (small(wasm.NOP * 4_096),
     "4096 instructions in one expression", 44 + 1 + 2 + 1 + 2 + 1 + 4_096, 0),
    # The id, a size of two bytes, the count, the first type in three bytes, and `60`.
    (small(types=[NOTHING, wasm.function_type([wasm.I32] * 257, [])]),
     "256 parameters in one type", 8 + 1 + 2 + 1 + 3 + 1),
    # The id and a size of two bytes.
    (small(functions=[wasm.unsigned(0)] * 4_097), "4096 functions", 14 + 1 + 2),
    # The id, a size of three bytes, the count in two, 4,096 imports of 34 bytes, and two names of
    # 23 and 9 bytes.
    (small(imports=[wasm.imported_function(b"fd_close", 0)] * 4_097),
     "4096 functions", 14 + 1 + 3 + 2 + 4_096 * 34 + 23 + 9),
    # The id, the size, the count, the entry's size, and how many runs of locals there are.
    (small(bodies=[locals_of(257)]), "256 locals in one function", 44 + 1 + 1 + 1 + 1 + 1, 0),
    # The id, the size, the count, and two bytes: the type, and that there is no maximum.
    (small(tables=table(4_097)), "4096 entries in a new table", 18 + 1 + 1 + 1 + 2),
    # The id and a size of two bytes.
    (small(globals=[A_GLOBAL] * 1_025), "1024 globals", 23 + 1 + 2),
]

def functions(*bodies, **parts):
    """A module whose functions have these bodies, all of the first type."""
    return small(functions=[wasm.unsigned(0)] * len(bodies), bodies=list(bodies), **parts)


ADDS, CUT = wasm.function_body([], F64_ADD), wasm.sized(b"\x00")
UNOFFERED = [wasm.imported_function(b"sock_accept", 0), import_of(b"env", b"sin"),
             wasm.imported_function(b"fd_close", 0)]
NOT_OFFERED = [
    "import wasi_snapshot_preview1.sock_accept isn't one of the 31 calls\n",
    "import env.sin isn't one of the 31 calls\n",
    "import wasi_snapshot_preview1.fd_close has another type than this call\n"]

# Modules with all lines of `check --all` behind the first one's code.
LISTED = [
    (b"", "B1 Malformed at 0", "no more is listed: B1 Malformed at 0\n"),
    # The example of docs/COMMANDS.md. Two imports of 10 bytes: their section has 23, and that of
    # functions 7. So the code is at 8 + 6 + 23 + 7 + 5 + 21. Behind three bytes its entries have 4,
    # 6, 3 and 2.
    (functions(ADDS, locals_of(257), wasm.function_body([], b""), CUT,
               imports=[import_of(b"env", b"sin"), import_of(b"env", b"cos")]),
     "B2 Float at 75", "import env.sin isn't one of the 31 calls\n",
     "import env.cos isn't one of the 31 calls\n", "f64.add in function 2\n",
     "more than 256 locals in one function, at byte 79, in function 3\n",
     "malformed at byte 88, in function 5\n"),
    # Three imports that aren't offered.
    (small(imports=UNOFFERED, exports=[wasm.exported(b"_start", 0, 3), MEMORY]),
     "L3 UnknownImport", *NOT_OFFERED),
    # With a type of floats: the second line is of that, and imports are judged by their names.
    (functions(ADDS, types=[NOTHING, GIVES_F64], imports=UNOFFERED,
               exports=[wasm.exported(b"_start", 0, 3), MEMORY]),
     "B2 Float at 17", "f64 in type 1 of no function" + HINT, *NOT_OFFERED[:2],
     "f64.add in function 3\n"),
    # Faults elsewhere are told as without `--all`.
    (small(globals=[A_GLOBAL] * 1_025), "B3 Limit", "more than 1024 globals, at byte 26\n"),
    (small(memories=pages(257)), "L6 TooManyPages",
     "begins with 257 pages, and a worker has at most 256\n"),
    (small(wasm.CALL + wasm.unsigned(1)), "V2 Index"),
    # The second entry's size is beyond its section. The first one is at 8 + 6 + 5 + 5 + 21 + 3.
    (functions(ADDS, b"\x7f"), "B2 Float at 50", "f64.add in function 0\n",
     "no more is listed: B1 Malformed at 52\n"),
]

# Modules at limits, which are accepted.
LARGE = [(small(memories=pages(count)), count) for count in (17, 256)]
ACCEPTED = [
    LEAST,
    small(wasm.NOP * 4_095),
    *(module for module, _ in EXITS),
    small(types=[NOTHING, wasm.function_type([wasm.I32] * 256, [])]),
    small(functions=[wasm.unsigned(0)] * 4_096, bodies=[wasm.function_body([], b"")] * 4_096),
    small(bodies=[locals_of(256)]),
    small(tables=table(4_096)),
    small(globals=[A_GLOBAL] * 1_024),
    small(memories=pages(16)),
    small(data=[behind(65_535) + wasm.sized(b"a")]),
    calls_from_table(b"", elements=[behind(0) + wasm.vector([wasm.unsigned(0)])]),
]

# As many frames as a run tells of a worker that has trapped.
TOLD_FRAMES = 32


def frame_lines(frames):
    """What a run says of frames, the innermost one first: of each the number of its function, the
    position of an opcode in the body, and a name or none."""
    lines = [f"at function {number}{f' ({name})' if name else ''}, opcode {position}\n"
             for number, position, name in frames]
    told, more = "".join(lines[:TOLD_FRAMES]), len(lines) - TOLD_FRAMES
    return told + (f"and {more} more frame{'s' * (more > 1)}\n" if more > 0 else "")


def first_at(position):
    """The frames of a module whose only function traps at this opcode."""
    return [(0, position, None)]


# The traps by their numbers, from 1 on: the name, a module that comes to it, after how many steps,
# and its frames. The step that traps counts.
TRAPS = [
    ("unreachable", small(wasm.UNREACHABLE), 1, first_at(0)),
    ("integer divide by zero", small(wasm.i32(1) + wasm.i32(0) + I32_DIV_S + wasm.DROP), 3,
     first_at(2)),
    ("integer overflow", small(wasm.i32(-(1 << 31)) + wasm.i32(-1) + I32_DIV_S + wasm.DROP), 3,
     first_at(2)),
    ("out of bounds memory access", small(wasm.i32(-1) + I32_LOAD + b"\x02\x01" + wasm.DROP), 2,
     first_at(1)),
    ("undefined element", calls_from_table(called(1, 0)), 2, first_at(1)),
    ("uninitialized element", calls_from_table(called(0, 0)), 2, first_at(1)),
    ("indirect call type mismatch", calls_from_table(
        wasm.i32(0) + called(0, 1), types=[NOTHING, TAKES_ONE],
        elements=[behind(0) + wasm.vector([wasm.unsigned(0)])]), 3, first_at(2)),
    # The call that would make frame 513.
    ("stack exhausted", small(wasm.CALL + wasm.unsigned(0)), 512, first_at(0) * 512),
]

# Where `ASKS` keeps its times, its random bytes and their newline, and the count of what it wrote.
TIMES, BYTES, NEWLINE, WRITTEN = 100, 116, 121, 24


def asks():
    """A module that looks at both clocks, draws five random bytes, and writes all that as a line:
    its three answers in 4, 9 and 13 steps, the line in 19, and 20 in all."""
    def call(number, *arguments):
        return b"".join(arguments) + wasm.CALL + wasm.unsigned(number) + wasm.DROP

    code = call(0, wasm.i32(0), wasm.i64(0), wasm.i32(TIMES))
    code += call(0, wasm.i32(1), wasm.i64(0), wasm.i32(TIMES + 8))
    code += call(1, wasm.i32(BYTES), wasm.i32(5))
    code += call(2, wasm.i32(1), wasm.i32(0), wasm.i32(1), wasm.i32(WRITTEN))
    kinds = [[wasm.I32, wasm.I64, wasm.I32], [wasm.I32] * 2, [wasm.I32] * 4]
    names = [b"clock_time_get", b"random_get", b"fd_write"]
    iovec = struct.pack("<II", TIMES, NEWLINE + 1 - TIMES)
    return small(
        types=[NOTHING, *(wasm.function_type(it, [wasm.I32]) for it in kinds)],
        imports=[wasm.imported_function(*it) for it in zip(names, (1, 2, 3))],
        exports=[wasm.exported(b"_start", 0, 3), MEMORY],
        bodies=[wasm.function_body([], code)],
        data=[behind(0) + wasm.sized(iovec), behind(NEWLINE) + wasm.sized(b"\n")])


def memory_of_asks(text=None):
    """The memory of that module after its line, or at its start."""
    memory = bytearray(65_536)
    memory[:8] = struct.pack("<II", TIMES, NEWLINE + 1 - TIMES)
    memory[NEWLINE] = ord("\n")
    if text is not None:
        memory[WRITTEN : WRITTEN + 4] = struct.pack("<I", len(text) + 1)
        memory[TIMES:NEWLINE] = text
    return bytes(memory)


# Where `flood` has the number of bytes that its first call wrote, with a newline after it, and
# where the bytes of that call begin. Both calls name theirs by an iovec, at 0 and after that.
TOLD, FLOOD = 16, 64


def flood_memory(count):
    """The two pages of memory with which `flood` begins."""
    first = struct.pack("<5I", FLOOD, count, TOLD, 5, 0) + b"\n"
    memory = first + bytes(32 - len(first)) + struct.pack("<II", 40, 8) + bytes(24)
    return memory + b"\n" * count + bytes(2 * 65_536 - FLOOD - count)


def flood(count):
    """A module that writes so many newlines by one call, in its step 5. Then it writes what that
    call gave it, four bytes and a newline, in step 11, and asks for a request after step 16."""
    def call(number, *arguments):
        return b"".join(map(wasm.i32, arguments)) + wasm.CALL + wasm.unsigned(number) + wasm.DROP

    code = call(0, 1, 0, 1, TOLD) + call(0, 1, 8, 1, 24) + call(1, 0, 32, 1, 28)
    names = [b"fd_write", b"fd_read"]
    return small(
        types=[NOTHING, wasm.function_type([wasm.I32] * 4, [wasm.I32])],
        imports=[wasm.imported_function(name, 1) for name in names], memories=pages(2),
        exports=[wasm.exported(b"_start", 0, 2), MEMORY],
        bodies=[wasm.function_body([], code)],
        data=[behind(0) + wasm.sized(flood_memory(count)[: FLOOD + count])])


# Where `draws` has the letter that it prints, with its newline, and its random bytes.
LETTER, DRAWN = 16, 64


def memory_of_draws(letter=b"\0"):
    """The memory of `draws` with its letter, behind its line, or at its start."""
    memory = struct.pack("<III", LETTER, 2, 2 if letter != b"\0" else 0) + bytes(4)
    memory += letter + b"\n"
    return memory + bytes(65_536 - len(memory))


def draws(length):
    """A module that draws so many random bytes, in its step 4, and prints the letter of the error
    of that call, `0` behind so many. It does so in step 12, and ends with step 13."""
    code = wasm.i32(LETTER) + wasm.i32(DRAWN) + wasm.i32(length) + wasm.CALL + wasm.unsigned(0)
    code += wasm.i32(ord("0")) + wasm.I32_ADD + wasm.STORE_8 + b"\x00"
    code += b"".join(map(wasm.i32, (1, 0, 1, 8))) + wasm.CALL + wasm.unsigned(1) + wasm.DROP
    kinds = [wasm.function_type([wasm.I32] * count, [wasm.I32]) for count in (2, 4)]
    return small(
        types=[NOTHING, *kinds],
        imports=[wasm.imported_function(*it) for it in ((b"random_get", 1), (b"fd_write", 2))],
        exports=[wasm.exported(b"_start", 0, 2), MEMORY],
        bodies=[wasm.function_body([], code)],
        data=[behind(0) + wasm.sized(memory_of_draws()[: LETTER + 2])])


def endless():
    """A module that never asks, and never ends."""
    return small(wasm.LOOP + bytes([wasm.EMPTY]) + b"\x0c\x00" + wasm.END)
