"""Scenes of workers that trap, for `program-rows`: what a run says of their frames. The positions
were counted along the modules by hand, by docs/WORKERS.md."""
import os
import struct

from lib import wasm_bytes as wasm
from lib.disk_steps import LEAST
from lib.folder_scenes import Act, Between, Step, moved
from lib.small_modules import I32_DIV_S, MEMORY, NOTHING, TRAPS, behind, frame_lines, small
from model.disk_form import Form

# ---- guests

# Both words of an `if` count, and its `else` and `end`: these are opcodes 0 to 5.
CHOICE = (wasm.i32(1) + wasm.IF + bytes([wasm.EMPTY]) + wasm.NOP + wasm.ELSE + wasm.NOP + wasm.END)
CHOICE_LENGTH = 6
# The same of code by which a function has no register code.
UNTRANSLATED_LENGTH = 2 + 2 * wasm.MANY_OPERANDS + 1

# `random_get` is function 0. Then come `_start`, one that it calls, and one that divides by zero.
START, MIDDLE, DIVIDE = 1, 2, 3
DIVISION = wasm.i32(1) + wasm.i32(0) + I32_DIV_S + wasm.DROP


def module(*custom, inner=b"", outer=b""):
    """The module of these functions, with custom sections behind all others, and with some code
    before the division and before the call in between."""
    bodies = [wasm.NOP + wasm.CALL + wasm.unsigned(MIDDLE),
              outer + CHOICE + wasm.CALL + wasm.unsigned(DIVIDE), inner + DIVISION]
    return small(
        types=[NOTHING, wasm.function_type([wasm.I32] * 2, [wasm.I32])],
        imports=[wasm.imported_function(b"random_get", 1)],
        functions=[wasm.unsigned(0)] * len(bodies),
        exports=[wasm.exported(b"_start", 0, START), MEMORY],
        bodies=[wasm.function_body([], code) for code in bodies]) + b"".join(custom)


def chain(count):
    """A module of so many functions. Each one calls the next, and the last one traps."""
    codes = [wasm.CALL + wasm.unsigned(number) for number in range(1, count)] + [wasm.UNREACHABLE]
    return small(functions=[wasm.unsigned(0)] * count,
                 bodies=[wasm.function_body([], code) for code in codes])


def frames(divide=None, middle=None, start=None, inner=0, outer=0):
    """The frames of that trap, where functions have these names, and so many opcodes come before
    the division and before the call in between."""
    return [(DIVIDE, inner + 2, divide), (MIDDLE, outer + CHOICE_LENGTH, middle), (START, 1, start)]


# ---- name sections

def subsection(number, body):
    """A subsection of a name section, from its bytes."""
    return bytes([number]) + wasm.sized(body)


def entries(names):
    """The map of some functions to their names."""
    return wasm.vector([wasm.unsigned(number) + wasm.sized(name) for number, name in names])


def named(*names, title=b"name", before=b""):
    """A name section with this map, and with other subsections before it."""
    return b"\x00" + wasm.sized(wasm.sized(title) + before + subsection(1, entries(names)))


ALL = [(0, b"random_get"), (START, b"_start"), (MIDDLE, b"middle"), (DIVIDE, b"divide(int, int)")]
WORDS = "divide(int, int)", "middle", "_start"
LONGEST = b"n" * 256


def only_divide(name):
    """The module with a name of one function."""
    return module(named((DIVIDE, name)))


# Modules that divide by zero, by what is special about each, with their frames.
DIVIDING = [
    ("no names", module(), frames()),
    ("names of all functions", module(named(*ALL)), frames(*WORDS)),
    ("other sections and subsections before the names", module(
        b"\x00" + wasm.sized(wasm.sized(b"producers") + b"\x00"),
        named(*ALL, before=subsection(0, wasm.sized(b"app")))), frames(*WORDS)),
    ("a function without a name", module(named(*ALL[:3])), frames(None, *WORDS[1:])),
    ("the longest name", only_divide(LONGEST), frames(LONGEST.decode())),
    ("too long a name", only_divide(LONGEST + b"n"), frames()),
    ("an empty name", only_divide(b""), frames()),
    ("an escape sequence in a name", only_divide(b"\x1b[31mred"), frames()),
    ("a newline in a name", only_divide(b"two\nlines"), frames()),
    ("a delete in a name", only_divide(b"a\x7f"), frames()),
    ("a letter that isn't ASCII in a name", only_divide("é".encode()), frames()),
    ("a bad name among good ones", module(named(*ALL[:2], (MIDDLE, b"\x1b[2J"), ALL[3])),
     frames(WORDS[0], None, WORDS[2])),
    # Behind number 3 no lower one counts.
    ("numbers that fall", module(named(ALL[3], *ALL[1:3])), frames(WORDS[0])),
    ("a first name that isn't UTF-8", module(named((0, b"\xff"), *ALL[1:])), frames()),
    ("a subsection that ends beyond its section", module(b"\x00" + wasm.sized(
        wasm.sized(b"name") + b"\x01" + wasm.unsigned(90) + entries(ALL))), frames()),
    ("a section of another name", module(named(*ALL, title=b"names")), frames()),
    # Bodies without register code run opcode by opcode.
    ("a division by opcodes", module(named(*ALL), inner=wasm.UNTRANSLATED),
     frames(*WORDS, inner=UNTRANSLATED_LENGTH)),
    ("a call by opcodes", module(outer=wasm.UNTRANSLATED), frames(outer=UNTRANSLATED_LENGTH)),
]

# All modules that trap: what is special, the trap, the module and its frames.
TRAPPING = [
    *((why, "integer divide by zero", code, places) for why, code, places in DIVIDING),
    *((f"{count} frames", "unreachable", chain(count),
       [(number, 0, None) for number in reversed(range(count))]) for count in (1, 32, 33, 34)),
    *((f"a module for {name}", name, code, places) for name, code, _, places in TRAPS),
]

# Each module by its number.
MODULES = {f"{number}.wasm": code for number, (_, _, code, _) in enumerate(TRAPPING)}

# Slices of many steps, of one step, and checkpoints between them.
PACES = [], ["--fuel", "1"], ["--fuel", "3", "--every", "1"]


def scene(number, why, name, code, places):
    """A worker traps in its first run, at each pace. A later run has no frames to tell: then the
    worker is made of what is on its disk."""
    words, steps = f"trapped {name}\n", []
    for pace in PACES:
        disk = f"{len(pace)}.disk"
        steps += [
            Step(["create", disk, f"{number}.wasm", *LEAST], changes=(disk,),
                 out=f"created {Form(code, 1, 1, 64).total} sectors\n"),
            Step(["run", disk, *pace], err=words + frame_lines(places), changes=(disk,)),
            Step(["run", disk], err=words, changes=(disk,))]
    return f"a trap: {why}", steps


# The least worker that can be upgraded.
WIDE = [*LEAST[:-1], "133"]

# A worker that traps in an upgrade. That tells no frames, and a later run has none to tell.
UPGRADED = ("a trap in an upgrade", [
    Step(["create", "wide.disk", "0.wasm", *WIDE], out=None, changes=("wide.disk",)),
    Step(["upgrade", "wide.disk"], out="upgraded\n", changes=("wide.disk",)),
    Step(["run", "wide.disk"], err="trapped integer divide by zero\n", changes=("wide.disk",))])


# ---- a path that another disk gets

# `fd_read` is function 0, and `_start` asks it for a request before it divides: opcodes 0 to 5 ask.
READS, ASKING = 1, b"".join(wasm.i32(it) for it in (0, 0, 1, 8)) + wasm.CALL + b"\x00" + wasm.DROP


def reading(name):
    """The module that traps once it has a request, with a name of its function."""
    return small(
        types=[NOTHING, wasm.function_type([wasm.I32] * 4, [wasm.I32])],
        imports=[wasm.imported_function(b"fd_read", 1)],
        exports=[wasm.exported(b"_start", 0, READS), MEMORY],
        bodies=[wasm.function_body([], ASKING + DIVISION)],
        data=[behind(0) + wasm.sized(struct.pack("<II", 64, 16))]) + named((READS, name))


MODULES |= {"first.wasm": reading(b"first"), "second.wasm": reading(b"second")}


def exchanged(why, act):
    """A worker traps after something was done with the path of its disk. Its frame has the name
    that its own module gives."""
    told = "recovered generation 2 at step 0, replayed 0 steps, next request 1\n"
    disks = "disk", "other"
    made = [Step(["create", disk, f"{number}.wasm", *LEAST], out=None, changes=(disk,))
            for disk, number in zip(disks, ("first", "second"))]
    return f"a trap: {why}", [*made, Between(
        Step(["run", "disk", "--verbose"], given=b"1 r a\n",
             err=f"{told}trapped integer divide by zero\n" + frame_lines([(READS, 8, "first")])),
        act)]


EXCHANGED = [
    exchanged("its disk has another name", moved("disk", "moved")),
    exchanged("another worker's disk is at its path", moved("other", "disk")),
    exchanged("no disk is at its path", moved("first.wasm", "disk")),
    exchanged("a FIFO is at its path", Act(lambda top: (
        os.mkfifo(f"{top}/fifo"), os.replace(f"{top}/fifo", f"{top}/disk")))),
    exchanged("nothing was done", Act(lambda top: None))]

SCENES = [*(scene(number, *row) for number, row in enumerate(TRAPPING)), UPGRADED, *EXCHANGED]
