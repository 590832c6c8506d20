"""Guests that fill their memory, or take many steps, for scripts that measure them."""
from lib import wasm_bytes as wasm
from lib.guest_runs import ECHO
from lib.small_modules import MEMORY, NOTHING, behind, pages, small

PAGE = 65_536

# How many steps a turn of the loop takes.
STEPS_A_TURN = 7

# The loop of `echo`, and its data: where the text is read to, and what is written.
LOOP, DATA = ECHO[-66:-21], ECHO[-12:]

# Where the guest's own bytes end.
FILLED_FROM = 8_192


def turns_of(count):
    """Code that counts down in the first local."""
    local = wasm.unsigned(0)
    turn = wasm.NOP * 2 + wasm.LOCAL_GET + local + wasm.i32(1) + wasm.I32_SUB
    turn += wasm.LOCAL_TEE + local + wasm.BR_IF + wasm.unsigned(0) + wasm.END
    return wasm.i32(count) + wasm.LOCAL_SET + local + wasm.LOOP + bytes([wasm.EMPTY]) + turn


def counting(turns):
    """A module that counts down, in seven steps a turn."""
    return small(bodies=[wasm.function_body([wasm.I32], turns_of(turns))])


def filling(count, turns=1):
    """`echo`, which first fills its memory of so many pages, and counts down."""
    fill = wasm.i32(FILLED_FROM) + wasm.i32(7) + wasm.i32(count * PAGE - FILLED_FROM)
    names = [b"fd_read", b"fd_write"]
    return small(
        memories=pages(count), types=[NOTHING, wasm.function_type([wasm.I32] * 4, [wasm.I32])],
        imports=[wasm.imported_function(name, 1) for name in names],
        exports=[wasm.exported(b"_start", 0, 2), MEMORY], data=[behind(0) + wasm.sized(DATA)],
        bodies=[wasm.function_body([wasm.I32], fill + wasm.MEMORY_FILL + turns_of(turns) + LOOP)])
