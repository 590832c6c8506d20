"""The modules that make the calls of a sequence, for `compare-calls` and `file-rows`."""
import struct

from lib import wasm_bytes as wasm
from lib.call_sequences import COUNTER, PRINTER, make
from model.host_model import PARAMETERS, UNIT, integer

# Units of 65,536 bytes that the program gives to all files.
FILE_UNITS = 16

# Where the printer keeps a result, its iovec, the count that it is given, and its digits.
RECORD, IOVEC, WRITTEN, DIGITS = PRINTER[0], PRINTER[0] + 16, PRINTER[0] + 24, PRINTER[0] + 512

# What the sum of memory is multiplied with at each word, and the bytes in a row of memory.
FACTOR, ROW = 1000003, 64

# Steps and results that one function has room for.
STEPS = 64


def local(number):
    """Reads a local."""
    return wasm.LOCAL_GET + wasm.unsigned(number)


def kept(number):
    """Sets a local."""
    return wasm.LOCAL_SET + wasm.unsigned(number)


def looped(code):
    """Repeats code that leaves whether to go on."""
    return wasm.LOOP + bytes([wasm.EMPTY]) + code + wasm.BR_IF + wasm.unsigned(0) + wasm.END


def stored(at, value, opcode=wasm.STORE_32):
    """Stores a value at a fixed address."""
    return wasm.i32(at) + value + opcode + wasm.unsigned(0)


def constant(value, is_long):
    """The constant of a natural number."""
    return wasm.i64(integer(value)) if is_long else wasm.i32(integer(value << 32) >> 32)


class Writer:
    """Writes the module of a sequence.

    It keeps two globals for each step, the error and the sum, and prints a line for each at the
    end. A plain module prints after each call what it shows. One that dumps prints its memory at
    the end.
    """

    def __init__(self, sequence, is_plain=False, dumps=False):
        self.sequence, self.is_plain, self.dumps = sequence, is_plain, dumps
        self.calls = sorted({step.name for step in sequence.steps} | {"fd_write"})
        self.summing, self.printing = len(self.calls), len(self.calls) + 1

    def call(self, number):
        return wasm.CALL + wasm.unsigned(number)

    def summed(self):
        """From nothing: the sum of the memory's words. Locals: place, sum."""
        turn = (local(1) + wasm.i64(FACTOR) + wasm.I64_MUL + local(0)
                + wasm.LOAD_64 + wasm.unsigned(0))
        turn += (wasm.I64_ADD + kept(1) + local(0) + wasm.i32(8) + wasm.I32_ADD
                 + wasm.LOCAL_TEE + wasm.unsigned(0))
        turn += wasm.i32(self.sequence.pages * UNIT) + wasm.I32_LT_U
        return wasm.function_body([wasm.I32, wasm.I64], looped(turn) + local(1))

    def printer(self):
        """Prints bytes as a line. Parameters: address, count. Locals: end of the digits, a
        digit."""
        def digit(value, offset):
            code = (local(2) + value + wasm.LOCAL_TEE + wasm.unsigned(3)
                    + wasm.i32(ord("0")) + wasm.I32_ADD)
            code += (local(3) + wasm.i32(9) + wasm.I32_GT_U
                     + wasm.i32(ord("a") - ord("9") - 1) + wasm.I32_MUL)
            return code + wasm.I32_ADD + wasm.STORE_8 + wasm.unsigned(offset)

        byte = local(0) + wasm.LOAD_8 + wasm.unsigned(0)
        turn = (digit(byte + wasm.i32(4) + wasm.I32_SHR_U, 0)
                + digit(byte + wasm.i32(15) + wasm.I32_AND, 1))
        for number, step in [(2, 2), (0, 1)]:
            turn += local(number) + wasm.i32(step) + wasm.I32_ADD + kept(number)
        turn += local(1) + wasm.i32(1) + wasm.I32_SUB + wasm.LOCAL_TEE + wasm.unsigned(1)
        code = (wasm.i32(DIGITS) + kept(2) + local(1) + wasm.IF
                + bytes([wasm.EMPTY]) + looped(turn) + wasm.END)
        code += (local(2) + wasm.i32(ord("\n")) + wasm.STORE_8 + wasm.unsigned(0)
                 + stored(IOVEC, wasm.i32(DIGITS)))
        code += stored(IOVEC + 4, local(2) + wasm.i32(DIGITS - 1) + wasm.I32_SUB)
        code += b"".join(wasm.i32(it) for it in (self.sequence.reporter, IOVEC, 1, WRITTEN))
        code += self.call(self.calls.index("fd_write")) + wasm.DROP
        return wasm.function_body([wasm.I32, wasm.I32], code)

    def called(self, step):
        """Makes the calls of a step, and leaves its error. Locals: turn, errors so far."""
        kinds = [it.endswith(":l") for it in PARAMETERS[step.name].split()]
        code = (b"".join(constant(*it) for it in zip(step.arguments, kinds))
                + self.call(self.calls.index(step.name)))
        if step.times == 1:
            return code
        turn = b""
        if step.is_counted:
            second = local(0) + wasm.i32(31) + wasm.I32_AND + wasm.i32(8) + wasm.I32_SHL
            first = local(0) + wasm.i32(5) + wasm.I32_SHR_U + wasm.i32(0x4141) + wasm.I32_ADD
            turn = stored(COUNTER, first + second + wasm.I32_ADD, wasm.STORE_16)
        turn += local(1) + wasm.i32(33) + wasm.I32_MUL + code + wasm.I32_ADD + kept(1)
        turn += (local(0) + wasm.i32(1) + wasm.I32_ADD + wasm.LOCAL_TEE
                 + wasm.unsigned(0) + wasm.i32(step.times))
        return ((wasm.i32(0) + kept(0) + wasm.i32(0) + kept(1) + looped(turn + wasm.I32_LT_U))
                + local(1))

    def printed(self, at, length):
        return wasm.i32(at) + wasm.i32(length) + self.call(self.printing)

    def made(self, place, step):
        """A step, and what is kept or shown after it."""
        if self.is_plain:
            code = stored(RECORD, self.called(step)) + self.printed(RECORD, 4)
            return code + b"".join(self.printed(*it) for it in step.shown)
        code = self.called(step) + wasm.GLOBAL_SET + wasm.unsigned(2 * place)
        if self.dumps:
            return code
        return code + self.call(self.summing) + wasm.GLOBAL_SET + wasm.unsigned(2 * place + 1)

    def reported(self, place):
        """Prints what was kept of a step."""
        error, total = [wasm.GLOBAL_GET + wasm.unsigned(2 * place + it) for it in (0, 1)]
        return (stored(RECORD, error) + stored(RECORD + 4, total, wasm.STORE_64)
                + self.printed(RECORD, 12))

    def dumped(self):
        """Prints all rows of memory. Locals: place."""
        turn = local(0) + wasm.i32(ROW) + self.call(self.printing)
        turn += local(0) + wasm.i32(ROW) + wasm.I32_ADD + wasm.LOCAL_TEE + wasm.unsigned(0)
        return looped(turn + wasm.i32(self.sequence.pages * UNIT) + wasm.I32_LT_U)

    def parts(self):
        """The bodies of the functions that `_start` calls in turn."""
        codes = [self.made(*it) for it in enumerate(self.sequence.steps)]
        if self.dumps:
            codes += [self.printed(0, 0), self.dumped()]
        elif not self.is_plain:
            codes += ([self.printed(0, 0)]
                      + [self.reported(place) for place in range(len(self.sequence.steps))])
        bodies = [b"".join(codes[at : at + STEPS]) for at in range(0, len(codes), STEPS)]
        return [wasm.function_body([wasm.I32, wasm.I32], body) for body in bodies]

    def written(self):
        """The bytes of the module."""
        kind = lambda parameter: wasm.I64 if parameter.endswith(":l") else wasm.I32
        types = [([kind(it) for it in PARAMETERS[name].split()], [wasm.I32]) for name in self.calls]
        types += [([], [wasm.I64]), ([wasm.I32, wasm.I32], []), ([], [])]
        parts, nothing = self.parts(), len(types) - 1
        start = b"".join(self.call(self.printing + 1 + place) for place in range(len(parts)))
        bodies = [self.summed(), self.printer(), *parts, wasm.function_body([], start)]
        zeros = [bytes([wasm.I32, 1]) + wasm.i32(0) + wasm.END,
                 bytes([wasm.I64, 1]) + wasm.i64(0) + wasm.END]
        return wasm.module_bytes([
            (1, [wasm.function_type(*it) for it in types]),
            (2, [wasm.imported_function(name.encode(), number)
                 for number, name in enumerate(self.calls)]),
            (3, [wasm.unsigned(min(self.summing + place, nothing))
                 for place in range(len(bodies))]),
            (5, [b"\x00" + wasm.unsigned(self.sequence.pages)]),
            (6, zeros * len(self.sequence.steps)),
            (7, [wasm.exported(b"memory", 2, 0),
                 wasm.exported(b"_start", 0, self.printing + 1 + len(parts))]),
            (10, bodies),
            (11, [b"\x00" + wasm.i32(at) + wasm.END + wasm.sized(data)
                  for at, data in self.sequence.data]),
        ])


def shown_lines(sequence):
    """What a plain module should print: for each step its error, then its parts of memory."""
    host = sequence.fresh(FILE_UNITS)
    for step in sequence.steps:
        yield struct.pack("<I", make(host, step)).hex()
        for at, length in step.shown:
            yield host.memory[at : at + length].hex()
