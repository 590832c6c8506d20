"""The bytes of WebAssembly modules without floats: what the scripts that make modules share."""

I32, I64, EMPTY = 0x7F, 0x7E, 0x40
UNREACHABLE, NOP, BLOCK, LOOP, IF, ELSE = b"\x00", b"\x01", b"\x02", b"\x03", b"\x04", b"\x05"
END, BR_IF, BR_TABLE, RETURN = b"\x0b", b"\x0d", b"\x0e", b"\x0f"
CALL, CALL_INDIRECT, DROP, SELECT = b"\x10", b"\x11", b"\x1a", b"\x1b"
LOCAL_GET, LOCAL_SET, LOCAL_TEE = b"\x20", b"\x21", b"\x22"
GLOBAL_GET, GLOBAL_SET = b"\x23", b"\x24"
MEMORY_SIZE, MEMORY_GROW = b"\x3f\x00", b"\x40\x00"
MEMORY_COPY, MEMORY_FILL = b"\xfc\x0a\x00\x00", b"\xfc\x0b\x00"
I32_EQZ, I32_LT_U, I32_GT_U = b"\x45", b"\x49", b"\x4b"
I32_ADD, I32_SUB, I32_MUL, I32_REM_U = b"\x6a", b"\x6b", b"\x6c", b"\x70"
I32_AND, I32_OR, I32_SHL, I32_SHR_U = b"\x71", b"\x72", b"\x74", b"\x76"
I64_AND, I64_OR, I64_ADD, I64_MUL, I64_SHR_U = b"\x83", b"\x84", b"\x7c", b"\x7e", b"\x88"
I32_WRAP, I64_EXTEND_U = b"\xa7", b"\xad"

# Accesses to memory, each with its alignment. An offset follows.
LOAD_8, LOAD_64 = b"\x2d\x00", b"\x29\x03"
STORE_8, STORE_16, STORE_32, STORE_64 = b"\x3a\x00", b"\x3b\x00", b"\x36\x02", b"\x37\x00"


def unsigned(value):
    """The shortest LEB128 form of a natural number."""
    rest = value >> 7
    return bytes([value & 0x7F | (0x80 if rest else 0)]) + (unsigned(rest) if rest else b"")


def signed(value):
    """The shortest LEB128 form of an integer."""
    is_last = -64 <= value < 64
    return (bytes([value & 0x7F | (0 if is_last else 0x80)])
            + (b"" if is_last else signed(value >> 7)))


def i32(value):
    """A constant of type i32, given as a signed number."""
    return b"\x41" + signed(value)


def i64(value):
    """A constant of type i64, given as a signed number."""
    return b"\x42" + signed(value)


# Code that does nothing, and has more operands at once than a function with register code may have.
MANY_OPERANDS = 100
UNTRANSLATED = i32(0) + IF + bytes([EMPTY])
UNTRANSLATED += i32(0) * MANY_OPERANDS + DROP * MANY_OPERANDS + END


def vector(items):
    """Encoded items after their count."""
    return unsigned(len(items)) + b"".join(items)


def sized(body):
    """Bytes after their length."""
    return unsigned(len(body)) + body


def section(number, items):
    """The section of an id, a vector of encoded items."""
    return bytes([number]) + sized(vector(items))


def function_type(takes, gives):
    """A function type, from the value types of parameters and results."""
    return (b"\x60" + vector([bytes([kind]) for kind in takes])
            + vector([bytes([kind]) for kind in gives]))


def function_body(kinds, code):
    """The code entry of a function: declared locals, each of a value type, and instructions."""
    return sized(vector([unsigned(1) + bytes([kind]) for kind in kinds]) + code + END)


def imported_function(name, number):
    """An import of a WASI call, with the index of its type."""
    return sized(b"wasi_snapshot_preview1") + sized(name) + b"\x00" + unsigned(number)


def exported(name, kind, number):
    """An export: a function (kind 0), a memory (2) or another."""
    return sized(name) + bytes([kind]) + unsigned(number)


def module_bytes(sections):
    """A module of sections, given as pairs of id and items. Empty ones are left out."""
    return (b"\0asm\x01\0\0\0"
            + b"".join(section(number, items) for number, items in sections if items))
