"""Worked rows of texts, clocks and random bytes, for `file-rows`.

Each number here was worked out by hand from the numbers and layouts of WASI preview 1 and from the
rules of this project's profile. None was taken from an output of the program or of the model.
"""
from lib.file_scenes import (
    ALL, CREATE, DIRECTORY, FAULT, FILE, FOLDER, INVAL, REGULAR, At, Cell, Room, Row, Scene,
    descriptor_status, opens, reads_at, tells, u32, u64, writes)
from model.host_model import Outside

# The bytes of a memory of one page, and one more than an argument can say.
MEMORY, WORD = 65_536, 1 << 32

# The most random bytes that one call gives.
MOST = 4_096

# The first 64 bytes that ChaCha20 gives for the key of zeros, in stream 2. That is the stream of
# the first run of a worker. `openssl enc -chacha20 -iv 00000000000000000200000000000000` has the
# same.
ZEROS = bytes.fromhex(
    "d0c5b9b744287072 8d812f034c635e81 92b02c311c794763 3ee40f1f04bf1812"
    "3672a895a95cc2d4 45d09465426062b2 3f1319d65a573da4 30e4e47a9f8d121c")

# The same of the key of the bytes 0 to 31.
RISING = bytes.fromhex(
    "54b275d14c65d817 4ac3a499cf3e8406 a93cc77ac646cbca 744fdf1876ad1a39"
    "c2f88e38d3a5f4c6 8837941559488324 5ac338934071cb6e efcfbdb4235499d2")


def sizes(call, count, size):
    """Asks how many texts there are, and how many bytes these have."""
    return Row(f"{call}_sizes_get", [Cell(4), Cell(4)], 0, [u32(count), u32(size)])


def draws(length, data):
    """Asks for random bytes."""
    return Row("random_get", [Room(length)], 0, [data])


def tells_time(clock, nanoseconds, precision=0):
    """Asks a clock for its time."""
    return Row("clock_time_get", [clock, precision, Cell(8)], 0, [u64(nanoseconds)])


def is_out_of_memory(call, *arguments):
    """A range ends past the end of memory."""
    return Row(call, list(arguments), FAULT)


def resolves(clock, error=0):
    """Asks how fine a clock is: each counts single nanoseconds."""
    return Row("clock_res_get", [clock, Cell(8)], error, [] if error else [u64(1)])


UNTOLD = Scene("one argument, and no environment", [
    sizes("args", 1, 7),
    Row("args_get", [At(60_000, 5), At(60_010, 8)], 0, [u32(60_010), b"worker\0"]),
    sizes("environ", 0, 0),
    Row("environ_get", [Cell(4), Cell(1)], 0, [b"", b""]),
    Row("environ_get", [MEMORY, MEMORY], 0),
    is_out_of_memory("args_sizes_get", At(MEMORY - 3, 3), Cell(4)),
    is_out_of_memory("args_sizes_get", Cell(4), At(MEMORY - 3, 3)),
    is_out_of_memory("environ_sizes_get", At(MEMORY - 3, 3), Cell(4)),
    is_out_of_memory("environ_sizes_get", Cell(4), At(MEMORY - 3, 3)),
    is_out_of_memory("environ_sizes_get", WORD - 1, Cell(4)),
    is_out_of_memory("args_get", At(MEMORY - 3, 3), Cell(7)),
    is_out_of_memory("args_get", Cell(4), At(MEMORY - 6, 6)),
    is_out_of_memory("args_get", WORD - 1, WORD - 1),
    Row("args_get", [At(61_000, 4), At(MEMORY - 7, 7)], 0, [u32(MEMORY - 7), b"worker\0"]),
    Row("args_sizes_get", [At(61_010, 4), At(61_014, 4)], 0, [u32(1), u32(7)]),
    Row("environ_sizes_get", [At(61_020, 4), MEMORY - 4], 0, [u32(0)]),
])

OVERLAID = Scene("the later of two results stands where they overlap", [
    Row("args_get", [60_000, At(60_000, 7)], 0, [b"worker\0"]),
    Row("args_sizes_get", [60_020, At(60_020, 4)], 0, [u32(7)]),
    Row("args_get", [At(60_040, 4), 60_042], 0, [u32(60_042)[:2] + b"wo"]),
])

FINE = Scene("two clocks, of single nanoseconds", [
    resolves(0),
    resolves(1),
    resolves(2, INVAL),
    resolves(WORD - 1, INVAL),
    Row("clock_res_get", [2, MEMORY], INVAL),
    is_out_of_memory("clock_res_get", 0, At(MEMORY - 7, 7)),
    is_out_of_memory("clock_res_get", 1, WORD - 1),
    Row("clock_res_get", [1, At(MEMORY - 8, 8)], 0, [u64(1)]),
    Row("clock_time_get", [0, 0, 60_000]),
    Row("clock_time_get", [1, (1 << 64) - 1, 60_000]),
    Row("clock_time_get", [2, 0, Cell(8)], INVAL),
    Row("clock_time_get", [3, 0, Cell(8)], INVAL),
    Row("clock_time_get", [WORD - 1, 0, MEMORY], INVAL),
    is_out_of_memory("clock_time_get", 0, 0, MEMORY - 7),
    is_out_of_memory("clock_time_get", 1, 0, MEMORY),
])

DRAWN = Scene("random bytes come from words, of which a refused call takes none", [
    draws(0, b""),
    Row("random_get", [MEMORY, 0]),
    Row("random_get", [Cell(9), MOST + 1], INVAL),
    Row("random_get", [MEMORY, MOST + 1], INVAL),
    Row("random_get", [MEMORY, WORD - 1], INVAL),
    is_out_of_memory("random_get", MEMORY, 1),
    is_out_of_memory("random_get", At(MEMORY - 4, 4), 5),
    is_out_of_memory("random_get", MEMORY - MOST + 1, MOST),
    draws(5, ZEROS[:5]),
    draws(3, ZEROS[8:11]),
    draws(0, b""),
    draws(1, ZEROS[12:13]),
    draws(48, ZEROS[16:]),
    Row("random_get", [MEMORY - MOST, MOST]),
])

PLAIN = Scene("calls with ranges inside of memory", [
    Row("args_get", [60_000, 60_010]),
    Row("args_sizes_get", [60_020, 60_024]),
    Row("environ_get", [60_030, 60_040]),
    Row("environ_sizes_get", [60_050, 60_054]),
    resolves(0),
    Row("fd_datasync", [3]),
    Row("fd_fdstat_get", [3, Cell(24)], 0, [descriptor_status(DIRECTORY, 0, FOLDER, ALL)]),
    Row("fd_prestat_get", [3, Cell(8)], 0, [u32(0) + u32(1)]),
    Row("fd_prestat_dir_name", [3, Room(1)], 0, [b"/"]),
    Row("sched_yield", []),
    opens(b"a", 4, flags=CREATE),
    Row("fd_fdstat_get", [4, Cell(24)], 0, [descriptor_status(REGULAR, 0, FILE, 0)]),
    Row("fd_fdstat_set_flags", [4, 0]),
    writes(4, b"text"),
    reads_at(4, 1, 9, b"ext"),
    tells(4, 4),
    draws(5, ZEROS[:5]),
])

TOLD = Scene("texts, a time and a seed that a run is given", [
    sizes("args", 4, 15),
    Row("args_get", [At(60_000, 16), At(60_016, 16)], 0, [
        u32(60_016) + u32(60_023) + u32(60_027) + u32(60_028), b"worker\0red\0\0\xc3\xa9\0"]),
    sizes("environ", 3, 17),
    Row("environ_get", [At(60_100, 12), At(60_200, 18)], 0, [
        u32(60_200) + u32(60_209) + u32(60_212), b"NAME=Ada\0A=\0B==x\0"]),
    is_out_of_memory("args_get", At(MEMORY - 15, 15), Cell(15)),
    is_out_of_memory("environ_get", Cell(12), At(MEMORY - 16, 16)),
    tells_time(0, 5_000_000_007),
    tells_time(1, 5_000_000_007, (1 << 64) - 1),
    Row("clock_time_get", [1, 0, At(MEMORY - 8, 8)], 0, [u64(5_000_000_007)]),
    draws(7, RISING[:7]),
    draws(4, RISING[8:12]),
    draws(52, RISING[12:]),
], outside=Outside(
    [b"red", b"", b"\xc3\xa9"], [b"NAME=Ada", b"A=", b"B==x"], 5_000_000_007, bytes(range(32))))

LONGEST = Scene("the longest texts and the latest time", [
    sizes("args", 2, 1_032),
    Row("args_get", [At(50_000, 8), At(50_008, 1_033)], 0, [
        u32(50_008) + u32(50_015), b"worker\0" + b"x" * 1_024 + b"\0"]),
    sizes("environ", 1, 1_025),
    Row("environ_get", [At(52_000, 4), At(52_004, 1_026)], 0, [
        u32(52_004), b"N=" + b"y" * 1_022 + b"\0"]),
    tells_time(0, (1 << 64) - 1),
    tells_time(1, (1 << 64) - 1),
], outside=Outside([b"x" * 1_024], [b"N=" + b"y" * 1_022], (1 << 64) - 1))

SCENES = [UNTOLD, OVERLAID, FINE, DRAWN, PLAIN, TOLD, LONGEST]
