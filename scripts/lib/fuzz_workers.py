"""The modules that `fuzz` changes, and the workers whose disks it changes."""
import os
import struct
import subprocess
from dataclasses import dataclass

from lib import wasm_bytes as wasm
from model.disk_form import LEAST_JOURNAL_OF_TWO, ROOT, Form, read
from lib.fuzz_disks import Worker
from lib.fuzz_modules import Module
from lib.guest_runs import ECHO, ended, request_lines
from lib.small_modules import ACCEPTED, MEMORY, TRAPS, asks, behind

# How many calls of a module are under way while it reads a request.
NESTED = 20

# What ends a run without a checkpoint: a line that is refused, or an output without room.
NO_REQUEST, NO_ROOM = b"none\n", None

# The requests that each worker is given. Those that it has taken are skipped.
REQUESTS = [b"hello", b"5", b"", b"list", b"add milk", b"again"]


def local(number):
    """Reads a local."""
    return wasm.LOCAL_GET + wasm.unsigned(number)


def nested():
    """A module with globals and a table that reads two requests. While it reads one, many calls are
    under way, each through the table and above an operand."""
    reading = b"".join(wasm.i32(it) for it in (0, 0, 1, 16)) + wasm.CALL + wasm.unsigned(0)
    calling = local(0) + wasm.i32(1) + wasm.I32_SUB + wasm.i32(0)
    calling += wasm.CALL_INDIRECT + wasm.unsigned(1) + b"\0"
    code = local(0) + wasm.I64_EXTEND_U + wasm.LOCAL_SET + wasm.unsigned(1)
    code += local(0) + local(0) + wasm.I32_EQZ + wasm.IF + bytes([wasm.I32])
    code += reading + wasm.ELSE + calling + wasm.END + wasm.I32_ADD
    start = wasm.i32(NESTED) + wasm.CALL + wasm.unsigned(2) + wasm.GLOBAL_SET + wasm.unsigned(0)
    kinds = [([wasm.I32] * 4, [wasm.I32]), ([wasm.I32], [wasm.I32]), ([], [])]
    return wasm.module_bytes([
        (1, [wasm.function_type(*it) for it in kinds]),
        (2, [wasm.imported_function(b"fd_read", 0)]),
        (3, [wasm.unsigned(2), wasm.unsigned(1)]),
        (4, [b"\x70\x00\x01"]),
        (5, [b"\x00\x01"]),
        (6, [bytes([wasm.I32, 1]) + wasm.i32(7) + wasm.END,
             bytes([wasm.I64, 0]) + wasm.i64(-1) + wasm.END]),
        (7, [wasm.exported(b"_start", 0, 1), MEMORY]),
        (9, [behind(0) + wasm.vector([wasm.unsigned(2)])]),
        (10, [wasm.function_body([], start * 2), wasm.function_body([wasm.I64], code)]),
        (11, [behind(0) + wasm.sized(struct.pack("<II", 64, 4_096))]),
    ])


def modules():
    """The modules that are changed, by their names."""
    found = {"echo": ECHO, "hello": read("crates", "wasmhost", "data", "hello.wasm")}
    found |= {"asks": asks(), "nested": nested()}
    found |= {f"small {number}": it for number, it in enumerate(ACCEPTED)}
    found |= {name: module for name, module, *_ in TRAPS}
    for folder in ("examples", "bench"):
        names = sorted(it for it in os.listdir(os.path.join(ROOT, folder)) if it.endswith(".wasm"))
        found |= {name: read(folder, name) for name in names}
    return {name: Module(name, data) for name, data in found.items()}


def asked(name):
    """The kinds of answers that a guest asks for in turn: random bytes by their count."""
    return {"asks": ["realtime", "monotonic", "5"],
            "draw.wasm": ["realtime", "monotonic", "4", "4"]}.get(name, ["request"])


@dataclass
class Past:
    """What a worker has lived through: its module, its pages, the inputs of its runs, and the
    arguments that it was created with. Where it was upgraded then, the inputs of its later runs."""

    name: str
    runs: tuple = ()
    pages: int = 1
    words: tuple = ()
    later: tuple = None

    def journal(self):
        """The sectors of its journal."""
        return 64 if self.later is None else LEAST_JOURNAL_OF_TWO


PAIR = request_lines([b"a", b"b"])
LONG = request_lines([b"a", b"b", b"c" * 600, b"d"])
NOTES = request_lines([b"add milk", b"add bread", b"list"])

PASTS = [
    Past("echo"), Past("echo", (PAIR,)), Past("echo", (PAIR, LONG + NO_REQUEST)),
    Past("echo", (LONG + NO_REQUEST,)), Past("echo", (request_lines([b"a", None]),)),
    Past("hello"), Past("hello", (b"",)), Past("asks"), Past("asks", (NO_ROOM,)),
    Past("nested"), Past("nested", (request_lines([b"a"]),)), Past("nested", (PAIR,)),
    Past("nested", (request_lines([b"a"]) + NO_REQUEST,)),
    Past("stack exhausted"), Past("unreachable", (b"",)),
    Past("notebook.wasm", (NOTES,), 3), Past("notebook.wasm", (NOTES + NO_REQUEST,), 3),
    Past("total-c.wasm", (request_lines([b"5", b"7"]) + NO_REQUEST,), 2),
    Past("draw.wasm", (NO_ROOM,), 2, (b"red", b"blue")),
    Past("echo", later=()), Past("echo", (PAIR,), later=(LONG + NO_REQUEST,)),
    Past("nested", (request_lines([b"a"]),), later=(PAIR + NO_REQUEST,)),
    Past("notebook.wasm", (NOTES,), 3, later=()),
]


def live(program, disk, runs):
    """Runs a worker with each of these inputs."""
    for given in runs:
        words = [program, "run", disk, "--clock", "5"]
        if given is NO_ROOM:
            with open("/dev/full", "wb") as full:
                subprocess.run(words, stdout=full, stderr=subprocess.DEVNULL,
                               stdin=subprocess.DEVNULL, check=False)
        else:
            ended(words, given)


def built(program, folder, past, module):
    """The form and the bytes of the disk of a worker after its past."""
    path, disk = os.path.join(folder, "module"), os.path.join(folder, "disk")
    with open(path, "wb") as file:
        file.write(module)
    sizes = ["--pages", str(past.pages), "--files", "1", "--journal", str(past.journal())]
    made = ended([program, "create", disk, path, *sizes, "--", *past.words])
    assert made[0] == 0, (past, made)
    live(program, disk, past.runs)
    if past.later is not None:
        made = ended([program, "upgrade", disk])
        assert made[0] == 0, (past, made)
        live(program, disk, past.later)
    with open(disk, "rb") as file:
        data = file.read()
    os.remove(disk)
    return Form(module, past.pages, 1, past.journal(), past.words), data


def right_ends(words, data, given):
    """How a run of a disk as it was ends, by the file of its requests. The words name the disk."""
    for path, lines in given.items():
        with open(words[2], "wb") as file:
            file.write(data)
        yield path, ended(words, lines)


def workers(program, folder, of_name, pace):
    """The workers whose disks are changed, each with files of requests."""
    given = {}
    for name, texts in [("requests", REQUESTS), ("all requests", [*REQUESTS, None])]:
        given[os.path.join(folder, name)] = request_lines(texts)
    for path, lines in given.items():
        with open(path, "wb") as file:
            file.write(lines)
    for past in PASTS:
        module = of_name[past.name]
        form, data = built(program, folder, past, module.data)
        words = [program, "run", os.path.join(folder, "again"), *pace]
        yield Worker(module, form, data, given, dict(right_ends(words, data, given)))
