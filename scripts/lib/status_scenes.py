"""Scenes of `run --status FILE` and `--metrics FILE` on a disk of `echo`, for `disk-rows`: what may
be at FILE and beside it, what the run then says, and what it leaves.

All of it was worked out by hand from docs/COMMANDS.md. In each scene there is a folder with a fresh
disk. All that is in the folder is compared before and after, but for what a run has to change.
"""
import contextlib
import dataclasses
import os
import re
import socket
import stat
import subprocess
import time

from lib.disk_scenes import outside_module
from lib.disk_steps import LEAST, refused, too_late
from lib.not_tried import not_tried
from lib.guest_runs import BUSY, ECHO, NO_WORKER, SECONDS, ended, scratch
from lib.small_modules import small

DISK, FILE = "worker.disk", "standing"
BESIDE = f"{FILE}.new"

# What is told of two files that share a path.
SHARED = (b"error: --status and --metrics need paths of their own, "
          b"also with .new behind them\n")

# Why a path isn't taken, on the second line.
OTHER_BYTES = "has other bytes than a status line or metrics"
LINK, FOLDER, SPECIAL = "is a symbolic link", "is a directory", "isn't a regular file"
LOCKED = "is locked"
MISSING, NO_FOLDER = "no such file or directory", "not a directory"

# The numbers of two devices with a driver that takes all bytes and gives none: `null`, `full`.
NULL, FULL = os.makedev(1, 3), os.makedev(1, 7)

# The greatest number of a status line, and of an exit code.
MOST, MOST_CODE = (1 << 64) - 1, (1 << 32) - 1


# The sectors of a journal of LEAST, all of them left after a checkpoint.
JOURNAL = 64

# What a worker says that waits.
WAITS = "waits for a request"


def line(generation=1, steps=2, answers=3, lines=4, words="running", requests=5, left=6):
    """A status line. One of an older program has no sectors, and one of a still older one no
    requests."""
    counted = "" if requests is None else f"requests {requests} "
    room = "" if left is None else f"journal_left {left} "
    return (f"generation {generation} steps {steps} answers {answers} lines {lines} "
            f"{counted}{room}{words}\n").encode()


def stands(generation, steps, answers, lines, words="running", left=JOURNAL):
    """That of a worker of `echo`: each of its answers is a request."""
    return line(generation, steps, answers, lines, words, answers, left)


# The states of metrics, in their order.
STATES = ["running", "waiting", "parked", "exited", "trapped"]


def metrics(disk, generation, steps, answers, lines, left, state, code=0):
    """The metrics of a worker of `echo`."""
    def family(name, kind, words, value):
        return (f"# HELP wasmhost_{name} {words}\n# TYPE wasmhost_{name} {kind}\n"
                f'wasmhost_{name}{{disk="{disk}"}} {value}\n')

    counts = [
        ("generation", "gauge", "Number of the worker's newest snapshot.", generation),
        ("steps_total", "counter", "Steps that the worker has taken.", steps),
        ("answers_total", "counter", "Answers that it has taken, requests too.", answers),
        ("requests_total", "counter", "Requests that it has taken.", answers),
        ("lines_total", "counter", "Lines that it has written.", lines),
        ("journal_left_bytes", "gauge", "Bytes of its journal that are left.", 512 * left),
        ("exit_code", "gauge", "Code that it has exited with, or 0.", code)]
    head = ("# HELP wasmhost_state Whether the worker is in this state.\n"
            "# TYPE wasmhost_state gauge\n")
    flags = [f'wasmhost_state{{disk="{disk}",state="{name}"}} {int(name == state)}\n'
             for name in STATES]
    return "".join([*[family(*count) for count in counts], head, *flags]).encode()


TRAPS = ["unreachable", "integer divide by zero", "integer overflow", "out of bounds memory access",
         "undefined element", "uninitialized element", "indirect call type mismatch",
         "stack exhausted"]

# What a run may replace, or find beside the path and remove: an empty file, and status lines.
LINES = [line(), line(words="parked"), line(0, 0, 0, 0, "exited 0", 0, 0), line(words="exited 7"),
         line(words=WAITS), line(MOST, MOST, MOST, MOST, f"exited {MOST_CODE}", MOST, MOST),
         *[line(MOST, MOST, MOST, MOST, f"trapped {name}", MOST, MOST) for name in TRAPS],
         line(left=None), line(words="parked", left=None),
         line(requests=None, left=None), line(words="parked", requests=None, left=None),
         line(MOST, MOST, MOST, MOST, f"exited {MOST_CODE}", None, None),
         line(words=f"trapped {TRAPS[3]}", requests=None, left=None)]
# The longest one.
assert max(map(len, LINES)) == 215

METRICS = metrics("a.disk", 3, 27, 1, 1, JOURNAL, "parked")
LEFT = [b"", *LINES, METRICS, METRICS[:200], METRICS.split(b"\n", 1)[0] + b"\n"]

# What it may not: bytes that are nearly a status line, or nearly metrics.
NO_LINES = [
    b"\n", b" ", b"notes of a user\n", b"\0" * 512, line()[:-1], line()[:20], line()[1:],
    line() + b"\n", line() * 2, line() + b" ", b" " + line(), line().upper(),
    line().replace(b"\n", b"\r\n"), line().replace(b" ", b"  ", 1), line().replace(b" ", b"\t", 1),
    line("01"), line(steps="00"), line(answers="03"), line(lines="+4"), line("-1"), line(""),
    line("1_0"), line("0x1"), line(MOST + 1), line(lines=MOST + 1), line("9" * 21),
    line(words=""), line(words="Running"), line(words="running "), line(words="exited"),
    line(words="exited "), line(words="exited 00"), line(words="exited -1"),
    line(words=f"exited {MOST_CODE + 1}"), line(words="trapped"), line(words="trapped "),
    line(words="trapped unreachable "), line(words="trapped by nobody"),
    line(words="failed K2 Io"), line().replace(b"steps", b"step"),
    line().replace(b"answers 3 lines 4", b"lines 4 answers 3"),
    line(requests="05"), line(requests=""), line(requests="-1"), line(requests=MOST + 1),
    line().replace(b"requests", b"request"), line().replace(b"requests 5 ", b"requests 5 " * 2),
    line().replace(b"lines 4 requests 5", b"requests 5 lines 4"),
    line().replace(b"journal_left 6 running", b"running journal_left 6"),
    line(left="06"), line(left=""), line(left=MOST + 1), line(requests=None),
    line().replace(b"journal_left", b"left"), line(words="waits"), line(words="waits for a line"),
    line().replace(b"requests 5 journal_left 6", b"journal_left 6 requests 5"),
    METRICS[1:], METRICS.split(b"\n", 1)[0], METRICS.split(b"\n", 1)[1], b"\n" + METRICS,
    METRICS.upper(), b"# HELP node_load1 1m load average.\n",
    line(MOST, MOST, MOST, MOST, f"trapped {TRAPS[3]}", MOST, MOST) + b"x" * 600]


@dataclasses.dataclass
class Seen:
    """What a name of the folder is: its mode, its inode, and its bytes or where it leads."""

    mode: int
    inode: int
    content: object


def seen(path):
    """The same of one path, which is opened only where it is a regular file."""
    found, content = os.lstat(path), None
    if stat.S_ISREG(found.st_mode):
        with open(path, "rb") as file:
            content = file.read()
    elif stat.S_ISLNK(found.st_mode):
        content = os.readlink(path)
    elif stat.S_ISDIR(found.st_mode):
        content = sorted(os.listdir(path))
    return Seen(found.st_mode, found.st_ino, content)


def all_seen(folder, *but):
    """All names of a folder, but for some."""
    return {name: seen(os.path.join(folder, name))
            for name in sorted(os.listdir(folder)) if name not in but}


def filled(data):
    """A regular file of some bytes."""
    def act(path):
        with open(path, "xb") as file:
            file.write(data)
    return act


def linked(target):
    """A symbolic link."""
    return lambda path: os.symlink(target, path)


def hard_linked(name):
    """A further name of a file of the folder."""
    return lambda path: os.link(os.path.join(os.path.dirname(path), name), path)


def device(number):
    """A node of a device, which nobody reads or writes. Where none can be made, there is a FIFO."""
    def act(path):
        try:
            os.mknod(path, stat.S_IFCHR | 0o600, number)
        except OSError as why:
            not_tried("disk-rows", f"no node can be made: {why}", "a status file on a device")
            os.mkfifo(path)
    return act


def bound(path):
    """A socket."""
    with contextlib.closing(socket.socket(socket.AF_UNIX)) as made:
        made.bind(path)


# What may be at a path, and why that isn't taken.
OCCUPIED = {
    "a link to a file": (linked("notes"), LINK),
    "a link to a status file": (linked("left"), LINK),
    "a link to the disk": (linked(DISK), LINK),
    "a link to nothing": (linked("nowhere"), LINK),
    "a link to itself": (lambda path: os.symlink(os.path.basename(path), path), LINK),
    "a link to a device": (linked("/dev/full"), LINK),
    "a folder": (os.mkdir, FOLDER),
    "a FIFO": (os.mkfifo, SPECIAL),
    "a socket": (bound, SPECIAL),
    "the device that takes all": (device(NULL), SPECIAL),
    "the device that has no room": (device(FULL), SPECIAL),
    "the disk by another name": (hard_linked(DISK), OTHER_BYTES),
} | {f"a file of {data[:60]!r} and {len(data)} bytes": (filled(data), OTHER_BYTES)
     for data in NO_LINES}


@dataclasses.dataclass
class Refused:
    """A run that isn't begun: what is made before, the words, and the path and reason told."""

    name: str
    made: dict
    path: str
    why: str
    disk: str = DISK
    file: str = FILE
    option: str = "--status"


def fault_of_refused(program, folder, scene):
    """What is wrong in a scene of a run that isn't begun, or none."""
    before = all_seen(folder)
    found = ended_in(folder, [program, "run", scene.disk, scene.option, scene.file])
    wanted = 4, b"", f"failed K2 Io\n{scene.path}: {scene.why}\n".encode()
    if found != wanted:
        return f"it ends with {found}, wanted {wanted}"
    after = all_seen(folder)
    return None if after == before else f"it has changed {changed(before, after)}"


@dataclasses.dataclass
class Taken:
    """A run whose paths are free: what is made before, how it ends, and what its file has then."""

    name: str
    made: dict
    given: bytes = b"1 r a\n"
    wanted: tuple = (0, b"1 o a\n", b"parked\n")
    left: object = stands(3, 27, 1, 1, "parked")
    option: str = "--status"


def fault_of_taken(program, folder, scene):
    """What is wrong in such a scene, or none. Nothing is left beside the path."""
    before = all_seen(folder, DISK, FILE, BESIDE)
    found = ended_in(folder, [program, "run", DISK, scene.option, FILE], scene.given)
    if found != scene.wanted:
        return f"it ends with {found}, wanted {scene.wanted}"
    after = all_seen(folder, DISK)
    standing = after.pop(FILE, None)
    if (standing and standing.content) != scene.left:
        return f"its file is {standing}, wanted {scene.left}"
    return None if after == before else f"it has changed {changed(before, after)}"


def changed(before, after):
    """What differs, for a person."""
    names = sorted({*before, *after})
    return [(name, str(before.get(name))[:200], str(after.get(name))[:200])
            for name in names if before.get(name) != after.get(name)]


def ended_in(folder, words, given=b"1 r a\n"):
    """How a command ends that runs in a folder."""
    ran = subprocess.run(
        words, cwd=folder, input=given, capture_output=True, check=False, timeout=SECONDS)
    return ran.returncode, ran.stdout, ran.stderr


LONG = "x" * 252
REFUSALS = [
    Refused("the disk itself", {}, DISK, OTHER_BYTES, file=DISK),
    Refused("the disk is beside the path", {BESIDE: hard_linked(DISK)}, BESIDE, OTHER_BYTES,
            disk=BESIDE),
    Refused("the disk itself, which is empty", {"empty": filled(b"")}, "empty", LOCKED,
            disk="empty", file="empty"),
    Refused("the disk is beside the path, and is empty", {BESIDE: filled(b"")}, BESIDE, LOCKED,
            disk=BESIDE),
    Refused("a path in a folder that isn't there", {}, f"gone/{BESIDE}", MISSING,
            file=f"gone/{FILE}"),
    Refused("a path behind a file", {}, f"notes/{FILE}", NO_FOLDER, file=f"notes/{FILE}"),
    Refused("a path with a slash behind a file", {}, "notes/", NO_FOLDER, file="notes/"),
    Refused("the folder itself", {}, ".", FOLDER, file="."),
    Refused("the empty path", {}, "", MISSING, file=""),
    Refused("a path that leaves no room for its end", {}, f"{LONG}.new", "file name too long",
            file=LONG),
    Refused("a link to the disk of a run", {FILE: linked(DISK)}, FILE, LINK),
    # The path is looked at before the one beside it.
    Refused("both are links", {FILE: linked("notes"), BESIDE: linked("notes")}, FILE, LINK),
    # A status file beside it stays, where the path isn't free.
    Refused("a user's file, and a line that a killed run left", {
        FILE: filled(b"mine\n"), BESIDE: filled(line())}, FILE, OTHER_BYTES),
    *[Refused(f"{name} is at {path}", {path: act}, path, why, option=option)
      for name, (act, why) in OCCUPIED.items() for path in (FILE, BESIDE)
      for option in ("--status", "--metrics")],
]

NOT_A_WORKER = 3, b"", b"failed Y1 NotAWorker\n" + NO_WORKER
ENDS = [
    Taken("nothing is there", {}),
    *[Taken(f"{data!r} is at {path}", {path: filled(data)})
      for data in LEFT for path in (FILE, BESIDE)],
    *[Taken(f"{data[:60]!r} is at {path}, for metrics", {path: filled(data)},
            left=metrics(DISK, 3, 27, 1, 1, JOURNAL, "parked"), option="--metrics")
      for data in (b"", line(), METRICS) for path in (FILE, BESIDE)],
    Taken("both are there", {FILE: filled(line()), BESIDE: filled(b"")}),
    Taken("a further name of an old line", {FILE: hard_linked("left")}),
    Taken("the line of a worker that has exited", {}, b"1 e\n", (0, b"", b"exited 0\n"),
          stands(3, 11, 1, 0, "exited 0")),
    # A run that fails leaves the line before: it waited for its first line.
    Taken("a refused line", {}, b"1 r a\n3 e\n",
          (6, b"1 o a\n", too_late(2, 3, 2).encode()), stands(2, 5, 0, 0, WAITS)),
    Taken("a refused line over an old file", {FILE: filled(line(words="parked"))}, b"no\n",
          (6, b"", refused(1).encode()), stands(2, 5, 0, 0, WAITS)),
    # One that is never recovered leaves what was there.
    Taken("a disk without a worker", {DISK: filled(bytes(512))}, b"", NOT_A_WORKER, None),
    Taken("an old line, and a disk without a worker", {
        DISK: filled(bytes(512)), FILE: filled(line())}, b"", NOT_A_WORKER, line()),
]


@contextlib.contextmanager
def stage(program, made):
    """A folder with a fresh disk, a user's file and an old status file, and what a scene makes."""
    with scratch() as folder:
        filled(ECHO)(os.path.join(folder, "echo.wasm"))
        filled(b"notes of a user\n")(os.path.join(folder, "notes"))
        filled(line())(os.path.join(folder, "left"))
        if DISK not in made:
            ended_in(folder, [program, "create", DISK, "echo.wasm", *LEAST])
        for name, act in made.items():
            act(os.path.join(folder, name))
        yield folder


def scene_fault(program, scene):
    """What is wrong in a scene of one run, or none."""
    act = fault_of_refused if isinstance(scene, Refused) else fault_of_taken
    with stage(program, scene.made) as folder:
        fault = act(program, folder, scene)
    return fault and f"status file, {scene.name}: {fault}"


# ---- runs that wait for their input

PIPES = {"stdin": subprocess.PIPE, "stdout": subprocess.PIPE, "stderr": subprocess.PIPE}


@contextlib.contextmanager
def begun(program, folder, *words):
    """A run that waits for its first line. It is killed where it isn't ended."""
    with subprocess.Popen([program, "run", *words], cwd=folder, **PIPES) as run:
        try:
            yield run
        finally:
            run.kill()


def told(run, data):
    """The next line of a run after some input."""
    run.stdin.write(data)
    run.stdin.flush()
    return run.stdout.readline()


def over(run):
    """How a run ends at the end of its input."""
    out, err = run.communicate(timeout=SECONDS)
    return run.returncode, out, err


def comes_to(path, wanted):
    """Waits until a file has these bytes, and answers what it has then."""
    end = time.monotonic() + SECONDS
    while True:
        with contextlib.suppress(FileNotFoundError), open(path, "rb") as file:
            found = file.read()
            if found == wanted:
                return found
        if time.monotonic() > end:
            return found
        time.sleep(0.01)


def held_fault(program, file):
    """What is wrong where the path, or the one beside it, is the disk of a worker that runs."""
    held = f"{file}.new" if file == "held" else file
    with stage(program, {}) as folder:
        ended_in(folder, [program, "create", held, "echo.wasm", *LEAST])
        with begun(program, folder, held) as first:
            line_of_first = told(first, b"1 r a\n")
            scene = Refused("", {}, held, OTHER_BYTES, file=file)
            fault = fault_of_refused(program, folder, scene)
            found = line_of_first, told(first, b"2 r b\n"), over(first)
        wanted = b"1 o a\n", b"2 o b\n", (0, b"", b"parked\n")
        again = ended_in(folder, [program, "run", held], b"2 r b\n3 r c\n")
    if fault is None and (found, again) != (wanted, (0, b"3 o c\n", b"parked\n")):
        fault = f"the worker that runs says {found}, and then {again}"
    return fault and f"status file, {held} is the disk of a worker that runs: {fault}"


def waiting_fault(program):
    """What is wrong with the file of a run that saves after each step and waits for requests. Each
    line is a new file, and nothing is left beside it."""
    lines = (stands(7, 5, 0, 0, WAITS), stands(29, 27, 1, 1, WAITS),
             stands(52, 49, 2, 2, "parked"))
    with stage(program, {}) as folder:
        path = os.path.join(folder, FILE)
        words = DISK, "--status", FILE, "--fuel", "1", "--every", "1"
        with begun(program, folder, *words) as run, contextlib.ExitStack() as stack:
            found = [comes_to(path, lines[0])]
            opened = stack.enter_context(open(path, "rb"))
            left = [os.path.exists(f"{path}.new")]
            out = [told(run, b"1 r a\n")]
            found.append(comes_to(path, lines[1]))
            left.append(os.path.exists(f"{path}.new"))
            is_other = os.fstat(opened.fileno()).st_ino != os.lstat(path).st_ino
            out.append(told(run, b"2 r b\n"))
            end = over(run)
            found.append(seen(path).content)
            left.append(os.path.exists(f"{path}.new"))
            first = opened.read()
    result = found, left, is_other, first, out, end
    wanted = ([*lines], [False] * 3, True, lines[0], [b"1 o a\n", b"2 o b\n"],
              (0, b"", b"parked\n"))
    return None if result == wanted else f"status file of a run that waits: {result}, not {wanted}"


# ---- lines between two checkpoints

# No checkpoint comes by this pace.
NEVER = str(1 << 62)

# A guest in an endless loop, and the steps of a slice of it.
SPINS, FUEL = small(b"\x03\x40\x0c\x00\x0b"), 1_000

# The line of such a guest after whole slices, and how many lines are looked at.
SPINNING = re.compile(rb"generation 3 steps (0|[0-9]+000) answers 0 lines 0 requests 0 "
                      rb"journal_left 64 running\n")
LOOKS = 5

# For how many seconds a file is looked at that has to stay as it is.
STILL = 3

# Draws, looks at both clocks and reads a request, and does all that again. It writes seven lines up
# to the first request, and six from there to the next one.
OUTSIDE = re.compile(rb"generation 3 steps [0-9]+ answers 7 lines 13 requests 1 "
                     rb"journal_left 64 parked\n")


def moved(path, seen_last, seconds=SECONDS):
    """The next bytes of a file that aren't these, or none where it stays as it is so long."""
    end = time.monotonic() + seconds
    while time.monotonic() < end:
        with contextlib.suppress(FileNotFoundError), open(path, "rb") as file:
            found = file.read()
            if found != seen_last:
                return found
        time.sleep(0.01)
    return None


def spinning_fault(program):
    """What is wrong with the file of a guest in an endless loop. It is there before the first slice
    ends, and then its steps grow."""
    first, found = stands(2, 0, 0, 0), []
    with stage(program, {"spins.wasm": filled(SPINS)}) as folder:
        ended_in(folder, [program, "create", "spins.disk", "spins.wasm", *LEAST])
        path = os.path.join(folder, FILE)
        words = "spins.disk", "--status", FILE, "--every", NEVER, "--fuel"
        with begun(program, folder, *words, NEVER):
            before = comes_to(path, first)
        with begun(program, folder, *words, str(FUEL)):
            while len(found) < LOOKS and None not in found:
                found.append(moved(path, [first, *found][-1]))
    steps = [SPINNING.fullmatch(it or b"") for it in found]
    if before != first or None in steps:
        return f"status file of a guest in an endless loop: {before}, {found}"
    counts = [int(it[1]) for it in steps]
    return None if counts == sorted(set(counts)) else f"steps of an endless loop: {counts}"


def still_fault(program):
    """What is wrong with the file of a run without checkpoints that waits, with or without batches.
    It stands still, and after a request it says what the worker has taken, though nothing is saved.
    The record of that request fills a sector of the journal."""
    # The fifth step is the last before the first request, and the 27th before the second one.
    before, behind = stands(2, 5, 0, 0, WAITS), stands(2, 27, 1, 1, WAITS, JOURNAL - 1)
    wanted = (before, True, b"1 o a\n", behind, (0, b"", b"parked\n"),
              stands(3, 27, 1, 1, "parked"))
    for width in ("1", "64"):
        with stage(program, {}) as folder:
            path = os.path.join(folder, FILE)
            words = DISK, "--status", FILE, "--every", NEVER, "--batch", width
            with begun(program, folder, *words) as run:
                found = comes_to(path, before)
                first = seen(path)
                is_still = moved(path, found, STILL) is None and seen(path) == first
                out, second = told(run, b"1 r a\n"), comes_to(path, behind)
                end, last = over(run), seen(path).content
        result = found, is_still, out, second, end, last
        if result != wanted:
            return f"status file of a run without checkpoints: {result}, wanted {wanted}"
    return None


def metrics_fault(program):
    """What is wrong with the metrics of a run that waits, of a disk whose path has a quote and a
    backslash, and of the next run, which goes on counting."""
    disk, label = 'a"b\\c.disk', 'a\\"b\\\\c.disk'
    waits = [metrics(label, 2, 5, 0, 0, JOURNAL, "waiting"),
             metrics(label, 2, 27, 1, 1, JOURNAL - 1, "waiting"),
             metrics(label, 4, 27, 1, 1, JOURNAL, "waiting")]
    ends = [metrics(label, 3, 27, 1, 1, JOURNAL, "parked"),
            metrics(label, 5, 33, 2, 1, JOURNAL, "exited")]
    with stage(program, {}) as folder:
        ended_in(folder, [program, "create", disk, "echo.wasm", *LEAST])
        path = os.path.join(folder, FILE)
        words = disk, "--status", "other", "--metrics", FILE
        with begun(program, folder, *words) as run:
            found = [comes_to(path, waits[0])]
            out = [told(run, b"1 r a\n")]
            found.append(comes_to(path, waits[1]))
            out.append(over(run))
            found.append(seen(path).content)
        with begun(program, folder, *words) as run:
            found.append(comes_to(path, waits[2]))
            out.append(run.communicate(b"2 e\n", timeout=SECONDS))
            found.append(seen(path).content)
        line_found = seen(os.path.join(folder, "other")).content
    result = found, out, line_found
    wanted = ([*waits[:2], ends[0], waits[2], ends[1]],
              [b"1 o a\n", (0, b"", b"parked\n"), (b"", b"exited 0\n")],
              stands(5, 33, 2, 1, "exited 0"))
    return None if result == wanted else f"metrics of a run: {result}, wanted {wanted}"


def outside_fault(program):
    """What is wrong with the numbers of a worker whose answers aren't all requests."""
    with stage(program, {"outside.wasm": filled(outside_module())}) as folder:
        ended_in(folder, [program, "create", "outside.disk", "outside.wasm", *LEAST])
        end = ended_in(folder, [program, "run", "outside.disk", "--status", FILE])
        found = seen(os.path.join(folder, FILE)).content
    if end[::2] != (0, b"parked\n") or not OUTSIDE.fullmatch(found):
        return f"status file of a worker that draws: {end}, {found}"
    return None


def meanwhile_fault(program, name, act):
    """What is wrong where something is put at one of both paths while a run waits. It stays, and so
    does the line before, and the run goes on."""
    with stage(program, {}) as folder:
        path, put = os.path.join(folder, FILE), os.path.join(folder, name)
        with begun(program, folder, DISK, "--status", FILE) as run:
            comes_to(path, stands(2, 5, 0, 0, WAITS))
            if name == FILE:
                os.remove(path)
            act(put)
            before = all_seen(folder, DISK)
            out, end = told(run, b"1 r a\n"), over(run)
        after = all_seen(folder, DISK)
    if (out, end) != (b"1 o a\n", (0, b"", b"parked\n")):
        return f"status file, {name} put there meanwhile: the run ends with {out}, {end}"
    return None if after == before else (
        f"status file, {name} put there meanwhile: {changed(before, after)}")


def order_fault(program):
    """What is wrong with the order of faults, or none: the seed, the disk and its lock, the status
    file, what is on the disk."""
    with stage(program, {FILE: filled(b"mine\n"), "empty": filled(b"")}) as folder:
        before = all_seen(folder)
        with begun(program, folder, DISK) as first:
            found = [ended_in(folder, [program, "run", *words, "--status", FILE])[::2]
                     for words in (["gone", "--seed", "0"], ["gone"], [DISK], ["empty"])]
            over(first)
        after = all_seen(folder, DISK)
    before.pop(DISK)
    wanted = [(2, b"error: a seed is 64 hexadecimal digits\n"),
              (4, f"failed K2 Io\ngone: {MISSING}\n".encode()),
              (4, f"failed K5 Busy\n{DISK}: {BUSY}\n".encode()),
              (4, f"failed K2 Io\n{FILE}: {OTHER_BYTES}\n".encode())]
    if found != wanted or after != before:
        return f"status file, order of faults: {found}, {changed(before, after)}"
    return None


def shared_fault(program):
    """What is wrong where both files share a path: each run is refused, and changes nothing."""
    pairs = (FILE, FILE), (FILE, BESIDE), (BESIDE, FILE)
    with stage(program, {}) as folder:
        before = all_seen(folder)
        found = [ended_in(folder, [program, "run", DISK, "--status", one, "--metrics", other])
                 for one, other in pairs]
        after = all_seen(folder)
    if found != [(2, b"", SHARED)] * len(pairs) or after != before:
        return f"status file and metrics of one path: {found}, {changed(before, after)}"
    return None


ACTS = [
    *[lambda program, scene=scene: scene_fault(program, scene) for scene in [*REFUSALS, *ENDS]],
    *[lambda program, file=file: held_fault(program, file) for file in ("held", "other.disk")],
    *[lambda program, name=name, act=act: meanwhile_fault(program, name, act)
      for name in (FILE, BESIDE)
      for act in (filled(b"mine\n"), linked("notes"), linked("nowhere"), os.mkdir, os.mkfifo)],
    waiting_fault, spinning_fault, still_fault, metrics_fault, outside_fault, order_fault,
    shared_fault,
]
