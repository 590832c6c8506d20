"""Looks at a worker's disk with `--live`, for `program-rows`: while its worker runs, while it saves
itself all the time, after it has stopped, and where there is no disk.

What is said was worked out by hand from docs/COMMANDS.md, or follows from the bytes of the disk by
`disk_facts.py`, which was written from docs/FORMATS.md.
"""
import contextlib
import os
import re
import stat
import subprocess
import threading
import time

from lib.disk_steps import LEAST, SMALL
from lib.folder_scenes import content, cut_to, damaged, linked, nobody, written
from lib.guest_runs import BUSY_LOOK, ECHO, SECONDS, scratch
from lib.not_tried import not_tried
from lib.small_modules import endless
from model import disk_facts as facts
from model.disk_form import SECTOR

DISK, COPY = "worker.disk", "copy.disk"
MODULES = {"echo.wasm": ECHO, "endless.wasm": endless()}

# All that looks at a disk.
SHOW, INSPECT, JSON, FILES, HISTORY, STORY = LOOKS = [
    ["show"], ["inspect"], ["inspect", "--json"], ["files"], ["history"], ["history", "--story"]]

# What is said where the disk can't be had, and where its worker has saved itself meanwhile.
BUSY = b"failed K5 Busy\nworker.disk: %s\n" % BUSY_LOOK.encode()
CHANGED = 4, b"", b"failed K5 Busy\nworker.disk: its worker has just saved itself, look again\n"

# For how many seconds a look is taken again until it says what it has to. Then its run still runs.
PATIENCE = SECONDS // 2

# Runs that wait for their second request: how the run is named, its words, and what `show` says.
# Eight steps make a slice. The worker has written its line after 20 steps, and waits after 27.
WAITING = [
    ("one whose request is a record", [],
     b"generation 2 steps 0 answers 0 lines 0 records 1 version 1\n"),
    ("one that has saved itself since", ["--fuel", "8", "--every", "1"],
     b"generation 5 steps 24 answers 1 lines 1 records 0 version 1\n"),
]
FIRST = b"1 r a\n", b"1 o a\n"
SECOND = b"2 r b\n", (b"2 o b\n", b"parked\n")

# Steps of a slice of a worker that never asks, and how often it is looked at. It saves itself after
# each slice, from generation 3 on. So the numbers of a look belong together. A slice of the last one
# takes many times as long as a look. It is looked at more often, until there is an answer: a busy
# machine begins it late.
RESTLESS = [(1_000, 40), (100_000, 40), (10_000_000, 40)]
SURVEYED = re.compile(
    rb"generation ([0-9]+) steps ([0-9]+) answers 0 lines 0 records 0 version 1\n")
SAVED = 0, b"saved %d sectors\n" % SMALL.total, b""

# Paths at which there is no disk to look at, and why.
UNSEEN = [
    ("missing", "no such file or directory"), ("nowhere", "no such file or directory"),
    ("", "no such file or directory"), ("echo.wasm/a", "not a directory"),
    (".", "is a directory"), ("loop", "too many levels of symbolic links"),
    ("x" * 256, "file name too long"), ("./" * 2_048, "file name too long"),
    *((it, "neither a regular file nor a block device")
      for it in ("fifo", "socket", "/dev/null", "/dev/zero")),
]

# Disks that stand still: what is done with a fresh one. With and without `--live` all is the same.
STILL = [
    ("a fresh one", []), ("one that a link leads to", [linked("link", DISK)]),
    ("one with more sectors than its worker", [cut_to(DISK, (SMALL.total + 1) * SECTOR + 100)]),
    ("one with too few", [cut_to(DISK, (SMALL.total - 1) * SECTOR)]),
    ("less than a sector", [cut_to(DISK, SECTOR - 1)]), ("an empty file", [cut_to(DISK, 0)]),
    ("zeros", [written(DISK, bytes(SMALL.total * SECTOR))]),
    ("a module", [written(DISK, ECHO)]),
    ("one whose heads are damaged", [damaged(DISK, SECTOR, 3 * SECTOR)]),
    ("one whose module is damaged", [damaged(DISK, 3 * SECTOR, 4 * SECTOR)]),
    ("one whose image is damaged", [damaged(DISK, 8 * SECTOR, (SMALL.journal - 1) * SECTOR)]),
]


class Folder:
    """A folder with the modules, in which the program is called."""

    def __init__(self, program, path):
        self.program, self.path = program, path
        for name, module in MODULES.items():
            written(name, module).act(path)

    def ended(self, words, given=b"", **options):
        """How a command ends: status, output and error output."""
        ran = subprocess.run([self.program, *words], cwd=self.path, input=given,
                             capture_output=True, check=False, timeout=SECONDS, **options)
        return ran.returncode, ran.stdout, ran.stderr

    def looked(self, look, *, disk=DISK, is_live=True, **options):
        """How a look at a disk ends."""
        return self.ended([look[0], disk, *look[1:], *["--live"][:is_live]], **options)

    def saved(self, disk=DISK, copy=COPY, **options):
        """How a copy of a live disk ends."""
        return self.ended(["save", disk, copy, "--live"], **options)

    def created(self, module="echo.wasm"):
        """A worker is created."""
        found = self.ended(["create", DISK, module, *LEAST])
        assert found == (0, b"created %d sectors\n" % SMALL.total, b""), found

    def content(self, name):
        """The bytes of a file."""
        return content(os.path.join(self.path, name))

    @contextlib.contextmanager
    def run(self, *words):
        """A run of the worker, which is killed in the end."""
        pipes = {"stdin": subprocess.PIPE, "stdout": subprocess.PIPE, "stderr": subprocess.PIPE}
        with subprocess.Popen([self.program, "run", DISK, *words], cwd=self.path, **pipes) as ran:
            late = threading.Timer(SECONDS, ran.kill)
            late.start()
            try:
                yield ran
            finally:
                late.cancel()
                ran.kill()


@contextlib.contextmanager
def stage(program):
    """A new folder."""
    with scratch() as path:
        yield Folder(program, path)


def settled(folder, wanted):
    """How `show` ends, once it says what it has to, or after some seconds."""
    end, found = time.monotonic() + PATIENCE, None
    while found != (0, wanted, b"") and time.monotonic() < end:
        found = folder.looked(SHOW)
    return found


def told_of(disk):
    """What each look prints of these bytes, but for `show` and for JSON."""
    return [(INSPECT, facts.inspected(disk, "nothing")), (FILES, facts.listing(disk)),
            (HISTORY, facts.history(disk)), (STORY, facts.life(disk))]


def look_faults(folder, survey):
    """Yields what is wrong with looks at a worker that waits, a line a look. Each look has its
    answer, though the disk can't be had, and leaves the disk as it was."""
    found = settled(folder, survey)
    if found != (0, survey, b""):
        yield f"show --live ends with {found}, wanted {survey}"
        return
    disk = folder.content(DISK)
    for look, wanted in told_of(disk):
        found = folder.looked(look)
        if found != (0, wanted.encode(), b""):
            yield f"{look} --live ends with {found}, wanted {wanted!r}"
    found = folder.looked(JSON)
    lines = facts.inspected(disk, "nothing").removesuffix("\n").split("\n")
    fault = facts.value_fault(found[1].decode(), lines)
    if found[::2] != (0, b"") or fault:
        yield f"inspect --json --live ends with {found}: {fault}"
    found = folder.saved()
    if found != SAVED or folder.content(COPY) != disk:
        yield f"save --live ends with {found}, or its copy has other bytes"
    for look in LOOKS:
        found = folder.looked(look, is_live=False)
        if found != (4, b"", BUSY):
            yield f"{look} without --live ends with {found}"
    if folder.content(DISK) != disk:
        yield "the looks have changed the disk"


def waiting_fault(program, row):
    """What is wrong with looks at a run that waits for a request, or none. It goes on, and so does
    its copy, each for itself."""
    name, words, survey = row
    with stage(program) as folder:
        folder.created()
        with folder.run(*words) as ran:
            ran.stdin.write(FIRST[0])
            ran.stdin.flush()
            told = ran.stdout.read(len(FIRST[1]))
            faults = [*look_faults(folder, survey)]
            if told != FIRST[1] or ran.communicate(SECOND[0]) != SECOND[1] or ran.returncode != 0:
                faults.append("the run was disturbed")
        # The copy prints its first line again where it has no snapshot behind it.
        again = b"" if b"lines 1" in survey else FIRST[1]
        found = folder.ended(["run", COPY], FIRST[0] + b"2 r c\n")
        if found != (0, again + b"2 o c\n", b"parked\n"):
            faults.append(f"the copy ends with {found}")
    return f"{name}: {faults[0]}" if faults else None


def generation_of(found, fuel):
    """The generation that `show` says, where the steps are those of that snapshot, or none."""
    told = SURVEYED.fullmatch(found[1])
    is_right = found[::2] == (0, b"") and told and int(told[2]) == max(int(told[1]) - 2, 0) * fuel
    return int(told[1]) if is_right else None


def copy_fault(folder, fuel):
    """What is wrong with a copy of a worker that saves itself all the time, or none. There is a
    whole one, or it is said that the worker has saved itself."""
    found, path = folder.saved(), f"{folder.path}/{COPY}"
    if found not in (CHANGED, SAVED) or (found == SAVED) != os.path.exists(path):
        return f"save --live ends with {found}"
    if found == CHANGED:
        return None
    shown = folder.looked(SHOW, disk=COPY, is_live=False)
    os.remove(path)
    return None if generation_of(shown, fuel) else f"show of a copy ends with {shown}"


def restless_fault(program, row):
    """What is wrong with looks at a worker that saves itself all the time, or none. Each look has
    its answer, or says that the worker has saved itself. No look goes back."""
    fuel, count = row
    last, number, must_answer = 1, 0, row == RESTLESS[-1]
    with stage(program) as folder:
        folder.created("endless.wasm")
        with folder.run("--fuel", str(fuel), "--every", "1") as ran:
            end = time.monotonic() + PATIENCE
            while number < count or must_answer and last < 3 and time.monotonic() < end:
                number += 1
                found = folder.looked(SHOW)
                told = generation_of(found, fuel) if found != CHANGED else last
                if told is None or told < last:
                    return f"fuel {fuel}, look {number}, after generation {last}: {found}"
                last = told
                fault = copy_fault(folder, fuel)
                if fault:
                    return f"fuel {fuel}, copy {number}: {fault}"
            if ran.poll() is not None:
                return f"fuel {fuel}: the run has ended with {ran.returncode}"
    return f"fuel {fuel}: no look has an answer" if must_answer and last < 3 else None


def still_fault(program, row):
    """What is wrong with looks at a disk that nobody else has, or none. They say what they say
    without `--live`, and so does a copy."""
    name, acts = row
    with stage(program) as folder:
        folder.created()
        folder.ended(["run", DISK], b"1 r a\n2 r b\nno")
        for it in acts:
            it.act(folder.path)
        disk = "link" if os.path.islink(f"{folder.path}/link") else DISK
        before = folder.content(DISK)
        for look in LOOKS:
            pair = [folder.looked(look, disk=disk, is_live=it) for it in (True, False)]
            if pair[0] != pair[1]:
                return f"{name}: {look} --live ends with {pair[0]}, and without it with {pair[1]}"
        pair = [folder.saved(disk), folder.ended(["save", disk, "other.disk"])]
        files = [os.path.exists(f"{folder.path}/{it}") for it in (COPY, "other.disk")]
        if pair[0] != pair[1] or files != [pair[0][0] == 0] * 2:
            return f"{name}: save --live ends with {pair[0]}, and save with {pair[1]}"
        if all(files) and folder.content(COPY) != folder.content("other.disk"):
            return f"{name}: the two copies differ"
        return None if folder.content(DISK) == before else f"{name}: the disk has changed"


def unseen_fault(program, row):
    """What is wrong where there is no disk to look at, or none."""
    path, why = row
    with stage(program) as folder:
        os.mkfifo(f"{folder.path}/fifo")
        os.mknod(f"{folder.path}/socket", stat.S_IFSOCK | 0o666)
        linked("nowhere", "missing").act(folder.path)
        linked("loop", "loop").act(folder.path)
        wanted = 4, b"", f"failed K2 Io\n{path}: {why}\n".encode()
        ends = [*(folder.looked(it, disk=path) for it in LOOKS), folder.saved(path)]
        if ends != [wanted] * len(ends):
            return f"{path[:40]}: {ends}, wanted {wanted}"
        return f"{path[:40]}: there is a copy" if os.path.exists(f"{folder.path}/{COPY}") else None


def permission_fault(program):
    """What is wrong with looks at disks that one may only read, or not even read, or none."""
    user = nobody()
    with stage(program) as folder:
        os.chmod(folder.path, 0o755)
        folder.created()
        os.chmod(f"{folder.path}/{DISK}", 0o444)
        try:
            ends = [folder.looked(SHOW, is_live=it, **user) for it in (True, False)]
        except PermissionError as why:
            not_tried("program-rows", f"the program can't be run as another user: {why}",
                      "a live disk without permission to write it")
            return None
        os.chmod(f"{folder.path}/{DISK}", 0)
        ends.append(folder.looked(SHOW, **user))
    refused = 4, b"", b"failed K2 Io\nworker.disk: permission denied\n"
    fresh = 0, b"generation 1 steps 0 answers 0 lines 0 records 0 version 1\n", b""
    return None if ends == [fresh, refused, refused] else f"a user who may not write: {ends}"


def mine_fault(program):
    """What is wrong where something is at the path of the copy, or none: it stays."""
    with stage(program) as folder:
        folder.created()
        written(COPY, b"mine").act(folder.path)
        found = folder.saved(), folder.saved(copy=DISK)
        wanted = tuple((4, b"", f"failed K2 Io\n{it}: file exists\n".encode())
                       for it in (COPY, DISK))
        if found != wanted or folder.content(COPY) != b"mine":
            return f"something is at the path of the copy: {found}, wanted {wanted}"
    return None


def faults(program):
    """What is wrong, a line a row."""
    tables = [(waiting_fault, WAITING), (restless_fault, RESTLESS), (still_fault, STILL),
              (unseen_fault, UNSEEN)]
    found = [fault_of(program, row) for fault_of, rows in tables for row in rows]
    found += [permission_fault(program), mine_fault(program)]
    return [f"--live: {it}" for it in found if it]


ROWS = [*WAITING, *RESTLESS, *STILL, *UNSEEN, permission_fault, mine_fault]
