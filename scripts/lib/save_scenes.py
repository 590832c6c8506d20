"""Scenes of `save DISK COPY`, for `program-rows`: what it prints, what it refuses, and what it
leaves. All of it was worked out by hand from docs/COMMANDS.md."""
import os

from lib.disk_steps import SMALL
from lib.folder_scenes import (
    Act, AsNobody, AsShow, Front, Locked, Step, Tree, allowed, cut_to, damaged, linked, moved,
    written)
from lib.guest_runs import BUSY_LOOK, ECHO, EXAMPLES, NO_WORKER
from model.disk_form import SECTOR, TWO, Form

DISK, COPY = "worker.disk", "copy.disk"

# The longest path that the system takes, behind many dots.
LONGEST = f"{'./' * 2_043}{COPY}"

with open(os.path.join(EXAMPLES, "notebook.wasm"), "rb") as opened:
    NOTEBOOK = opened.read()
MODULES = {"echo.wasm": ECHO, "notebook.wasm": NOTEBOOK}

# The sectors of the least disk, of one whose journal version 2 takes, and of one that a creation
# makes where nothing is said.
LEAST, LONGER, USUAL = SMALL.total, Form(ECHO, 1, 1, 133).total, Form(NOTEBOOK, 16, 16, 256).total

EXISTS, MISSING, FOLDER = "file exists", "no such file or directory", "is a directory"
LONG, FORBIDDEN = "file name too long", "permission denied"


def created(module="echo.wasm", journal=64, total=LEAST):
    """A worker is created."""
    sizes = ["--pages", "1", "--files", "1", "--journal", str(journal)]
    return Step(["create", DISK, module, *(sizes if total != USUAL else [])],
                out=f"created {total} sectors\n", changes=(DISK,))


def runs(given, out, err="parked\n", status=0, disk=DISK):
    """A worker is run."""
    return Step(["run", disk], status, out, err, given, (disk,))


def saves(total=LEAST, disk=DISK, copy=COPY):
    """A disk is copied, and stays as it was."""
    return Step(["save", disk, copy], out=f"saved {total} sectors\n", changes=(copy,))


def same(total=LEAST):
    """The copy has the bytes of the disk, as many as the worker has."""
    return Front(COPY, DISK, total * SECTOR)


def refuses(fault, why="", disk=DISK, copy=COPY, status=3, into=""):
    """No file is made, and this is said. A second line may say more."""
    return Step(["save", disk, copy], status, "", f"failed {fault}\n{why}", into=into)


def unopened(path, cause, **named):
    """A path of the disk or of the copy can't be had."""
    return refuses("K2 Io", f"{path}: {cause}\n", status=4, **named)


def as_show(disk):
    """A copy of this path ends as `show` of it."""
    return AsShow(disk, ["save", disk, COPY])


def shows(disk, generation, steps, answers, lines, records=0, version=1):
    """What a disk holds."""
    return Step(["show", disk], out=f"generation {generation} steps {steps} answers {answers} "
                                    f"lines {lines} records {records} version {version}\n")


def kept():
    """The first request stays a record, since the second one is refused."""
    why = "refused request 3, wanted 2\nat input line 2\n"
    return runs(b"1 r a\n3 r b\n", "1 o a\n", why, 6)


def longer():
    """The file of the disk has more sectors than its worker, and some bytes after them."""
    def act(folder):
        with open(os.path.join(folder, DISK), "ab") as file:
            file.write(b"+" * (SECTOR + 100))
    return Act(act)


COPIES = [
    ("a worker that was never run", [
        created(), saves(), same(), shows(COPY, 1, 0, 0, 0),
        runs(b"1 r a\n", "1 o a\n", disk=COPY), shows(DISK, 1, 0, 0, 0)]),
    ("copy and disk go on, each for itself", [
        created(), runs(b"1 r a\n2 r b\n", "1 o a\n2 o b\n"), saves(), same(),
        runs(b"2 r b\n3 r c\n", "3 o c\n", disk=COPY),
        runs(b"2 r b\n3 r d\n4 e\n", "3 o d\n", "exited 0\n"), shows(COPY, 5, 71, 3, 3)]),
    ("records of the journal are copied with it", [
        created(), kept(), shows(DISK, 2, 0, 0, 0, 1), saves(), same(),
        shows(COPY, 2, 0, 0, 0, 1), Step(["history", COPY], out="6 request 1 r a\n"),
        runs(b"1 r x\n2 r b\n", "1 o a\n2 o b\n", disk=COPY), shows(DISK, 2, 0, 0, 0, 1)]),
    ("one that has ended", [
        created(), runs(b"1 e\n", "", "exited 0\n"), saves(), same(),
        runs(b"", "", "exited 0\n", disk=COPY)]),
    ("one of version 2", [
        created(journal=133, total=LONGER), runs(b"1 r a\n", "1 o a\n"),
        Step(["upgrade", DISK], out="upgraded\n", changes=(DISK,)), saves(LONGER), same(LONGER),
        shows(COPY, 5, 27, 2, 1, version=TWO), runs(b"2 r b\n", "2 o b\n", disk=COPY)]),
    ("files are copied with it, and a copy takes the place of its disk", [
        created("notebook.wasm", total=USUAL), runs(b"1 r add milk\n", "1 o added\n"),
        saves(USUAL), same(USUAL), moved(COPY, DISK),
        Step(["files", DISK, "notes"], out="milk\n"),
        runs(b"2 r list\n", "2 o 1 milk\n3 o 1 notes\n"), saves(USUAL), same(USUAL)]),
    ("what a file has after the worker's sectors isn't copied", [
        created(), longer(), saves(), same(), saves(disk=COPY, copy="again"),
        Front("again", COPY)]),
    ("a disk that a link leads to", [created(), linked("link", DISK), saves(disk="link"), same()]),
    ("the longest path", [
        created(), Step(["save", DISK, LONGEST], out=f"saved {LEAST} sectors\n", changes=(COPY,)),
        same()]),
    ("what was refused can be called again", [
        created(), written(COPY, b""), unopened(COPY, EXISTS), moved(COPY, "mine"), saves(),
        same()]),
]

REFUSED = [
    ("something is at the path of the copy", [
        created(), written("mine", b"mine"), written("empty", b""),
        Act(lambda folder: os.mkfifo(f"{folder}/fifo")), linked("link", DISK),
        linked("nowhere", "missing"), linked("loop", "loop"),
        Act(lambda folder: os.link(f"{folder}/{DISK}", f"{folder}/same")),
        *(unopened(it, EXISTS, copy=it) for it in (
            DISK, f"./{DISK}", "same", "mine", "empty", ".", "fifo", "link", "nowhere", "loop",
            "echo.wasm", "/dev/null", "/dev/full"))]),
    ("the copy can't be made", [
        created(), *(unopened(path, why, copy=path) for path, why in (
            ("missing/copy", MISSING), ("", MISSING), ("echo.wasm/a", "not a directory"),
            ("a/", FOLDER), ("x" * 256, LONG), (f"./{LONGEST}", LONG)))]),
    ("who may not write makes no copy", [
        created(), allowed(DISK, 0o666), allowed("closed", 0o555),
        *(AsNobody(unopened(it, FORBIDDEN, copy=it)) for it in ("closed/copy", COPY))]),
    # A new entry isn't made durable where its folder can't be read.
    ("who may write to a folder and not read it makes no copy", [
        created(), allowed(DISK, 0o666), allowed("hidden", 0o333),
        AsNobody(unopened("hidden/copy", FORBIDDEN, copy="hidden/copy")), Tree("hidden", {})]),
    ("another worker's disk stays", [
        created(), saves(), runs(b"1 r a\n", "1 o a\n", disk=COPY), unopened(COPY, EXISTS)]),
    ("somebody else has the disk", [
        created(), Locked(DISK, refuses("K5 Busy", f"{DISK}: {BUSY_LOOK}\n", status=4)), saves()]),
    ("the output is full", [
        created(), refuses("N3 Outlet", status=7, into="/dev/full"), saves(), same()]),
    ("no worker's disk", [
        created(), written("empty", b""), written("zeros", bytes(LEAST * SECTOR)),
        written("short", b"DWORKER!"), Act(lambda folder: os.mkfifo(f"{folder}/fifo")),
        linked("loop", "loop"), linked("nowhere", "missing"),
        refuses("Y1 NotAWorker", NO_WORKER.decode(), disk="echo.wasm"), unopened("missing", MISSING, disk="missing"),
        unopened(".", FOLDER, disk="."),
        *map(as_show, ("/dev/null", "fifo", "empty", "zeros", "short", "loop", "nowhere",
                       "echo.wasm/a", "x" * 256, "")),
        cut_to(DISK, SECTOR - 1), as_show(DISK)]),
    ("one with too few sectors", [
        created(), cut_to(DISK, (LEAST - 1) * SECTOR), as_show(DISK)]),
    ("a damaged one: its configuration and module", [
        created(), runs(b"1 r a\n", "1 o a\n"), damaged(DISK, SECTOR, 3 * SECTOR), as_show(DISK)]),
    ("the disk is looked at before the copy", [
        created(), written(COPY, b"mine"), unopened("missing", MISSING, disk="missing"),
        refuses("Y1 NotAWorker", NO_WORKER.decode(), disk="echo.wasm"), unopened(COPY, EXISTS)]),
]

SCENES = [*COPIES, *REFUSED]
