"""Scenes of `create NEW MODULE --from OLD`, for `succession-rows`: what it prints, what it refuses,
and what it leaves.

All of it was worked out by hand from docs/COMMANDS.md, docs/WORKERS.md and docs/FORMATS.md. In each
scene there is a folder. A step is a command, and the files that it may make or change: all others
have to stay as they were.
"""
import dataclasses
import os
import struct

from lib import wasm_bytes as wasm
from lib.disk_steps import SMALL
from lib.folder_scenes import (
    Act, AsShow, Bytes, Locked, Step, cut_to, damaged, linked, moved, written)
from lib.guest_runs import BUSY, ECHO, EXAMPLES, printed, request_lines
from lib.small_modules import MEMORY, NOTHING, asks, behind, endless, pages, small
from model.chacha import taken
from model.disk_form import TWO, Form, echo_memory, echo_process

NEW, OLD = "new.disk", "old.disk"

# Sizes of a worker: pages, units of files and sectors of the journal. The least ones, the same with
# a journal that version 2 takes, and the usual ones.
LEAST, LONGER, USUAL = (1, 1, 64), (1, 1, 133), (16, 16, 256)


# ---- guests

def reads_and(code, before=b"", data=()):
    """A guest that reads its requests one by one from descriptor 0 to 64, and then has their count
    at 16. It ends where there is none."""
    def load(place):
        return wasm.i32(place) + b"\x28\x02" + wasm.unsigned(0)

    read = b"".join(map(wasm.i32, (0, 0, 1, 16))) + wasm.CALL + wasm.unsigned(0) + wasm.DROP
    body = read + load(16) + wasm.I32_EQZ + wasm.BR_IF + b"\x01"
    body += code + wasm.i32(12) + load(16) + wasm.STORE_32 + wasm.unsigned(0)
    body += b"".join(map(wasm.i32, (1, 8, 1, 20))) + wasm.CALL + wasm.unsigned(1) + wasm.DROP
    loop = wasm.LOOP + bytes([wasm.EMPTY]) + body + b"\x0c\x00" + wasm.END
    lists = struct.pack("<IIII", 64, 4_096, 64, 0)
    names = [b"fd_read", b"fd_write"]
    return small(
        types=[NOTHING, wasm.function_type([wasm.I32] * 4, [wasm.I32])],
        imports=[wasm.imported_function(name, 1) for name in names],
        exports=[wasm.exported(b"_start", 0, 2), MEMORY],
        bodies=[wasm.function_body(
            [], before + wasm.BLOCK + bytes([wasm.EMPTY]) + loop + wasm.END)],
        data=[behind(0) + wasm.sized(lists), *data])


def halves():
    """An echo that first writes `ab` to the output, and `c` to the error output, without an end of
    the line. These begin its first line of each."""
    writes = b"".join(
        b"".join(map(wasm.i32, (descriptor, place, 1, 20)))
        + wasm.CALL + wasm.unsigned(1) + wasm.DROP
        for descriptor, place in ((1, 32), (2, 40)))
    texts = struct.pack("<IIII", 48, 2, 50, 1) + b"abc"
    return reads_and(b"", writes, [behind(32) + wasm.sized(texts)])


def risky():
    """An echo that traps at a request which begins with `z`."""
    first = wasm.i32(64) + wasm.LOAD_8 + wasm.unsigned(0) + wasm.i32(ord("z")) + b"\x46"
    return reads_and(first + wasm.IF + bytes([wasm.EMPTY]) + wasm.UNREACHABLE + wasm.END)


def example(name):
    """A module of examples/."""
    with open(os.path.join(EXAMPLES, name), "rb") as file:
        return file.read()


# The modules that each folder has.
MODULES = {"echo.wasm": ECHO, "halves.wasm": halves(), "risky.wasm": risky(), "asks.wasm": asks(),
           "endless.wasm": endless(), "two_pages.wasm": small(memories=pages(2))}
MODULES |= {it: example(it) for it in ["notebook.wasm", "notebook2.wasm", "log-rs.wasm"]}


# ---- steps

def words_of(sizes):
    """The options of a creation with these sizes."""
    names = ["--pages", "--files", "--journal"]
    return [word for pair in zip(names, map(str, sizes)) for word in pair]


def sectors(module, sizes, environment=()):
    """How many sectors a worker has."""
    return Form(MODULES[module], *sizes, environment=environment).total


def created(module="echo.wasm", sizes=LEAST):
    """OLD is created."""
    return Step(["create", OLD, module, *words_of(sizes)],
                out=f"created {sectors(module, sizes)} sectors\n", changes=(OLD,))


def runs(given, out, err="parked\n", status=0, disk=OLD, words=()):
    """A worker is run."""
    return Step(["run", disk, *words], status, out, err, given, (disk,))


def upgraded(disk=OLD):
    """A worker is upgraded."""
    return Step(["upgrade", disk], out="upgraded\n", changes=(disk,))


def succeeds(requests, lines, module="echo.wasm", sizes=LEAST, dropped=0, old=OLD):
    """NEW succeeds OLD. It goes on after so many requests and lines."""
    told = f"created {sectors(module, sizes)} sectors\n"
    told += f"goes on after request {requests}, line {lines}\n"
    told += f"dropped {dropped} bytes\n" if dropped else ""
    return Step(["create", NEW, module, "--from", old, *words_of(sizes)], out=told, changes=(NEW,))


def refuses(fault, why="", module="echo.wasm", words=(), old=OLD, new=NEW, status=3):
    """There is no NEW, and this is said. A second line may say more."""
    words = ["create", new, module, "--from", old, *words]
    return Step(words, status, "", f"failed {fault}\n{why}")


def unopened(path, cause, **named):
    """A path of a module or of a disk can't be had."""
    return refuses("K2 Io", f"{path}: {cause}\n", status=4, **named)


def busy(path):
    """A disk that somebody else has."""
    return refuses("K5 Busy", f"{path}: {BUSY}\n", status=4)


def as_show(path):
    """A creation from this path ends as `show` of it."""
    return AsShow(path, ["create", NEW, "echo.wasm", "--from", path])


def shows(disk, generation, steps, answers, lines, records=0, version=1):
    """What a disk holds."""
    return Step(["show", disk], out=f"generation {generation} steps {steps} answers {answers} "
                                    f"lines {lines} records {records} version {version}\n")


# What is said of a worker that isn't at rest, of one whose steps are at their end, and of too short
# a journal.
RESTLESS = f"{OLD}: isn't at rest: run it without requests, and keep its lines\n"
SPENT = f"{OLD}: its steps can't be counted further: nothing can succeed it\n"
SHORT = "version 2 takes at least 133 sectors: --journal 133\n"
EXISTS, MISSING = "file exists", "no such file or directory"
PAIR = b"1 r a\n2 r b\n"


def not_parked(old=OLD):
    """OLD isn't at rest."""
    return refuses("N9 NotParked", RESTLESS, old=old)


def no_room(units):
    """The files of OLD need so many units."""
    return refuses("F4 NoRoom", f"its files take {units} units: --files {units}\n",
                   words=["--files", str(units - 1)])


def first_disk(steps, requests, lines):
    """The bytes of NEW, of a worker of `echo` that is at its start but for its counts: the steps of
    OLD and one more, its requests and its lines."""
    image = echo_process((steps + 1, requests, lines), (0, ()), echo_memory([]))
    return Bytes(NEW, bytes(SMALL.created(image)))


# The random bytes of a first run of `asks`, whose stream is 2, with the seed of zeros. Its line has
# the real time, the monotonic one, and these.
DRAWN = b"".join(taken(bytes(32), 2, place, 4) for place in (0, 1))[:5]


def asked(number, disk, realtime, monotonic):
    """A run of `asks`, at a time."""
    text = struct.pack("<QQ", realtime, monotonic) + DRAWN
    return runs(b"", b"%d o %s\n" % (number, text), "exited 0\n", disk=disk,
                words=["--clock", str(realtime)])


# ---- scenes

GOING_ON = [
    ("the same code goes on: `echo` asks after 5 steps, and 22 steps later for each next text", [
        created(), runs(PAIR, "1 o a\n2 o b\n"), shows(OLD, 3, 49, 2, 2),
        succeeds(2, 2), shows(NEW, 1, 50, 2, 2), first_disk(49, 2, 2),
        runs(b"1 r x\n2 r y\n3 r c\n", "3 o c\n", disk=NEW), shows(NEW, 3, 77, 3, 3),
        # Nothing was changed on the old one.
        shows(OLD, 3, 49, 2, 2)]),
    ("a request that comes too early", [
        created(), runs(PAIR, "1 o a\n2 o b\n"), succeeds(2, 2),
        runs(b"4 r d\n", "", "refused request 4, wanted 3\nat input line 1\n", 6, NEW),
        runs(PAIR + b"3 r c\n", "3 o c\n", disk=NEW)]),
    ("one that has taken nothing, and waits", [
        created(), runs(b"", ""), succeeds(0, 0), first_disk(5, 0, 0),
        runs(b"1 r a\n", "1 o a\n", disk=NEW)]),
    ("a successor is succeeded", [
        created(), runs(b"1 r a\n", "1 o a\n"), succeeds(1, 1),
        runs(b"2 r b\n", "2 o b\n", disk=NEW), moved(NEW, OLD), shows(OLD, 3, 55, 2, 2),
        succeeds(2, 2), first_disk(55, 2, 2), runs(b"3 r c\n", "3 o c\n", disk=NEW)]),
    ("a successor that was never run isn't at rest", [
        created(), runs(b"1 r a\n", "1 o a\n"), succeeds(1, 1), moved(NEW, OLD), not_parked(),
        runs(b"", ""), succeeds(1, 1)]),
    ("the next notebook reads the notes of the one before", [
        created("notebook.wasm", USUAL),
        runs(b"1 r add milk\n2 r add bread\n", "1 o added\n2 o added\n"),
        succeeds(2, 2, "notebook2.wasm", USUAL),
        Step(["files", NEW], out="f 11 notes\n"),
        Step(["files", NEW, "notes"], out="milk\nbread\n"),
        runs(b"3 r add eggs\n4 r find read\n5 r list\n",
             "3 o added note 3\n4 o 2 bread\n5 o 1 milk\n6 o 2 bread\n7 o 3 eggs\n8 o 3 notes\n",
             disk=NEW)]),
    ("bytes of unfinished lines are gone, and told", [
        created("halves.wasm"), runs(b"", ""), succeeds(0, 0, dropped=3),
        runs(b"1 r d\n", "1 o d\n", disk=NEW), runs(b"1 r d\n", "1 o abd\n")]),
    ("one stream's line was ended, and the other's wasn't", [
        created("halves.wasm"), runs(b"1 r d\n", "1 o abd\n"),
        succeeds(1, 1, "halves.wasm", dropped=1), runs(b"2 r e\n", "2 o abe\n", disk=NEW)]),
    ("one that has exited: its successor may ask again, and the end counts as a request", [
        created(), runs(b"1 r a\n2 e\n", "1 o a\n", "exited 0\n"), succeeds(2, 1),
        runs(b"1 r a\n2 e\n3 r b\n", "2 o b\n", disk=NEW)]),
    ("one that has trapped: the request is taken", [
        created("risky.wasm"), runs(b"1 r a\n2 r z\n3 r c\n", "1 o a\n",
                                    "trapped unreachable\nat function 2, opcode 17\n"
                                    "requests not taken: 1\n"),
        succeeds(2, 1), runs(b"1 r a\n2 r z\n3 r z\n", "2 o z\n", disk=NEW)]),
    ("one of version 2, whose widening counts as an answer once more", [
        created(sizes=LONGER), runs(b"1 r a\n", "1 o a\n"), upgraded(),
        shows(OLD, 5, 27, 2, 1, version=TWO), succeeds(1, 1, sizes=LONGER),
        shows(NEW, 1, 28, 3, 1, version=TWO),
        runs(request_lines([b"a", b"b"]), "2 o b\n", disk=NEW)]),
    ("a successor is upgraded", [
        created(sizes=LONGER), runs(b"1 r a\n", "1 o a\n"), succeeds(1, 1, sizes=LONGER),
        upgraded(NEW), shows(NEW, 3, 33, 2, 1, version=TWO),
        runs(b"1 r a\n2 r b\n", "2 o b\n", disk=NEW)]),
    ("the monotonic clock doesn't go back, and a seed draws the same bytes again", [
        created("asks.wasm"), asked(1, OLD, 5_000_000_007, 5_000_000_007),
        succeeds(0, 1, "asks.wasm"), asked(2, NEW, 7, 5_000_000_007)]),
    ("an old disk that a link leads to", [
        created(), runs(b"1 r a\n", "1 o a\n"), linked("link", OLD), succeeds(1, 1, old="link")]),
    ("a creation that was refused can be called again", [
        created(), not_parked(), runs(b"", ""), succeeds(0, 0)]),
]

# Steps are below this number.
END_OF_STEPS = 1 << 63


def waiting(steps):
    """OLD is written: an `echo` that waits for its first request after so many steps."""
    image = echo_process((steps, 0, 0), (5, (0, 0, 1, 16)), echo_memory([]))
    return written(OLD, bytes(SMALL.created(image)))


SIZES = printed([(1, b"%d" % (4_097 * count)) for count in range(1, 18)]).decode()
REFUSED = [
    ("one that was never run isn't at rest", [created(), not_parked()]),
    ("one with a request in its journal isn't at rest, until it is run", [
        created(),
        runs(b"1 r a\n3 r b\n", "1 o a\n", "refused request 3, wanted 2\nat input line 2\n", 6),
        shows(OLD, 2, 0, 0, 0, records=1), not_parked(), runs(b"", "1 o a\n"), succeeds(1, 1)]),
    ("one at rest stays so where a run takes nothing", [
        created(), runs(b"1 r a\n", "1 o a\n"),
        runs(b"3 r b\n", "", "refused request 3, wanted 2\nat input line 1\n", 6),
        succeeds(1, 1)]),
    ("one that computes isn't at rest", [
        created("endless.wasm"),
        Step(["run", OLD, "--fuel", "10", "--every", "1"], changes=(OLD,), is_killed=True),
        not_parked()]),
    ("one whose line nobody took isn't at rest", [
        created(), Step(["run", OLD], 7, err="failed N3 Outlet\n", given=b"1 r a\n", changes=(OLD,),
                        into="/dev/full"),
        not_parked(), runs(b"", "1 o a\n"), succeeds(1, 1)]),
    ("files that don't fit", [
        created("log-rs.wasm", USUAL), runs(request_lines([b"x" * 4_096] * 17), SIZES),
        no_room(2), succeeds(17, 17, sizes=(1, 2, 64)),
        Step(["files", NEW], out="f 69649 log\n")]),
    ("version 2, with too short a journal", [
        created(sizes=LONGER), runs(b"1 r a\n", "1 o a\n"), upgraded(),
        *(refuses("N7 JournalTooSmall", SHORT, words=["--journal", it]) for it in ("64", "132"))]),
    ("the last step of all, and the one before it", [
        waiting(END_OF_STEPS - 1), refuses("P3 StepsSpent", SPENT), waiting(END_OF_STEPS - 2),
        succeeds(0, 0), shows(NEW, 1, END_OF_STEPS - 1, 0, 0)]),
    ("old and new are one file", [
        created(), runs(b"1 r a\n", "1 o a\n"), unopened(OLD, EXISTS, new=OLD),
        linked("link", OLD), unopened("link", EXISTS, new="link")]),
    ("the new disk is there", [
        created(), runs(b"1 r a\n", "1 o a\n"), written(NEW, b"mine"), unopened(NEW, EXISTS),
        unopened(".", EXISTS, new="."), unopened("missing/new", MISSING, new="missing/new")]),
    ("the new disk is no device", [
        created(), runs(b"1 r a\n", "1 o a\n"), written(NEW, b"mine"),
        unopened(NEW, "block device required", words=["--device"])]),
    ("somebody else has the old disk", [
        created(), runs(b"1 r a\n", "1 o a\n"), Locked(OLD, busy(OLD)), succeeds(1, 1)]),
    ("the new one's output is full", [
        created(), runs(b"1 r a\n", "1 o a\n"),
        dataclasses.replace(succeeds(1, 1), status=7, out="", err="failed N3 Outlet\n", changes=(),
                            into="/dev/full"),
        succeeds(1, 1)]),
    ("an old disk that can't be shown", [
        created(), written("empty", b""), written("zeros", bytes(SMALL.total * 512)),
        written("short", b"DWORKER!"), Act(lambda folder: os.mkfifo(f"{folder}/fifo")),
        linked("loop", "loop"), linked("nowhere", "missing"),
        *(as_show(it) for it in (
            "missing", ".", "/dev/null", "/dev/full", "fifo", "empty", "zeros", "short", "loop",
            "nowhere", "echo.wasm", "echo.wasm/a", "x" * 256, "")),
        cut_to(OLD, 511), as_show(OLD)]),
    ("an old disk that is damaged", [
        created(), runs(b"1 r a\n", "1 o a\n"),
        damaged(OLD, 512, 3 * 512), as_show(OLD)]),
]

# What comes first is told: words, the module's file, the configuration, the module, the old disk,
# what it leaves, and then the new disk.
ORDER = [
    ("the order of faults", [
        created(), written(NEW, b"mine"),
        unopened("missing.wasm", MISSING, module="missing.wasm", words=["--pages", "0"],
                 old="none"),
        refuses("C1 Range", "--pages is from 1 to 256\n", module="two_pages.wasm",
                words=["--pages", "0"], old="none"),
        refuses("L6 TooManyPages", "begins with 2 pages: --pages 2\n", module="two_pages.wasm",
                words=["--pages", "1"], old="none"),
        unopened("none", MISSING, old="none"), not_parked(), runs(b"", ""), unopened(NEW, EXISTS)]),
]

SCENES = [*GOING_ON, *REFUSED, *ORDER]
