"""Scenes of commands on a disk, for `disk-rows`.

All of it was worked out by hand from docs/COMMANDS.md and docs/FORMATS.md. Bytes of disks are those
of `disk_form.py`.
"""
import functools
import hashlib
import struct

from model import disk_form as form
from lib.call_modules import Writer
from lib.call_sequences import PRINTER, Sequence, Step
from model.chacha import taken
from model.disk_form import (
    END, MONOTONIC, ONE, RANDOM, REALTIME, REQUEST, SECTOR, TWO, Form, echo_image, record)
from lib.guest_runs import ECHO, printed, request_lines
from lib.small_modules import EXITS, TRAPS, frame_lines
from lib.disk_steps import (
    ANYTHING, ANY_TEXTS, Bytes, Command, EXISTS, FAR_NUMBER, FOLDER, FRESH, LEAST, Locked, MISSING,
    NoFile, PAGES, SECOND_LINES, SMALL, SameFacts, TOO_LARGE, UNENDED, busy, counted, created,
    disk_of, field, filled, inspected, listed, mistaken, of_length, recorded, refused, refuses,
    runs, scripted, sector, shows, too_late, too_long, unopened, written, written_out)
from lib.upgrade_scenes import FIRST_UPGRADE, LONG_LINE, UPGRADES, roomy_disk

# What is told of the first entry of an environment, where it has no name.
UNNAMED = "entry 1 of --env isn't NAME=VALUE\n"

CREATION = [
    ("a worker is created once, and shown", [
        created(), Bytes(disk_of()), shows(FRESH), shows(FRESH),
        unopened("create disk echo.wasm", "disk", EXISTS),
        refuses("create disk /dev/null", "B1 Malformed"),
        unopened("create disk missing.wasm", "missing.wasm", MISSING),
        Bytes(disk_of())]),
    ("a disk has 3 + 1 + 2 * 6,144 + 256 sectors by default", [
        created(total=12_548, least=False), shows(FRESH)]),
    ("texts and sizes count", [
        created("echo.wasm", "--env", "NAME=Ada", "--", "red", "--pages", total=SMALL.total),
        shows(FRESH)]),
    ("the longest contents have sectors of their own", [
        created("echo.wasm", *["--env", "N=" + "y" * 1_022] * 64, "--", *["x" * 1_024] * 63,
                total=Form(ECHO, 1, 1, 64, [b"x" * 1_024] * 63, [b"N" * 1_024] * 64).total),
        runs(b"1 r a\n", "1 o a\n")]),
    ("the largest configuration", [
        created("echo.wasm", "--pages", "256", "--files", "64", "--journal", "65536",
                total=3 + 1 + 2 * (2_048 + 128 * 320) + 65_536, least=False),
        runs(b"1 r a\n", "1 o a\n"), shows(counted(3, 27, 1, 1, 0))]),
    ("no file is made where a creation is refused", [
        step for words, fault, why in [
            ("/dev/null", "B1 Malformed", ""),
            ("two_pages.wasm --pages 1", "L6 TooManyPages", "begins with 2 pages: --pages 2\n"),
            ("echo.wasm --pages 0", "C1 Range", PAGES),
            ("echo.wasm --pages 257", "C1 Range", PAGES),
            ("echo.wasm --pages 18446744073709551615", "C1 Range", PAGES),
            ("echo.wasm --files 0", "C1 Range", "--files is from 1 to 64\n"),
            ("echo.wasm --files 65", "C1 Range", "--files is from 1 to 64\n"),
            ("echo.wasm --journal 63", "C1 Range", "--journal is from 64 to 65536\n"),
            ("echo.wasm --journal 65537", "C1 Range", "--journal is from 64 to 65536\n"),
            ("echo.wasm --files 0 --pages 0", "C1 Range", PAGES),
            ("echo.wasm --env a", "C2 Text", UNNAMED),
            ("echo.wasm --env =b", "C2 Text", UNNAMED),
            # The configuration comes before the module.
            ("/dev/null --pages 0", "C1 Range", PAGES),
            ("/dev/null --env a", "C2 Text", UNNAMED),
        ] for step in (refuses(f"create disk {words}", fault, why=why), NoFile())]),
    ("no file is made for a module that can't be read", [
        step for words, path, cause in [
            ("missing.wasm", "missing.wasm", MISSING),
            ("missing/echo.wasm", "missing/echo.wasm", MISSING),
            ("echo.wasm/a", "echo.wasm/a", "not a directory"),
            ("looped.wasm", "looped.wasm", "too many levels of symbolic links"),
            ("x" * 256, "x" * 256, "file name too long"),
            (".", ".", FOLDER),
            # The module's file is looked for before the configuration.
            ("missing.wasm --pages 0", "missing.wasm", MISSING),
        ] for step in (unopened(f"create disk {words}", path, cause), NoFile())]),
    ("no file is made in a folder that isn't there", [
        unopened("create missing/disk echo.wasm", "missing/disk", MISSING), NoFile()]),
    ("no disk is made where something else is", [
        unopened("create . echo.wasm", ".", EXISTS), NoFile()]),
]

MISTAKES = [
    ("command lines that aren't understood, before any file is looked at", [
        created(),
        mistaken("create"), mistaken("create", "new"), mistaken("create", "new", "echo.wasm", "a"),
        mistaken("create", "new", "missing.wasm", "--pages", TOO_LARGE),
        mistaken("create", "new", "missing.wasm", "--pages", "-1"),
        mistaken("create", "new", "missing.wasm", "--pages", "1.5"),
        mistaken("create", "new", "missing.wasm", "--files", TOO_LARGE),
        mistaken("create", "new", "missing.wasm", "--journal", TOO_LARGE),
        mistaken("create", "new", "missing.wasm", "--pages"),
        mistaken("create", "new", "missing.wasm", "--fuel", "1"),
        mistaken("create", "new", "missing.wasm", "--pages", "1", "--pages", "1"),
        mistaken("create", "new", "missing.wasm", "--env"),
        mistaken("create", "new", "missing.wasm", "--env", b"A=\xff"),
        mistaken("create", "new", "missing.wasm", "--", b"\xff"),
        mistaken("run"), mistaken("run", "disk", "a"), mistaken("run", b"\xff"),
        mistaken("run", "disk", "--fuel", "0"), mistaken("run", "disk", "--every", "0"),
        mistaken("run", "disk", "--fuel", TOO_LARGE),
        mistaken("run", "disk", "--every", TOO_LARGE),
        mistaken("run", "disk", "--clock", TOO_LARGE),
        mistaken("run", "disk", "--clock", ""), mistaken("run", "disk", "--clock", "0x1"),
        mistaken("run", "disk", "--pages", "1"), mistaken("run", "disk", "--env", "A=b"),
        mistaken("run", "disk", "--", "a"),
        mistaken("run", "disk", "--seed", "0" * 63), mistaken("run", "disk", "--seed", "0" * 65),
        mistaken("run", "disk", "--seed", "0" * 63 + "g"), mistaken("run", "disk", "--seed", ""),
        mistaken("run", "disk", "--seed", "0x" + "0" * 62),
        mistaken("run", "missing", "--seed", "0"), mistaken("run", "missing", "--fuel", "0"),
        mistaken("show"), mistaken("show", "disk", "a"), mistaken("show", "disk", "--fuel", "1"),
        Bytes(disk_of())]),
]

PAIR = b"1 r a\n2 r b\n"



def paced(words, checkpoints):
    """A scene of one run of `echo` on two requests. It takes 49 steps: five before its first ask,
    and 22 with each request. The opening commits generation 2, and each checkpoint one more."""
    return f"checkpoints after {words}", [
        created(), runs(PAIR, "1 o a\n2 o b\n", words=words.split()),
        shows(counted(2 + checkpoints, 49, 2, 2, 0))]


# The steps after which there are checkpoints: each time that `--every` slices of `--fuel` steps
# were taken, and where the worker waits at the end of its input.
PACES = [
    paced("--fuel 10 --every 1", len([10, 20, 30, 40, 49])),
    paced("--fuel 10 --every 2", len([20, 40, 49])),
    paced("--fuel 3 --every 5", len([15, 30, 45, 49])),
    paced("--fuel 10", len([49])),
    paced("--every 1", len([49])),
    paced("--fuel 48 --every 1", len([48, 49])),
]

LIVES = [
    ("the disks that docs/FORMATS.md has in hex", [
        created(), Bytes(form.dumped_disks()[0]),
        runs(b"1 r hello\n", "1 o hello\n"), Bytes(form.dumped_disks()[1]),
        shows(counted(3, 27, 1, 1, 0))]),
    ("two runs of `echo` on one disk", [
        created(),
        runs(b"1 r a\n", "1 o a\n"), Bytes(disk_of((2, None), (3, [b"a"]), kept=[
            (2, 1, record(6, REQUEST, b"a"))])),
        shows(counted(3, 27, 1, 1, 0)),
        runs(PAIR, "2 o b\n"), Bytes(disk_of((4, [b"a"]), (5, [b"a", b"b"]), kept=[
            (4, 1, record(28, REQUEST, b"b"))])),
        shows(counted(5, 49, 2, 2, 0)),
        # Nothing is printed again after a checkpoint, whatever the text of a number that was taken.
        runs(b"1 r x\n2 e\n", ""), shows(counted(7, 49, 2, 2, 0)),
        runs(b"", ""), shows(counted(9, 49, 2, 2, 0)),
        runs(b"2 r b\n3 e\n", "", "exited 0\n"), shows(counted(11, 55, 3, 2, 0)),
        # One that has ended asks for nothing, so nothing is read.
        runs(b"4 r c\nnothing", "", "exited 0\n")]),
    ("requests that were read ahead, and that nobody takes, are counted", [
        created(),
        runs(b"1 r a\n2 e\n1 r a\n2 r b\n3 r c\nno request\n4 e\n5 r d", "1 o a\n",
             "exited 0\nrequests not taken: 3\n"),
        runs(b"6 r e\n", "", "exited 0\n")]),
    ("none is counted where none is left", [created(), runs(b"1 e\n1 e\nno", "", "exited 0\n")]),
    ("the end of the requests is one that is taken", [
        created(), runs(b"1 e\n", "", "exited 0\n"), shows(counted(3, 11, 1, 0, 0))]),
    ("a refused line leaves what was kept, and the next run tells it again", [
        created(),
        runs(b"1 r hello\n3 r b\n", "1 o hello\n", too_late(2, 3, 2), status=6),
        Bytes(disk_of((2, None), kept=[(2, 1, record(6, REQUEST, b"hello"))])),
        shows(counted(2, 0, 0, 0, 1)),
        runs(b"1 r hello\n2 r b\n", "1 o hello\n2 o b\n"), shows(counted(4, 49, 2, 2, 0))]),
    ("a run without lines opens and parks", [
        created(), runs(b"", ""), Bytes(disk_of((2, None), (3, []))),
        shows(counted(3, 5, 0, 0, 0))]),
    ("slices and checkpoints change no line", [
        created(), runs(PAIR, "1 o a\n2 o b\n", words=["--fuel", "1", "--every", "1"]),
        runs(b"3 r c\n", "3 o c\n", words=["--fuel", "3", "--every", "2"]),
        runs(b"4 r d\n", "4 o d\n", words=[
            "--fuel", "18446744073709551615", "--every", "18446744073709551615"])]),
    ("a journal of 64 sectors has room for 56 answers, each with a line", [
        created(),
        runs(request_lines([b"x"] * 57) + b"0", printed([(1, b"x")] * 57).decode(),
             refused(58), status=6),
        # The ask of the 57th is after 5 + 56 * 22 steps.
        shows(counted(3, 1_237, 56, 56, 1)),
        runs(request_lines([b"x"] * 58), "57 o x\n58 o x\n"),
        shows(counted(5, 1_281, 58, 58, 0))]),
    ("a longest text takes nine sectors of the journal", [
        created(), runs(request_lines([b"x" * 4_096] * 20),
                        printed([(1, b"x" * 4_096)] * 20).decode())]),
    ("notes are kept over runs", [
        created("notebook.wasm", total=12_604, least=False),
        runs(b"1 r add milk\n2 r add bread\n", "1 o added\n2 o added\n"),
        runs(b"3 r list\n4 r drop 1\n", "3 o 1 milk\n4 o 2 bread\n5 o 2 notes\n6 o dropped\n"),
        runs(b"5 r list\n6 e\n", "7 o 1 bread\n8 o 1 notes\n", "exited 0\n")]),
    ("a sum is kept over runs", [
        created("total-c.wasm", total=12_580, least=False),
        runs(b"1 r 5\n2 r 7\n", "1 o 5\n2 o 12\n"), runs(b"3 r -20\n", "3 o -8\n")]),
    ("bytes behind the last sector are left alone", [
        created(), of_length(SMALL.total * SECTOR + 100), runs(PAIR, "1 o a\n2 o b\n"),
        of_length((SMALL.total + 1) * SECTOR), runs(b"3 r c\n", "3 o c\n")]),
]


def line_scene(given, out, err, status=6):
    """A scene of one run of `echo`."""
    return f"request lines {given[:40]!r}", [created(), runs(given, out, err, status=status)]


REFUSED, SECOND = refused(1), refused(2)
FAR = refused(1, FAR_NUMBER)
LINES = [
    line_scene(given, out, err)
    for given, out, err in [
        (b"1 r", "", REFUSED), (b"1 r\n", "", REFUSED), (b"1\n", "", REFUSED),
        (b"\n", "", REFUSED), (b"1 x\n", "", REFUSED), (b"1 e x\n", "", REFUSED),
        (b"1  r a\n", "", REFUSED), (b" 1 r a\n", "", REFUSED), (b"01 r a\n", "", REFUSED),
        (b"+1 r a\n", "", REFUSED), (b"-1 r a\n", "", REFUSED), (b"0 r a\n", "", REFUSED),
        (b"1\tr a\n", "", REFUSED), (b"1 R a\n", "", REFUSED), (b"1 e\r\n", "", REFUSED),
        (b"9223372036854775808 r a\n", "", FAR), (TOO_LARGE.encode() + b" e\n", "", FAR),
        (b"9223372036854775807 r a\n", "", too_late(1, 9223372036854775807, 1)),
        (b"2 e\n", "", too_late(1, 2, 1)),
        (b"1 r a\nb\n", "1 o a\n", SECOND), (b"1 r a\n1 r\n", "1 o a\n", SECOND),
        (b"1 r a\n3 r b\n", "1 o a\n", too_late(2, 3, 2)),
        (b"1 r a\n0 r b\n", "1 o a\n", SECOND),
        (b"1 r " + b"x" * 4_097 + b"\n", "", LONG_LINE),
        (b"1 r a\n1 r " + b"x" * 4_097 + b"\n", "1 o a\n", refused(2, too_long(4_097))),
        (b"0 r " + b"x" * 4_097 + b"\n", "", REFUSED),
        (b"0 r " + b"x" * 5_000 + b"\n", "", REFUSED),
        (b"1 r " + b"x" * 5_000 + b"\n", "", refused(1, too_long(5_000))),
        # Of a line whose end isn't among the bytes that were read no more is known.
        (b"1 r " + b"x" * 20_000, "", refused(1, UNENDED)),
        (b"0 r " + b"x" * 20_000, "", REFUSED), (b"A" * 30_000, "", REFUSED),
        # However the pieces of it come: two of the longest don't hold its end.
        (b"1 r " + b"x" * 20_000 + b"\n", "", refused(1, UNENDED)),
        # A line that comes in several pieces is one line. Its end comes with the second one.
        (b"1 r a\n" * 1_300 + b"2 r " + b"x" * 4_200 + b"\n", "1 o a\n",
         refused(1_301, too_long(4_200))),
        (b"1 r a\n" * 9_000 + b"b\n", "1 o a\n", refused(9_001)),
        # More numbers of 2^63 and more, and other forms.
        (b"1 r a\n9223372036854775808 e\n", "1 o a\n", refused(2, FAR_NUMBER)),
        (b"1" + b"0" * 99 + b" r " + b"x" * 20_000 + b"\n", "", FAR),
        (b"9223372036854775808 r \n", "", FAR), (b"9223372036854775808 r\n", "", REFUSED),
        (b"09223372036854775808 e\n", "", REFUSED), (b"+9223372036854775808 e\n", "", REFUSED),
        (b"9223372036854775808 e \n", "", REFUSED), (b"9223372036854775808\n", "", REFUSED),
        (b"1 r a\n" * 3 + b"\n2 r b\n", "1 o a\n", refused(4))]
] + [
    line_scene(given, out, "parked\n", 0)
    for given, out in [
        (b"1 r \n", "1 o \n"), (b"1 r  \n", "1 o  \n"), (b"1 r a", "1 o a\n"),
        (b"1 r a\r\n", "1 o a\r\n"), (b"1 r 1 r a\n", "1 o 1 r a\n"),
        (b"1 r a\n1 r b\n1 e\n2 r c\n", "1 o a\n2 o c\n"),
        (b"1 r " + b"x" * 4_096, "1 o " + "x" * 4_096 + "\n")]
]


def damaged(name, fault, *parts, why=""):
    """A scene of a disk that is refused with some bytes written. A second line may say more."""
    return name, [created(), written(*parts), refuses("show disk", fault, why=why),
                  refuses("run disk", fault, given=b"1 r a\n", why=why)]


def disagrees(name, why, *parts):
    """The same, where this line says what disagrees."""
    return damaged(name, "Y4 Damaged", *parts, why=why)


def other_image(image):
    """The sectors of another image of generation 1, with its head."""
    disk = SMALL.created(image)
    return [sector(2, bytes(disk[2 * SECTOR : 3 * SECTOR])),
            sector(SMALL.areas[1], bytes(disk[SMALL.areas[1] * SECTOR : SMALL.journal * SECTOR]))]


def second_image(image):
    """The sectors of an image of generation 2, with its head."""
    disk = SMALL.created(echo_image())
    SMALL.commit(disk, 2, image)
    return [sector(1, bytes(disk[SECTOR : 2 * SECTOR])),
            sector(SMALL.areas[0], bytes(disk[SMALL.areas[0] * SECTOR : SMALL.areas[1] * SECTOR]))]


def other_configuration(at, data):
    """Another configuration, under its digest: bytes at a place of it."""
    contents = SMALL.contents[:at] + data + SMALL.contents[at + len(data) :]
    return [(form.DIGEST, hashlib.sha256(contents).digest()), sector(3, contents)]


def journal_of(*records):
    """The first sector of the journal with records of generation 1."""
    return sector(SMALL.journal, form.journal_sector(1, 1, b"".join(records)))


def diverged(name, *records):
    """A scene of well formed records that the process doesn't take. They are counted, and no run
    begins with them."""
    return name, [created(), written(journal_of(*records)),
                  shows(counted(1, 0, 0, 0, len(records))),
                  refuses("run disk", "Q1 Diverged", given=b"1 r a\n")]


IMAGE = SMALL.areas[1] * SECTOR
LATER = sector(SMALL.journal, form.journal_sector(2, 1, record(6, REQUEST, b"a")))
BROKEN = [
    damaged("a super without its first mark", "Y1 NotAWorker", sector(0, b"e")),
    damaged("a super without its last mark", "Y1 NotAWorker", (SECTOR - 1, b"e")),
    damaged("a super of zeros", "Y1 NotAWorker", sector(0, bytes(SECTOR))),
    damaged("another layout", "Y2 Version", field(0, form.LAYOUT, 2)),
    damaged("no layout", "Y2 Version", field(0, form.LAYOUT, 0)),
    disagrees("fewer bytes of contents than sectors", form.OTHER_SECTORS,
              field(0, form.MODULE_SECTORS, 2)),
    disagrees("a smaller area than the configuration's", form.OTHER_AREA,
              field(0, form.AREA_SECTORS, SMALL.area_sectors - 1)),
    disagrees("a shorter journal than the configuration's", form.OTHER_JOURNAL,
              field(0, form.JOURNAL_SECTORS, 63)),
    # The first of two is told, also where the module reaches beyond the disk's end.
    disagrees("a smaller area and a shorter journal than the configuration's", form.OTHER_AREA,
              field(0, form.AREA_SECTORS, SMALL.area_sectors - 1),
              field(0, form.JOURNAL_SECTORS, 63)),
    disagrees("more sectors of contents than the disk has", form.OTHER_SECTORS,
              field(0, form.MODULE_SECTORS, 1 << 31), (form.DIGEST, b"\0")),
    disagrees("a smaller area, and another digest of the contents", form.OTHER_DIGEST,
              field(0, form.AREA_SECTORS, SMALL.area_sectors - 1), (form.DIGEST, b"\0")),
    disagrees("a configuration without pages", form.NO_CONFIGURATION,
              *other_configuration(0, bytes(4))),
    disagrees("an argument with a zero byte, and a smaller area", form.NO_CONFIGURATION,
              *other_configuration(18, b"\0"),
              field(0, form.AREA_SECTORS, SMALL.area_sectors - 1)),
    disagrees("another digest of the contents", form.OTHER_DIGEST, (form.DIGEST, b"\0")),
    disagrees("another byte of the module", form.OTHER_DIGEST, (3 * SECTOR + 100, b"\xff")),
    disagrees("the last byte of the module", form.OTHER_DIGEST, (3 * SECTOR + 220, b"\1")),
    disagrees("another byte of the configuration", form.OTHER_DIGEST, sector(3, b"\x02")),
    damaged("no complete head", "S2 Damaged", sector(2, b"e")),
    damaged("a head of another place", "S2 Damaged", (3 * SECTOR - 8, b"\2")),
    damaged("a head of a generation of the other area", "S2 Damaged", (3 * SECTOR - 16, b"\2")),
    damaged("another version of the image", "Y2 Version", field(2, form.HEAD_VERSION, 7)),
    # The version of the newest head is judged before its image, and then the journal for it.
    damaged("version 3 of the image, and another byte of it", "Y2 Version",
            field(2, form.HEAD_VERSION, 3), (IMAGE + 60_000, b"\1")),
    disagrees("version 2 over too short a journal, and another byte of the image",
              form.SHORT_JOURNAL,
              field(2, form.HEAD_VERSION, 2), (IMAGE + 60_000, b"\1")),
    disagrees("the other mark in the image", form.other_mark(1),
              *other_image(echo_image(version=TWO)), field(2, form.HEAD_VERSION, ONE)),
    disagrees("the other mark in the image of generation 2", form.other_mark(0),
              *second_image(b"DWIMAGE2"), field(1, form.HEAD_VERSION, ONE)),
    disagrees("the other mark alone", form.other_mark(1), *other_image(b"DWIMAGE2"),
              field(2, form.HEAD_VERSION, ONE)),
    damaged("no mark in the image", "I1 NotAnImage",
            *other_image(b"DWIMAGE3" + echo_image()[8:])),
    damaged("another digest of the image", "S2 Damaged", (2 * SECTOR + form.IMAGE_DIGEST, b"\0")),
    damaged("another byte of the image", "S2 Damaged", (IMAGE + 60_000, b"\1")),
    damaged("a byte of the guest's memory", "S2 Damaged", (IMAGE + 190, b"\1")),
    damaged("a shorter image", "S2 Damaged", field(2, form.IMAGE_LENGTH, 65_810)),
    damaged("a longer image than its area", "S2 Damaged",
            field(2, form.IMAGE_LENGTH, SMALL.area_sectors * SECTOR + 1)),
    damaged("an image of one byte more", "I1 NotAnImage", *other_image(echo_image() + b"\0")),
    damaged("an image of one byte fewer", "I1 NotAnImage", *other_image(echo_image()[:-1])),
    damaged("an image of nothing", "I1 NotAnImage", *other_image(b"")),
    disagrees("a journal of a later generation", form.LATER, LATER),
    disagrees("a journal that has nothing but a later generation", form.LATER,
              (SMALL.journal * SECTOR + form.STAMP, struct.pack("<QQ", 2, 1))),
    disagrees("a journal of the last generation", form.LATER,
              sector(SMALL.journal, form.journal_sector((1 << 64) - 1, 1, record(6, END)))),
    # The image is judged before the journal.
    damaged("a journal of a later generation, and no mark in the image", "I1 NotAnImage", LATER,
            *other_image(b"DWIMAGE3" + echo_image()[8:])),
    damaged("a journal of a later generation, and another byte of the image", "S2 Damaged", LATER,
            (IMAGE + 60_000, b"\1")),
    diverged("a record of a later step", record(7, REQUEST, b"a")),
    diverged("a record of an earlier step", record(5, REQUEST, b"a")),
    diverged("a record of another kind", record(6, REALTIME, bytes(8))),
    diverged("a record with a newline", record(6, REQUEST, b"a\nb")),
    diverged("a record behind the end", record(6, END), record(28, REQUEST, b"a")),
    ("an empty file", [
        filled(b""), refuses("show disk", "Y1 NotAWorker"), refuses("run disk", "Y1 NotAWorker")]),
    ("a file that is no whole sector", [
        created(), of_length(511), refuses("show disk", "Y1 NotAWorker"),
        refuses("run disk", "Y1 NotAWorker")]),
    ("zeros", [
        filled(bytes(SMALL.total * SECTOR)), refuses("show disk", "Y1 NotAWorker"),
        refuses("run disk", "Y1 NotAWorker"), unopened("create disk echo.wasm", "disk", EXISTS)]),
    ("a sector too few", [
        created(), of_length((SMALL.total - 1) * SECTOR), refuses("show disk", "Y3 TooSmall"),
        refuses("run disk", "Y3 TooSmall")]),
    ("a byte too few", [
        created(), of_length(SMALL.total * SECTOR - 1), refuses("show disk", "Y3 TooSmall"),
        refuses("run disk", "Y3 TooSmall")]),
    ("a super alone", [
        created(), of_length(SECTOR), refuses("show disk", "Y3 TooSmall"),
        refuses("run disk", "Y3 TooSmall")]),
    ("no file", [
        unopened("show disk", "disk", MISSING), unopened("run disk", "disk", MISSING), NoFile()]),
    ("a folder", [unopened("show .", ".", FOLDER), unopened("run .", ".", FOLDER)]),
]

# A disk of `echo` of generation 4, with six answers that are in its journal alone.
LATE_TEXTS = [b"b", b"c", b"d", b"e", b"f", b"g"]
LATE = disk_of((2, None), (3, [b"a"]), (4, [b"a"]), kept=[
    (4, place, record(6 + 22 * place, REQUEST, text))
    for place, text in enumerate(LATE_TEXTS, 1)])
LATE_LINES = "".join(f"{place} o {text.decode()}\n" for place, text in enumerate(LATE_TEXTS, 2))
HEADS = [sector(number, LATE[number * SECTOR : (number + 1) * SECTOR]) for number in (1, 2)]
LOST = [sector(number, bytes(SECTOR)) for number in (1, 2)]
ALL_COMMANDS = [
    "show", "run", "inspect", "inspect --json", "files", "history", "history --story", "upgrade"]


def all_refuse(fault, why=""):
    """Each command that reads a disk refuses it by this fault, and leaves it as it is."""
    return [refuses(f"{words} disk", fault, given=PAIR, why=why) for words in ALL_COMMANDS]


LOST_HEADS = [
    ("a newest head that is lost, with answers after it", [
        created(), runs(b"1 r a\n", "1 o a\n"),
        runs(request_lines([b"a", *LATE_TEXTS]) + b"no", LATE_LINES, refused(8), status=6),
        Bytes(LATE), shows(counted(4, 27, 1, 1, 6)),
        written(LOST[0]), *all_refuse("Y4 Damaged", form.LATER),
        written(LOST[1]), *all_refuse("S2 Damaged"),
        # The older head is wanted no more.
        written(HEADS[0]), shows(counted(4, 27, 1, 1, 6)), inspected("request"), SameFacts(),
        listed(), recorded(), scripted(), runs(b"8 r h\n", LATE_LINES + "8 o h\n"),
        shows(counted(6, 181, 8, 8, 0))]),
    ("a newest head that is lost, without an answer after it", [
        created(), runs(b"1 r a\n", "1 o a\n"), runs(PAIR, "2 o b\n"),
        written(LOST[1]), shows(counted(4, 27, 1, 1, 1)),
        runs(PAIR + b"3 r c\n", "2 o b\n3 o c\n"), shows(counted(6, 71, 3, 3, 0))]),
]

# What no generation and no count of steps comes to, and what no count of lines does.
END_OF_STEPS = 1 << 63
END_OF_LINES = END_OF_STEPS - 2


def counted_far(steps, lines, *records):
    """A change to an image of `echo` that asks for a request, after so many steps and lines, with
    records after it."""
    memory = form.echo_memory([])
    image = form.echo_process((steps, 0, lines), (5, (0, 0, 1, 16)), memory)
    return written(*other_image(image), *([journal_of(*records)] if records else []))


def generation_of(number):
    """A change of the head of its area to that of a fresh image of this generation."""
    return written(sector(1 + number % 2, form.head(number, echo_image())))


COUNTS = [
    ("the last generation has no next one", [
        created(), generation_of(END_OF_STEPS - 1), shows(counted(END_OF_STEPS - 1, 0, 0, 0, 0)),
        refuses("run disk", "S1 TooBig", given=b"1 r a\n")]),
    ("the last generation but one has one", [
        created(), written(sector(SMALL.areas[0], form.padded(echo_image(), 129))),
        generation_of(END_OF_STEPS - 2), shows(counted(END_OF_STEPS - 2, 0, 0, 0, 0)),
        runs(b"1 r a\n", "1 o a\n", "failed S1 TooBig\n", status=3),
        shows(counted(END_OF_STEPS - 1, 0, 0, 0, 1)),
        refuses("run disk", "S1 TooBig", given=b"1 r a\n")]),
    ("the last step is taken, and none behind it", [
        created(), counted_far(END_OF_STEPS - 2, 0), shows(counted(1, END_OF_STEPS - 2, 0, 0, 0)),
        runs(b"", ""), shows(counted(3, END_OF_STEPS - 2, 0, 0, 0)),
        runs(b"1 r a\n", "", "failed P3 StepsSpent\n", status=3),
        shows(counted(4, END_OF_STEPS - 2, 0, 0, 0))]),
    ("no step behind the last one", [
        created(), counted_far(END_OF_STEPS - 1, 0), shows(counted(1, END_OF_STEPS - 1, 0, 0, 0)),
        runs(b"1 r a\n", "", "failed P3 StepsSpent\n", status=3),
        shows(counted(2, END_OF_STEPS - 1, 0, 0, 0))]),
    ("a count of steps that is no image's", [
        created(), counted_far(END_OF_STEPS, 0), refuses("run disk", "I1 NotAnImage")]),
    ("the last line is told, and none behind it", [
        created(), counted_far(5, END_OF_LINES - 2),
        shows(counted(1, 5, 0, END_OF_LINES - 2, 0)),
        runs(PAIR, f"{END_OF_LINES - 1} o a\n", "failed P3 StepsSpent\n", status=3),
        shows(counted(2, 5, 0, END_OF_LINES - 2, 1))]),
    ("a count of lines that is no image's", [
        created(), counted_far(5, END_OF_LINES), refuses("run disk", "I1 NotAnImage")]),
    ("a record behind the last step", [
        created(), counted_far(END_OF_STEPS - 2, 0, record(END_OF_STEPS - 1, REQUEST, b"a"),
                               record(END_OF_STEPS + 21, REQUEST, b"b")),
        shows(counted(1, END_OF_STEPS - 2, 0, 0, 2)), refuses("run disk", "Q1 Diverged")]),
]


def trap_file(number):
    """The name of a module that traps."""
    return f"trap{number}.wasm"


def trap_scene(number, name, module, steps, frames):
    """A scene of a worker that traps, and stays so. Its frames are told once."""
    form_of = Form(module, 1, 1, 64)
    disk = form_of.created(form.fresh_image())
    form_of.commit(disk, 2, form.fresh_image())
    form_of.commit(disk, 3, form.trapped_image(steps, number))
    words = f"trapped {name}\n"
    return words.strip(), [
        created(trap_file(number), total=form_of.total),
        runs(b"1 r a\n", "", words + frame_lines(frames)),
        Bytes(bytes(disk)), shows(counted(3, steps, 0, 0, 0)), inspected("nothing"), SameFacts(),
        runs(b"1 r a\nnothing", "", words), shows(counted(5, steps, 0, 0, 0))]


TRAPPED = [trap_scene(number, *trap) for number, trap in enumerate(TRAPS, 1)]


def exit_file(number):
    """The name of a module that exits with 0."""
    return f"exit{number}.wasm"


EXITED = [
    (f"a module that exits behind {steps} steps, number {number}", [
        created(exit_file(number), total=Form(module, 1, 1, 64).total),
        runs(b"1 r a\n", "", "exited 0\n"), shows(counted(3, steps, 0, 0, 0)),
        inspected("nothing"), SameFacts()])
    for number, (module, steps) in enumerate(EXITS, 1)
]

LONG = record(6, REQUEST, b"a" * 600)
RECORDS = [
    (f"records that are counted: {name}", [
        created(), written(*parts), shows(counted(1, 0, 0, 0, count))])
    for name, count, *parts in [
        ("one", 1, journal_of(record(6, REQUEST, b"a"))),
        ("none that is cut", 1,
         journal_of(record(6, REQUEST, b"a"), record(28, REQUEST, b"b")[:-1])),
        ("none of another kind", 0, journal_of(record(6, 6, b"a"))),
        ("none of an earlier generation", 0,
         sector(SMALL.journal, form.journal_sector(0, 1, record(6, REQUEST, b"a")))),
        ("none of another place", 0,
         sector(SMALL.journal, form.journal_sector(1, 2, record(6, REQUEST, b"a")))),
        ("none of a later generation at another place", 0,
         sector(SMALL.journal, form.journal_sector(2, 2, record(6, REQUEST, b"a")))),
        ("one, and none of a later generation after it", 1,
         journal_of(record(6, REQUEST, b"a")),
         sector(SMALL.journal + 1, form.journal_sector(2, 2, record(28, REQUEST, b"b")))),
        ("none behind a gap", 0,
         sector(SMALL.journal + 1, form.journal_sector(1, 2, record(6, REQUEST, b"a")))),
        ("one over two sectors", 1, *[
            sector(SMALL.journal + place, form.journal_sector(1, place + 1, part))
            for place, part in enumerate([LONG[: form.PAYLOAD], LONG[form.PAYLOAD :]])])]
]

# What no records say is computed anew.
RECORDS += [
    ("a record of no kind is dropped", [
        created(), written(journal_of(record(6, 6, b"a"))),
        runs(b"1 r b\n", "1 o b\n"), shows(counted(3, 27, 1, 1, 0))]),
]

HOSTS = [
    ("a second host on a disk", [
        created(), Locked(busy("show disk")),
        Locked(busy("run disk", b"1 r a\n")),
        Locked(unopened("create disk echo.wasm", "disk", EXISTS)),
        # The lock comes before anything is read.
        written(sector(0, b"e")), Locked(busy("show disk")),
        written(sector(0, b"D")), runs(b"1 r a\n", "1 o a\n")]),
]

# The seed of the worker that draws, and where its results, its input and its iovec are.
SEED = bytes(range(32))
RESULTS, INPUT, IOVEC = [PRINTER[1] + place for place in (0, 512, 1_024)]


def outside_module():
    """A module that draws, looks at both clocks and reads a request, and does all that again. It
    prints the error of each call, and after it what the call gave."""
    def drawn(place, length):
        return Step("random_get", [RESULTS + place, length], shown=[(RESULTS + place, length)])

    def time(place, clock):
        at = RESULTS + place
        return Step("clock_time_get", [clock, 0, at], shown=[(at, 8)])

    reads = Step("fd_read", [0, IOVEC, 1, IOVEC + 8])
    data = [(IOVEC, struct.pack("<II", INPUT, 100))]
    first = [drawn(0, 5), time(8, 1), time(16, 0), reads]
    second = [time(24, 1), time(32, 0), drawn(40, 7), reads]
    sequence = Sequence(1, data, [*first, *second, drawn(48, 4)], 1, [], None)
    return Writer(sequence, is_plain=True).written()


def outside_lines(begin, end, first, second, third):
    """The lines of that module from one number to another, with the random bytes and the times of
    three parts of its life."""
    def rows(part, length):
        words, monotonic, realtime = part
        times = [struct.pack("<Q", it) for it in (monotonic, realtime)]
        return words[:length], times

    words, times = rows(first, 5)
    shown = [words, *times, None]
    words, times = rows(second, 7)
    shown += [*times, words, None, third[:4]]
    texts = [text for it in shown for text in ([bytes(4)] if it is None else [bytes(4), it])]
    lines = printed([(1, text.hex().encode()) for text in texts]).decode().splitlines(True)
    return "".join(lines[begin - 1 : end])


def outside_scene():
    """What a worker has seen of the outside stays as it was, also where it is computed again."""
    def words(stream):
        return taken(SEED, stream, 0, 8)

    told = functools.partial(
        outside_lines, first=(words(2), 50, 50), second=(words(3), 50, 40), third=words(5))
    options = [["--seed", SEED.hex(), "--clock", clock] for clock in ("50", "40", "30")]
    total = Form(outside_module(), 1, 1, 64).total
    return "what was seen of the outside is kept", [
        created("outside.wasm", total=total),
        # Three answers are kept after generation 2, and none of them is drawn again.
        runs(b"none", told(1, 6), REFUSED, options[0], 6), shows(counted(2, 0, 0, 0, 3)),
        # Now generation 3 is the stream of further words. The monotonic clock doesn't go back.
        runs(b"1 r a\n", told(1, 13), words=options[1]),
        runs(b"1 r a\n2 r b\n", told(14, 16), "exited 0\n", options[2])]


# What is told of an input that can't be read.
NO_INPUT = "failed N2 Source\nthe standard input can't be read, or doesn't wait (O_NONBLOCK)\n"

# What has no room.
FULL_FILE = "/dev/full"
FULL = [
    ("a line that can't be printed is told by the next run", [
        created(),
        Command(["run", "disk"], 7, ANYTHING, "failed N3 Outlet\n", b"1 r a\n", FULL_FILE, True),
        shows(counted(2, 0, 0, 0, 1)),
        runs(b"1 r a\n", "1 o a\n"), shows(counted(4, 27, 1, 1, 0))]),
    ("a line that can't be printed while a disk is opened", [
        created(), written(journal_of(record(6, REQUEST, b"a"), record(28, REQUEST, b"b"))),
        Command(["run", "disk"], 7, ANYTHING, "failed Q3 Outlet\n", b"", FULL_FILE),
        shows(counted(1, 0, 0, 0, 2)), runs(b"", "1 o a\n2 o b\n")]),
    # A creation that fails leaves no file, so that it can be called again.
    ("the lines of `create` and `show` can't be printed", [
        Command(["create", "disk", "echo.wasm", *LEAST], 7, ANYTHING, ANYTHING, b"", FULL_FILE),
        NoFile(), created(),
        Command(["show", "disk"], 7, ANYTHING, ANYTHING, b"", FULL_FILE), shows(FRESH)]),
    ("an input that can't be read", [
        created(),
        Command(["run", "disk"], 4, "", NO_INPUT, None, changes=True),
        shows(counted(2, 0, 0, 0, 0)), runs(b"1 r a\n", "1 o a\n")]),
]

# The next node and the root of an image without files, and the same with one folder, `notes`.
NO_FILES = struct.pack("<QIQBI", 2, 1, 1, 3, 0)
ONE_FOLDER = struct.pack("<QIQBIH5sQQBI", 3, 2, 1, 3, 1, 5, b"notes", 2, 2, 3, 0)

# Texts that a terminal isn't shown as they are: they have control bytes, or are no UTF-8.
UNSHOWN = [b"a\tb", b"a\nb", b"\x1b[2J", b"\0", b"a\x7f", b"\xc3", b"\xff\xfe", b"\xed\xa0\x80"]

LOOKS = [
    ("the facts of the disks that docs/FORMATS.md has in hex", [
        created(), inspected("nothing"), SameFacts(), listed(),
        runs(b"1 r hello\n", "1 o hello\n"), inspected("request"), SameFacts(),
        Locked(busy("inspect disk")),
        Locked(busy("files disk")), Locked(busy("history disk"))]),
    ("texts and records are facts", [
        created("echo.wasm", "--env", "NAME=Ada", "--", 'r"e\\d', "", "ü"), inspected("nothing"),
        SameFacts(),
        written(journal_of(record(6, REQUEST, b"hello"), record(7, END),
                           record(8, REALTIME, bytes(8)))),
        inspected("nothing"), SameFacts(), shows(counted(1, 0, 0, 0, 3))]),
    ("records are listed, whatever bytes they have", [
        created(), recorded(), scripted(),
        written(journal_of(
            record(6, REQUEST, "é |\\\"".encode()), record(28, REQUEST, b""),
            record(9, REQUEST, b" "),
            *(record(step, REQUEST, data) for step, data in enumerate(UNSHOWN, 50)),
            record(70, REALTIME, b"\xff" * 8), record(71, MONOTONIC, bytes(8)),
            record(72, RANDOM, bytes(range(250, 256)) + b"\0\x0a"), record(73, RANDOM, b""),
            record(74, END), record(75, REQUEST, b"a"))),
        recorded(), scripted(),
        # The third record has a step that is over when it is played.
        Command(["run", "disk"], 3, "1 o é |\\\"\n", "failed Q1 Diverged\n")]),
    ("requests are counted from those that the snapshot has", [
        created(), runs(b"1 r a\n", "1 o a\n"), recorded(), scripted(),
        runs(b"1 r a\n2 r b\n3 r c\nno", "2 o b\n3 o c\n", refused(4), status=6),
        recorded(), scripted(), Command(["history", "disk"], 0, "28 request 2 r b\n"
                                        "50 request 3 r c\n"),
        Command(["history", "disk", "--story"], 0,
                "life\nrequest b\nrequest c\nslice 100023\n")]),
    ("texts that aren't UTF-8 are bytes", [
        filled(ANY_TEXTS.created(echo_image())), inspected("nothing"), SameFacts()]),
    ("sectors are left behind the last one without a gap", [
        created(), inspected("nothing"),
        *(step for place in (1, 2, 4) for step in (
            written(sector(SMALL.journal + place - 1, form.journal_sector(
                1, place, record(5 + place, REQUEST, b"a" * 400)))),
            inspected("nothing"), SameFacts())),
        # Now the gap is closed, and then the first sector is of an earlier generation.
        written(sector(SMALL.journal + 2, form.journal_sector(1, 3, b"no record"))),
        inspected("nothing"), SameFacts(),
        written(sector(SMALL.journal, form.journal_sector(0, 1, record(6, END)))),
        inspected("nothing"), SameFacts()]),
    ("the newest head is the one that is inspected", [
        created(), runs(b"1 r a\n", "1 o a\n"), runs(b"1 r a\n2 r b\n", "2 o b\n"),
        inspected("request")]),
    ("a notebook's files", [
        created("notebook.wasm", total=12_604, least=False), listed(),
        Command(["run", "disk"], 0, ANYTHING, ANYTHING, b"1 r add milk\n2 r add bread\n",
                changes=True),
        inspected("request"), SameFacts(), listed(), written_out("notes"),
        written_out("/notes", "notes"), refuses("files disk //notes", "F1 Missing"),
        refuses("files disk missing", "F1 Missing"), refuses("files disk notes/a", "F1 Missing"),
        refuses("files disk /notes/", "F1 Missing"), refuses("files disk /", "F1 Missing"),
        Command(["files", "disk", ""], 3, "", f"failed F1 Missing\n{SECOND_LINES['F1 Missing']}")]),
    ("a folder is listed, and has no bytes", [
        created(), written(*other_image(echo_image([b"a"]).replace(NO_FILES, ONE_FOLDER))),
        inspected("request"), SameFacts(), listed(), refuses("files disk notes", "F2 Directory"),
        refuses("files disk /notes", "F2 Directory")]),
    ("a disk that is refused", [
        filled(b""), refuses("inspect disk", "Y1 NotAWorker"),
        refuses("files disk", "Y1 NotAWorker"), refuses("history disk", "Y1 NotAWorker"),
        refuses("files disk notes", "Y1 NotAWorker")]),
    ("records of no disk", [
        unopened("history disk", "disk", MISSING), unopened("history .", ".", FOLDER), NoFile()]),
    ("a command line that isn't understood", [
        mistaken("inspect"), mistaken("inspect", "disk", "a"), mistaken("files"),
        mistaken("inspect", "disk", "--json", "--json"), mistaken("files", "disk", "--json"),
        mistaken("files", "disk", "a", "b"), mistaken("history"),
        mistaken("history", "disk", "a"), mistaken("history", "disk", "--json"),
        mistaken("history", "disk", "--story", "--story")]),
    ("facts that can't be printed", [
        created(), Command(["inspect", "disk"], 7, ANYTHING, ANYTHING, b"", FULL_FILE),
        Command(["inspect", "disk", "--json"], 7, ANYTHING, ANYTHING, b"", FULL_FILE),
        Command(["history", "disk", "--story"], 7, ANYTHING, ANYTHING, b"", FULL_FILE)]),
]

# Whole disks whose bytes may never change, with their digests: of version 1 as it is created, with
# a record, and after a checkpoint; of version 2 after an upgrade, and after a run behind that.
DIGESTS = {
    "de30a1ccfccb17a36009ce5b883f1c09cb929b4b5e11dc79c581e33ec78b09ce": disk_of(),
    "b06cacba769b692d7baad4fece5b0b74d9eb018105c745dba593a183cdc072ea": disk_of(
        (2, None), kept=[(2, 1, record(6, REQUEST, b"hello"))]),
    "c6454399d6020601871ac5e743f074d869933cc6a71b4bbef163c97538742671": form.dumped_disks()[1],
    "3b7552cff77e8ca2ddbdd19e168bcf91b14efe96c565f923d0698f991eedc4e1": roomy_disk(*FIRST_UPGRADE),
    "3eea20476e3be95ec3e7d93a877169c3752224da10b48d18652d199d5d2880e5": roomy_disk(
        *FIRST_UPGRADE, (4, [], TWO), (5, [b"hello"], TWO), kept=[(4, 1, (6, REQUEST, b"hello"))]),
}
assert all(hashlib.sha256(disk).hexdigest() == digest for digest, disk in DIGESTS.items())

SCENES = [*CREATION, *MISTAKES, *PACES, *LIVES, *LINES, *BROKEN, *LOST_HEADS, *COUNTS, *TRAPPED,
          *EXITED, *RECORDS, *HOSTS, outside_scene(), *FULL, *LOOKS, *UPGRADES]
