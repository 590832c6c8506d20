"""Scenes of upgrades on a disk, for `disk-rows`: a part of `disk_scenes.py`."""
from model import disk_form as form
from model.disk_form import ONE, REQUEST, TWO, Form, echo_image, record
from lib.guest_runs import ECHO, printed, told_words
from lib.disk_steps import (
    Bytes, Command, Locked, MISSING, SameFacts, busy, counted, created, field, inspected, mistaken,
    refused, refuses, runs, sector, shows, too_long, unopened, written)

# What is said of a request line that is too long, in version 1 and in version 2.
LONG_LINE = refused(1, too_long(4_097))
LONGER_LINE = refused(1, "65537 bytes, and version 2 takes 65536\n")

# A disk of `echo` whose journal takes the records of version 2, and the words that create it.
ROOMY = Form(ECHO, 1, 1, form.JOURNAL)


def with_journal(count=form.JOURNAL):
    """A worker of `echo` is created with so many sectors of journal."""
    words = ["--pages", "1", "--files", "1", "--journal", str(count)]
    return created("echo.wasm", *words, total=Form(ECHO, 1, 1, count).total, least=False)


def upgrades(out):
    """A worker is upgraded, or is of version 2 already, after lines that it tells again. How many
    these are is said last."""
    return Command(["upgrade", "disk"], 0, out, told_words(out.encode()).decode(), changes=True)


def roomy_disk(*commits, kept=()):
    """The bytes of such a disk behind commits of generation, texts and version, and kept records
    of version 2."""
    disk = ROOMY.created(echo_image())
    for generation, texts_taken, version in commits:
        ROOMY.commit(disk, generation, echo_image(texts_taken, version))
    for generation, place, at in kept:
        ROOMY.keep(disk, generation, place, record(*at, version=TWO))
    return bytes(disk)


def lines_of(length):
    """The lines that `echo` prints of one request of so many bytes. It reads up to 4,096 at a time,
    and an unfinished line has no more."""
    texts = [b"x" * min(4_096, length - at) for at in range(0, length, 4_096)]
    return printed([(1, text) for text in texts]).decode()


SHORT = ("failed N7 JournalTooSmall\n"
         "its journal has fewer than 133 sectors: create --from it with --journal 133\n")
FIRST_UPGRADE = [(2, None, ONE), (3, [], TWO)]
UPGRADES = [
    ("a worker is upgraded, and goes on in version 2", [
        with_journal(),
        upgrades("upgraded\n"), Bytes(roomy_disk(*FIRST_UPGRADE)),
        shows(counted(3, 5, 1, 0, 0, TWO)), inspected("request"), SameFacts(),
        runs(b"1 r hello\n", "1 o hello\n"),
        Bytes(roomy_disk(*FIRST_UPGRADE, (4, [], TWO), (5, [b"hello"], TWO),
                         kept=[(4, 1, (6, REQUEST, b"hello"))])),
        shows(counted(5, 27, 2, 1, 0, TWO)),
        upgrades("already version 2\n"), shows(counted(6, 27, 2, 1, 0, TWO))]),
    ("lines that were kept are told before the upgrade", [
        with_journal(), runs(b"1 r a\n2 r b\nno", "1 o a\n2 o b\n", refused(3), status=6),
        shows(counted(2, 0, 0, 0, 2)),
        upgrades("1 o a\n2 o b\nupgraded\n"), shows(counted(4, 49, 3, 2, 0, TWO)),
        runs(b"1 r x\n2 r y\n3 e\n", "", "exited 0\n"), shows(counted(6, 55, 4, 2, 0, TWO)),
        upgrades("already version 2\n")]),
    ("a worker that has ended is upgraded", [
        with_journal(), runs(b"1 e\n", "", "exited 0\n"), upgrades("upgraded\n"),
        shows(counted(5, 11, 2, 0, 0, TWO)), runs(b"", "", "exited 0\n")]),
    # After one sector of records there is no room for the longest one. So the worker is saved as it
    # asks for the next answer.
    ("a journal that is just large enough", [
        with_journal(form.LEAST_JOURNAL_OF_TWO), upgrades("upgraded\n"),
        runs(b"1 r hello\n", "1 o hello\n"), shows(counted(6, 27, 2, 1, 0, TWO))]),
    ("a journal that is too small for the records of version 2", [
        with_journal(form.LEAST_JOURNAL_OF_TWO - 1), runs(b"1 r a\n", "1 o a\n"),
        Command(["upgrade", "disk"], 3, "", SHORT, changes=True),
        shows(counted(4, 27, 1, 1, 0)), runs(b"1 r a\n2 r b\n", "2 o b\n")]),
    ("a refused upgrade says how many lines it has told", [
        with_journal(form.LEAST_JOURNAL_OF_TWO - 1),
        runs(b"1 r a\nno", "1 o a\n", refused(2), status=6),
        Command(["upgrade", "disk"], 3, "1 o a\n", SHORT + told_words(b"1 o a\n").decode(),
                changes=True)]),
    ("a run before an upgrade leaves it no line to tell", [
        with_journal(), runs(b"1 r a\n2 r b\nno", "1 o a\n2 o b\n", refused(3), status=6),
        runs(b"", "1 o a\n2 o b\n"), upgrades("upgraded\n")]),
    ("requests have up to 65,536 bytes after an upgrade", [
        with_journal(), runs(b"1 r " + b"x" * 4_097, "", LONG_LINE, status=6),
        upgrades("upgraded\n"), runs(b"1 r " + b"x" * 65_537, "", LONGER_LINE, status=6),
        runs(b"1 r " + b"x" * 65_536, lines_of(65_536)), inspected("request")]),
    ("a head of version 2 and an image of version 1", [
        with_journal(), written(field(2, form.HEAD_VERSION, TWO)),
        refuses("show disk", "Y4 Damaged", why=form.other_mark(1)),
        refuses("run disk", "Y4 Damaged", why=form.other_mark(1)),
        # The image's digest comes before its version.
        written(field(2, form.IMAGE_LENGTH, 65_810)), refuses("show disk", "S2 Damaged")]),
    ("a disk that can't be upgraded is refused as by `run`", [
        created(), written(sector(0, b"e")), refuses("upgrade disk", "Y1 NotAWorker"),
        written(sector(0, b"D")), Locked(busy("upgrade disk")),
        unopened("upgrade missing", "missing", MISSING),
        mistaken("upgrade"), mistaken("upgrade", "disk", "a")]),
]
