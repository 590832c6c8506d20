"""What is done with a disk in a scene of `disk-rows`, step by step: commands with what they print,
and changes of its bytes."""
import dataclasses
import os

from model import disk_facts as facts
from model.disk_form import ONE, SECTOR, Form, echo_image
from lib.guest_runs import BUSY, BUSY_LOOK, ECHO, NO_WORKER, widening

# What is printed where the text is the library's, and only has to be there, or not even that.
SOMETHING, ANYTHING = object(), object()

# The least disk, and the words that create it.
SMALL = Form(ECHO, 1, 1, 64)
LEAST = ["--pages", "1", "--files", "1", "--journal", "64"]
# The same with texts of bytes that no command line has.
ANY_TEXTS = Form(ECHO, 1, 1, 64, [b"\xff\xfe", b"a\x80"], [b"N=\xc0\x80"])
FRESH = "generation 1 steps 0 answers 0 lines 0 records 0 version 1\n"

# What is said of pages that are out of their bounds.
PAGES = "--pages is from 1 to 256\n"

# The number of a command line that is one too large for it.
TOO_LARGE = "18446744073709551616"


@dataclasses.dataclass
class Command:
    """A command, and how it has to end. The program's words, input, status and outputs."""

    words: list
    status: int
    out: object = ""
    err: object = ""
    given: bytes = b""
    into: str = ""
    # Whether the disk has to stay as it was.
    changes: bool = False


# Why a file can't be read, made or opened, for a person.
EXISTS, MISSING, FOLDER = [
    "file exists", "no such file or directory", "is a directory"]


@dataclasses.dataclass
class Change:
    """Something that is done with the file of the disk."""

    act: object


@dataclasses.dataclass
class Bytes:
    """All bytes that the disk must have."""

    wanted: bytes


@dataclasses.dataclass
class Locked:
    """A command, while somebody else has the lock of the disk."""

    command: Command


class NoFile:
    """There must be no file of the disk."""


@dataclasses.dataclass
class Looked:
    """A command that looks into the disk, and how what it prints follows from the disk's bytes."""

    words: list
    wanted: object


def inspected(waits):
    """All facts of the disk, of a process that waits for this."""
    return Looked(["inspect", "disk"], lambda disk: facts.inspected(disk, waits))


@dataclasses.dataclass
class SameFacts:
    """`inspect --json` says what `inspect` says, fact by fact."""


def listed():
    """The files of the worker."""
    return Looked(["files", "disk"], facts.listing)


def recorded():
    """The records behind the newest snapshot."""
    return Looked(["history", "disk"], facts.history)


def scripted():
    """The same as a life of a script."""
    return Looked(["history", "disk", "--story"], facts.life)


def written_out(path, listed=None):
    """One file of the worker, under its path or as it is listed."""
    return Looked(["files", "disk", path], lambda disk: facts.file_at(disk, listed or path))


def created(module="echo.wasm", *words, total=SMALL.total, least=True):
    """A worker is created."""
    words = ["create", "disk", module, *(LEAST if least else []), *words]
    return Command(words, 0, f"created {total} sectors\n", changes=True)


def runs(given, out, err="parked\n", words=(), status=0):
    """A worker is run, and its disk changes."""
    return Command(["run", "disk", *words], status, out, err, given, changes=True)


def shows(text):
    """What a disk holds."""
    return Command(["show", "disk"], 0, text)


# The second lines of some faults, whatever the command.
SECOND_LINES = {
    "Y1 NotAWorker": NO_WORKER.decode(),
    "S2 Damaged": "the newest snapshot of the disk isn't whole: restore a backup\n",
    "F1 Missing": "no file is listed under this path: without PATH all are listed\n",
    "F2 Directory": "it is a directory: --all FOLDER writes all\n"}


def refuses(command, fault, status=3, given=b"", why=""):
    """A command is refused by a fault, and changes nothing. A second line may say more."""
    why = why or SECOND_LINES.get(fault, "")
    return Command([*command.split()], status, "", f"failed {fault}\n{why}", given)


def unopened(command, path, cause):
    """A command with a file that can't be read, made or opened. It says which, and why."""
    return refuses(command, "K2 Io", 4, b"1 r a\n", f"{path}: {cause}\n")


def busy(command, given=b""):
    """A command on the disk while another program has it."""
    looks = command.split()[0] in ("show", "inspect", "files", "history", "save")
    return refuses(command, "K5 Busy", 4, given, f"disk: {BUSY_LOOK if looks else BUSY}\n")


# What is wrong with a line that is no request, and with one whose end isn't seen.
NO_REQUEST = "a request is N r TEXT or N e, with N from 1 on\n"
FAR_NUMBER = "the number of a request is below 9223372036854775808\n"
UNENDED = "more than 4096 bytes, and version 1 takes 4096" + widening("disk")


def too_long(length):
    """What is wrong with a text of so many bytes, where the worker is of version 1."""
    return f"{length} bytes, and version 1 takes 4096{widening('disk')}"


def refused(line, why=NO_REQUEST):
    """What is printed for a line of the input that is refused for its form or its length."""
    return f"refused request line\nat input line {line}\n{why}"


def too_late(line, given, wanted):
    """What is printed for a line of the input with a later request than the wanted one."""
    return f"refused request {given}, wanted {wanted}\nat input line {line}\n"


def mistaken(*words):
    """A command line that isn't understood."""
    return Command(list(words), 2, "", SOMETHING)


def counted(generation, steps, answers, lines, records, version=ONE):
    """The line of `show`."""
    return (f"generation {generation} steps {steps} answers {answers} lines {lines} "
            f"records {records} version {version}\n")


def disk_of(*commits, kept=()):
    """The bytes of a disk of `echo` after commits of generation and texts, and kept records."""
    disk = SMALL.created(echo_image())
    for generation, texts_taken in commits:
        SMALL.commit(disk, generation, echo_image(texts_taken))
    for generation, place, records in kept:
        SMALL.keep(disk, generation, place, records)
    return bytes(disk)


def written(*parts):
    """A change that writes bytes into the file, each at a place."""
    def act(path):
        with open(path, "r+b") as file:
            for at, data in parts:
                file.seek(at)
                file.write(data)
    return Change(act)


def sector(number, data):
    """Bytes, and the place of a sector."""
    return number * SECTOR, data


def field(number, at, value):
    """A field of four bytes in a sector, and its place."""
    return number * SECTOR + at, value.to_bytes(4, "little")


def of_length(length):
    """A change of the length of the file."""
    return Change(lambda path: os.truncate(path, length))


def filled(data):
    """A new file of some bytes."""
    def act(path):
        with open(path, "xb") as file:
            file.write(data)
    return Change(act)
