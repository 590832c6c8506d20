"""Scenes of `files DISK --all FOLDER`, for `program-rows`: what it writes, what it refuses, and
what it leaves. All of it was worked out by hand from docs/COMMANDS.md, and from what guests do."""
import os

from lib import wasm_bytes as wasm
from lib.call_modules import constant, stored
from lib.folder_scenes import (
    Act, AsNobody, AsShow, Locked, Meanwhile, Step, Tree, WithFew, allowed, linked, moved,
    taken_from, written)
from lib.disk_steps import SECOND_LINES
from lib.guest_runs import BUSY_LOOK, ECHO, NO_WORKER
from model.host_model import CREATE, FILE_RIGHTS, PARAMETERS, PREOPENED

DISK, FOLDER = "worker.disk", "out"

# The calls that the guest imports, in this order.
CALLS = ["path_create_directory", "path_open", "fd_write", "path_rename", "path_unlink_file"]

# Where a result, an iovec and a count are in memory, and where texts begin.
RESULT, IOVEC, COUNT, TEXTS = 8, 16, 24, 64

# The bytes of the guest's largest file, of three letters in turn.
LARGE = (b"abc" * 3000)[:8193]

EXISTS, MISSING = "file exists", "no such file or directory"
LONG, FORBIDDEN = "file name too long", "permission denied"
FULL, OTHER = "directory not empty", "another file is there now"

# The longest path that the system takes, behind many dots.
LONGEST = f"{'./' * 2_046}{FOLDER}"


class Guest:
    """A guest that makes files, one call after another, and exits with 0."""

    def __init__(self):
        self.code, self.texts, self.files = b"", b"", 0

    def text(self, data):
        """Where a text is in memory, and its length."""
        self.texts += data
        return TEXTS + len(self.texts) - len(data), len(data)

    def calls(self, name, *arguments):
        """Makes a call with numbers."""
        longs = [it.endswith(":l") for it in PARAMETERS[name].split()]
        self.code += b"".join(constant(*it) for it in zip(arguments, longs))
        self.code += wasm.CALL + wasm.unsigned(CALLS.index(name)) + wasm.DROP
        return self

    def folder(self, path):
        return self.calls("path_create_directory", PREOPENED, *self.text(path))

    def file(self, path, data=b""):
        """Makes a file with these bytes. It stays open."""
        self.files += 1
        self.calls("path_open", PREOPENED, 0, *self.text(path), CREATE, FILE_RIGHTS, 0, 0, RESULT)
        if data:
            at, length = self.text(data)
            self.code += stored(IOVEC, wasm.i32(at)) + stored(IOVEC + 4, wasm.i32(length))
            self.calls("fd_write", PREOPENED + self.files, IOVEC, 1, COUNT)
        return self

    def moves(self, path, to):
        return self.calls("path_rename", PREOPENED, *self.text(path), PREOPENED, *self.text(to))

    def removes(self, path):
        return self.calls("path_unlink_file", PREOPENED, *self.text(path))

    def module(self):
        """Its module. `_start` makes the calls."""
        kind = lambda parameter: wasm.I64 if parameter.endswith(":l") else wasm.I32
        taken = [[kind(it) for it in PARAMETERS[name].split()] for name in CALLS]
        types = [wasm.function_type(kinds, [wasm.I32]) for kinds in taken]
        types += [wasm.function_type([wasm.I32], []), wasm.function_type([], [])]
        names = [*CALLS, "proc_exit"]
        code = self.code + wasm.i32(0) + wasm.CALL + wasm.unsigned(len(CALLS))
        return wasm.module_bytes([
            (1, types),
            (2, [wasm.imported_function(it.encode(), at) for at, it in enumerate(names)]),
            (3, [wasm.unsigned(len(names))]),
            (5, [b"\x00\x01"]),
            (7, [wasm.exported(b"memory", 2, 0), wasm.exported(b"_start", 0, len(names))]),
            (10, [wasm.function_body([], code)]),
            (11, [b"\x00" + wasm.i32(TEXTS) + wasm.END + wasm.sized(self.texts)]),
        ])


# A guest with nested folders, an empty file and folder, a file of several chunks, a removed one, a
# file that is older than its folder, and names that a line can't have.
NESTED = (
    Guest().folder(b"a").folder(b"a/b").folder(b"empty").file(b"a/b/large", LARGE)
    .file(b"nothing").file(b"old", b"old\n").folder(b"young").moves(b"old", b"young/moved")
    .file(b"gone", b"gone").removes(b"gone").file(b"a/line\nend", b"\0\xff")
    .file("a/b/ä -".encode(), b"ae").file(b"a.b", b"."))
TREE = {
    "a": None, "a/b": None, "empty": None, "young": None, "a/b/large": LARGE, "nothing": b"",
    "young/moved": b"old\n", "a/line\nend": b"\0\xff", "a/b/ä -": b"ae", "a.b": b"."}

# A guest whose names have control bytes, or look as if they had, and the list of its files.
NAMES = (
    Guest().folder(b"x").folder(b"tab\t").file(b"tab\t/\x7f", b"del")
    .file(b"f 1 a\nd forged", b"forged").file("fx é".encode(), b""))
LIST = ("d x\ndx 74616209\nfx 3 746162092f7f\nfx 6 66203120610a6420666f72676564\n"
        "f 0 fx é\n")

# A guest with a path of 18 names of 250 bytes: two chains of folders, one moved behind the other.
# Behind a folder of three letters the host takes 16 of them, since a path has 4,095 bytes at most.
NAME, LAST = b"n" * 250, b"m" * 250
FIRST, SECOND = [NAME] * 9, [LAST, *[NAME] * 8]
DEEP = Guest()
for chain in (FIRST, SECOND):
    for depth in range(1, len(chain) + 1):
        DEEP.folder(b"/".join(chain[:depth]))
DEEP.file(NAME + b"/file", b"text").moves(LAST, b"/".join([*FIRST, LAST]))
TOO_LONG = "/".join([FOLDER, *(it.decode() for it in [*FIRST, *SECOND][:17])])

MODULES = {"nested.wasm": NESTED.module(), "names.wasm": NAMES.module(),
           "deep.wasm": DEEP.module(), "echo.wasm": ECHO}


def has(folder=FOLDER, wanted=None):
    """The folder has just these files and folders."""
    return Tree(folder, TREE if wanted is None else wanted)


def created(module="nested.wasm"):
    """A worker is created, and run to its end."""
    made = Step(["create", DISK, module, "--journal", "64"], out=None, changes=(DISK,))
    return [made, Step(["run", DISK], 0, None, "exited 0\n", changes=(DISK,))]


def extracts(files=6, folders=4, disk=DISK, folder=FOLDER, live=(), made=FOLDER):
    """All files are written."""
    return Step(["files", disk, "--all", folder, *live],
                out=f"wrote {files} files, {folders} folders\n", changes=(made,))


def refuses(fault, why="", disk=DISK, folder=FOLDER, status=4, into=""):
    """Nothing is made, and this is said."""
    return Step(["files", disk, "--all", folder], status, "", f"failed {fault}\n{why}", into=into)


def unmade(path, cause):
    """The folder can't be made."""
    return refuses("K2 Io", f"{path}: {cause}\n", folder=path)


def stays(*paths):
    """The lines that name what stays, and why."""
    return "".join(f"{path}: stays: {why}\n" for path, why in paths)


def clears(act, *paths):
    """Something is done with the folder before the output fails. Then just these stay."""
    said = "failed N3 Outlet\n" + stays(*paths)
    return Meanwhile(act, Step(["files", DISK, "--all", FOLDER], 7, "", said))


SCENES = [
    ("all files and folders are written", [
        *created(), extracts(), has(), unmade(FOLDER, EXISTS), has(),
        extracts(folder="./again/", made="again"), has("again"), linked("link", "again"),
        extracts(folder="link/within", made="again"), has("again/within")]),
    ("names with control bytes are listed by digits, and read as they are", [
        *created("names.wasm"), Step(["files", DISK], out=LIST),
        Step(["files", DISK, "tab\t/\x7f"], out="del"),
        Step(["files", DISK, "f 1 a\nd forged"], out="forged"),
        Step(["files", DISK, "746162092f7f"], 3, "", "failed F1 Missing\n" + SECOND_LINES["F1 Missing"])]),
    ("by a look at a live disk", [
        *created(), Locked(DISK, refuses("K5 Busy", f"{DISK}: {BUSY_LOOK}\n")),
        Locked(DISK, extracts(live=("--live",))), has()]),
    ("no files", [
        *created("echo.wasm")[:1], extracts(0, 0), has(wanted={})]),
    ("something is at the path of the folder", [
        *created(), written("mine", b"mine"), Act(lambda top: os.mkfifo(f"{top}/fifo")),
        Act(lambda top: os.mkdir(f"{top}/folder")), linked("link", "folder"),
        linked("nowhere", "missing"), linked("loop", "loop"),
        *(unmade(it, EXISTS) for it in (
            DISK, "mine", "fifo", "folder", "link", "nowhere", "loop", ".", "..", "/",
            "/dev/null")), has("folder", {}), extracts(), has()]),
    ("the folder can't be made", [
        *created(), written("mine", b"mine"), *(unmade(*it) for it in (
            ("missing/out", MISSING), ("", MISSING), ("mine/out", "not a directory"),
            ("x" * 256, LONG), ("/proc/out", MISSING)))]),
    ("who may not write makes nothing", [
        *created(), allowed(DISK, 0o666), allowed("closed", 0o555), allowed("open", 0o777),
        AsNobody(unmade("closed/out", FORBIDDEN)), AsNobody(unmade(FOLDER, FORBIDDEN)),
        AsNobody(extracts(folder="open/out", made="open")), has("open/out"),
        # The folder's entry can't be synced by who may not read its folder.
        allowed("hidden", 0o333), AsNobody(unmade("hidden/out", FORBIDDEN)), Tree("hidden", {})]),
    ("the folder's path is the longest one, or longer", [
        *created("echo.wasm")[:1], extracts(0, 0, folder=LONGEST), has(wanted={}),
        unmade(f"./{LONGEST}", LONG)]),
    ("nothing fits behind the longest path", [
        *created(), refuses("K2 Io", f"{LONGEST}/a: {LONG}\n", folder=LONGEST)]),
    ("a path is too long, and what was made is removed again", [
        *created("deep.wasm"),
        refuses("K2 Io", f"{TOO_LONG}: {LONG}\n")]),
    ("the output is full, and what was made is removed again", [
        *created(), refuses("N3 Outlet", status=7, into="/dev/full")]),
    ("what somebody else has put there stays", [
        *created(), clears(written("out/a/mine", b"mine"), ("out/a", FULL), ("out", FULL)),
        has(wanted={"a": None, "a/mine": b"mine"})]),
    ("so does a file that has replaced one", [
        *created(), written("mine", b"mine"),
        clears(moved("mine", "out/a.b"), ("out/a.b", OTHER), ("out", FULL)),
        has(wanted={"a.b": b"mine"})]),
    ("so does a folder that has replaced it", [
        *created(), clears(taken_from(FOLDER, "away"), ("out/nothing", OTHER), ("out", OTHER)),
        has(wanted={"nothing": b"mine"}), has("away")]),
    ("what somebody else has removed isn't named", [
        *created(), clears(Act(lambda top: os.remove(f"{top}/out/a.b"))), extracts(), has()]),
    ("no more files can be opened, and what was made is removed again", [
        *created(), WithFew(7, refuses("K2 Io", "out/a.b: too many open files\n")),
        extracts(), has()]),
    ("no worker's disk", [
        *created(), refuses("Y1 NotAWorker", NO_WORKER.decode(), disk="echo.wasm", status=3),
        refuses("K2 Io", f"missing: {MISSING}\n", disk="missing"),
        AsShow("/dev/null", ["files", "/dev/null", "--all", FOLDER])]),
    ("a command line that isn't understood", [
        *created(), *(Step(["files", *words], 2, "", None) for words in (
            [DISK, "--all"], [DISK, "a", "--all", FOLDER], ["--all", FOLDER],
            [DISK, "--all", FOLDER, "--all", "b"]))]),
]
