"""A folder, and what is done in it in a scene of `succession-rows` or of `save_scenes.py`.

A step is a command, and the files that it may make or change: all others have to stay as they
were.
"""
import contextlib
import dataclasses
import fcntl
import os
import resource
import stat
import subprocess
import threading
import time

from lib.guest_runs import SECONDS, scratch
from lib.not_tried import not_tried

# A user who isn't root, and has no file here.
NOBODY = 65_534


@dataclasses.dataclass
class Step:
    """A command, how it has to end, and the files that it may make or change. An output that is
    None may be any. Of one that is killed nothing is compared but that."""

    words: list
    status: int = 0
    out: object = ""
    err: str = ""
    given: bytes = b""
    changes: tuple = ()
    is_killed: bool = False
    into: str = ""


@dataclasses.dataclass
class Act:
    """Something that is done with the folder, by its path."""

    act: object


@dataclasses.dataclass
class Bytes:
    """All bytes that a file must have."""

    path: str
    wanted: bytes


@dataclasses.dataclass
class Front:
    """A file has all bytes of another one, or so many of its first ones."""

    path: str
    whole: str
    length: int | None = None


@dataclasses.dataclass
class Tree:
    """All that a folder must have, by paths from it on: files with their bytes, folders with
    None."""

    path: str
    wanted: dict


@dataclasses.dataclass
class Locked:
    """A step, while somebody else has the lock of a disk."""

    path: str
    step: Step


@dataclasses.dataclass
class Between:
    """A run with `--verbose` that waits for its input while something is done with the folder. It
    is given that then. What it changes isn't compared."""

    step: Step
    act: Act


@dataclasses.dataclass
class AsNobody:
    """A step of a user who isn't root, and may only read here."""

    step: Step


@dataclasses.dataclass
class WithFew:
    """A step that may have so many files open."""

    files: int
    step: Step


@dataclasses.dataclass
class Meanwhile:
    """A step whose output is a full pipe. Something is done with the folder while it waits to print.
    Then nobody can read what it prints."""

    act: object
    step: Step


@dataclasses.dataclass
class AsShow:
    """A command that is to read a disk ends as `show` of this path does, which refuses it, and
    makes nothing."""

    path: str
    words: list


def is_same(found, shown, path):
    """Whether a command ends as `show` does. It may have the path of the disk before what `show` says
    on a second line of a disk without a worker."""
    if found[1] != shown[1] or found[0] != shown[0]:
        return False
    head, *rest = shown[2].decode().partition("\n")
    return found[2].decode() in (head + "".join(rest), f"{head}\n{path}: {rest[1]}")


def written(path, data):
    """A file of some bytes."""
    def act(folder):
        with open(os.path.join(folder, path), "wb") as file:
            file.write(data)
    return Act(act)


def linked(path, to):
    """A symbolic link."""
    return Act(lambda folder: os.symlink(to, os.path.join(folder, path)))


def allowed(path, mode):
    """Other permissions of a file, or of a folder that is made where there is none."""
    def act(folder):
        place = os.path.join(folder, path)
        if not os.path.exists(place):
            os.mkdir(place)
        os.chmod(place, mode)
    return Act(act)


def nobody():
    """How a command is begun by that user, where this one is root."""
    return {"user": NOBODY, "group": NOBODY, "extra_groups": []} if os.geteuid() == 0 else {}


def cut_to(path, length):
    """A file of another length."""
    return Act(lambda folder: os.truncate(os.path.join(folder, path), length))


def moved(path, to):
    """A file that takes the place of another."""
    return Act(lambda folder: os.replace(*(os.path.join(folder, it) for it in (path, to))))


def taken_from(path, to):
    """A folder that gets another name, and one in its place that has a file of a name that was in
    it."""
    def act(folder):
        place = os.path.join(folder, path)
        os.rename(place, os.path.join(folder, to))
        os.mkdir(place)
        written(f"{path}/nothing", b"mine").act(folder)
    return Act(act)


def full_pipe():
    """Both ends of a pipe that takes no byte more."""
    reader, writer = os.pipe()
    os.set_blocking(writer, False)
    with contextlib.suppress(BlockingIOError):
        while True:
            os.write(writer, b"+" * 4_096)
    with contextlib.suppress(BlockingIOError):
        while True:
            os.write(writer, b"+")
    os.set_blocking(writer, True)
    return reader, writer


def wait_to_print(number):
    """Waits until a process waits for a pipe, or until that takes too long."""
    end = time.monotonic() + SECONDS
    while time.monotonic() < end:
        with open(f"/proc/{number}/wchan", encoding="ascii") as file:
            if "pipe" in file.read():
                return
        time.sleep(0.01)


def damaged(path, at, end):
    """Other bytes stand over a part of a file."""
    def act(folder):
        with open(os.path.join(folder, path), "r+b") as file:
            file.seek(at)
            file.write(b"\xff" * (end - at))
    return Act(act)


def content(path):
    """What is at a path: the bytes of a file, where a link leads, or its kind."""
    mode = os.lstat(path).st_mode
    if stat.S_ISLNK(mode):
        return os.readlink(path)
    if not stat.S_ISREG(mode):
        return stat.S_IFMT(mode)
    with open(path, "rb") as file:
        return file.read()


def all_below(top):
    """All that is in a folder and below, by paths from it on. A folder has None."""
    found = {}
    for at, folders, files in os.walk(top):
        for name in [*folders, *files]:
            path = os.path.join(at, name)
            is_folder = stat.S_ISDIR(os.lstat(path).st_mode)
            found[os.path.relpath(path, top)] = None if is_folder else content(path)
    return found


class Stage:
    """A folder with the modules, and what is done in it."""

    def __init__(self, program, folder, modules):
        self.program, self.folder = program, folder
        for name, module in modules.items():
            with open(os.path.join(folder, name), "wb") as file:
                file.write(module)

    def contents(self):
        """All that is in the folder."""
        return {it: content(os.path.join(self.folder, it)) for it in os.listdir(self.folder)}

    def wait_for_change(self, before):
        """Waits until the folder has other contents, or until that takes too long."""
        end = time.monotonic() + SECONDS
        while self.contents() == before and time.monotonic() < end:
            time.sleep(0.01)

    def ended(self, step, **user):
        """How a command ends: status, output and error output. One that is killed runs for a moment
        after it has changed a file."""
        with contextlib.ExitStack() as stack:
            pipes = {"stdout": subprocess.PIPE, "stderr": subprocess.PIPE}
            if step.into:
                pipes["stdout"] = stack.enter_context(open(step.into, "wb"))
            if step.is_killed:
                before = self.contents()
                ran = stack.enter_context(subprocess.Popen(
                    [self.program, *step.words], cwd=self.folder, stdin=subprocess.PIPE, **pipes))
                self.wait_for_change(before)
                time.sleep(0.5)
                ran.kill()
                return step.status, step.out, step.err
            ran = subprocess.run([self.program, *step.words], cwd=self.folder, check=False,
                                 timeout=SECONDS, input=step.given, **pipes, **user)
        return ran.returncode, ran.stdout or b"", ran.stderr

    def step_fault(self, step, **user):
        """What is wrong with a command, or none."""
        before = self.contents()
        found, after = self.ended(step, **user), self.contents()
        wanted = [step.status, *(
            it.encode() if isinstance(it, str) and not step.is_killed else it
            for it in (step.out, step.err))]
        if any(it not in (None, met) for it, met in zip(wanted, found)):
            return f"{step.words}: {[*found]}, wanted {wanted}"[:1_000]
        changed = {it for it in {*before, *after} if before.get(it) != after.get(it)}
        if not changed <= {*step.changes}:
            return f"{step.words}: it has changed {changed - {*step.changes}}"
        lacking = [it for it in step.changes if it not in after]
        return f"{step.words}: there is no {lacking}" if lacking else None

    def between_fault(self, step, act):
        """What is wrong with a run that waits meanwhile, or none."""
        pipes = dict.fromkeys(("stdin", "stdout", "stderr"), subprocess.PIPE)
        with subprocess.Popen([self.program, *step.words], cwd=self.folder, **pipes) as ran:
            ending = threading.Timer(SECONDS, ran.kill)
            ending.start()
            first = ran.stderr.readline()
            act(self.folder)
            out, rest = ran.communicate(step.given)
            ending.cancel()
        found = ran.returncode, out.decode(), (first + rest).decode()
        wanted = step.status, step.out, step.err
        return None if found == wanted else f"{step.words}: {found}, wanted {wanted}"[:1_000]

    def few_fault(self, step, files):
        """What is wrong with a command that may have so many files open, or none."""
        def limit():
            resource.setrlimit(resource.RLIMIT_NOFILE, (files, files))
        return self.step_fault(step, preexec_fn=limit)

    def meanwhile_fault(self, step, act):
        """What is wrong with a command in whose folder something is done while it waits to print,
        or none."""
        reader, writer = full_pipe()
        with subprocess.Popen([self.program, *step.words], cwd=self.folder, stdout=writer,
                              stdin=subprocess.DEVNULL, stderr=subprocess.PIPE) as ran:
            os.close(writer)
            wait_to_print(ran.pid)
            act.act(self.folder)
            os.close(reader)
            err = ran.communicate(timeout=SECONDS)[1]
        if (ran.returncode, err) != (step.status, step.err.encode()):
            return f"{step.words}: {ran.returncode}, {err}, wanted {step.status}, {step.err!r}"
        return None

    def nobody_fault(self, step):
        """What is wrong with a command of a user who may only read, or none."""
        os.chmod(self.folder, 0o755)
        try:
            return self.step_fault(step, **nobody())
        except PermissionError as why:
            not_tried("program-rows", f"the program can't be run as another user: {why}",
                      f"{step.words[0]} without permission to write")
            return None

    def show_fault(self, path, words):
        """What is wrong with a command that reads a disk which `show` refuses, or none."""
        before = self.contents()
        shown, found = self.ended(Step(["show", path])), self.ended(Step(words))
        told = [it[:40] for it in words]
        if not is_same(found, shown, path) or shown[0] == 0:
            return f"{told}: {found}, and show: {shown}"
        return None if self.contents() == before else f"{told}: a file has changed"

    def fault(self, step):
        """What is wrong with a step of a scene, or none."""
        match step:
            case Step():
                return self.step_fault(step)
            case AsNobody(behind):
                return self.nobody_fault(behind)
            case WithFew(files, behind):
                return self.few_fault(behind, files)
            case Meanwhile(act, behind):
                return self.meanwhile_fault(behind, act)
            case AsShow(path, words):
                return self.show_fault(path, words)
            case Between(behind, Act(act)):
                return self.between_fault(behind, act)
            case Act(act):
                act(self.folder)
            case Bytes(path, wanted):
                found = content(os.path.join(self.folder, path))
                return None if found == wanted else f"{path} has other bytes"
            case Tree(path, wanted):
                found = all_below(os.path.join(self.folder, path))
                paths = [it for it in {*found, *wanted} if found.get(it, 0) != wanted.get(it, 0)]
                return f"{path}: it has others than wanted: {sorted(paths)}" if paths else None
            case Front(path, whole, length):
                found, other = (content(os.path.join(self.folder, it)) for it in (path, whole))
                return None if found == other[:length] else f"{path} has other bytes than {whole}"
            case Locked(path, behind):
                with open(os.path.join(self.folder, path), "rb") as file:
                    fcntl.flock(file, fcntl.LOCK_EX)
                    try:
                        return self.step_fault(behind)
                    finally:
                        # A child of another thread may have the file until it runs its program.
                        fcntl.flock(file, fcntl.LOCK_UN)
        return None


def scene_fault(program, modules, scene):
    """The first thing that is wrong in a scene, or none. Its folder has these modules."""
    name, steps = scene
    with scratch() as folder:
        stage = Stage(program, folder, modules)
        for number, step in enumerate(steps, 1):
            fault = stage.fault(step)
            if fault:
                return f"{name}, step {number}: {fault}"
    return None
