"""Runs of guests by the built program, each on a disk of its own, and refused allocations."""
import concurrent.futures
import functools
import os
import re
import shutil
import subprocess
import tempfile

HERE = os.path.dirname(os.path.abspath(__file__))
ROOT = os.path.dirname(os.path.dirname(HERE))
PROGRAM = os.path.join(ROOT, "crates", "wasmhost", "out", "wasmhost")
EXAMPLES = os.path.join(ROOT, "examples")

# How a run ends that has no memory: its exit status, and its last words. They name the layer of the
# recovery that wants memory, or a call of the worker (N4). An upgrade may have told lines.
NO_MEMORY = 5
WANT_OF_MEMORY = re.compile(rb"failed ([A-Z][0-9]) Memory\n(?:told \d+ lines?: .*\n)?")

# What a run and an upgrade say on their second line of a disk that has failed.
DISK_FAILED = b"the disk has failed: see to its device, then run it once with --rewrite"

# What is said so of one that has failed before a worker was open.
LOOK_FAILED = b"the disk has failed: see to its device"

# What is said on a second line: of a disk without a worker, of one that is locked, and so if it is
# only looked at.
NO_WORKER = b"no worker is on the disk: if create or save was cut off, call that again\n"
BUSY = "another host is using this disk, or it is open twice: end that use"
BUSY_LOOK = "another host is using this disk: look at it with --live"


def widening(disk):
    """The two steps that a run tells where a text is too long for version 1."""
    return f": wasmhost run {disk} </dev/null >>LINES, then wasmhost upgrade {disk}\n"


def told_words(output):
    """What an upgrade says last on its error output, where it has printed lines of the worker."""
    count = sum(line[:1].isdigit() for line in output.split(b"\n"))
    one, several = b"told 1 line: keep it with the others\n", b" lines: keep them with the others\n"
    return {0: b"", 1: one}.get(count, b"told %d" % count + several)


# What a run says of a last line that it has left.
LAST_LEFT = b"the last line has no newline, and was left\n"

# What the version of a program ends with that `make program` has built.
UNPROVED = ", unproved\n"

# How long one run may take: much longer than any does, on however slow a machine.
SECONDS = 300

# A folder in memory, where syncs cost nothing, and how many bytes have to be free there.
IN_MEMORY, FREE = "/dev/shm", 1 << 30

# Reads descriptor 0, and writes what it read to descriptor 1, until it reads nothing.
ECHO = bytes.fromhex(
    "0061736d01000000 010c0260000060047f7f7f7f017f 024402"
    "16776173695f736e617073686f745f70726576696577310766645f726561640001"
    "16776173695f736e617073686f745f70726576696577310866645f77726974650001"
    "03020100 0503010001 071302065f73746172740002066d656d6f72790200"
    "0a31012f000340 410041004101411010001a 4110280200450d01 410c4110280200360200"
    "410141084101411410011a 0c000b0b"
    "0b12010041000b0c400000000010000040000000")


def scratch():
    """A new folder for disks, which is removed after its `with`. It is in memory if it can."""
    can = os.access(IN_MEMORY, os.W_OK) and shutil.disk_usage(IN_MEMORY).free >= FREE
    return tempfile.TemporaryDirectory(dir=IN_MEMORY if can else None)


def request_lines(requests):
    """The request lines of texts. One that is none ends the input."""
    texts = [b"e" if it is None else b"r " + it for it in requests]
    return b"".join(b"%d %s\n" % it for it in enumerate(texts, 1))


def printed(lines):
    """The standard output of a program that emits lines, each with its stream."""
    letters = {1: b"o", 2: b"e"}
    rows = [(number, letters[stream], text) for number, (stream, text) in enumerate(lines, 1)]
    return b"".join(b"%d %s %s\n" % row for row in rows)


def creation_words(outside):
    """The words of a creation, after disk and module, that give a process its texts."""
    if outside is None:
        return []
    words = [word for entry in outside.environment for word in ("--env", entry)]
    return words + ["--", *outside.arguments]


def life_words(outside):
    """The words of a run, after the disk, that give a process a time and a seed."""
    if outside is None:
        return []
    return ["--clock", str(outside.clock), "--seed", outside.seed.hex()]


def ended(words, given=b"", seconds=SECONDS, **environment):
    """How a command ends: its exit status, its output and its error output."""
    ran = subprocess.run(
        words, input=given, capture_output=True, check=False, timeout=seconds,
        env={**os.environ, **environment})
    return ran.returncode, ran.stdout, ran.stderr


def wanting(found):
    """The name under which a command has ended by being out of memory, or none."""
    words = WANT_OF_MEMORY.fullmatch(found[2]) if found[0] == NO_MEMORY else None
    return words and words[1]


def wants_memory(found):
    """Whether a command has ended by being out of memory."""
    return wanting(found) is not None


def whole_run(program, disk, module, creating=(), running=(), given=b"", seconds=SECONDS):
    """Creates a worker on a new disk and runs it once. Answers how the run ends, or the creation
    where that is refused. The disk is removed."""
    made = ended([program, "create", disk, module, *creating], seconds=seconds)
    if made[0]:
        return made
    try:
        return ended([program, "run", disk, *running], given, seconds)
    finally:
        os.remove(disk)


class Run:
    """A guest with its request lines, and how its run has to end: status, output, error output.

    It is created once, on a disk that nothing writes again. Each run is on a copy.
    """

    def __init__(self, name, program, folder, module, requests, right, outside=None):
        self.name, self.program, self.right = name, program, right
        self.disk, self.words = os.path.join(folder, f"{name}.disk"), life_words(outside)
        self.given, self.wants = request_lines(requests), {}
        self.made = ended([program, "create", self.disk, module, *creation_words(outside)])

    def ran(self, disk, **environment):
        """How a run on some disk ends."""
        return ended([self.program, "run", disk, *self.words], self.given, **environment)

    def on_copy(self, name, act):
        """What a function answers of a copy of the fresh disk, which is then removed."""
        copy = f"{self.disk}.{name}"
        shutil.copyfile(self.disk, copy)
        try:
            return act(copy)
        finally:
            os.remove(copy)

    def difference(self, output):
        """The first line of an output that isn't the right one."""
        found, wanted = output.split(b"\n"), self.right[1].split(b"\n")
        for right, other in zip(wanted, found):
            if right != other:
                return f"{other[:200]}, wanted {right[:200]}"
        return f"{len(found) - 1} lines, wanted {len(wanted) - 1}"

    def fault(self):
        """What is wrong where nothing is refused, or none."""
        if self.made[0]:
            return f"it isn't created: {self.made}"
        found = self.on_copy("whole", self.ran)
        if found == self.right:
            return None
        same = found[1] == self.right[1]
        last = f"status {found[0]}, {found[2]}"
        return f"{last}; " + ("the right lines" if same else self.difference(found[1]))

    def allocations(self, library):
        """How many allocations the whole run makes."""
        return self.on_copy("counted", lambda disk: allocations(
            [self.program, "run", disk, *self.words], library, disk, self.given))

    def refused(self, library, number, goes_on=False):
        """What is wrong where an allocation is refused, or none. The same disk may then be asked
        to go on, with memory enough."""
        return self.on_copy(str(number), lambda disk: self.fault_on(disk, library, number, goes_on))

    def fault_on(self, disk, library, number, goes_on):
        """What is wrong where an allocation is refused on a disk, or none."""
        found = self.ran(disk, LD_PRELOAD=library, REFUSED_ALLOCATION=str(number))
        if wants_memory(found):
            self.wants[number] = wanting(found)
        status, output, words = found
        is_part = self.right[1].startswith(output) and output[-1:] in (b"", b"\n")
        if found != self.right and not (wants_memory(found) and is_part):
            last = f"status {status}, {words}"
            return f"allocation {number} refused: {last}; " + self.difference(output)
        if not goes_on:
            return None
        status, more, words = self.ran(disk)
        if (status, words) == (self.right[0], self.right[2]) and self.joins(output, more):
            return None
        last = f"status {status}, {words}, {output} and {more}"
        return f"allocation {number} refused, then it doesn't go on: {last}"

    def joins(self, output, more):
        """Whether two outputs together are the right lines, of which the second may repeat some."""
        ends = [0, *(place + 1 for place, byte in enumerate(output) if byte == ord("\n"))]
        return any(output[:end] + more == self.right[1] for end in ends)


def in_order(wants):
    """The names of those that wanted memory, by the numbers of the refused allocations."""
    return list(dict.fromkeys(wants[number] for number in sorted(wants)))


def built_library(folder):
    """The library that refuses allocations."""
    path = os.path.join(folder, "refuse_allocation.so")
    source = os.path.join(HERE, "refuse_allocation.c")
    subprocess.run(["cc", "-shared", "-fPIC", "-O2", "-o", path, source], check=True)
    return path


def allocations(words, library, path, given=b""):
    """How many allocations a command makes. They are counted in a file beside a path."""
    path = f"{path}.allocations"
    ended(words, given, LD_PRELOAD=library, ALLOCATIONS=path)
    with open(path, encoding="ascii") as file:
        return int(file.read())


def refusals(runs, folder, goes_on=False):
    """Refuses each allocation of each run. Yields the run, and what is wrong or none."""
    library = built_library(folder)
    with concurrent.futures.ThreadPoolExecutor(os.cpu_count()) as pool:
        for run in runs:
            numbers = range(1, run.allocations(library) + 1)
            refused = functools.partial(run.refused, library, goes_on=goes_on)
            for fault in pool.map(refused, numbers):
                yield run, fault
