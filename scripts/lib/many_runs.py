"""Runs of a program by the hundred thousand, several of them side by side.

A try is a generator: it yields a `Command`, is sent how that ended, and goes on, until it returns
what it found. So a try with several commands reads from top to bottom, and the tries of all places
go on at once. A process is started by `posix_spawn`, which copies nothing of this one.
"""
import os
import resource
import signal
import time
from dataclasses import dataclass

# How long a command may take, and how often the clock is looked at, in seconds.
LIMIT, TICK = 60.0, 0.05

# Where the input of a command comes from that is given none.
NOTHING = "/dev/null"

# How many bytes of an output are read at once.
OUTPUT = 1 << 16


@dataclass
class Command:
    """The words of a command after the program, the file of its input, and its time in seconds."""

    words: list
    given: str = NOTHING
    limit: float = LIMIT


@dataclass
class End:
    """How a command has ended: its status, below zero where a signal ended it, both outputs, and
    whether its time was over. `memory` is the largest part of it that was in memory, in KiB."""

    status: int
    out: bytes
    err: bytes
    is_late: bool
    memory: int


class Place:
    """One of the places where a command goes on: a folder, and two files for the outputs."""

    def __init__(self, folder, number):
        self.folder = os.path.join(folder, str(number))
        os.mkdir(self.folder)
        flags = os.O_RDWR | os.O_CREAT | os.O_APPEND
        self.outputs = [os.open(self.path(name), flags, 0o600) for name in ("out", "err")]
        self.coming, self.end, self.is_late = None, 0.0, False

    def path(self, name):
        """The path of a file in the folder of this place."""
        return os.path.join(self.folder, name)

    def write(self, name, data):
        """Writes a file in the folder of this place, over an older one. Answers its path."""
        path = self.path(name)
        file = os.open(path, os.O_WRONLY | os.O_CREAT, 0o600)
        try:
            assert os.write(file, data) == len(data), "no room for a file"
            os.ftruncate(file, len(data))
        finally:
            os.close(file)
        return path

    def read(self, name):
        """The bytes of a file in the folder of this place."""
        with open(self.path(name), "rb", buffering=0) as file:
            return file.read()

    def start(self, program, command):
        """Starts a command here. Answers the number of its process."""
        actions = [(os.POSIX_SPAWN_OPEN, 0, command.given, os.O_RDONLY, 0)]
        actions += [(os.POSIX_SPAWN_DUP2, it, to) for to, it in enumerate(self.outputs, 1)]
        words = [program, *command.words]
        self.end, self.is_late = time.monotonic() + command.limit, False
        return os.posix_spawn(program, words, os.environ, file_actions=actions)

    def taken(self, output):
        """All bytes of an output, which is then empty again."""
        file, data = self.outputs[output], b""
        while more := os.pread(file, OUTPUT, len(data)):
            data += more
        if data:
            os.ftruncate(file, 0)
        return data

    def ended(self, status, usage):
        """How the command of this place has ended."""
        code = os.waitstatus_to_exitcode(status)
        is_late = self.is_late and code == -signal.SIGKILL
        return End(code, self.taken(0), self.taken(1), is_late, usage.ru_maxrss)


class Runs:
    """Tries of one program, in places of their own."""

    def __init__(self, program, folder, places):
        self.program = program
        self.places = [Place(folder, number) for number in range(places)]
        self.by_pid = {}

    def tick(self, *_):
        """Ends each command whose time is over. It is called by a timer."""
        now = time.monotonic()
        for pid, place in self.by_pid.items():
            if now > place.end:
                place.is_late = True
                os.kill(pid, signal.SIGKILL)

    def go_on(self, place, end):
        """Sends the end of a command to its try. Answers what that found, or none if it goes on."""
        try:
            command = place.coming.send(end)
        except StopIteration as over:
            return over.value
        self.by_pid[place.start(self.program, command)] = place
        return None

    def wait(self):
        """Waits until a command ends. Answers its place, and what its try found, or none. Its
        number is given up only where the timer doesn't know it any more."""
        pid = os.waitid(os.P_ALL, 0, os.WEXITED | os.WNOWAIT).si_pid
        place = self.by_pid.pop(pid)
        _, status, usage = os.wait4(pid, 0)
        return place, self.go_on(place, place.ended(status, usage))

    def begin(self, place, tries):
        """Begins the next tries in a place until one goes on. Yields what the others found."""
        for make in tries:
            place.coming = make(place)
            found = self.go_on(place, None)
            if found is None:
                return
            yield found

    def all(self, tries):
        """Makes all tries: each is a function of a place. Yields what they found, as it comes. A
        signal that ends this process comes as a `KeyboardInterrupt`."""
        handlers = {signal.SIGALRM: self.tick, signal.SIGTERM: signal.default_int_handler}
        before = {it: signal.signal(it, handler) for it, handler in handlers.items()}
        signal.setitimer(signal.ITIMER_REAL, TICK, TICK)
        try:
            for place in self.places:
                yield from self.begin(place, tries)
            while self.by_pid:
                place, found = self.wait()
                if found is not None:
                    yield found
                    yield from self.begin(place, tries)
        finally:
            signal.setitimer(signal.ITIMER_REAL, 0)
            for it, handler in before.items():
                signal.signal(it, handler)
            self.give_up()

    def give_up(self):
        """Ends the commands that are left."""
        for pid in self.by_pid:
            os.kill(pid, signal.SIGKILL)
            os.waitpid(pid, 0)
        self.by_pid = {}


def processor_seconds():
    """What this process and those that it waited for have taken of processors, in seconds."""
    used = [resource.getrusage(it) for it in (resource.RUSAGE_SELF, resource.RUSAGE_CHILDREN)]
    return sum(it.ru_utime + it.ru_stime for it in used)
