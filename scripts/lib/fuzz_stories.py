"""Random scripts for `wasmhost story`, and what has to hold of what it prints."""
import re

from model.named_faults import FAULTS

# A line of a worker, how a life is opened, and by which error it ends.
LINE = re.compile(rb"([1-9]\d*) ([oe]) (.*)", re.DOTALL)
OPENED = re.compile(
    rb"life (\d+) (created|not opened|recovered generation \d+ steps \d+ answers \d+ lines \d+ "
    rb"image [0-9a-f]{64})")
ENDED = re.compile(rb"life (\d+) ended (.*)")

# Texts of requests that guests of the repository know.
TEXTS = ["hello", "again", "", "5", "-20", "add milk", "list", "drop 1", "clear", "x" * 600]

# Steps of a slice or a batch, fewer lines than that may wait in one, prefixes of a write, and the
# calls of a life in which it may be cut.
STEPS = [0, 1, 7, 20, 42, 100, 400, 2_000, 20_000]
MOST = [1, 2, 3, 64, 1 << 63]
FRONTS, CALLS = [0, 1, 8, 255, 495, 500, 504, 511, 512], 700


def answer(rng, kind):
    """A line of a script that hands out an answer of a kind."""
    match kind:
        case "request":
            return f"request {rng.choice(TEXTS)}"
        case "realtime" | "monotonic":
            return f"{kind} {rng.randrange(1 << rng.choice([1, 32, 64]))}"
        case "end":
            return "end"
    return f"random {rng.randbytes(int(kind)).hex()}"


def answers(rng, kinds):
    """The answers of a life, for a guest that asks for these kinds in turn."""
    count = rng.choice([0, 1, 3, 8])
    taken = [kinds[place % len(kinds)] for place in range(count)]
    if rng.random() < 0.1:
        taken.append(rng.choice(["request", "realtime", "monotonic", "end", "0", "4", "5"]))
    if rng.random() < 0.2:
        taken.append("end")
    return [answer(rng, it) for it in taken]


def steps(rng):
    """A slice or a batch."""
    fuel = rng.choice(STEPS)
    return f"batch {fuel} {rng.choice(MOST)}" if rng.random() < 0.4 else f"slice {fuel}"


def acts(rng):
    """What a worker has to do in a life."""
    found = [steps(rng) for _ in range(rng.choice([1, 1, 2, 3]))]
    if rng.random() < 0.4:
        found.insert(rng.randrange(len(found) + 1), "checkpoint")
    return found


def troubles(rng):
    """The faults of a life: none in most of them."""
    call = f"{rng.randrange(1, rng.choice([20, CALLS]))} {rng.choice(FRONTS)}"
    tears = "".join(f" {rng.choice(FRONTS)}" for _ in range(rng.choice([1, 3, 10])))
    form = rng.randrange(10)
    if form == 0:
        return [f"stop {call}", f"tears{tears}"]
    return {1: [f"stop {call}"], 2: [f"fail {call}"], 3: [f"refuse {rng.choice([1, 1, 2, 3])}"],
            4: [f"tears{tears}"]}.get(form, [])


def script(rng, kinds):
    """The lives of a script, each a list of lines, for a guest that asks for these kinds."""
    count = rng.choice([1, 2, 2, 3])
    return [["life", *answers(rng, kinds), *acts(rng), *troubles(rng)] for _ in range(count)]


class Listener:
    """Reads what is printed of lives, line by line. A line number has one text in all lives."""

    def __init__(self, lives):
        self.lives = [{line.split(" ")[0] for line in life} for life in lives]
        self.life, self.is_opened, self.is_over = 0, False, True
        self.has_worker, self.next, self.texts = False, None, {}

    def opened(self, number, how):
        """What is wrong with how a life is opened, or none."""
        self.life += 1
        if number != self.life or number > len(self.lives):
            return f"life {number} in the place of {self.life}"
        self.is_opened, self.is_over = how != b"not opened", False
        self.next = None
        if not self.is_opened:
            has_cause = self.lives[number - 1] & {"stop", "fail", "refuse"}
            return None if has_cause else f"life {number} isn't opened"
        if self.has_worker and how == b"created":
            return f"life {number} is created again"
        self.has_worker = True
        return None

    def line(self, number, text):
        """What is wrong with a line, or none."""
        self.next = number if self.next is None else self.next
        is_in_order = number == self.next and number <= len(self.texts) + 1
        if self.is_over or not is_in_order:
            return f"line {number} after {len(self.texts)} lines"
        self.next += 1
        if self.texts.setdefault(number, text) != text:
            return f"line {number} has another text"
        return None

    def ended(self, number, fault):
        """What is wrong with the error by which a life ends, or none."""
        if number != self.life or self.is_over or not self.is_opened:
            return f"life {number} ends in the place of {self.life}"
        self.is_over = True
        causes = {b"N1 Disk": "fail", b"N3 Outlet": "refuse"}
        has_cause = fault not in causes or causes[fault] in self.lives[number - 1]
        has_name = fault in FAULTS and fault in [*causes, b"N2 Source"]
        return None if has_cause and has_name else f"life {number} ends by {fault}"

    def heard(self, row):
        """What is wrong with a line of the output, or none."""
        if found := OPENED.fullmatch(row):
            return self.opened(int(found[1]), found[2])
        if found := ENDED.fullmatch(row):
            return self.ended(int(found[1]), found[2])
        if found := LINE.fullmatch(row):
            return self.line(int(found[1]), row)
        return f"a line without form: {row[:80]}"

    def fault(self, output):
        """What is wrong with a whole output, or none."""
        *rows, rest = output.split(b"\n")
        found = next((it for it in map(self.heard, rows) if it), None)
        if found or rest:
            return found or f"it ends in {rest[:80]}"
        return None if self.life == len(self.lives) else f"{self.life} lives of {len(self.lives)}"
