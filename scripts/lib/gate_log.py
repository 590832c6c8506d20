"""What the log of a run of `rt ci` says, as scripts/measure/gate-times writes it."""
import collections
import re

OWN = "gate-times: "
KINDS = ("proof", "tests", "edits", "runs")


def no_seconds():
    """No seconds of any kind."""
    return dict.fromkeys(KINDS, 0.0)


class Times:
    """What a log says: seconds by crate and kind, on the clock and of processors, how many edits
    were tried, and which crates and tests the run itself has proved."""

    def __init__(self, file):
        self.wall, self.processor = (collections.defaultdict(no_seconds) for _ in range(2))
        self.edits, self.proved = collections.Counter(), set()
        self.whole, self.last = None, 0.0
        with open(file, encoding="utf-8", errors="replace") as log:
            for line in log:
                stamp, _, text = line.strip("\n").lstrip().partition(" ")
                self.read(float(stamp), text)

    def read(self, stamp, text):
        own = re.match(OWN + r"(?:(\S+) (\S+)|whole) wall (\S+) processor (\S+)$", text)
        if own and own[1]:
            self.wall[own[1]][own[2]] += float(own[3])
            self.processor[own[1]][own[2]] += float(own[4])
        elif own:
            self.whole = float(own[3]), float(own[4])
        elif text.startswith("rt: "):
            self.read_of_rt(stamp, text)

    def read_of_rt(self, stamp, text):
        run = re.match(r"rt: (\w+): its tests (?:passed|FAILED)$", text)
        run = run or re.match(r"rt: (\w+)(?: ran\b| \(built by |: (?:what )?the program )", text)
        edit = re.match(r"rt: must-fail (\w+)/", text)
        proved = re.match(r"rt: (\w+)(: its tests are)? proved$", text)
        if run:
            self.wall[run[1]]["runs"] += stamp - self.last
        if edit:
            self.edits[edit[1]] += 1
        if proved:
            self.proved.add((proved[1], "tests" if proved[2] else "proof"))
        self.last = stamp

    def table(self):
        sums = {crate: sum(of.values()) for crate, of in self.wall.items()}
        heads = "".join(f"{it:>9}" for it in (*KINDS, "sum"))
        yield f"{'crate':24}{heads}{'processor':>11}{'edits':>7}"
        for crate in sorted(sums, key=sums.get, reverse=True):
            processor = sum(self.processor[crate].values())
            yield self.row(crate, self.wall[crate].values(), processor, self.edits[crate])
        totals = [sum(of[it] for of in self.wall.values()) for it in KINDS]
        processor = sum(sum(of.values()) for of in self.processor.values())
        yield self.row("all", totals, processor, self.edits.total())
        if self.whole:
            wall, processor = self.whole
            yield f"whole run: {wall:.1f} s on the clock, {processor:.1f} s of processors"

    @staticmethod
    def row(name, seconds, processor, edits):
        seconds = [*seconds]
        columns = "".join(f"{it:9.1f}" for it in [*seconds, sum(seconds)])
        return f"{name:24}{columns}{processor:11.1f}{edits:7}"
