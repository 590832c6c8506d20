"""What a worker has printed over several runs, for `kill-runs` and `cut-disks`.

Each line number has one text. No run leaves a number out: it begins at one that was printed before,
or at the next one, and goes on from there.
"""
from lib.guest_runs import printed

# What is in place of a request whose answer was printed: it was taken, so nobody reads it again.
TAKEN = b"this was taken before"


def given_again(requests, count):
    """The whole list of requests for another run. The texts of the first ones are lost."""
    return [TAKEN] * count + requests[count:]


class Told:
    """The right lines of a worker, each with its stream, and how many of them were printed so
    far."""

    def __init__(self, lines):
        self.rows = [row + b"\n" for row in printed(lines).split(b"\n")[:-1]]
        self.count = 0

    def fault(self, output, is_whole):
        """What is wrong with the output of the next run, or none. One that was killed may end in a
        part of a line."""
        rows = output.split(b"\n")
        rest, rows = rows[-1], [row + b"\n" for row in rows[:-1]]
        first = self.first(rows[0] if rows else rest)
        if first is None or first > self.count:
            return f"it begins with {(rows + [rest])[0][:80]}, and {self.count} lines were told"
        for place, row in enumerate(rows, first):
            if row != self.row(place):
                return f"it has {row[:80]} in the place of line {place + 1}"
        end = first + len(rows)
        self.count = max(self.count, end)
        if rest and (is_whole or not self.row(end).startswith(rest)):
            return f"it ends in {rest[:80]}, behind line {end}"
        if is_whole and self.count < len(self.rows):
            return f"it ends behind line {end}, of {len(self.rows)}"
        return None

    def row(self, place):
        """The right line of a place, with its newline, or nothing after the last."""
        return self.rows[place] if place < len(self.rows) else b""

    def first(self, row):
        """The place of the line that an output begins with: the next one where there is none."""
        if not row:
            return self.count
        return next((it for it, right in enumerate(self.rows) if right.startswith(row)), None)
