"""Scripts of `wasmhost story` and `wasmhost sweep`, each with what is printed of it, for
`program-rows` and `demo`.

All of it was worked out by hand from docs/COMMANDS.md and docs/FORMATS.md. Images are those of
`disk_form.py`.
"""
import hashlib
from dataclasses import dataclass

from model import disk_form as form
from model.disk_form import echo_image, echo_image_behind
from lib.small_modules import flood_memory, memory_of_asks, memory_of_draws


@dataclass(frozen=True)
class Calls:
    """Calls of the disk: so many writes, and so many reads and syncs."""

    writes: int
    others: int

    def __add__(self, more):
        return Calls(self.writes + more.writes, self.others + more.others)


@dataclass
class Story:
    """A script and a module, further words, and how the command has to end."""

    script: str
    module: str = "echo.wasm"
    words: tuple = ()
    status: int = 0
    out: str = ""
    err: str = ""
    command: str = "story"


def recovered(life, generation, counts, image):
    """The line of a life that goes on, with its steps, answers and lines."""
    steps, answers, lines = counts
    digest = hashlib.sha256(image).hexdigest()
    return (f"life {life} recovered generation {generation} steps {steps} answers {answers} "
            f"lines {lines} image {digest}\n")


def fresh(life, generation):
    """The line of a life of `echo` that begins at the start."""
    return recovered(life, generation, (0, 0, 0), echo_image())


def behind(life, generation, texts, text):
    """The line of a life of `echo` that begins after the step which has read a text, and before
    that it has written back others."""
    count = len(texts)
    counts = 6 + 22 * count, count + 1, count
    return recovered(life, generation, counts, echo_image_behind(texts, text))


def refused(script, err, module="echo.wasm", words=(), status=3):
    """A story that isn't run. Of some faults a second line says more."""
    return Story(script, module, tuple(words), status, "", f"failed {err}\n")


CREATED = "life 1 created\n"

# A life of `echo` makes 206 calls until its worker is created: 2 look for one, 2 clear the super,
# 68 write contents, heads and journal, 130 the image, 2 its head, and 2 the super. The next one
# writes the record of `hello`, which ends at byte 505 of its sector. The one after it is the sync.
HELLO, RECORD = "life\nrequest hello\nslice 20\n", 207

# A life that goes on from that record makes 136 calls until it commits: a sync, 4 reads of super,
# contents and heads, 129 of the image, and 2 of the journal. Its commit makes 134. It reads the 129
# sectors of an area that was never written, writes the first and the last, which aren't zeros, and
# syncs. Then come the head and its sync. The next write is that of a second record.
SECOND_RECORD = 136 + 134 + 1

LIVES = [
    Story(""),
    Story("life", out=CREATED),
    Story(HELLO + "life\n", out=CREATED + "1 o hello\n" + behind(2, 2, [], b"hello")),
    # Answers and acts are two lists, and the last line may lack its newline.
    Story("life\nslice 20\nrequest hello\nlife\nslice 14",
          out=CREATED + "1 o hello\n" + behind(2, 2, [], b"hello") + "1 o hello\n"),
    Story(HELLO + "checkpoint\nlife\nslice 0\n",
          out=CREATED + "1 o hello\n" + recovered(2, 3, (20, 1, 1), form.echo_process(
              (20, 1, 1), (20, (0,)), form.echo_memory([b"hello"])))),
    Story("life\nend\nslice 99\ncheckpoint\nlife\n",
          out=CREATED + recovered(2, 3, (11, 1, 0), form.echo_image_at_end())),
    # Two requests are replayed, and of the first one the line is printed again.
    Story("life\nrequest hello\nrequest world\nslice 42\nlife\n",
          out=CREATED + "1 o hello\n2 o world\n" + behind(2, 2, [b"hello"], b"world")
          + "1 o hello\n"),
]

CUTS = [
    Story(f"{HELLO}stop {RECORD} 504\nlife\nrequest world\nslice 20\n",
          out=CREATED + fresh(2, 2) + "1 o world\n"),
    Story(f"{HELLO}stop {RECORD} 505\nlife\nrequest world\nslice 20\n",
          out=CREATED + behind(2, 2, [], b"hello") + "1 o hello\n"),
    Story(f"{HELLO}stop {RECORD + 1} 0\ntears 504\nlife\n", out=CREATED + fresh(2, 2)),
    Story(f"{HELLO}tears 505\nstop {RECORD + 1} 0\nlife\n",
          out=CREATED + behind(2, 2, [], b"hello")),
    # Of a write without a number all is left.
    Story(f"{HELLO}stop {RECORD + 1} 0\nlife\n", out=CREATED + behind(2, 2, [], b"hello")),
    # Lives that aren't opened. The first is cut at its first call, the second in the sync after
    # the super, and the third in the write of the super.
    Story("life\nstop 1 0\nlife\n", out="life 1 not opened\nlife 2 created\n"),
    Story("life\nstop 206 0\nlife\n", out="life 1 not opened\n" + fresh(2, 2)),
    Story("life\nstop 205 511\nlife\n", out="life 1 not opened\nlife 2 created\n"),
    # One that is cut as it commits has printed a line again by then. Its recovery makes 137 calls
    # before the commit, or up to 198 if it reads all of the journal, and 129 reads after that.
    Story("life\nrequest hello\nrequest world\nslice 42\nlife\nstop 230 0\nlife\n",
          out=CREATED + "1 o hello\n2 o world\nlife 2 not opened\n1 o hello\n"
          + behind(3, 2, [b"hello"], b"world") + "1 o hello\n"),
]

# A record whose second sector the first one's 494 bytes leave 13 bytes of, behind that of `hello`.
LONGER = "b" * 480
BOTH = "life\nrequest hello\nrequest world\n"
IN_ONE = recovered(2, 3, (42, 2, 2), form.echo_process((42, 2, 2), (20, (0,)),
                                                       form.echo_memory([b"hello", b"world"])))

# In a batch lines wait where the worker asks, and one sync serves them. Each disk but for its
# generation is as by a slice, and what was told before a cut comes again.
BATCHES = [
    Story(f"{BOTH}batch 42 2\ncheckpoint\nlife\n", out=CREATED + "1 o hello\n2 o world\n" + IN_ONE),
    # One of 1 is a slice. Of 2 the power is cut in the write of both records, and then in its sync.
    Story(f"{BOTH}batch 42 1\nstop {RECORD + 2} 0\nlife\n",
          out=CREATED + "1 o hello\n" + behind(2, 2, [], b"hello")),
    Story(f"{BOTH}batch 42 2\nstop {RECORD} 504\nlife\n", out=CREATED + fresh(2, 2)),
    Story(f"{BOTH}batch 42 2\nstop {RECORD + 1} 0\nlife\n",
          out=CREATED + behind(2, 2, [b"hello"], b"world") + "1 o hello\n"),
    # The second record begins in the first sector and ends in the second, in whose write it is cut.
    Story(f"life\nrequest hello\nrequest {LONGER}\nbatch 42 64\nstop {RECORD + 1} 0\nlife\n",
          out=CREATED + behind(2, 2, [], b"hello")),
    # Where the source has no more, or hands over what doesn't fit, both lines are told.
    Story(f"{BOTH}batch 99 64\nlife\n",
          out=CREATED + "1 o hello\n2 o world\n" + behind(2, 2, [b"hello"], b"world")
          + "1 o hello\n"),
    Story(f"{BOTH}realtime 1\nbatch 99 64\nlife\n",
          out=CREATED + "1 o hello\n2 o world\nlife 1 ended N2 Source\n"
          + behind(2, 2, [b"hello"], b"world") + "1 o hello\n"),
    # The barrier fails behind the last question, and its fault is told. Nothing was.
    Story(f"{BOTH}realtime 1\nbatch 99 64\nfail {RECORD + 1} 0\nlife\n",
          out=CREATED + "life 1 ended N1 Disk\n" + behind(2, 2, [b"hello"], b"world")
          + "1 o hello\n"),
    # A refused line ends it, and no later one is told.
    Story(f"{BOTH}batch 99 64\nrefuse 1\nlife\n",
          out=CREATED + "1 o hello\nlife 1 ended N3 Outlet\n"
          + behind(2, 2, [b"hello"], b"world") + "1 o hello\n"),
]

# What the worker that asks for times and random bytes is given, in letters.
REALTIME, MONOTONIC, RANDOM = b"REALTIME", b"MONOTONE", b"JklmN"
TIMES = [int.from_bytes(it, "little") for it in (REALTIME, MONOTONIC)]
ASKED = REALTIME + MONOTONIC + RANDOM
FIRST = form.image((0,) * 5, (form.RUNNING, 0, 0), [(3, 0, ())], memory_of_asks())
LAST = form.image((20, 3, 0, 1, TIMES[1]), (form.EXITED, 0, 0), [], memory_of_asks(ASKED))

ANSWERS = [
    Story(f"life\nrealtime {TIMES[0]}\nmonotonic 00{TIMES[1]}\nrandom 4A6b6C6d4e\nslice 99\n"
          "checkpoint\nlife\nslice 1\n", "asks.wasm",
          out=f"{CREATED}1 o {ASKED.decode()}\n" + recovered(2, 3, (20, 3, 1), LAST)),
    # An answer that doesn't fit ends its life.
    Story("life\nmonotonic 1\nslice 9\nlife\nslice 9\n", "asks.wasm",
          out=CREATED + "life 1 ended N2 Source\n" + recovered(2, 2, (0, 0, 0), FIRST)),
]

# Calls of the disk that fail, and lines that are refused. The first checkpoint after a creation
# makes 134 calls, and the sync of its head is the last of them.
TROUBLES = [
    Story(f"{HELLO}refuse 1\nlife\nslice 14\n",
          out=CREATED + "1 o hello\nlife 1 ended N3 Outlet\n" + behind(2, 2, [], b"hello")
          + "1 o hello\n"),
    Story("life\ncheckpoint\nfail 340 0\nlife\n",
          out=CREATED + "life 1 ended N1 Disk\n" + fresh(2, 3)),
    # A write that fails leaves its prefix, and the next life finds that.
    Story(f"{HELLO}fail {RECORD} 504\nlife\n",
          out=CREATED + "life 1 ended N1 Disk\n" + fresh(2, 2)),
    Story(f"{HELLO}fail {RECORD} 505\nlife\n",
          out=CREATED + "life 1 ended N1 Disk\n" + behind(2, 2, [], b"hello")),
    # Where one call is to be cut and to fail, it is cut.
    Story(f"{HELLO}fail {RECORD} 504\nstop {RECORD} 505\nlife\n",
          out=CREATED + behind(2, 2, [], b"hello")),
    Story("life\nfail 1 0\nlife\n", out="life 1 not opened\nlife 2 created\n"),
    # The second line that the life prints is that of its slice: its recovery has printed one.
    Story("life\nrequest hello\nrequest world\nslice 42\nlife\nrefuse 2\nslice 14\n",
          out=CREATED + "1 o hello\n2 o world\n" + behind(2, 2, [b"hello"], b"world")
          + "1 o hello\n2 o world\nlife 2 ended N3 Outlet\n"),
]

# With a journal of 64 sectors `echo` is saved after 56 answers, as it asks for the next one. With
# one more it isn't, and the next life computes all of them again.
MANY = "life\n" + "request b\n" * 56 + "slice 2000\nlife\n"
TOLD = [f"{number} o b\n" for number in range(1, 57)]
SAVED = recovered(2, 3, (1_237, 56, 56), echo_image([b"b"] * 56))
REPLAYED = behind(2, 2, [b"b"] * 55, b"b") + "".join(TOLD[:55])

TWO_PAGES = "L6 TooManyPages\nbegins with 2 pages: --pages 2"

SIZES = [
    Story(MANY, out=CREATED + "".join(TOLD) + SAVED),
    Story(MANY, words=("--journal", "64"), out=CREATED + "".join(TOLD) + SAVED),
    Story(MANY, words=("--journal", "65"), out=CREATED + "".join(TOLD) + REPLAYED),
    # A page is no unit of files, and has another range.
    refused("life\n", TWO_PAGES, "two_pages.wasm"),
    refused("life\n", TWO_PAGES, "two_pages.wasm", ["--files", "2"]),
    Story("life\n", "two_pages.wasm", ("--pages", "2"), out=CREATED),
    Story("life\n", words=("--pages", "65", "--files", "1"), out=CREATED),
    Story("life\n", words=("--pages", "1", "--files", "64"), out=CREATED),
    *(refused("life\n", f"C1 Range\n{option} is from {bounds}", words=[option, number])
      for option, number, bounds in [
          ("--pages", "0", "1 to 256"), ("--pages", "257", "1 to 256"),
          ("--files", "0", "1 to 64"), ("--files", "65", "1 to 64"),
          ("--journal", "63", "64 to 65536"), ("--journal", "65537", "64 to 65536")]),
]

# One call writes 65,536 bytes at most, and each of them may be a line. So many come from one step,
# and all of them are printed before the next one. A line that is refused ends the life, and the
# next one begins again at line 1.
MOST = 65_536
FLOODED = [f"{number} o \n" for number in range(1, MOST + 1)]
FLOOD = form.image((0,) * 5, (form.RUNNING, 0, 0), [(2, 0, ())], flood_memory(MOST + 1))
AGAIN = recovered(2, 2, (0, 0, 0), FLOOD)


def floods(script, out):
    """A story of the guest that has one newline too many for one call."""
    return Story(script, "flood.wasm", ("--pages", "2"), out=CREATED + out)


FLOODS = [
    floods("life\nslice 4\nlife\n", AGAIN),
    floods("life\nslice 5\nlife\n", "".join(FLOODED) + AGAIN),
    floods("life\nslice 11\nrefuse 40000\nlife\nslice 11\n",
           "".join(FLOODED[:40_000]) + "life 1 ended N3 Outlet\n" + AGAIN + "".join(FLOODED)
           + f"{MOST + 1} o \0\0\1\0\n"),
]

# A worker that is upgraded, so its journal has more sectors than a story gives it. Its commit makes
# the calls of a checkpoint. It writes its head with the last but one of them.
SECTORS, MORE_SECTORS = 64, 256
HEAD = 208 + MORE_SECTORS - SECTORS + 133
WIDE = recovered(2, 3, (20, 2, 1), form.echo_process(
    (20, 1, 1), (20, (0,)), form.echo_memory([b"hello"]), form.TWO))
FRESH_IN_TWO = recovered(2, 3, (0, 1, 0), echo_image(version=form.TWO))
LONG = "a" * 4_097

# One that draws 5,000 bytes, which no worker of version 1 is given, and prints the error's letter.
UNDRAWN = form.image((0,) * 5, (form.RUNNING, 0, 0), [(2, 0, ())], memory_of_draws())
ENDED = form.image((13, 0, 0, 1, 0), (form.EXITED, 0, 0), [], memory_of_draws(b"L"))
DRAWN = form.image((13, 1, 0, 1, 0), (form.EXITED, 0, 0), [], memory_of_draws(b"L"), form.TWO)


def upgraded(script, out, module="echo.wasm", journal=MORE_SECTORS):
    """A story of a worker whose journal has so many sectors."""
    return Story(script, module, ("--journal", str(journal)), out=CREATED + out)


UPGRADES = [
    upgraded(f"{HELLO}upgrade\nlife\n", "1 o hello\n" + WIDE),
    upgraded(f"{HELLO}upgrade\nstop {HEAD} 496\nlife\n",
             "1 o hello\n" + behind(2, 2, [], b"hello")),
    upgraded(f"{HELLO}upgrade\nstop {HEAD} 512\nlife\n", "1 o hello\n" + WIDE),
    upgraded(f"{HELLO}upgrade\nfail {HEAD} 496\nlife\n",
             "1 o hello\nlife 1 ended N1 Disk\n" + behind(2, 2, [], b"hello")),
    # On version 2 it is a checkpoint.
    upgraded(f"{HELLO}upgrade\nupgrade\nlife\n", "1 o hello\n" + recovered(
        2, 4, (20, 2, 1), form.echo_process(
            (20, 1, 1), (20, (0,)), form.echo_memory([b"hello"]), form.TWO))),
    upgraded(f"life\nupgrade\nrequest {LONG}\nslice 42\n", f"1 o {LONG[1:]}\n2 o a\n"),
    # Whoever hasn't asked in this life, nor was created in it, nor has ended, may have told lines
    # before.
    upgraded(f"{HELLO}life\nupgrade\nlife\n",
             "1 o hello\n" + behind(2, 2, [], b"hello")
             + "life 2 ended N8 NotCaughtUp\n" + behind(3, 3, [], b"hello")),
    upgraded("life\nupgrade\nlife\n", "life 1 ended N7 JournalTooSmall\n" + fresh(2, 2),
             journal=132),
    upgraded("life\nupgrade\nlife\n", FRESH_IN_TWO, journal=133),
    upgraded("life\nslice 99\nlife\nupgrade\nlife\nslice 99\n",
             "1 o L\n" + recovered(2, 2, (0, 0, 0), UNDRAWN)
             + "life 2 ended N8 NotCaughtUp\n" + recovered(3, 3, (0, 0, 0), UNDRAWN) + "1 o L\n",
             "draws.wasm"),
    upgraded("life\nslice 99\nupgrade\nlife\n",
             "1 o L\n" + recovered(2, 3, (13, 1, 1), DRAWN), "draws.wasm"),
    upgraded("life\nslice 99\ncheckpoint\nlife\nupgrade\nlife\n",
             "1 o L\n" + recovered(2, 3, (13, 0, 1), ENDED) + recovered(3, 5, (13, 1, 1), DRAWN),
             "draws.wasm"),
    upgraded(f"life\nupgrade\nrandom {'00' * 5_000}\nslice 99\n", "1 o 0\n", "draws.wasm"),
]

# Each form of a faulty line is in `program_tests`. Here it is the order of faults that counts, and
# the words for why a line is refused.
FROM_ONE = "this number is from 1 on"
FAULTS = [
    refused("life\nslice 20\nhello\n", "script line 3\nno line begins with this word", status=2),
    refused("slice 20\nlife\n", "script line 1\na script begins with life", status=2),
    refused("life\n\n", "script line 2\na line isn't empty", status=2),
    refused("life\nstop 0 0\n", f"script line 2\n{FROM_ONE}", "missing.wasm", status=2),
    refused("life\nfail 0 0\n", f"script line 2\n{FROM_ONE}", status=2),
    refused("life\nrefuse 0\n", f"script line 2\n{FROM_ONE}", status=2),
    *(refused(f"life\n{line}\nslice 1\n{line}\n",
              f"script line 4\na life has at most one {words}", status=2)
      for line, words in [("stop 1 0", "stop"), ("fail 1 0", "fail"), ("refuse 1", "refuse"),
                          ("tears 1", "line of tears")]),
    *(refused(f"life\n{line}\n", f"script line 2\n{words}", status=2) for line, words in [
        ("slice", "a space and more must follow this word"),
        ("slice +1", "a number is decimal digits, one space behind what is before it"),
        ("slice 18446744073709551616", "a number is at most 18446744073709551615"),
        ("stop 1", "two numbers must follow this word"),
        ("stop 1 513", "a front is at most 512"),
        ("random 0", "random bytes are hexadecimal digits, two for each"),
        ("tears 1 513", "tears are numbers up to 512, with one space between each two")]),
    refused("life\nend\nend 1", "script line 3\nnothing may follow this word", "/dev/null",
            ["--pages", "0"], 2),
    refused("life\n", "K2 Io\nmissing.wasm: no such file or directory", "missing.wasm",
            ["--pages", "0"], 4),
    refused("life\n", "K2 Io\n.: is a directory", ".", status=4),
    refused("life\n", "C1 Range\n--journal is from 64 to 65536", "/dev/null", ["--journal", "0"]),
    refused("life\n", "B1 Malformed", "/dev/null"),
    refused("", "B1 Malformed", "/dev/null"),
]


def swept(script, calls, lines, module="echo.wasm", words=("--fronts", "0,512"), fronts=2):
    """A sweep of so many calls, which all agree. A write is cut with each front, any other once."""
    name = "line" if lines == 1 else "lines"
    cuts = calls.others + calls.writes * fronts
    out = f"swept {cuts:,} cuts: {lines} {name}, each told with one text\n"
    return Story(script, module, tuple(words), out=out, command="sweep")


def unswept(script, err, module="echo.wasm", words=(), status=2):
    """A sweep that isn't begun."""
    return Story(script, module, tuple(words), status, "", f"{err}\n", "sweep")


def left(life, taken, answers):
    """The line of a life that takes fewer answers than the script has for it."""
    return (f"the script's life {life} took {taken} of {answers} answers: give its slices more "
            "steps, or take answers out")


# A creation writes all but the two calls that look for a worker, and five syncs. A line is a write
# and a sync. A checkpoint reads the 129 sectors of an image, writes 2 of them and a head, and syncs
# twice. The least journal of version 2 has 133 sectors.
WIDER = ("--journal", "133", "--fronts", "0,512")
CREATION, LINE, CHECKPOINT = Calls(199, 7), Calls(1, 1), Calls(3, 131)
# A life that goes on from one record writes two sectors of an area and a head, as above.
RECOVERY = Calls(3, SECOND_RECORD - 1 - 3)
IN_TWO = CREATION + Calls(133 - SECTORS, 0)
NO_UPGRADE = "the script's upgrade can't be done again after a cut"
TWO = "life\nrequest hello\nrequest again\nslice 42\ncheckpoint\n"
SWEPT = [
    swept("life\n", CREATION, 0, words=(), fronts=5),
    swept(HELLO, CREATION + LINE, 1, words=("--fronts", "505"), fronts=1),
    swept(TWO, CREATION + LINE + LINE + CHECKPOINT, 2),
    # The first of two lives, whose second request the second one has.
    swept(HELLO + "life\nrequest again\nslice 42\n", CREATION + LINE, 2,
          words=("--life", "1", "--fronts", "505"), fronts=1),
    # The second one, each cut of which goes on from what the first has left.
    swept(HELLO + "life\nrequest again\nslice 42\n", RECOVERY + LINE, 2),
    swept(TWO.replace("checkpoint", "upgrade"), IN_TWO + LINE + LINE + CHECKPOINT, 2, words=WIDER),
    # Both lines of a batch have one write and one sync.
    swept(TWO.replace("slice 42", "batch 42 64"), CREATION + LINE + CHECKPOINT, 2),
    # It upgrades before it has asked. A recovered worker asks first, and then is upgraded.
    swept("life\nupgrade\nrequest hello\nslice 20\n", IN_TWO + CHECKPOINT + LINE, 1, words=WIDER),
    # Only version 2 takes the second request. Its record has 4,110 bytes, and a sector 494 of them.
    swept(f"{HELLO}upgrade\nrequest {LONG}\nslice 60\n",
          CREATION + Calls(MORE_SECTORS - SECTORS + 9, 1) + LINE + CHECKPOINT, 3,
          words=("--journal", str(MORE_SECTORS), "--fronts", "0,512")),
    # The upgrade of the second life is a checkpoint.
    swept(f"{HELLO}upgrade\nlife\nupgrade\nrequest again\nslice 42\n",
          IN_TWO + LINE + CHECKPOINT, 2, words=(*WIDER, "--life", "1")),
    # The power is cut in the first life, and the second one upgrades.
    swept(f"{HELLO}life\nrequest again\nslice 42\nupgrade\n", IN_TWO + LINE, 2,
          words=(*WIDER, "--life", "1")),
    # `lost` is taken behind the upgrade, and nothing is printed of it: so it isn't kept.
    swept(f"{HELLO}upgrade\nrequest lost\nslice 10\nlife\nrequest again\nslice 42\n",
          IN_TWO + LINE + CHECKPOINT, 2, words=(*WIDER, "--life", "1")),
    # The end is taken, though nothing is printed of it, so it isn't kept.
    swept("life\nrequest hello\nend\nslice 99\n", CREATION + LINE, 1,
          words=("--fronts", "505"), fronts=1),
    # Answers that nobody takes: two of the first life, one that wouldn't fit, and one of a life
    # that isn't cut. The worker asks after 5 steps, and after 22 more for each request.
    unswept("life\nrequest a\nrequest b\nslice 5\n", left(1, 0, 2)),
    unswept("life\nrequest hello\nmonotonic 1\nslice 25\n", left(1, 1, 2)),
    unswept(f"{HELLO}life\nrequest again\nslice 8\n", left(2, 0, 1), words=("--life", "1")),
    # Plans that can't be run to their end, or done again.
    unswept("life\nrequest hello\nmonotonic 1\nslice 99\n", "the script's life 1 ended N2 Source"),
    unswept("life\nupgrade\n", "the script's life 1 ended N7 JournalTooSmall",
            words=("--journal", "132")),
    unswept(f"{HELLO}life\nupgrade\n", "the script's life 2 ended N8 NotCaughtUp",
            words=(*WIDER, "--life", "1")),
    unswept(f"life\nupgrade\nrandom {'00' * 5_000}\nslice 99\n", NO_UPGRADE, "draws.wasm", WIDER),
    unswept("life\nupgrade\n", NO_UPGRADE, "endless.wasm", WIDER),
    # Times and random bytes that were not kept are handed out again.
    swept(f"life\nrealtime {TIMES[0]}\nmonotonic {TIMES[1]}\nrandom 4a6b6c6d4e\nslice 99\n",
          CREATION + LINE, 1, "asks.wasm", ("--fronts", "0"), 1),
    *(unswept(f"{HELLO}{line}\n", "failed script line 4\na sweep takes no stop, fail, refuse or "
              "tears", "missing.wasm") for line in ["stop 1 0", "fail 1 0", "refuse 1", "tears 1"]),
    unswept(f"{HELLO}hello\n", "failed script line 4\nno line begins with this word",
            "missing.wasm"),
    unswept("", "error: the script has no such life", "missing.wasm"),
    unswept(HELLO, "error: the script has no such life", words=("--life", "2")),
    *(unswept("life\nstop 1 0\n", "error: fronts are numbers from 0 to 512", "missing.wasm",
              ("--fronts", fronts)) for fronts in ["", "513", "0,", "0 1", "a"]),
    unswept(HELLO, "failed C1 Range\n--pages is from 1 to 256", words=("--pages", "257"), status=3),
    unswept(HELLO, "failed C1 Range\n--files is from 1 to 64", words=("--files", "65"), status=3),
    unswept("life\n", f"failed {TWO_PAGES}", "two_pages.wasm", ("--files", "2"), 3),
    # Each page more has 128 sectors in the image, and in each of two areas.
    swept("life\n", CREATION + Calls(128, 0), 0, "two_pages.wasm",
          ("--pages", "2", "--fronts", "505"), 1),
    unswept(HELLO, "failed K2 Io\nmissing.wasm: no such file or directory", "missing.wasm",
            status=4),
    unswept(HELLO, "failed B1 Malformed", "/dev/null", status=3),
]

# The story of `examples/power-cut.story`. Twice the power is cut at the second request: in the
# write of its record, and in the sync after that.
POWER_CUT = Story(
    f"{HELLO}request world\nstop {RECORD + 2} 300\nslice 22\nlife\nrequest world\n"
    f"stop {SECOND_RECORD + 1} 0\nslice 42\nlife\nslice 42\ncheckpoint\nlife\n",
    out=CREATED + "1 o hello\n" + behind(2, 2, [], b"hello") + "1 o hello\n"
    + behind(3, 3, [b"hello"], b"world") + "1 o hello\n2 o world\n"
    + recovered(4, 5, (49, 2, 2), echo_image([b"hello", b"world"])))

STORIES = [
    *LIVES, *CUTS, POWER_CUT, *BATCHES, *ANSWERS, *TROUBLES, *SIZES, *FLOODS, *UPGRADES, *FAULTS,
    *SWEPT]
