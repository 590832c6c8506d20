"""What a program does with the file of a disk, as strace sees it, for `cut-disks`, `disk-calls` and
`file-calls`. strace is a Debian package."""
import collections
import os
import re

from lib.debian import untried
from lib.guest_runs import ended

SECTOR = 512

# A read of a sector, a write of one, a sync, bytes that were printed on the standard output, or one
# of the first three calls that has failed, by its name.
Read = collections.namedtuple("Read", "at")
Write = collections.namedtuple("Write", "at data")
SYNC = "sync"
Told = collections.namedtuple("Told", "data")
Failed = collections.namedtuple("Failed", "call")

# The calls that make events, and others that would read or write a file, which no program makes.
READS, WRITES = "pread64,preadv,preadv2", "pwrite64,write,pwritev,pwritev2,writev,ftruncate"

CALL = re.compile(
    r"^(pread64|pwrite64|write|fdatasync|fsync)\((\d+)<([^>]*)>(?:, (.*))?\) += (-?\d+)")

# What a trace may hold beside the calls that are understood: the length of a new file.
OTHER = re.compile(r"^(ftruncate\(|---|\+\+\+)")


def unhexed(text):
    """The bytes of a text of strace's."""
    return bytes.fromhex(text.replace("\\x", ""))


def event_of(call, rest, result):
    """The event of a call of a disk, by its other arguments and its result."""
    if int(result) < 0:
        return Failed(call)
    if call in ("fdatasync", "fsync"):
        return SYNC
    text, length, at = rest.split(", ")
    assert length == result == str(SECTOR), f"{call} of {length} bytes at {at}: {result}"
    return Read(int(at)) if call == "pread64" else Write(int(at), unhexed(text.strip('"')))


def events_of(log, disk):
    """The events of a trace that are of a disk or of the standard output, in order."""
    for line in log:
        found = CALL.match(line)
        if not found:
            assert OTHER.match(line), f"a call that isn't understood: {line[:200]}"
            continue
        call, number, path, rest, result = found.groups()
        if unhexed(path).decode() == disk:
            assert call != "write", f"a write without a place: {line[:200]}"
            yield event_of(call, rest, result)
        elif call == "write" and number == "1":
            yield Told(unhexed(rest.split(", ")[0].strip('"')))


def traced(words, disk, given=b"", calls=f"{WRITES},fdatasync,fsync", tamper=None):
    """How a command ends, and its events. A call of the disk may be tampered with, in strace's
    words. It is counted among those of the disk alone, and then nothing else is seen."""
    log, path = f"{disk}.log", os.path.realpath(disk)
    trace = ["strace", "-qq", "-y", "-xx", "-s", str(2 * SECTOR), "-o", log, "-e", f"trace={calls}"]
    if tamper:
        trace += ["-P", path, "-e", f"inject={tamper}"]
    end = ended([*trace, *words], given)
    with open(log, encoding="ascii") as file:
        events = list(events_of(file, path))
    os.remove(log)
    return end, events


def untraced(script, part=None):
    """None where strace may look at a process. Else a script can't try anything, or a part of it,
    and says so. The answer is the exit status of one that tries nothing."""
    return untried(script, "strace", "-qq", "-o", "/dev/null", part=part)
