"""How many machine instructions a run of the program takes, by callgrind."""
import os
import re
import subprocess
import sys

from lib.debian import untried
from lib.guest_runs import scratch

# A line of callgrind_annotate: a count, its share, a file and a function.
COUNT = re.compile(r"^ *([\d,]+) \([ \d.]+%\) +[^:]*:(\S.*?)(?: \[[^]]*\])?$")


def uncounted(script):
    """None where callgrind may look at a process. Else a script counts nothing, and ends with this
    status."""
    return untried(script, "valgrind", "-q", "--tool=callgrind", "--callgrind-out-file=/dev/null")


def counted(words, *options, given="", out="/dev/null"):
    """The machine instructions of a command that reads a text, its output and its error output. It
    has to end with status 0. What each function takes may be left in a file."""
    valgrind = ["valgrind", "--tool=callgrind", f"--callgrind-out-file={out}", *options]
    run = subprocess.run(
        [*valgrind, *words], input=given, capture_output=True, text=True, check=True)
    return int(re.search(r"Collected : (\d+)", run.stderr)[1]), run.stdout, run.stderr


def instructions(program, module, *options):
    """The machine instructions of a run of a module, given as bytes, on a new disk. It has to exit
    with 0. The creation of the disk isn't counted, its opening is."""
    with scratch() as room:
        path, disk = os.path.join(room, "module.wasm"), os.path.join(room, "disk")
        with open(path, "wb") as file:
            file.write(module)
        subprocess.run([program, "create", disk, path], capture_output=True, check=True)
        count, _, words = counted([program, "run", disk, *options])
    assert "exited 0\n" in words, words
    return count


def profile(out, *options):
    """The machine instructions of each function by its name, from the file of a run."""
    words = ["callgrind_annotate", "--threshold=100", *options, out]
    lines = subprocess.run(words, capture_output=True, text=True, check=True).stdout.splitlines()
    found = (COUNT.match(line) for line in lines)
    return {match[2]: int(match[1].replace(",", "")) for match in found if match}


def of(counts, *names):
    """The instructions of all functions whose names begin so. There is one at least of each."""
    total = 0
    for name in names:
        some = [count for function, count in counts.items() if function.startswith(name)]
        if not some:
            sys.exit(f"{os.path.basename(sys.argv[0])}: callgrind counts no function {name}")
        total += sum(some)
    return total


def calls(out, name):
    """How often a function is called, from the file of a run."""
    words = ["callgrind_annotate", "--threshold=100", "--inclusive=yes", "--tree=caller", out]
    lines = subprocess.run(words, capture_output=True, text=True, check=True).stdout.splitlines()
    total = 0
    for line in lines:
        found = re.search(r" < .* \(([\d,]+)x\)", line)
        if found:
            total += int(found[1].replace(",", ""))
        elif re.search(rf" \* .*:{re.escape(name)} ", line):
            return total
        else:
            total = 0
    return 0
