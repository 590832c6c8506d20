"""Command lines of the documents: what a reader types, and what has to be printed then.

In a document a row `$ COMMAND` of an indented block is typed. It goes on in the next row after a
backslash, and up to the row WORD after `<<WORD`. The rows from there to the next command, or to the
end of the block, are all that is printed, the error output too. No output is a terminal.
"""
import dataclasses
import os
import pathlib
import re
import subprocess

INDENT, PROMPT = "    ", "$ "
HEREDOC = re.compile(r"<<'?(\w+)")

# How long one command may take.
SECONDS = 1_200


@dataclasses.dataclass
class Typed:
    """A command of a document, the number of its row there, and what has to be printed."""
    row: int
    command: str
    printed: str = ""


def blocks_in(text):
    """Yields the indented blocks of a document, each with the number of its first row."""
    rows = []
    for number, row in enumerate([*text.splitlines(), "."], 1):
        if row.startswith(INDENT) or (rows and not row):
            rows.append(row.removeprefix(INDENT))
        elif rows:
            yield number - len(rows), "\n".join(rows).rstrip("\n") + "\n"
            rows = []


def is_open(command):
    """Whether a command goes on in the next row."""
    word = HEREDOC.search(command)
    return command.endswith("\\") or bool(word) and command.splitlines()[-1] != word[1]


def typed_in(text):
    """Returns all commands of a document, in their order."""
    found = []
    for start, block in blocks_in(text):
        last = None
        for number, row in enumerate(block.splitlines(), start):
            if last and is_open(last.command):
                last.command += f"\n{row}"
            elif row.startswith(PROMPT):
                last = Typed(number, row.removeprefix(PROMPT))
                found.append(last)
            elif last:
                last.printed += f"{row}\n"
    return found


def room_with(folder, program):
    """Puts the program into a folder's `bin`. Returns the environment that finds it there."""
    place = pathlib.Path(folder) / "bin"
    place.mkdir()
    (place / "wasmhost").symlink_to(os.path.abspath(program))
    return {**os.environ, "PATH": f"{place}:{os.environ['PATH']}", "LC_ALL": "C.UTF-8"}


def printed_by(command, folder, environment):
    """What a command prints in a folder, on both of its outputs."""
    ran = subprocess.run(["bash", "-c", command], cwd=folder, env=environment, text=True,
                         stdin=subprocess.DEVNULL, stdout=subprocess.PIPE, errors="replace",
                         stderr=subprocess.STDOUT, timeout=SECONDS, check=False)
    return ran.stdout


def faults_of(document, commands, folder, environment):
    """Types commands in a folder. Yields each one that prints other rows than the document says."""
    for it in commands:
        found = printed_by(it.command, folder, environment)
        if found != it.printed:
            yield (f"{document}:{it.row}: {it.command}\n  prints {found!r}\n"
                   f"  wanted {it.printed!r}")
