"""The functions of a source file, each with the name that the kit has for it.

`rt fmt` has laid the file out: an item begins a line, and a method of an `impl` is four columns in.
"""
import re
from typing import NamedTuple

# The head of an `impl`, with its trait, if any, and its type.
IMPL = re.compile(r"impl(?:<.*?>)? (?:(?:\w+::)*(\w+)(?:<.*?>)? for )?(?:\w+::)*(\w+)")
FUNCTION = re.compile(r"(    )?(?:pub(?:\([\w ]+\))? )?(?:const )?fn (\w+)")


class Function(NamedTuple):
    """Its name, the type of its `impl` with the trait, or none, and its lines, counted from 0."""
    name: str
    owner: str | None
    first: int
    last: int


def module_of(file):
    """The path of the module that a file is, below its crate. The file's path is below `src`."""
    parts = file.with_suffix("").parts
    return parts[:-1] if parts[-1] in ("lib", "main", "mod") else parts


def end_of(lines, first, indent):
    """The last line of a function that begins in a line."""
    if lines[first].endswith(("}", ";")):
        return first
    ends = (at for at in range(first, len(lines)) if lines[at] == indent + "}")
    return next(ends, first)


def functions_in(lines):
    """The functions of a file, in their order."""
    owner = None
    for at, line in enumerate(lines):
        head, found = IMPL.match(line), FUNCTION.match(line)
        if head:
            owner = head[2][0].upper() + head[2][1:] + (head[1] or "")
        elif found:
            indent = found[1] or ""
            yield Function(found[2], owner if indent else None, at, end_of(lines, at, indent))
