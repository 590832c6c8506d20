"""What the sources say of inlining, put back into a module of `rt try`, which has lost it.

A function of the module is named by its path, and behind that come the types that it is made for:
`machine_slots::slots::Slots::get`, `core::slice::get::<..>`. The kit's libraries tell the hints of
each path. Those of the repository are read from its sources.
"""
import collections
import itertools
import re

from lib.source_functions import functions_in, module_of

# What LLVM calls a hint of the kit's libraries, and of the sources.
OF_KIT = {"inline-always": "alwaysinline", "inline-never": "noinline", "inline": "inlinehint",
          "cold": "cold"}
OF_SOURCE = {"#[inline(always)]": "alwaysinline", "#[inline(never)]": "noinline",
             "#[inline]": "inlinehint", "#[cold]": "cold"}
DEFINED = re.compile(r'define [^@]*@(?:"([^"]+)"|([\w.]+))\(.*(?= #\d+ \{$)')


def in_kit(kit):
    """The hints by path in the kit's libraries."""
    found = collections.defaultdict(set)
    for file in kit.glob("rlibs/*.rlib/format"):
        for line in file.read_text(encoding="utf-8").splitlines():
            hint, _, path = line.partition(" ")
            if hint in OF_KIT:
                found[path].add(OF_KIT[hint])
    return found


def above(lines, first):
    """The hints of a function: in the attributes right above the line where it begins."""
    attributes = itertools.takewhile(lambda it: it.lstrip().startswith("#["), lines[:first][::-1])
    return {OF_SOURCE[it.strip()] for it in attributes if it.strip() in OF_SOURCE}


def in_crates(folder):
    """The hints by path in the sources of a folder of crates. A method has the path of its crate
    and its type, since its type may be another module's."""
    found = {}
    for file in sorted(folder.glob("*/src/**/*.rt")):
        crate = file.relative_to(folder).parts[0]
        lines = file.read_text(encoding="utf-8").splitlines()
        module = module_of(file.relative_to(folder / crate / "src"))
        for it in functions_in(lines):
            path = "::".join((crate, *((it.owner,) if it.owner else module), it.name))
            found[path] = found.get(path, set()) | above(lines, it.first)
    return {path: hints for path, hints in found.items() if hints}


def hints_of(name, hints):
    """The hints of a function of a module."""
    path = name.partition("::<")[0]
    parts = path.split("::")
    return hints.get(path) or hints.get("::".join((parts[0], *parts[-2:])), ())


def with_hints(lines, hints):
    """The lines of a module, whose functions have their hints."""
    for line in lines:
        head = DEFINED.match(line)
        words = head and sorted(hints_of(head[1] or head[2], hints))
        yield f"{head[0]} {' '.join(words)}{line[head.end():]}" if words else line
