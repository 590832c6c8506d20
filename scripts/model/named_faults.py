"""The faults that docs/COMMANDS.md names, with their exit statuses."""
import re

from model.disk_form import read

# A row of the table of faults, and a fault in it. Being out of memory has no letter of its own.
ROW = re.compile(r"^\| (`.*`) \| (\d) \|", re.MULTILINE)
FAULT = re.compile(r"`([A-Z]\d \w+)`")

# The letters of the faults of a module.
OF_MODULES = b"BVL"


def named_faults():
    """Each fault that has a name, with its status."""
    rows = ROW.findall(read("docs", "COMMANDS.md").decode())
    return {name.encode(): int(status) for faults, status in rows for name in FAULT.findall(faults)}


FAULTS = named_faults()
assert FAULTS, "docs/COMMANDS.md has no table of faults"


def is_refusal(fault, letters):
    """Whether a fault is a named one of these letters, by which something is refused."""
    return FAULTS.get(fault) == 3 and fault[:1] in letters
