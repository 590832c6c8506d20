"""What a script says of what it can't try on this machine.

`.ci/run` names a file in its environment, and prints at its end what was said to it. A script that
tries nothing at all ends with a status of its own: it has neither passed nor failed.
"""
import os

NOTHING_TRIED = 77
COLLECTED = "NOT_TRIED"


def not_tried(script, why, part=None):
    """Says on one line that a script can't try anything, or a part of it, and why. Answers the
    status of one that tries nothing."""
    what = f"NOT TRIED: {part}" if part else "NOTHING WAS TRIED"
    line = f"{script}: {what}: {' '.join(why.split())}"
    print(line, flush=True)
    if os.environ.get(COLLECTED):
        with open(os.environ[COLLECTED], "a", encoding="utf-8") as file:
            print(line, file=file)
    return NOTHING_TRIED
