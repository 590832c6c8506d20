"""Commands that find no room for what they write, for `program-rows`: on a device of two MiB, and
where no file may have more than some blocks. A shell has the program fail there in place of being
killed. What was said was worked out by hand from docs/COMMANDS.md."""
import contextlib
import os
import shutil
import subprocess

from lib.extract_scenes import MODULES
from lib.guest_runs import DISK_FAILED, ROOT, ended, scratch
from lib.not_tried import not_tried

LEAST = ["--pages", "1", "--files", "1", "--journal", "64"]
NO_ROOM, TOO_LARGE = "no space left on device", "file too large"

DEVICE = ["mount", "-t", "tmpfs", "-o", "size=2m", "none", "device"]


def limited(blocks):
    """Words before a command, where no file may be longer than so many blocks of a shell."""
    return ["sh", "-c", f"trap '' XFSZ; ulimit -f {blocks}; exec \"$@\"", "sh"]


SHORT = limited(1_000)

# Commands, what they make, what isn't written of it, and why. All that they have made is removed
# again. The first two are on the device, and so is the third one, once that is full. The last one
# is where no file may have as many bytes as the largest one of the tree.
ON_DEVICE = [
    ([], ["create", "device/disk", "hello.wasm"], "device/disk", "", NO_ROOM),
    ([], ["save", "whole.disk", "device/copy"], "device/copy", "", NO_ROOM),
    ([], ["files", "nested.disk", "--all", "device/out"], "device/out", "/a.b", NO_ROOM),
]
ANYWHERE = [
    (SHORT, ["create", "short.disk", "hello.wasm"], "short.disk", "", TOO_LARGE),
    (SHORT, ["save", "whole.disk", "short.copy"], "short.copy", "", TOO_LARGE),
    (limited(8), ["files", "nested.disk", "--all", "short.out"], "short.out", "/a/b/large",
     TOO_LARGE),
]

# A guest that writes a line and exits, and how its run ends.
HELLO, HI = os.path.join(ROOT, "crates/wasmhost/data/hello.wasm"), (0, b"1 o hi\n", b"exited 7\n")


def fill(folder):
    """Takes all the room that is left on a device."""
    with (open(os.path.join(folder, "filler"), "wb", buffering=0) as file,
          contextlib.suppress(OSError)):
        while True:
            file.write(bytes(4_096))


def roomless_fault(program, row):
    """What is wrong with a command that finds no room, or none."""
    shell, words, made, below, why = row
    found = ended([*shell, program, *words])
    wanted = 4, b"", f"failed K2 Io\n{made}{below}: {why}\n".encode()
    if found != wanted:
        return f"{words}: {found}, wanted {wanted}"
    return f"{words}: it has left something" if os.path.lexists(made) else None


def again_fault(program):
    """What is wrong with a creation where one has found no room before, or none."""
    found = ended([program, "create", "short.disk", "hello.wasm", *LEAST])
    return None if found[0] == 0 else f"it can't be created again: {found}"


def short_run_fault(program):
    """What is wrong with a run whose disk is longer than its shell lets a file be, or none. The
    opening writes the first area alone, and the checkpoint at the end the second one, which is
    after that. The next run prints the line again."""
    ended([program, "create", "long.disk", "hello.wasm"])
    found = ended([*SHORT, program, "run", "long.disk"])
    if found != (4, HI[1], b"failed N1 Disk\n%s\n" % DISK_FAILED):
        return f"a run of a disk that is too long: {found}"
    found = ended([program, "run", "long.disk", "--rewrite"])
    return None if found == HI else f"behind that, a run with --rewrite: {found}"


def device_faults(program):
    """Yields what is wrong on a small device, a line a row. Where nobody may mount one, nothing is
    tried there."""
    os.mkdir("device")
    if subprocess.run(DEVICE, capture_output=True, check=False).returncode != 0:
        not_tried("program-rows", "no device may be mounted", "what finds no room on a device")
        return
    try:
        for row in ON_DEVICE:
            if row is ON_DEVICE[-1]:
                fill("device")
            yield roomless_fault(program, row)
    finally:
        subprocess.run(["umount", "device"], check=True)


def faults(program):
    """What is wrong, a line a row."""
    with scratch() as room:
        os.chdir(room)
        shutil.copyfile(HELLO, "hello.wasm")
        with open("nested.wasm", "wb") as file:
            file.write(MODULES["nested.wasm"])
        for words in (["create", "whole.disk", "hello.wasm"],
                      ["create", "nested.disk", "nested.wasm"], ["run", "nested.disk"]):
            ended([program, *words])
        found = [*device_faults(program), *(roomless_fault(program, it) for it in ANYWHERE)]
        found += [again_fault(program), short_run_fault(program)]
        os.chdir(ROOT)
    return [f"no room: {it}" for it in found if it]


ROWS = [*ON_DEVICE, *ANYWHERE, again_fault, short_run_fault]
