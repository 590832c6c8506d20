"""The kit that proves and compiles: which one is on this machine."""
import pathlib
import shutil
import subprocess

# All that is claimed is proved by this logic.
LOGIC = "dac8208d650f15bf"


def kit_folder(stop):
    """Returns the folder of the kit. Calls `stop` with a line where there is none, or where its
    logic is another one."""
    found = shutil.which("rt")
    if not found:
        stop("there is no command rt: it comes with the kit that README.md names")
    told = subprocess.run([found, "version"], capture_output=True, text=True, check=False).stdout
    if f"logic {LOGIC}" not in told:
        stop(f"rt is of another logic than {LOGIC}, which README.md names: {told.strip()}")
    return pathlib.Path(found).resolve().parent.parent
