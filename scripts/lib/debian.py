"""Debian packages that scripts look at processes with: `strace` and `valgrind`."""
import shutil
import subprocess

from lib.not_tried import not_tried


def can_install(package):
    """Whether the system's packages have this one."""
    if not shutil.which("apt-cache"):
        return False
    told = subprocess.run(["apt-cache", "policy", package], capture_output=True, text=True,
                          check=False)
    return "Candidate: " in told.stdout and "Candidate: (none)" not in told.stdout


def untried(script, package, *options, part=None):
    """None where the package's program, with these options, may look at a process. Else a script
    can't try anything, or a part of it, and says so. The answer is the exit status of one that
    tries nothing: 1 where the package only has to be installed."""
    if shutil.which(package):
        looked = subprocess.run([package, *options, "true"], capture_output=True, text=True,
                                check=False)
        if looked.returncode == 0:
            return None
        why = f"{package} may not look at a process: {looked.stderr}"
    else:
        why = f"{package} is missing: apt-get install {package}"
        if can_install(package):
            print(f"{script}: FAILED: {why}")
            return 1
    return not_tried(script, why, part)
