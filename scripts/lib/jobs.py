"""How many checks of `rt ci` go on at a time, which it takes from RT_JOBS.

With that number each has one processor, and `rt` plans no memory. Without it `rt` plans much more
memory than checks take, so the longest chain of crates waits for others.
"""
import os

VARIABLE = "RT_JOBS"
# More than so many don't end sooner: the longest chain decides. One job takes 5 GB at most.
MOST, GIGABYTES = 3, 5
GIGABYTE = 10 ** 9


def jobs(processors, free):
    """The number for so many processors and bytes of free memory."""
    return max(1, min(MOST, processors, free // (GIGABYTES * GIGABYTE)))


def free_memory():
    """The bytes that the system counts as free for new processes."""
    with open("/proc/meminfo", encoding="ascii") as file:
        rows = dict(line.split(":") for line in file)
    return int(rows["MemAvailable"].split()[0]) * 1024


def jobs_here():
    """The number for this machine as text, or what the environment has."""
    processors = len(os.sched_getaffinity(0))
    return os.environ.get(VARIABLE) or str(jobs(processors, free_memory()))
