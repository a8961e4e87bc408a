"""What this process may use of the machine: processors and memory, under the limits of its control group."""
import os
import re

# files of a control group, of version 2 and of version 1
QUOTA, QUOTA_1 = "/sys/fs/cgroup/cpu.max", "/sys/fs/cgroup/cpu/cpu.cfs_quota_us"
PERIOD_1 = "/sys/fs/cgroup/cpu/cpu.cfs_period_us"
MEMORY, MEMORY_1 = "/sys/fs/cgroup/memory.max", "/sys/fs/cgroup/memory/memory.limit_in_bytes"
HELD, HELD_1 = "/sys/fs/cgroup/memory.stat", "/sys/fs/cgroup/memory/memory.stat"


def number_in(path, pattern):
    """The number that the pattern finds in that file; none if there is no such file, or it has another form."""
    try:
        with open(path, encoding="utf8") as file:
            found = re.search(pattern, file.read(), re.MULTILINE)
    except OSError:
        return None
    return int(found[1]) if found else None


def processors():
    """How many processors there are to use: those that the process may run on, or fewer by its group's quota."""
    found = len(os.sched_getaffinity(0))
    periods = ((QUOTA, number_in(QUOTA, r"^\d+ (\d+)")), (QUOTA_1, number_in(PERIOD_1, r"(\d+)")))
    for path, period in periods:
        quota = number_in(path, r"^(\d+)")
        if quota and period:
            found = min(found, max(quota // period, 1))
    return found


def free_bytes():
    """How many bytes of memory are free, under the limit of the process's group."""
    kilobytes = number_in("/proc/meminfo", r"^MemAvailable:\s+(\d+)")
    found = [1024 * (kilobytes or 0)]
    for path, held in ((MEMORY, number_in(HELD, r"^anon (\d+)")), (MEMORY_1, number_in(HELD_1, r"^total_rss (\d+)"))):
        limit = number_in(path, r"^(\d+)")
        if limit and held is not None:
            found.append(limit - held)
    return min(found)
