"""How many processors this process may run on, how many of them are idle, and how much memory is free."""

import os
import re
import threading
import time
from pathlib import Path

CGROUP = Path("/sys/fs/cgroup")


def number_in(file, pattern=r"(\d+)"):
    """The number that the pattern finds in a file, or None where there is no such file or number."""
    try:
        found = re.match(pattern, file.read_text(encoding="ascii"), re.DOTALL)
    except OSError:
        return None
    return int(found[1]) if found else None


def processors():
    """Those that this process may run on, or fewer by the quota of its control group."""
    found = len(os.sched_getaffinity(0))
    quotas = [
        (number_in(CGROUP / "cpu.max", r"(\d+) "), number_in(CGROUP / "cpu.max", r"\S+ (\d+)")),
        (number_in(CGROUP / "cpu/cpu.cfs_quota_us"), number_in(CGROUP / "cpu/cpu.cfs_period_us")),
    ]
    for quota, period in quotas:
        if quota and period:
            found = min(found, max(quota // period, 1))
    return found


def free_memory():
    """In bytes, under the control group's limit too."""
    free = 1024 * (number_in(Path("/proc/meminfo"), r".*MemAvailable:\s+(\d+)") or 0)
    groups = [("memory.max", "memory.current"), ("memory/memory.limit_in_bytes", "memory/memory.usage_in_bytes")]
    for limit, held in groups:
        limit, held = number_in(CGROUP / limit), number_in(CGROUP / held)
        if limit is not None and held is not None:
            free = min(free, limit - held)
    return free


def processor_times():
    """What the processors that this process may run on did so far, by kinds, in one unit: the fourth kind is idling, and the fifth waiting
    for a disk."""
    own = {f"cpu{number}" for number in os.sched_getaffinity(0)}
    lines = [line.split() for line in Path("/proc/stat").read_text(encoding="ascii").splitlines()]
    return [sum(times) for times in zip(*([int(word) for word in words[1:]] for words in lines if words[0] in own))]


def idle_processors(seconds=2):
    """How many processors had nothing to do, on the average of this many seconds."""
    before = processor_times()
    time.sleep(seconds)
    spent = [after - earlier for earlier, after in zip(before, processor_times())]
    return processors() * sum(spent[3:5]) / max(sum(spent), 1)


def runs(process):
    return process is not None and Path(f"/proc/{process}").exists()


class Turns:
    """Lets workers begin their tasks: one at a time, and while another process runs only where a processor is idle."""

    def __init__(self, process):
        self.process = process
        self.lock = threading.Lock()

    def wait(self):
        with self.lock:
            while runs(self.process) and idle_processors() < 0.9:
                time.sleep(3)
            if runs(self.process):
                time.sleep(3)  # until the task that begins shows
