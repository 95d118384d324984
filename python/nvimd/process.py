"""What a process takes of a processor, and what it holds in memory, as the kernel tells it."""

import os
import time


def seconds(pid):
    """The processor time of all its threads, ended ones too (clock_getcpuclockid(3))."""
    return time.clock_gettime(~pid << 3 | 2)


def memory(pid, kind="VmRSS"):
    """What it holds now, or with `VmHWM` at its peak, in MB (proc_pid_status(5))."""
    with open(f"/proc/{pid}/status") as status:
        return [int(line.split()[1]) / 1024 for line in status if line.startswith(kind)][0]


def forget_peak(pid):
    """From now on its peak is one of what comes (proc_pid_clear_refs(5))."""
    with open(f"/proc/{pid}/clear_refs", "w") as file:
        file.write("5")


def descriptors(pid):
    """How many files and sockets it has open (proc_pid_fd(5))."""
    return len(os.listdir(f"/proc/{pid}/fd"))


def runs(pid):
    """Whether a thread of it is on a processor, or waits for one or a page (proc_pid_stat(5))."""
    for thread in os.listdir(f"/proc/{pid}/task"):
        try:
            with open(f"/proc/{pid}/task/{thread}/stat") as stat:
                if stat.read().rpartition(")")[2].split()[0] in "RD":
                    return True
        except (FileNotFoundError, ProcessLookupError):
            pass  # it has ended
    return False
