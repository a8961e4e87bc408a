"""What tools that run `rt try` share."""
import os
import signal
import time


def end_check_of_names(rt):
    """Ends what rt try starts beside the try to find names that a check would refuse: it takes as long as the try, and
    says nothing of how the program runs."""
    while rt.returncode is None:
        for name in filter(str.isdigit, os.listdir("/proc")):
            # it is of the process group that rt leads; the try itself is not
            if read_stat(name)[2:3] == [str(rt.pid)] and b"\0no function\0" in read_words(name):
                os.kill(int(name), signal.SIGKILL)
                return
        time.sleep(0.5)


def processes_of(parent):
    """The names of the processes that this one has started and that still run."""
    found = []
    for name in filter(str.isdigit, os.listdir("/proc")):
        if read_stat(name)[1:2] == [str(parent)]:
            try:
                with open(f"/proc/{name}/comm", encoding="utf8", errors="replace") as file:
                    found.append(file.read().strip())
            except OSError:
                pass
    return found


def read_stat(pid):
    """State, parent and process group of a process; none once it is gone."""
    try:
        with open(f"/proc/{pid}/stat", encoding="utf8", errors="replace") as file:
            return file.read().rpartition(")")[2].split()[:3]
    except OSError:
        return []


def read_words(pid):
    try:
        with open(f"/proc/{pid}/cmdline", "rb") as file:
            return file.read()
    except OSError:
        return b""
