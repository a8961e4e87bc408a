"""The programs that real-servers tries: where they are, and what a run of them gave."""
import contextlib
import os
import signal
import subprocess
from subprocess import DEVNULL, PIPE
from typing import NamedTuple, Optional

from program import TOP

# no case takes a tenth of that; but ./curlpool may have to compile and optimise the program first
SECONDS = 60
SECONDS_UNPROVED = 900
SECONDS_TO_END = 10


class Run(NamedTuple):
    """How a run ended, and what it wrote; it has no status where it did not end in time."""

    status: Optional[int]
    output: str
    errors: str


def curlpool():
    """The program curlpool, proved or unproved. PROGRAM names another one that is built already."""
    return os.environ.get("PROGRAM") or os.path.join(TOP, "curlpool")


def end(started):
    """Ends a process that was started in a group of its own, with its group, where it has not ended. First they are
    asked to."""
    if started.poll() is not None:
        return
    os.killpg(started.pid, signal.SIGTERM)
    try:
        started.wait(SECONDS_TO_END)
    except subprocess.TimeoutExpired:
        os.killpg(started.pid, signal.SIGKILL)
        started.wait()


@contextlib.contextmanager
def running(words, stdin=DEVNULL, **others):
    """Starts a command in a group of its own, and ends it with the block."""
    started = subprocess.Popen(words, stdin=stdin, stdout=PIPE, stderr=PIPE, encoding="utf8", errors="replace",
                               start_new_session=True, **others)
    try:
        yield started
    finally:
        end(started)


def run(words, seconds=SECONDS):
    """Runs a command, for at most that many seconds."""
    with running(words) as started:
        try:
            output, errors = started.communicate(timeout=seconds)
            return Run(started.returncode, output, errors)
        except subprocess.TimeoutExpired:
            return Run(None, "", f"it did not end within {seconds} seconds")


def get(words):
    """Runs curlpool get with these words."""
    return run([curlpool(), "get", *words], SECONDS_UNPROVED)


def load(words):
    """Runs curlpool load with these words."""
    return run([curlpool(), "load", *words], SECONDS_UNPROVED)
