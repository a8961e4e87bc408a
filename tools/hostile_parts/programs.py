"""The programs and tests that hostile tries: where they are, and what a run of them gave.

BUILT names a folder that has them already: tools/hostile says which. Otherwise those in `out` are taken, which are
built first if they are missing or older than their sources.
"""
import contextlib
import os
import signal
import subprocess
from subprocess import DEVNULL, PIPE
from typing import NamedTuple, Optional

from program import BUILT as BUILT_CURLPOOL
from program import TOP, build_unless_current, built, given

# no run takes a tenth of that
SECONDS = 60


class Run(NamedTuple):
    """How a run ended, and what it wrote. Its status is a signal's where it is below 0; it has none where the run did
    not end in time."""

    status: Optional[int]
    output: str
    errors: str

    def told(self):
        """Its end, in a few words."""
        if self.status is None:
            return self.errors
        return f"status {self.status}, {self.output[-200:]!r}, {self.errors[-200:]!r}"


def curlpool():
    """The program curlpool, built. PROGRAM names another one."""
    found = os.environ.get("PROGRAM") or given("pool_cli")
    if not found:
        build_unless_current()
    return found or BUILT_CURLPOOL


def tests_of(crate):
    """The built tests of a crate."""
    return given(f"{crate}_tests") or built(crate, "test", f"{crate}_tests")


def tool(name):
    return os.path.join(TOP, "tools", name)


def started(words, **streams):
    """Starts a command in a process group of its own."""
    return subprocess.Popen(words, start_new_session=True, **streams)


def end(run):
    """Ends a process that was started so, with its group, where it has not ended."""
    if run.poll() is None:
        with contextlib.suppress(ProcessLookupError):
            os.killpg(run.pid, signal.SIGKILL)
        run.wait()


def run(words, seconds=SECONDS, text="", **how):
    """Runs a command on that standard input, for so long at most."""
    streams = {"stdin": PIPE if text else DEVNULL, "stdout": PIPE, "stderr": PIPE, **how}
    one = started(words, encoding="utf8", errors="replace", **streams)
    try:
        output, errors = one.communicate(text or None, timeout=seconds)
        return Run(one.returncode, output or "", errors or "")
    except subprocess.TimeoutExpired:
        return Run(None, "", f"it did not end within {seconds} seconds")
    finally:
        end(one)
