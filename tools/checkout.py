"""The commit of this checkout, and the last run of the whole gate in it."""
import os
import subprocess
from typing import NamedTuple, Optional

from outcome import sum_in
from program import TOP

GATE = os.path.join(TOP, "out", "gate")


class Checkout(NamedTuple):
    """The commit, if it is known, and True if no file differs from it."""

    commit: Optional[str]
    is_clean: bool

    def lines(self):
        return [f"commit {self.commit}", f"tree {'clean' if self.is_clean else 'changed'}"]


def git(*words):
    """The output of git here; nothing if this is no checkout, or git is not installed."""
    # it neither takes a repository above for this one, nor writes
    variables = {**os.environ, "GIT_CEILING_DIRECTORIES": os.path.dirname(TOP), "GIT_OPTIONAL_LOCKS": "0"}
    try:
        done = subprocess.run(["git", "-C", TOP, "-c", f"safe.directory={TOP}", *words], env=variables,
                              capture_output=True, text=True, check=True)
    except (OSError, subprocess.CalledProcessError):
        return None
    return done.stdout.strip()


def checkout():
    return Checkout(git("rev-parse", "HEAD"), git("status", "--porcelain") == "")


def note_gate(before, line):
    """Writes the last line of a whole gate into out/gate, with the commit. The tree is clean only if it was so before
    the gate too, at the same commit."""
    now = checkout()
    os.makedirs(os.path.dirname(GATE), exist_ok=True)
    with open(GATE, "w", encoding="utf8") as file:
        file.write("\n".join([*now._replace(is_clean=now.is_clean and now == before).lines(), line, ""]))


def passed_gate():
    """The last line of the gate, if it passed on the present commit without other changes; nothing otherwise."""
    now = checkout()
    try:
        with open(GATE, encoding="utf8") as file:
            *head, line = file.read().splitlines()
    except (OSError, ValueError):
        return None
    passed, failed, _ = sum_in(line)
    return line if now.is_clean and head == now.lines() and passed and not failed else None
