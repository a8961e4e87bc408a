"""The outcome of a part of the gate."""
import re
from typing import NamedTuple

SUM = re.compile(r"(\d+) passed, (\d+) failed(?:, (\d+) skipped)?")


class Outcome(NamedTuple):
    """The outcome of a part: the numbers of cases that passed, failed and were skipped, lines about the failures, the
    status of `rt ci`, and the processor seconds if they were measured."""

    passed: int = 0
    failed: int = 0
    skipped: int = 0
    lines: tuple = ()
    status: int = 0
    seconds: float = 0

    def counts(self):
        measured = f"{self.seconds:.0f} processor seconds; " if self.seconds else ""
        return f"{self.passed} passed, {self.failed} failed, {self.skipped} skipped; {measured}"


def sum_in(line):
    """The three numbers in the last line of a command; one failure if it is another line."""
    found = SUM.fullmatch(line)
    return tuple(int(number or 0) for number in found.groups()) if found else (0, 1, 0)
