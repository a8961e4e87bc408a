"""A room: a copy of some crates outside of the repository, in which `rt ci` proves, builds and runs them.

`rt ci` proves all that its crates.txt lists, and tries their must-fail edits. The gate wants less: the crates of the
product, the tests that have to be proved, and no second proof for edits. So it gives `rt ci` a folder with these crates
alone. What `rt ci` leaves there, libraries, programs and tests, serves the other parts of the gate.
"""
import contextlib
import filecmp
import os
import re
import shutil
import threading
import time

from machine import free_bytes, processors
from program import BENCHMARKS, COMPILED, TOP, UNPROVED, crates_below, listed_crates
from rt_try import processes_of

LEFT_OUT = shutil.ignore_patterns("out", "must-fail", "wrong-bodies", "found")
# a kit that keeps proofs says `is kept`
PROVED = re.compile(r"rt: (\w+) (?:proved|is kept)\b")
MEASUREMENTS = os.path.join(TOP, "docs", "measurements.md")
# the section that has the table of crates; of a row the first cell, and the last, which is memory in MB
OF_GATE = "\n## 7. The gate"
ROW = re.compile(r"\| `(\w+)` \|.*\| ([\d,]+) \|$", re.MULTILINE)
# of a check that was not measured yet
UNKNOWN_BYTES = 4_500_000_000


def gate_crates():
    """The crates that the gate proves, each with those of the repository that it stands on."""
    left_out = crates_below(UNPROVED, COMPILED, BENCHMARKS)
    listed = listed_crates()
    return {name: [one for one in below if one in listed] for name, below in listed.items() if name not in left_out}


def copy_crates(crates, room):
    """Makes a repository there of these crates alone, with what is proved and run of them."""
    for name in crates:
        shutil.copytree(os.path.join(TOP, "crates", name), os.path.join(room, "crates", name), ignore=LEFT_OUT)
    shutil.copy(os.path.join(TOP, "HANDLES"), room)
    with open(os.path.join(TOP, "crates.txt"), encoding="utf8") as lines:
        heads = [(line.split("#")[0].partition(":")[0].split()[:1], line) for line in lines]
    with open(os.path.join(room, "crates.txt"), "w", encoding="utf8") as file:
        file.writelines(line for names, line in heads if names and names[0] in crates)
    # rt takes the folder that has this one for the top of a repository
    os.mkdir(os.path.join(room, ".git"))


def differing(crates, room):
    """The crates of a room whose sources there are not those of the repository; those that it lacks do not count."""
    parts = ("src", "specs", "proofs")
    crates = [name for name in crates if os.path.isdir(os.path.join(room, "crates", name))]
    folders = {name: [os.path.join("crates", name, part) for part in parts] for name in crates}
    return [name for name, inside in folders.items() if any(
        os.path.isdir(os.path.join(TOP, one)) and differs(os.path.join(TOP, one), os.path.join(room, one))
        for one in inside)]


def differs(folder, other):
    """True if the files of the two folders are not the same."""
    if not os.path.isdir(other):
        return True
    compared = filecmp.dircmp(folder, other)
    _, wrong, unread = filecmp.cmpfiles(folder, other, compared.common_files, shallow=False)
    return bool(compared.left_only or compared.right_only or wrong or unread) or any(
        differs(os.path.join(folder, name), os.path.join(other, name)) for name in compared.common_dirs)


def all_below(crates):
    """All crates that each of these stands on, directly or not."""
    found = {}

    def below(name):
        if name not in found:
            found[name] = set(crates[name]).union(*map(below, crates[name]))
        return found[name]

    for name in crates:
        below(name)
    return found


def bytes_of_checks(crates):
    """The memory of each crate's check, as measured."""
    with open(MEASUREMENTS, encoding="utf8") as file:
        section = file.read().partition(OF_GATE)[2].partition("\n## ")[0]
    measured = {name: int(number.replace(",", "")) * 1_000_000 for name, number in ROW.findall(section)}
    return {name: measured.get(name, UNKNOWN_BYTES) for name in crates}


def most_bytes_together(crates, number):
    """The memory that this number of checks holds at most, of crates of which none stands on another."""
    needs, below = bytes_of_checks(crates), all_below(crates)
    largest = sorted(crates, key=lambda name: -needs[name])

    def most(left, number):
        best = 0
        for at, name in enumerate(left):
            if number * needs[name] <= best:
                break
            beside = [one for one in left[at + 1 :] if one not in below[name] and name not in below[one]]
            best = max(best, needs[name] + (most(beside, number - 1) if number > 1 else 0))
        return best

    return most(largest, number)


def jobs_of_ci(crates):
    """The number of checks that `rt ci` is to run at a time: one for each processor, if the memory is free that was
    measured for the largest of these crates that may run together; else fewer, or nothing if not even one fits."""
    free = free_bytes()
    return next((number for number in range(processors(), 0, -1) if most_bytes_together(crates, number) <= free), None)


class Proofs:
    """The crates that a run of `rt ci` has proved so far."""

    def __init__(self):
        self.changed = threading.Condition()
        self.proved, self.is_over, self.has_passed = set(), False, False

    def note(self, line):
        """Takes a line that `rt ci` writes."""
        found = PROVED.match(line)
        if found:
            with self.changed:
                self.proved.add(found[1])
                self.changed.notify_all()

    def end(self, has_passed):
        """Notes that the run is over; if it has passed, all crates are proved."""
        with self.changed:
            self.is_over, self.has_passed = True, self.has_passed or has_passed
            self.changed.notify_all()

    def wait_for(self, crates):
        """Waits until all of these are proved, or the run is over: true if they are."""
        with self.changed:
            self.changed.wait_for(lambda: self.is_over or self.proved.issuperset(crates))
            return self.has_passed or self.proved.issuperset(crates)


class Spare:
    """The processors and the memory that a run of `rt ci` leaves, for other work beside it; all of them if there is no
    such run, and once it has ended."""

    def __init__(self, has_run):
        self.lock, self.has_run, self.rt, self.bytes_beside = threading.Lock(), has_run, None, 0
        self.taken, self.bytes_taken = 0, 0

    def start(self, rt, bytes_beside):
        """Notes that the run has begun, and the bytes of memory that it leaves at any time."""
        self.bytes_beside, self.rt = bytes_beside, rt

    def end(self):
        """Notes that the run has ended."""
        self.has_run = False

    def idle(self):
        """Number of processors on which no check of `rt ci` runs; none before it has begun."""
        if not self.has_run:
            return processors()
        if not self.rt:
            return 0
        return processors() - sum(name.startswith("rattle") for name in processes_of(self.rt.pid))

    def has_room(self, needed):
        """True if that many bytes of memory may be taken too."""
        if not self.has_run:
            return not self.taken or free_bytes() >= needed
        return self.bytes_taken + needed <= self.bytes_beside

    def is_taken(self, needed):
        with self.lock:
            if self.taken < self.idle() and self.has_room(needed):
                self.taken += 1
                self.bytes_taken += needed
                return True
            return False

    @contextlib.contextmanager
    def processor(self, needed):
        """Holds one of them, and that many bytes; waits until it is idle, and they are free."""
        while not self.is_taken(needed):
            time.sleep(1)
        try:
            yield
        finally:
            with self.lock:
                self.taken -= 1
                self.bytes_taken -= needed
