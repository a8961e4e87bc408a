"""The gate's proofs, by `rt ci`, and the parts that run beside them on processors that it leaves idle.

`Proving` is a run of `rt ci`: in a room that has the gate's crates, or at the top of the repository. The parts beside
it are wrong bodies, tests that run unproved, programs that are compiled without proofs, and the names and types of
benchmarks. Without such a run they take the libraries of a room that an earlier one left, or those that `rt lib` builds
in place.
"""
import concurrent.futures
import os
import subprocess
import sys
import tempfile
import threading

import bodies
from kept_programs import OPTIMISED, Kept
from kept_proofs import rt_module
from lowering import CannotCompile
from machine import free_bytes, processors
from outcome import Outcome, sum_in
from program import BENCHMARKS, TOP, UNPROVED, Children, crates_below, needed
from room import Proofs, Spare, jobs_of_ci, most_bytes_together
from unproved import Run, Unproved, copy_sources, stored_run

# wrong bodies wait for whatever else there is to do; tests have time limits, so they are not to starve
LEAST_PRIORITY, PRIORITY_OF_TESTS = 19, 5
# of a test, beside proofs
TEST_SECONDS = 600
# maximum memory of a check of some functions, and of the compiler for a crate of tests
BYTES_OF_BODIES, BYTES_OF_TESTS = 2_500_000_000, 4_200_000_000
# one `rt lib` at a time: it uses all processors
IN_PLACE = threading.Lock()


class Proving:
    """A run of `rt ci` there over these crates. What it writes is passed on as it comes, with the name of the
    repository's folder in place of its own."""

    def __init__(self, folder, crates):
        self.folder, self.crates = folder, crates
        self.proofs, self.spare = Proofs(), Spare(has_run=True)

    def start(self):
        """Starts it, with RT_JOBS set unless it is: the number of checks that run at a time. Without it `rt` reckons
        with up to four times the memory that a check takes, and leaves processors idle; or it gives one check several
        processors, each of which loads the libraries again."""
        number = int(os.environ.get("RT_JOBS") or 0) or jobs_of_ci(self.crates)
        beside = free_bytes() - most_bytes_together(self.crates, number or processors())
        variables = {**os.environ, **({"RT_JOBS": str(number)} if number else {})}
        rt = subprocess.Popen(["rt", "ci"], cwd=self.folder, env=variables, stdin=subprocess.DEVNULL,
                              stdout=subprocess.PIPE)
        self.spare.start(rt, beside)
        return rt

    def run(self):
        """Runs it to its end, and returns its outcome."""
        rt, last, status = None, b"", 1
        try:
            rt = self.start()
            for last in rt.stdout:
                self.proofs.note(last.decode(errors="replace"))
                sys.stdout.buffer.write(last.replace(self.folder.encode(), TOP.encode()))
                sys.stdout.buffer.flush()
            status = rt.wait()
        finally:
            if rt and rt.poll() is None:
                rt.terminate()
                rt.wait()
            self.end(has_passed=status == 0)
        status = status if status >= 0 else 128 - status
        passed, failed, skipped = sum_in(last.decode(errors="replace").strip())
        lines = (f"it ended with status {status}",) if status or failed else ()
        return Outcome(passed, max(failed, int(status != 0)), skipped, lines, status)

    def end(self, has_passed=False):
        """Lets the work beside it go on without it."""
        self.proofs.end(has_passed)
        self.spare.end()


class Libraries:
    """The libraries that checks of single crates stand on: those that a run of `rt ci` proves, those of a room, or
    those that `rt lib` builds in place, which proves what is missing."""

    def __init__(self, room=None, proving=None):
        self.room, self.proving = room, proving
        self.spare = proving.spare if proving else Spare(has_run=False)

    def folder(self):
        return self.room or TOP

    def are_there(self, crate):
        """Waits for those below a crate; true if they are there."""
        below = [name for name in needed(crate) if name != crate]
        if self.proving:
            return self.proving.proofs.wait_for(below)
        return bool(self.room) or all(built_in_place(name) for name in below)


def built_in_place(crate):
    """Has `rt lib` build that library if it is missing or older than its sources; true if it is built."""
    with IN_PLACE:
        done = subprocess.run(["rt", "lib"], cwd=os.path.join(TOP, "crates", crate), stdin=subprocess.DEVNULL,
                              stdout=subprocess.DEVNULL, stderr=subprocess.DEVNULL)
    return done.returncode == 0


def side_by_side(work, items):
    """Does this work for each item, all at a time: it waits for processors itself. Returns the results in order."""
    if not items:
        return []
    with concurrent.futures.ThreadPoolExecutor(len(items)) as pool:
        return list(pool.map(work, items))


class Bodies:
    """The part `bodies`: each edit of a folder of that name is refused."""

    def __init__(self, libraries, kind="must-fail", crates=None, has_control=False):
        self.libraries, self.kind, self.has_control = libraries, kind, has_control
        self.crates = crates if crates is not None else bodies.crates_with(kind)
        self.children = Children(LEAST_PRIORITY)
        self.checker = bodies.Checker(libraries.folder(), self.children)

    def of_crate(self, crate):
        """Tries the edits of a crate."""
        if not self.libraries.are_there(crate):
            names = sorted(os.listdir(bodies.folder_of(crate, self.kind)))
            return [bodies.Tried(name, "a library below the crate is not proved", 0) for name in names]
        with self.libraries.spare.processor(BYTES_OF_BODIES):
            return bodies.try_edits(self.checker, crate, self.kind, self.has_control)

    def tried(self):
        """Tries all edits: the results by crate."""
        try:
            longest_first = sorted(self.crates, key=lambda crate: -bodies.lines_of(crate))
            return dict(zip(longest_first, side_by_side(self.of_crate, longest_first), strict=True))
        finally:
            self.children.stop()

    def run(self):
        every = [(crate, one) for crate, of in self.tried().items() for one in of]
        lines = tuple(f"failed  {crate}/{one.edit}: {one.wrong}" for crate, one in every if one.wrong)
        return Outcome(len(every) - len(lines), len(lines), 0, lines, seconds=sum(one.seconds for _, one in every))


def wrong_layouts(crates):
    """A line for each of these crates whose files are not as `rt fmt` lays them out: `rt ci` does not see them."""
    fmt = rt_module().rtlib.fmt
    with tempfile.TemporaryFile("w") as out:
        return tuple(f"failed  {crate}: run `rt fmt` in its folder" for crate in crates
                     if fmt(os.path.join(TOP, "crates", crate), "--check", out))


class Tests:
    """The part `tests`: the crates of tests that run unproved, and the layout of their files."""

    def __init__(self, libraries):
        self.spare, self.crates = libraries.spare, crates_below(UNPROVED)
        self.children = Children(PRIORITY_OF_TESTS)

    def run(self):
        with tempfile.TemporaryDirectory(prefix="curlpool-tests-") as folder:
            skipped = copy_sources(folder)
            unproved = Unproved(folder, self.children, TEST_SECONDS)
            try:
                runs = side_by_side(lambda crate: self.of_crate(unproved, crate, skipped), self.crates)
            finally:
                self.children.stop()
        wrong = wrong_layouts(self.crates)
        lines = tuple(line for run in runs if run.failed for line in run.lines())
        return Outcome(sum(run.passed for run in runs), sum(run.failed for run in runs) + len(wrong),
                       sum(len(run.skipped) for run in runs), lines + wrong, seconds=sum(run.seconds for run in runs))

    def of_crate(self, unproved, crate, skipped):
        with self.spare.processor(BYTES_OF_TESTS):
            return unproved.one(Run(crate, skipped.get(crate, [])))


class Programs:
    """The part `programs`: these, compiled without proofs and optimised, and the stored run of each. A folder gets links
    to them."""

    def __init__(self, libraries, crates, folder):
        self.spare, self.crates, self.folder = libraries.spare, crates, folder
        self.children = Children()

    def of_crate(self, crate):
        """Makes a program, and runs it on its stored words: a line if that fails, or nothing."""
        try:
            with self.spare.processor(BYTES_OF_TESTS):
                path = Kept(crate, self.children, is_quiet=True).made(OPTIMISED)
        except (CannotCompile, OSError) as fault:
            return f"failed  {crate}: {fault}"
        os.symlink(path, os.path.join(self.folder, crate))
        wrong = stored_run(crate, path)
        return wrong and f"failed  {crate}: {wrong}"

    def run(self):
        found = side_by_side(self.of_crate, self.crates)
        wrong = tuple(line for line in found if line)
        lines = (*wrong, *wrong_layouts(self.crates))
        return Outcome(len(found) - len(wrong), len(lines), 0, lines)


class Benchmarks:
    """The part `benchmarks`: names, types, borrows and layout of the crates that are proved only to be measured."""

    def __init__(self, libraries):
        self.libraries, self.crates = libraries, crates_below(BENCHMARKS)
        self.children = Children(LEAST_PRIORITY)
        self.checker = bodies.Checker(libraries.folder(), self.children)

    def of_crate(self, crate):
        """Checks a crate: a line about its failure, or nothing; and the processor seconds."""
        if not self.libraries.are_there(crate):
            return f"failed  {crate}: a library below it is not proved", 0
        with self.libraries.spare.processor(BYTES_OF_BODIES):
            status, output, seconds = self.checker.check(crate, {}, [""])
        is_well = status == 0 and output[-1:] == ["only=0 proved=0"]
        return None if is_well else f"failed  {crate}: status {status}, {output[-1:]}", seconds

    def run(self):
        try:
            found = side_by_side(self.of_crate, self.crates)
        finally:
            self.children.stop()
        wrong = [wrong for wrong, _ in found if wrong]
        lines = (*wrong, *wrong_layouts(self.crates))
        return Outcome(len(found) - len(wrong), len(lines), 0, lines, seconds=sum(seconds for _, seconds in found))
