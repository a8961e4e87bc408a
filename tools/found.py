"""Wrong bodies that no contract speaks of, and that a test has to find: `tools/wrong-bodies --found`.

They are the edits in crates/CRATE/found, of the form of those in wrong-bodies, with a first line `found by: TEST`:
`reference` for the scripts of tools/reference.py, which `tries script` runs over a shared cache, or a crate of tests.
Each is put into a copy of the sources, where `rt try` compiles and runs its test, unproved. The test has to fail there;
it has to pass without an edit, which is tried first. A script that is not answered within SCRIPT_SECONDS, or a test
that does not end within TEST_SECONDS, has failed: so a body that hangs is found too.
"""
import concurrent.futures
import os
import re
import shutil
import sys
import tempfile
import threading
from typing import NamedTuple

from program import TOP, Children, listed_crates
from reference import fixed_and_drawn
from rt_try import end_check_of_names

CRATES = os.path.join(TOP, "crates")
FOUND_BY, FILE, OLD, NEW = "found by: ", "file: ", "old: ", "new: "
REFERENCE = "reference"
# random scripts, of few hosts and of many: rt try takes half a second for each script
FEW, MANY = 20, 10
# for each script, which takes half a second, and each test
SCRIPT_SECONDS, TEST_SECONDS = 30, 120
# the last line of rt try with --cases, and those of its cases that ended with a status
CASES = re.compile(r"cases=(\d+) ended=(\d+) fault=(\d+) differs=(\d+) no-answer=(\d+)")
TESTS = re.compile(r"test result: (?:ok|FAILED)\. (\d+) passed; (\d+) failed")


class BadEdit(Exception):
    """Why an edit cannot be applied."""


class Edit(NamedTuple):
    """An edit: its crate and its file's name, the test that finds it, and what it changes: path, old and new text."""

    crate: str
    name: str
    test: str
    changes: list

    def apply(self, top):
        """Makes the changes in a copy of the repository."""
        for path, old, new in self.changes:
            file = os.path.join(top, "crates", self.crate, path)
            with open(file, encoding="utf8") as read:
                text = read.read()
            if text.count(old) != 1:
                raise BadEdit(f"{path} has {old.strip()!r} {text.count(old)} times")
            with open(file, "w", encoding="utf8") as written:
                written.write(text.replace(old, new))


def folder_of(crate):
    return os.path.join(CRATES, crate, "found")


def crates_with_some():
    """The crates that have such edits, in the order of crates.txt."""
    return [name for name in listed_crates() if os.path.isdir(folder_of(name))]


def read_edit(crate, name):
    with open(os.path.join(folder_of(crate), name), encoding="utf8") as file:
        lines = file.read().splitlines()
    test, path, old, changes = None, None, None, []
    for line in lines:
        if line.startswith(FOUND_BY):
            test = line.removeprefix(FOUND_BY)
        elif line.startswith(FILE):
            path = line.removeprefix(FILE)
        elif line.startswith(OLD):
            old = line.removeprefix(OLD)
        elif line.startswith(NEW):
            changes.append((path, old, line.removeprefix(NEW)))
    if test is None or any(None in change for change in changes):
        sys.exit(f"tools/wrong-bodies: {crate}/found/{name} has no line `{FOUND_BY}TEST`, or a change without its file")
    return Edit(crate, name, test, changes)


def edits_of(crate):
    return [read_edit(crate, name) for name in sorted(os.listdir(folder_of(crate)))]


class Trial:
    """Tries edits, each in a copy of the sources of its own."""

    def __init__(self, room):
        self.room, self.children, self.lock = room, Children(), threading.Lock()
        self.cases = os.path.join(room, "cases")

    def write_cases(self):
        """Writes the scripts of the reference run there, each with the transcript that it has to write."""
        os.mkdir(self.cases)
        for name, both in fixed_and_drawn(self.room, FEW, MANY).items():
            for file, text in zip((name, f"{name}.stdout"), both, strict=True):
                with open(os.path.join(self.cases, file), "wb") as written:
                    written.write(text)

    def try_test(self, test, edit=None):
        """Runs a test, on the sources with that edit: whether it passes, or nothing if it does not run; and why."""
        with tempfile.TemporaryDirectory(dir=self.room) as top:
            shutil.copy(os.path.join(TOP, "crates.txt"), top)
            shutil.copytree(CRATES, os.path.join(top, "crates"),
                            ignore=shutil.ignore_patterns("must-fail", "wrong-bodies", "found", "data", "out"))
            if edit:
                try:
                    edit.apply(top)
                except BadEdit as bad:
                    return None, str(bad)
            is_reference = test == REFERENCE
            words = ["--cases", self.cases, "--", "script"] if is_reference else ["--test"]
            seconds = SCRIPT_SECONDS if is_reference else TEST_SECONDS
            folder = os.path.join(top, "crates", "tries" if is_reference else test)
            run = self.children.start(["try", "--seconds", str(seconds), *words], folder)
            if run is None:
                return None, "stopped"
            threading.Thread(target=end_check_of_names, args=(run,), daemon=True).start()
            said = run.stdout.read()
            self.children.wait(run)
        return told_by_cases(said) if is_reference else told_by_tests(said)

    def one(self, edit, before):
        """Tries an edit: whether its test, which told this without an edit, finds it, and what the test said."""
        passes, why = before[edit.test]
        if not passes:
            return False, f"{edit.test} does not pass without an edit: {why}"
        passes, why = self.try_test(edit.test, edit)
        return passes is False, why

    def all(self, edits, at_once):
        """Tries edits: whether each is found, and why, in their order as they end."""
        with concurrent.futures.ThreadPoolExecutor(at_once) as pool:
            try:
                tests = sorted({edit.test for edit in edits})
                if REFERENCE in tests:
                    self.write_cases()
                before = dict(zip(tests, pool.map(self.try_test, tests), strict=True))
                yield from pool.map(lambda edit: self.one(edit, before), edits)
            finally:
                self.children.stop()


def last_of(said):
    lines = said.splitlines()
    return lines[-1] if lines else "nothing"


def told_by_cases(said):
    """What rt try says of scripts."""
    found = CASES.search(said)
    if not found:
        return None, f"rt said at its end: {last_of(said)}"
    cases, ended, fault, differs, without = map(int, found.groups())
    return ended == cases and not fault + differs + without, found[0]


def told_by_tests(said):
    """What rt try says of tests."""
    found = TESTS.search(said)
    if not found:
        return None, f"rt said at its end: {last_of(said)}"
    return found[2] == "0" and found[1] != "0", found[0]


def try_found(crates, at_once):
    """Tries the edits of these crates, and prints what came of each: whether all were found."""
    edits, found = [edit for crate in crates for edit in edits_of(crate)], 0
    with tempfile.TemporaryDirectory(prefix="found-") as room:
        for edit, (is_found, why) in zip(edits, Trial(room).all(edits, at_once), strict=True):
            found += is_found
            print(f"{'found' if is_found else 'missed'}: {edit.crate}/{edit.name} by {edit.test}: {why}", flush=True)
    print(f"{found} found, {len(edits) - found} missed", flush=True)
    return found == len(edits)
