"""Tests and programs, compiled and run unproved by `rt try`.

It compiles a crate with all libraries below it, with checks of memory and arithmetic, and runs its tests, or the
program on its stored `args`, `stdin` and `data`: its output and status have to be those of `stdout` and `status`. It
proves nothing, and stops at only some of the calls that break a `requires`.

Tests that take too long without optimization are left out of the copy that is compiled: SKIPPED names them, and
`rt test` runs them.
"""
import concurrent.futures
import itertools
import os
import re
import shutil
import subprocess
import tempfile
import threading

from program import TOP, Children, needed
from rt_try import end_check_of_names

SECONDS = 120
# crate, test and reason
SKIPPED = (
    ("memory_tests", "a_pool_is_cut_two_thousand_times", "it takes minutes without optimization"),
)
TEST = re.compile(r"#\[test\]")
RESULT = re.compile(r"test (\S+) \.\.\. (ok|FAILED)")
ENDED = re.compile(r"run=ended status=(\d+) ")
SHOWN = 20


def path_of(top, crate, *parts):
    return os.path.join(top, "crates", crate, *parts)


def read(path):
    """The bytes of a file; none if there is no such file."""
    try:
        with open(path, "rb") as file:
            return file.read()
    except FileNotFoundError:
        return b""


def stored(top, crate):
    """The stored words of a program, its input and output, and the status with which it has to end."""
    args, stdin, stdout, status = (read(path_of(top, crate, name)) for name in ("args", "stdin", "stdout", "status"))
    return args.decode(errors="surrogateescape").splitlines(), stdin, stdout, int(status or 0)


def stored_run(crate, program):
    """What is wrong with a program's run on its stored words, input and files, or nothing."""
    words, stdin, stdout, status = stored(TOP, crate)
    data = path_of(TOP, crate, "data")
    done = subprocess.run([program, *words], input=stdin, stdout=subprocess.PIPE, timeout=SECONDS,
                          cwd=data if os.path.isdir(data) else None)
    if done.returncode != status:
        return f"its stored run ended with status {done.returncode}, and not {status}"
    return None if done.stdout == stdout else "its stored run writes something else than `stdout` has"


def sources_of(crate):
    for folder, _, files in os.walk(path_of(TOP, crate, "src")):
        yield from (os.path.join(folder, name) for name in files if name.endswith(".rt"))


def has_tests(crate):
    return any(TEST.search(read(path).decode()) for path in sources_of(crate))


def is_program(crate):
    return os.path.isfile(path_of(TOP, crate, "src", "main.rt"))


def size_of(crate):
    """The bytes of source that are compiled for the crate."""
    return sum(os.path.getsize(path) for name in needed(crate) for path in sources_of(name))


def without_test(text, test):
    """The text without that test, which ends where its first line's indentation comes back; the text itself if there is
    no such test."""
    return re.sub(rf"^( *)#\[test\]\n(?:\1#\[.*\]\n)*\1fn {test}\b.*?\n\1\}}\n", "", text, flags=re.M | re.S)


def copy_sources(room):
    """Copies the sources of all crates there, without the tests that are skipped: these, by crate."""
    shutil.copy(os.path.join(TOP, "crates.txt"), room)
    shutil.copytree(os.path.join(TOP, "crates"), os.path.join(room, "crates"), ignore=shutil.ignore_patterns("out"))
    skipped = {}
    for crate, test, why in SKIPPED:
        for path in sources_of(crate):
            text = read(path).decode()
            rest = without_test(text, test)
            if rest != text:
                with open(os.path.join(room, os.path.relpath(path, TOP)), "w", encoding="utf8") as file:
                    file.write(rest)
                skipped.setdefault(crate, []).append(f"{test}: {why}")
    return skipped


class Run:
    """A crate that is run: the numbers of tests that passed and failed, and lines about failures."""

    def __init__(self, crate, skipped):
        self.crate, self.skipped, self.seconds = crate, skipped, 0
        self.passed = self.failed = 0
        self.told = []

    def fail(self, *lines):
        self.failed += 1
        self.told += lines

    def lines(self):
        """A line for the crate, and what there is to say of failures and skipped tests."""
        yield self.line()
        yield from (f"  {line}" for line in [*self.told, *(f"skipped  {it}" for it in self.skipped)])

    def line(self):
        skipped = f", {len(self.skipped)} skipped" if self.skipped else ""
        return f"{self.crate}: {self.passed} passed, {self.failed} failed{skipped}; {self.seconds:.0f} s"

    def note_tests(self, output, said):
        """Notes what rt try wrote of tests. What is wrong with one stands below its line, indented."""
        lines = output.splitlines()
        results = [found for found in map(RESULT.match, lines) if found]
        self.passed += sum(found[2] == "ok" for found in results)
        for found in results:
            if found[2] != "ok":
                after = lines[lines.index(found[0]) + 1 :]
                self.fail(f"failed  {found[1]}", *itertools.takewhile(lambda line: line.startswith(" "), after))
        if not self.failed and not re.search(r"^test result: ok\. \d+ passed; 0 failed", output, re.M):
            self.fail(*end_of(output), *end_of(said))

    def note_program(self, output, said, wanted):
        """Notes how a program ended and what it wrote, which has to be this."""
        text, status = wanted
        found = [match for match in map(ENDED.match, said.splitlines()) if match]
        if not found:
            self.fail(*end_of(said))
        elif int(found[-1][1]) != status:
            self.fail(f"it ended with status {found[-1][1]}, and not {status}", *end_of(said))
        elif output != text:
            lines = itertools.zip_longest(output.splitlines(), text.splitlines())
            differing = ((at, *pair) for at, pair in enumerate(lines, 1) if pair[0] != pair[1])
            at, mine, other = next(differing, (0, "another line's end", text[-1:]))
            self.fail(f"line {at} of its output is {mine!r}, and not {other!r}")
        else:
            self.passed += 1


def end_of(text):
    return text.splitlines()[-SHOWN:]


class Unproved:
    """Runs crates in a copy of the sources. Each test and program has the given number of seconds."""

    def __init__(self, room, children=None, seconds=SECONDS):
        self.room, self.children, self.seconds = room, children or Children(), seconds

    def rt_try(self, run, words, given=b""):
        """Runs rt try in the crate's folder: its output, and what it said."""
        folder = path_of(self.room, run.crate)
        with tempfile.TemporaryFile() as stdin, tempfile.TemporaryFile() as errors:
            stdin.write(given)
            stdin.seek(0)
            words = ["try", "--seconds", str(self.seconds), *words]
            rt = self.children.start(words, folder, stdin=stdin, stderr=errors)
            if rt is None:
                return "", ""
            threading.Thread(target=end_check_of_names, args=(rt,), daemon=True).start()
            output = rt.stdout.read()
            run.seconds += self.children.wait(rt)[1]
            errors.seek(0)
            return output, errors.read().decode(errors="replace")

    def run_program(self, run):
        args, stdin, stdout, status = stored(self.room, run.crate)
        words, data = [], path_of(self.room, run.crate, "data")
        for folder, _, files in os.walk(data):
            for name in files:
                path = os.path.join(folder, name)
                words += ["--data", f"{os.path.relpath(path, data)}={path}"]
        output, said = self.rt_try(run, [*words, "--", *args], stdin)
        run.note_program(output, said, (stdout.decode(errors="replace"), status))

    def one(self, run):
        """Runs a crate's tests, and the program if it is one, and notes the results."""
        if is_program(run.crate):
            self.run_program(run)
        if has_tests(run.crate):
            run.note_tests(*self.rt_try(run, ["--test"]))
        return run

    def all(self, runs, at_once):
        """Runs crates side by side, the largest first: each once it has ended."""
        with concurrent.futures.ThreadPoolExecutor(at_once) as pool:
            try:
                largest_first = sorted(runs, key=lambda run: -size_of(run.crate))
                for done in concurrent.futures.as_completed([pool.submit(self.one, run) for run in largest_first]):
                    yield done.result()
            finally:
                self.children.stop()
                pool.shutdown(cancel_futures=True)
