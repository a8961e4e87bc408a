"""Rows of data that the built program runs: command lines and traces, with their output and status.

Part `rows` of tools/check runs them: `tools/check rows`. PROGRAM names a program that is built already.

tests/words.rows has command lines. A row begins with `row NAME`; its other lines are

| Line | Meaning |
|---|---|
| `words WORDS` | the words after the program's name, quoted as in a shell; `$'..'` has escapes: `\\x7f`, `\\u202a` |
| `in TEXT` | a line of standard input, which is empty without one |
| `terminal` | standard input is a terminal |
| `out TEXT`, `err TEXT` | a line of standard output or standard error, which have to be empty without one |
| `out TEXT[..]`, `err TEXT[..]` | the beginning of the last line that is compared |
| `status N` | the status |

Empty lines and lines that begin with `#` are skipped. A row runs in a new folder with the files of tests/words.

tests/traces/NAME.trace is the standard input of `curlpool audit`. The first line of NAME.answer has the options and the
status, as `audit --all: status 1`; the other lines are the output. Those that begin with `line ` are expected on
standard error.
"""
import concurrent.futures
import os
import pty
import re
import shlex
import shutil
import subprocess
import tempfile
import termios
import time
from typing import NamedTuple

from machine import processors
from program import TOP
from scripts import read

TESTS = os.path.join(TOP, "tests")
WORDS, FILES, TRACES = (os.path.join(TESTS, name) for name in ("words.rows", "words", "traces"))
KEYS = {"words", "in", "terminal", "out", "err", "status"}
# ends a line of which only the beginning is compared
REST = "[..]"
# a part of a word with escapes, and the escape of a byte above ASCII
ESCAPED, HIGH_BYTE = re.compile(r"\$'((?:[^'\\]|\\.)*)'"), re.compile(r"\\x([89a-f][0-9a-f])")
HEAD = re.compile(r"audit(?P<options>(?: --\w+)*): status (?P<status>\d)")
# a row takes a tenth of this on a busy machine
SECONDS = 60
END_OF_INPUT = b"\x04"


class BadRow(Exception):
    """A row that can't be read, with the reason."""


class Text(NamedTuple):
    """An expected text, or its beginning."""

    text: bytes = b""
    is_start: bool = False

    def fits(self, found):
        return found.startswith(self.text) if self.is_start else found == self.text

    def __str__(self):
        return f"{self.text!r}{REST}" if self.is_start else repr(self.text)


class Row(NamedTuple):
    """A run of the program: its words and input, and the output and status that are expected."""

    name: str
    words: list
    input: bytes
    has_terminal: bool
    output: Text
    errors: Text
    status: int


def words_of(line):
    """Splits a line that is quoted as for a shell into words."""
    def decoded(found):
        # a byte above ASCII becomes a surrogate, which `surrogateescape` turns into that byte
        text = HIGH_BYTE.sub(r"\\udc\1", found[1])
        return shlex.quote(text.encode().decode("unicode_escape"))

    return [word.encode("utf8", "surrogateescape") for word in shlex.split(ESCAPED.sub(decoded, line))]


def text_of(name, lines):
    """Joins the lines of an expected text; the last one may be the beginning of a line."""
    if any(line.endswith(REST) for line in lines[:-1]):
        raise BadRow(f"row {name}: a line follows {REST}")
    is_start = bool(lines) and lines[-1].endswith(REST)
    text = "".join(f"{line}\n" for line in lines)
    return Text(text.removesuffix(f"{REST}\n").encode() if is_start else text.encode(), is_start)


def row_of(name, lines):
    """Makes a row of its lines, each of which is a pair of key and text."""
    keys = [key for key, _ in lines]
    if not KEYS.issuperset(keys) or keys.count("words") != 1 or keys.count("status") != 1:
        raise BadRow(f"row {name}: unknown lines {set(keys) - KEYS}, or not one line each of `words` and `status`")
    given, output, errors = ([text for key, text in lines if key == stream] for stream in ("in", "out", "err"))
    values = dict(lines)
    return Row(name, words_of(values["words"]), "".join(f"{line}\n" for line in given).encode(), "terminal" in keys,
               text_of(name, output), text_of(name, errors), int(values["status"]))


def rows_of_words(text):
    """Reads the rows of a file in their order."""
    rows = {}
    for line in text.split("\n"):
        key, _, value = line.partition(" ")
        if key == "row":
            if value in rows:
                raise BadRow(f"two rows are named {value}")
            lines = rows[value] = []
        elif line and not line.startswith("#"):
            lines.append((key, value))
    return [row_of(name, lines) for name, lines in rows.items()]


def row_of_trace(name):
    """Reads a trace and its answer."""
    head, _, answer = read(TRACES, f"{name}.answer").partition(b"\n")
    found = HEAD.fullmatch(head.decode())
    if found is None:
        raise BadRow(f"trace {name}: no options and status in {head!r}")
    lines = answer.splitlines(keepends=True)
    errors = [line for line in lines if line.startswith(b"line ")]
    output = [line for line in lines if line not in errors]
    return Row(f"trace {name}", [b"audit", *found["options"].encode().split()], read(TRACES, f"{name}.trace"), False,
               Text(b"".join(output)), Text(b"".join(errors)), int(found["status"]))


def rows_of_traces():
    names = sorted(name.removesuffix(".trace") for name in os.listdir(TRACES) if name.endswith(".trace"))
    return [row_of_trace(name) for name in names]


def run_at_terminal(words, typed, **how):
    """Runs a command with a terminal as standard input, at which this text is typed."""
    keyboard, terminal = pty.openpty()
    try:
        modes = termios.tcgetattr(terminal)
        modes[3] &= ~termios.ECHO
        termios.tcsetattr(terminal, termios.TCSANOW, modes)
        os.write(keyboard, typed + END_OF_INPUT)
        return subprocess.run(words, stdin=terminal, **how)
    finally:
        os.close(keyboard)
        os.close(terminal)


def failure_of(program, latest, row):
    """Runs a row, until the moment `latest` at most; returns the difference from what is expected, or None."""
    words = [program, *row.words]
    with tempfile.TemporaryDirectory() as folder:
        shutil.copytree(FILES, folder, dirs_exist_ok=True)
        how = {"cwd": folder, "capture_output": True, "timeout": max(min(SECONDS, latest - time.monotonic()), 0)}
        try:
            done = (run_at_terminal(words, row.input, **how) if row.has_terminal
                    else subprocess.run(words, input=row.input, **how))
        except subprocess.TimeoutExpired:
            return "it did not end in time"
    if done.returncode == row.status and row.output.fits(done.stdout) and row.errors.fits(done.stderr):
        return None
    return (f"found status {done.returncode}, {done.stdout!r}, {done.stderr!r}; "
            f"expected status {row.status}, {row.output}, {row.errors}")


def try_rows(program, latest):
    """Runs all rows, as many at once as there are processors. Returns the numbers of rows that passed, failed and were
    skipped, and a line for each failure."""
    rows = rows_of_words(read(WORDS).decode()) + rows_of_traces()
    with concurrent.futures.ThreadPoolExecutor(processors()) as pool:
        found = pool.map(lambda row: failure_of(program, latest, row), rows)
        failures = tuple(f"failed  {row.name}: {failure}" for row, failure in zip(rows, found, strict=True) if failure)
    return len(rows) - len(failures), len(failures), 0, failures
