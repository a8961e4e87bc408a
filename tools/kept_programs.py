"""Programs compiled without proofs, with run-time checks, and kept: `out/unproved/HASH/LEVEL/CRATE`.

HASH is that of the sources (tools/source-hash). LEVEL is `O0`, which compiles fast, or `O3`, which runs fast.
`HASH/module` has the LLVM module from the first to the second. If the repository can't be written, all of this is in
`curlpool` in the user's cache.

Files are made in `CRATE.new-..`, and moved to their place when they are complete. A lock for each crate lets one process
compile at a time; the next one takes what the first one made. Programs are kept of the present sources, and of one
older state of them.
"""
import contextlib
import fcntl
import glob
import os
import shutil
import sys
import tempfile
import threading
import time

import program
from lowering import CannotCompile, compile_module, lower

FIRST, OPTIMISED = "O0", "O3"
# those that serve a command that asks for this one
SERVING = {FIRST: (OPTIMISED, FIRST), OPTIMISED: (OPTIMISED,)}
# seconds of each step on a busy machine, on which the fastest of some loops of `measure_speed` took that many
LOWERING, COMPILING, REFERENCE = 122, {FIRST: 40, OPTIMISED: 200}, 0.0125
LOOPS, ROUNDS = 8, 200_000
OLDER = 1
WAIT = 0.2


def folders():
    """The folders in which programs are kept, the repository's first."""
    cache = os.environ.get("XDG_CACHE_HOME") or os.path.join(os.path.expanduser("~"), ".cache")
    return [os.path.join(program.TOP, "out", "unproved"), os.path.join(cache, "curlpool")]


def writable_folder():
    """The first of these folders that can be written, which is made if it is missing."""
    for folder in folders():
        with contextlib.suppress(OSError):
            os.makedirs(folder, exist_ok=True)
        if os.access(folder, os.W_OK | os.X_OK):
            return folder
    raise CannotCompile(f"neither {' nor '.join(folders())} can be written")


def measure_speed():
    """How many times longer this machine takes than the one on which the steps were measured."""
    def loop():
        began, total = time.process_time(), 0
        for number in range(ROUNDS):
            total += number & 7
        return time.process_time() - began

    return min(loop() for _ in range(LOOPS)) / REFERENCE


def minutes(seconds):
    return f"{int(seconds) // 60}:{int(seconds) % 60:02}"


class Progress:
    """A line on standard error about work that takes minutes. On a terminal it is rewritten each second."""

    def __init__(self, text, seconds=None):
        self.text, self.ends = text, f" of about {minutes(seconds)}" if seconds else ""
        self.about = f" (about {minutes(seconds)})" if seconds else ""
        self.is_over, self.began = threading.Event(), time.monotonic()
        self.thread = threading.Thread(target=self.tick, daemon=True)

    def __enter__(self):
        if sys.stderr.isatty():
            self.thread.start()
        else:
            program.say(f"{self.text}{self.about}")
        return self

    def __exit__(self, *_):
        self.is_over.set()
        if self.thread.is_alive():
            self.thread.join()
            print("\r\033[K", end="", file=sys.stderr, flush=True)

    def tick(self):
        while not self.is_over.is_set():
            passed = minutes(time.monotonic() - self.began)
            print(f"\r\033[K{self.text}: {passed}{self.ends}", end="", file=sys.stderr, flush=True)
            self.is_over.wait(1)


class Kept:
    """The kept programs of a crate. They are compiled by these children, and quietly if nobody is to read of it."""

    def __init__(self, crate=program.NAME, children=None, is_quiet=False):
        self.crate, self.sources = crate, program.source_hash(crate)
        self.children, self.is_quiet = children or program.Children(), is_quiet
        self.name = program.LAUNCHER if crate == program.NAME else crate

    def place(self, folder, *parts):
        return os.path.join(folder, self.sources, *parts)

    def found(self, level):
        """The program of the present sources at that level or a better one; nothing if none is kept."""
        paths = [self.place(folder, one, self.crate) for one in SERVING[level] for folder in folders()]
        return next((path for path in paths if os.access(path, os.X_OK)), None)

    def made(self, level):
        """The program at that level or a better one, which is compiled first if none is kept."""
        found = self.found(level)
        if found:
            return found
        folder = writable_folder()
        with self.locked(folder):
            return self.found(level) or self.make(level, folder)

    @contextlib.contextmanager
    def locked(self, folder):
        """Lets one process at a time compile this crate."""
        with open(os.path.join(folder, f"{self.crate}.lock"), "w", encoding="utf8") as lock:
            if not is_free(lock):
                with self.progress(f"waiting for another command that compiles {self.name}"):
                    while not is_free(lock):
                        time.sleep(WAIT)
            yield

    def make(self, level, folder):
        """Compiles the program at that level, and moves it to its place."""
        self.remove_older(folder)
        is_new, is_first = not os.path.isdir(self.place(folder, "module")), not self.found(FIRST)
        # a name that no process which outlived its parent writes to
        room = tempfile.mkdtemp(prefix=f"{self.crate}.new-", dir=folder)
        os.mkdir(os.path.join(room, level))
        try:
            with self.progress(*self.announcement(level, is_new)):
                if is_new:
                    self.lower(folder, room)
                path = os.path.join(room, level, self.crate)
                compile_module(self.place(folder, "module"), f"-{level}", path, self.children)
            shutil.rmtree(self.place(folder, level), ignore_errors=True)
            os.rename(os.path.join(room, level), self.place(folder, level))
        except program.Stopped:
            self.children.stop()
            raise
        finally:
            shutil.rmtree(room, ignore_errors=True)
        if level == OPTIMISED:
            shutil.rmtree(self.place(folder, "module"))
        if is_first and not self.is_quiet and self.crate == program.NAME:
            program.say("compiled without proofs, with run-time checks; ./curlpool --build proves it (40 minutes)")
        return self.place(folder, level, self.crate)

    def lower(self, folder, room):
        """Makes the module, and moves it to its place; again if a source changes meanwhile."""
        made, before = os.path.join(room, "module"), None
        while before != self.sources:
            before = self.sources
            shutil.rmtree(made, ignore_errors=True)
            os.mkdir(made)
            lower(self.crate, made, room, self.children)
            self.sources = program.source_hash(self.crate)
        # the file by which remove_older finds it
        open(os.path.join(made, self.crate), "w", encoding="utf8").close()
        os.makedirs(self.place(folder), exist_ok=True)
        shutil.rmtree(self.place(folder, "module"), ignore_errors=True)
        os.rename(made, self.place(folder, "module"))

    def progress(self, text, seconds=None):
        return contextlib.nullcontext() if self.is_quiet else Progress(text, seconds)

    def announcement(self, level, is_new):
        """The work that leads to a program, and about how many seconds it takes."""
        if level == OPTIMISED and not is_new:
            text = f"optimising {self.name}, once"
        else:
            text = f"compiling {self.name}, once, without proofs"
        return text, measure_speed() * (LOWERING * is_new + COMPILING[level])

    def remove_older(self, folder):
        """Removes what is kept of older sources of the crate, but for the latest of them, and what a killed process left."""
        for left in glob.glob(os.path.join(folder, f"{self.crate}.new-*")):
            shutil.rmtree(left, ignore_errors=True)
        paths = glob.glob(os.path.join(folder, "*", "*", self.crate))
        others = {os.path.dirname(os.path.dirname(path)) for path in paths} - {self.place(folder)}
        for older in sorted(others, key=os.path.getmtime, reverse=True)[OLDER:]:
            shutil.rmtree(older, ignore_errors=True)


def is_free(lock):
    """True if this process has that lock from now on."""
    try:
        fcntl.flock(lock, fcntl.LOCK_EX | fcntl.LOCK_NB)
    except BlockingIOError:
        return False
    return True
