"""The programs for the tools that build or run them: what each is built from, and whether it is built of that."""
import functools
import os
import shutil
import signal
import subprocess
import sys
import threading
import time

TOP = os.path.dirname(os.path.dirname(os.path.abspath(__file__)))
# of crates.txt: the start of each heading, and words of those whose crates the gate does not prove
HEADING = "# === "
UNPROVED, COMPILED, BENCHMARKS = "run unproved", "compiled without proofs", "benchmarks"
NAME = "pool_cli"
FOLDER = os.path.join(TOP, "crates", NAME)
BUILT = os.path.join(FOLDER, "out", NAME)
# the hash of the sources that this program was built from, and its sum
BUILT_FROM = os.path.join(FOLDER, "out", "sources.hash")
# the shell script at the top that starts the program, and the one that it sources
LAUNCHER, LAUNCH = "curlpool", os.path.join("tools", "launch.sh")
# the program that tests the other crates, and the words of a short run: one request, to where nobody listens
TRIES = "tries"
SHORT_RUN = ["load", "each", "1", "0", "1", "1"]
# the benchmarks
MEASURES = "measures"
FEWEST_ROUNDS = ["limits", "open-1", "1000"]


def listed_crates():
    """The crates of crates.txt, in its order, each with the libraries that it stands on."""
    listed = {}
    with open(os.path.join(TOP, "crates.txt"), encoding="utf8") as lines:
        for line in lines:
            name, found, libraries = line.split("#")[0].partition(":")
            if found:
                listed[name.split()[0]] = libraries.split()
    return listed


def crates_by_heading():
    """The crates below each heading of crates.txt."""
    found, below = {}, None
    with open(os.path.join(TOP, "crates.txt"), encoding="utf8") as lines:
        for line in lines:
            name, is_crate, _ = line.split("#")[0].partition(":")
            if line.startswith(HEADING):
                below = found.setdefault(line.removeprefix(HEADING).strip(), [])
            elif is_crate and below is not None:
                below.append(name.split()[0])
    return found


def crates_below(*words):
    """The crates below the headings of crates.txt that have one of these words in them."""
    return [name for heading, crates in crates_by_heading().items() if any(word in heading for word in words)
            for name in crates]


def needed(crate=NAME):
    """The crates that this one stands on and the crate itself, each with those of them that it stands on."""
    listed = listed_crates()
    wanted = [crate]
    for name in wanted:
        wanted += [below for below in listed[name] if below in listed and below not in wanted]
    return {name: [below for below in listed[name] if below in wanted] for name in listed if name in wanted}


def sources(crate=NAME):
    """The files and folders that the crate is built from."""
    yield os.path.join(TOP, "crates.txt")
    for name in needed(crate):
        for part in ("src", "specs"):
            for folder, _, files in os.walk(os.path.join(TOP, "crates", name, part)):
                yield folder
                yield from (os.path.join(folder, file) for file in files)


def is_built():
    return os.access(BUILT, os.X_OK)


def is_newest(path, crate=NAME):
    """Whether that file is there, and nothing that the crate is built from is newer."""
    if not os.path.exists(path):
        return False
    built = os.stat(path).st_mtime_ns
    return all(os.stat(source).st_mtime_ns <= built for source in sources(crate))


def source_hash(crate=NAME):
    """The hash of the sources that the crate is built from: names and contents, not dates."""
    command = [os.path.join(TOP, "tools", "source-hash"), crate]
    return subprocess.run(command, stdout=subprocess.PIPE, check=True, text=True).stdout.strip()


def built_from(sources):
    """The text of the file that says that the program as it is was built from sources with that hash."""
    with open(BUILT, "rb") as file:
        done = subprocess.run(["cksum"], stdin=file, stdout=subprocess.PIPE, check=True, text=True)
    return f"{sources} {done.stdout}"


def note_built_from(sources):
    """Writes down that the program was built from sources with that hash."""
    with open(f"{BUILT_FROM}.new", "w", encoding="utf8") as file:
        file.write(built_from(sources))
    os.replace(f"{BUILT_FROM}.new", BUILT_FROM)


def is_current():
    """True if the program was built from the present sources."""
    if not is_built() or not os.path.exists(BUILT_FROM):
        return False
    with open(BUILT_FROM, encoding="utf8") as file:
        return file.read() == built_from(source_hash())


def launched(path):
    """The words that start the program at that path as ./curlpool does; words for it can follow."""
    return ["/bin/sh", "-c", '. "$0" && launch "$@"', os.path.join(TOP, LAUNCH), path]


def build_unless_current():
    """Builds the program if it is missing or was built from other sources."""
    if not is_current() and subprocess.run([os.path.join(TOP, "tools", "build-program")]).returncode != 0:
        sys.exit("tools/build-program did not build the program")


def built(crate, command, product, words=()):
    """A crate's file in out. rt makes it first if it is missing or older than its sources, and runs a program with
    these words."""
    path = os.path.join(TOP, "crates", crate, "out", product)
    if not is_newest(path, crate):
        if not has_rt():
            sys.exit(1)
        say(f"rt {command} builds {crate}, which proves it")
        began = time.time_ns()
        done = subprocess.run(["rt", command, "--", *words] if words else ["rt", command],
                              cwd=os.path.join(TOP, "crates", crate), stdin=subprocess.DEVNULL, stdout=sys.stderr)
        if done.returncode != 0 or not os.path.exists(path):
            sys.exit(f"curlpool: rt {command} did not build {crate}")
        # rt leaves a file as it is where that stays the same
        os.utime(path, ns=(began, began))
    return path


def given(name):
    """A file of the folder that BUILT names, or nothing if it names none."""
    folder = os.environ.get("BUILT")
    path = os.path.join(folder, name) if folder else None
    if path and not os.access(path, os.X_OK):
        sys.exit(f"the folder that BUILT names has no {name}")
    return path


@functools.cache
def built_tries():
    """The program tries, which is compiled first, without proofs, if it is missing or older than its sources
    (tools/kept_programs.py). TRIES names another one, or BUILT a folder that has it."""
    if os.environ.get("TRIES"):
        return os.environ["TRIES"]
    if os.environ.get("BUILT") and os.access(os.path.join(os.environ["BUILT"], TRIES), os.X_OK):
        return os.path.join(os.environ["BUILT"], TRIES)
    # these modules import this one
    from kept_programs import OPTIMISED, Kept
    from lowering import CannotCompile
    if not has_rt():
        sys.exit(1)
    try:
        return Kept(TRIES).made(OPTIMISED)
    except (CannotCompile, OSError) as fault:
        sys.exit(f"curlpool: cannot compile {TRIES}: {fault}")


@functools.cache
def proved_tries():
    """The same program for measurements, which is proved first if it is missing or older than its sources. TRIES names
    another one."""
    return os.environ.get("TRIES") or built(TRIES, "run", TRIES, SHORT_RUN)


@functools.cache
def kit():
    """The kit's folder, in which the first page of its guides stands."""
    page = subprocess.run(["rt", "doc"], capture_output=True, text=True, check=True).stdout.strip()
    return os.path.dirname(os.path.realpath(page))


@functools.cache
def built_measures():
    """The program measures, which is built first if it is missing or older than its sources; MEASURES names another one
    that is built already. The gate builds none, so BUILT has none."""
    return os.environ.get("MEASURES") or built(MEASURES, "run", MEASURES, FEWEST_ROUNDS)


def say(text):
    print(f"curlpool: {text}", file=sys.stderr, flush=True)


def has_rt():
    """Whether the kit's command is at hand; says so where it is not."""
    if shutil.which("rt"):
        return True
    say("the Rattle kit's command rt is not on the path; CONTRIBUTING.md names the kit")
    return False


class Stopped(BaseException):
    """A signal asks this process to end."""

    def __init__(self, number):
        super().__init__(number)
        self.status = 128 + number


ENDING = (signal.SIGINT, signal.SIGTERM, signal.SIGHUP)


def stop_by_exception(keeps_ignored=False):
    """From now on a signal that asks this process to end raises Stopped in the main thread. `keeps_ignored` leaves out
    those that it ignores, as a shell has a command in the background ignore Ctrl-C."""
    def stop(number, _):
        # once is enough: what is done then is not to be cut short
        for one in ENDING:
            signal.signal(one, signal.SIG_IGN)
        raise Stopped(number)

    for number in ENDING:
        if not keeps_ignored or signal.getsignal(number) != signal.SIG_IGN:
            signal.signal(number, stop)


def start_rt(words, **streams):
    """Starts rt with these words, in a separate process group, but without setsid: the system may share processors out
    by setsid first, and priorities count only within that."""
    return subprocess.Popen(["rt", *words], process_group=0, **streams)


def end_rt(started):
    """Ends rt and all that it started."""
    if started.poll() is None:
        os.killpg(started.pid, signal.SIGTERM)
        started.wait()


class Children:
    """The processes that threads of this one have started, of which stop ends all. Their priority is lower by
    `niceness`."""

    def __init__(self, niceness=0):
        self.lock, self.niceness = threading.Lock(), niceness
        self.running = set()
        self.is_stopped = False

    def start_command(self, words, folder, **streams):
        """Starts a command there, its output a pipe of text; nothing once all are stopped."""
        nice = ["nice", "-n", str(self.niceness)] if self.niceness else []
        with self.lock:
            if self.is_stopped:
                return None
            run = subprocess.Popen([*nice, *words], process_group=0, **{
                "cwd": folder, "text": True, "encoding": "utf8", "errors": "replace", "stdin": subprocess.DEVNULL,
                "stdout": subprocess.PIPE, "stderr": subprocess.STDOUT, **streams})
            self.running.add(run)
            return run

    def start(self, words, folder, **streams):
        """Starts rt there with these words, likewise."""
        return self.start_command(["rt", *words], folder, **streams)

    def run(self, words, folder):
        """Runs a command there: its status, the lines that it writes, and the processor seconds that it takes."""
        run = self.start_command(words, folder)
        if run is None:
            return -signal.SIGTERM, [], 0
        lines = run.stdout.read().splitlines()
        status, seconds = self.wait(run)
        return status, lines, seconds

    def wait(self, run):
        """Waits until it ends: its status, and the processor seconds that it and what it waited for took."""
        try:
            _, status, used = os.wait4(run.pid, 0)
            run.returncode = os.waitstatus_to_exitcode(status)
            seconds = used.ru_utime + used.ru_stime
        except ChildProcessError:
            # stop waited for it first
            run.wait()
            seconds = 0
        with self.lock:
            self.running.discard(run)
        return run.returncode, seconds

    def stop(self):
        with self.lock:
            self.is_stopped = True
            for run in self.running:
                end_rt(run)
