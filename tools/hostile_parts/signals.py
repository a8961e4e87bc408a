"""A signal in the middle of a run: it ends at once, by that signal, and what was written stays; but a load that Ctrl-C
ends has all its output.
"""
import contextlib
import json
import os
import signal
import subprocess
import time
from subprocess import PIPE

from program import launched
from real_servers import servers

from . import behaviours
from .parts import Part, check_same
from .peers import listening
from .programs import curlpool, end, started

SIGNALS = (signal.SIGINT, signal.SIGTERM, signal.SIGHUP)
SECONDS = 60
# a load takes some tenths of a second, so on a busy machine it may have ended before the signal comes
TRIES = 20
INTERRUPTED = 130


@contextlib.contextmanager
def running(words, **streams):
    run = started(words, stdout=PIPE, stderr=PIPE, **streams)
    try:
        yield run
    finally:
        end(run)


def end_by(run, number):
    """Ends it by the signal: its status, and the rest of what it wrote."""
    run.send_signal(number)
    output, errors = run.communicate(timeout=SECONDS)
    return run.returncode, output.decode(), errors.decode()


def get():
    """The line of each URL that was carried out stands already."""
    with listening(servers.lasts, behaviours.never_answers) as hosts:
        urls = [f"http://127.0.0.1:{server.port}/3" for server in hosts]
        for number in SIGNALS:
            with running([curlpool(), "get", *urls], stdin=subprocess.DEVNULL) as run:
                first = os.read(run.stdout.fileno(), 1_000).decode()
                check_same(first, f"200 3 new {urls[0]}\n", "the first line")
                check_same(end_by(run, number), (-number, "", ""), number.name)
    return "the lines before it stand"


def script():
    """A script is read whole before it runs, so nothing was written."""
    for number in SIGNALS:
        with running([curlpool(), "script"], stdin=PIPE) as run:
            run.stdin.write(b"limits 0 0 4\nsite http://a.test/\nget 1 0 0 at 0\n")
            run.stdin.flush()
            time.sleep(0.2)
            check_same(end_by(run, number), (-number, "", ""), number.name)
    return "nothing was written"


def has_threads(run):
    """Whether it has started threads."""
    with contextlib.suppress(OSError):
        return len(os.listdir(f"/proc/{run.pid}/task")) > 1
    return False


def end_load(number):
    """Ends a load by the signal, once its threads run: its status and what it wrote."""
    words = [curlpool(), "load", "--jobs", "10000", "--sites", "1", "--total", "1", "--workers", "64"]
    with running(words, stdin=subprocess.DEVNULL) as run:
        while run.poll() is None and not has_threads(run):
            time.sleep(0.001)
        return end_by(run, number)


def load():
    """A report is written at the end, so nothing was written."""
    for number in SIGNALS:
        ends = (end_load(number) for _ in range(TRIES))
        found = next((end for end in ends if end[0] != 0), "each load ended before the signal")
        check_same(found, (-number, "", ""), number.name)
    return "nothing was written"


def check_interrupted(run, interrupt):
    """Ends a load by Ctrl-C, once its threads run; checks that it wrote all."""
    time.sleep(1)
    interrupt()
    output, errors = run.communicate(timeout=SECONDS)
    check_same(run.returncode, INTERRUPTED, errors.decode())
    told = json.loads(output)
    check_same(told["good"] + told["failed"], told["requests"], "the requests")
    check_same(told["connections"]["opened"] - told["connections"]["closed"], told["connections"]["open"], "the account")


def load_by_launcher(words):
    """As ./curlpool starts it: a shell is the parent, and the whole group gets the signal."""
    with running([*launched(curlpool()), *words], stdin=subprocess.DEVNULL) as run:
        check_interrupted(run, lambda: os.killpg(run.pid, signal.SIGINT))


def load_with_pipe(words):
    """Without the launcher: CURLPOOL_INTERRUPT names a pipe, whose other end is then closed."""
    ours, theirs = os.pipe()
    try:
        with running([curlpool(), *words], stdin=subprocess.DEVNULL, pass_fds=(ours,),
                     env={**os.environ, "CURLPOOL_INTERRUPT": str(ours)}) as run:
            check_interrupted(run, lambda: os.close(theirs))
    finally:
        os.close(ours)


def interrupted_load():
    """Ctrl-C ends it with all its output."""
    words = ["load", "--seconds", "60", "--connections", "32", "--json", "--quiet"]
    load_with_pipe(words)
    load_by_launcher(words)
    return "its output is whole"


def interrupted_plain_load():
    """Ctrl-C ends a load of the six numbers with its report, and with nothing on standard error."""
    words, delay = [*launched(curlpool()), "load", "--jobs", "10000", "--sites", "8", "--total", "1"], 0.2
    for _ in range(TRIES):
        with running(words, stdin=subprocess.DEVNULL) as run:
            time.sleep(delay)
            os.killpg(run.pid, signal.SIGINT)
            output, errors = run.communicate(timeout=SECONDS)
        if run.returncode == INTERRUPTED:
            break
        # the signal came too late, or before the launcher was ready
        delay = delay / 2 if run.returncode == 0 else delay * 1.5
    check_same((run.returncode, errors), (INTERRUPTED, b""), "the status, and standard error")
    check_same([line.split()[0] for line in output.splitlines()], [b"host"] * 8 + [b"all", b"jobs"], "the report")
    return "its report is whole"


PARTS = [
    Part("signals: curlpool get", get),
    Part("signals: curlpool script", script),
    Part("signals: curlpool load", load),
    Part("signals: curlpool load with a time limit", interrupted_load),
    Part("signals: curlpool load, ended by Ctrl-C", interrupted_plain_load),
]
