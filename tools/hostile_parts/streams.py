"""Standard input, output and error that are closed, full, or a pipe whose reader has left."""
import contextlib
import os
import re
import tempfile
import threading
import time

from real_servers import servers
from real_servers.servers import nobody

from .parts import Part, check, check_same
from .peers import listening
from .programs import curlpool, run

SCRIPT = "limits 0 0 4\nsite http://a.test/\nget 1 0 0 at 0\n"
TRANSCRIPT = "opened 0.1 for 1 at 0\n"
# a trace that breaks a rule; a script that asks for connections is a lawful one
TRACE = f"{SCRIPT}closed 0.1 at 0\n"
# the words of a load with figures
MEASURED = ("load", "--sites", "1", "--jobs", "30", "--connections", "3")
SIGN = {0: "<", 1: ">", 2: ">"}
IS_FOLDER, NO_FILE = "Is a directory", "No such file or directory"
# files that cannot be written, and the system's reason
UNWRITABLE = {"/": IS_FOLDER, "/missing/file": NO_FILE, "/dev/full": "No space left on device"}


def closing(closed, words):
    """The command, started with these of its standard streams closed."""
    return ["sh", "-c", f'exec "$@" {" ".join(f"{one}{SIGN[one]}&-" for one in closed)}', "sh", *words]


@contextlib.contextmanager
def left_pipe():
    """A pipe whose reader has left."""
    reader, writer = os.pipe()
    os.close(reader)
    try:
        yield writer
    finally:
        os.close(writer)


@contextlib.contextmanager
def full():
    with open("/dev/full", "wb") as file:
        yield file


def outputs(words, text=""):
    """Runs the command with each output that takes nothing: a name, and the run."""
    yield "closed", run(closing([1], words), text=text)
    for name, opened in (("full", full), ("left", left_pipe)):
        with opened() as output:
            yield name, run(words, text=text, stdout=output)


class Overheard:
    """A behaviour that answers each request, and keeps what came beside them."""

    REQUEST = re.compile(rb"GET /(\d+) HTTP/1\.1\r\nHost: [\d.:]+\r\n\r\n")

    def __init__(self):
        self.other, self.lock = b"", threading.Lock()

    def __call__(self, connection):
        came = b""
        while piece := connection.stream.recv(65536):
            came += piece
            while found := self.REQUEST.search(came):
                self.keep(came[:found.start()])
                came = came[found.end():]
                connection.send(servers.counted(int(found[1])))
        self.keep(came)

    def keep(self, other):
        with self.lock:
            self.other += other


def script_output():
    for name, done in outputs([curlpool(), "script"], SCRIPT):
        check_same((done.status, done.errors), (3, "line 3: cannot write\n"), name)
    return "status 3, `cannot write`"


def script_input():
    done = run(closing([0], [curlpool(), "script"]))
    check_same(done, (3, "", "line 0: cannot read\n"), "closed")
    folder = os.open("/", os.O_RDONLY)
    try:
        check_same(run([curlpool(), "script"], stdin=folder), (3, "", "line 0: cannot read\n"), "a folder")
    finally:
        os.close(folder)
    return "status 3, `cannot read`"


def script_errors():
    """Where standard error takes nothing, output and status are as ever."""
    for text, wanted in ((SCRIPT, (0, TRANSCRIPT)), (f"{SCRIPT}get x\n", (3, TRANSCRIPT))):
        done = run(closing([2], [curlpool(), "script"]), text=text)
        check_same((done.status, done.output), wanted, "closed")
        for name, opened in (("full", full), ("left", left_pipe)):
            with opened() as errors:
                done = run([curlpool(), "script"], text=text, stderr=errors)
            check_same((done.status, done.output), wanted, name)
    return "output and status stay"


def script_picture():
    """A file that can't be created ends the program before the script; one that is full, after it."""
    for file, reason in UNWRITABLE.items():
        done = run([curlpool(), "script", "--picture", file], text=SCRIPT)
        output = TRANSCRIPT if file == "/dev/full" else ""
        check_same(done, (4, output, f"run: cannot write {file}: {reason}\n"), file)
    return "status 4, `cannot write` with name and reason"


def get_output():
    """The lines go to no connection in its place."""
    heard = Overheard()
    with listening(heard, heard) as hosts:
        urls = [f"http://127.0.0.1:{server.port}/{number}" for number in (1, 2) for server in hosts]
        for name, done in outputs([curlpool(), "get", *urls]):
            check_same((done.status, done.errors), (4, "run: cannot write\n"), name)
        for closed in ([0, 1], [1, 2], [0, 1, 2]):
            done = run(closing(closed, [curlpool(), "get", *urls]))
            check_same((done.status, done.output), (4, ""), f"closed {closed}")
        # what was sent last is read by now
        time.sleep(0.2)
        check_same(heard.other, b"", "bytes beside requests")
    return "status 4, `cannot write`"


def get_others():
    """Where standard input or error is closed, lines and status are as ever, and no connection gets what is told."""
    heard = Overheard()
    with listening(heard) as (server,), nobody() as port:
        urls = [f"http://127.0.0.1:{server.port}/5", f"http://127.0.0.1:{port}/6", f"http://127.0.0.1:{server.port}/7"]
        wanted = f"200 5 new {urls[0]}\nDial {urls[1]}\n200 7 reused {urls[2]}\n"
        for closed in ([0], [2], [0, 2]):
            done = run(closing(closed, [curlpool(), "get", *urls]))
            check_same((done.status, done.output), (4, wanted), f"closed {closed}")
        time.sleep(0.2)
        check_same(heard.other, b"", "bytes beside requests")
    return "lines and status stay"


@contextlib.contextmanager
def crawl(file=None):
    """The words of a crawl of five URLs, which are in a file if none is given, and the lines that it writes."""
    heard = Overheard()
    with listening(heard) as (server,), tempfile.TemporaryDirectory() as room:
        urls = [f"http://127.0.0.1:{server.port}/{number}" for number in range(5)]
        name = os.path.join(room, "urls")
        with open(name, "w", encoding="utf-8") as written:
            written.writelines(f"{url}\n" for url in urls)
        yield [curlpool(), "get", "--file", file or name], "".join(
            f"200 {number} {'reused' if number else 'new'} {url}\n" for number, url in enumerate(urls))
        # what was sent last is read by now
        time.sleep(0.2)
        check_same(heard.other, b"", "bytes beside requests")


def crawl_output():
    with crawl() as (words, _):
        for options in ([], ["--parallel", "3"], ["--json"]):
            for name, done in outputs([*words, *options]):
                check_same((done.status, done.errors), (4, "run: cannot write\n"), f"{name} {options}")
    return "status 4, `cannot write`"


def crawl_input():
    """A file that can't be read is named with the reason; URLs among the words have their lines before."""
    for file, reason in (("/", IS_FOLDER), ("/missing/urls", NO_FILE)):
        check_same(run([curlpool(), "get", "--file", file]), (4, "", f"run: cannot read {file}: {reason}\n"), file)
    unread = "run: cannot read standard input\n"
    with crawl("-") as (words, lines):
        check_same(run(closing([0], words)), (4, "", unread), "closed")
        folder = os.open("/", os.O_RDONLY)
        try:
            first = lines.splitlines(keepends=True)[0]
            done = run([*words, first.split()[-1]], stdin=folder)
            check_same(done, (4, first, unread), "a folder")
        finally:
            os.close(folder)
        text = "".join(f"{line.split()[-1]}\n" for line in lines.splitlines())
        check_same(run(words, text=text), (0, lines, ""), "a pipe")
    return "status 4, `cannot read` with name and reason"


def crawl_others():
    with crawl() as (words, lines):
        for closed in ([0], [2], [0, 2]):
            done = run(closing(closed, words))
            check_same((done.status, done.output), (0, lines), f"closed {closed}")
    return "lines and status stay"


def load_output():
    for name, done in outputs([curlpool(), "load", "--sites", "1", "--jobs", "3", "--workers", "1"]):
        check_same((done.status, done.errors), (4, "run: cannot write\n"), name)
    return "status 4, `cannot write`"


def load_trace():
    """A file that can't be created ends the program before the load; one that is full, after the report."""
    words = [curlpool(), "load", "--sites", "1", "--jobs", "3", "--workers", "1"]
    report = run(words).output
    for name, reason in UNWRITABLE.items():
        output = report if name == "/dev/full" else ""
        check_same(run([*words, "--trace", name]), (4, output, f"run: cannot write {name}: {reason}\n"), name)
    return "status 4, `cannot write` with name and reason"


def load_others():
    words = [curlpool(), "load", "--sites", "1", "--jobs", "3", "--workers", "1"]
    ample = run(words)
    check(ample.status == 0 and ample.output, ample.told())
    for closed in ([0], [2], [0, 2]):
        done = run(closing(closed, words))
        check_same((done.status, done.output), (0, ample.output), f"closed {closed}")
    return "report and status stay"


def measured_output():
    """A load with figures: its report, object or picture can't be written."""
    for options in ([], ["--json"]):
        for name, done in outputs([curlpool(), *MEASURED, "--quiet", *options]):
            check_same((done.status, done.errors), (4, "run: cannot write\n"), f"{name} {options}")
    for file, reason in UNWRITABLE.items():
        done = run([curlpool(), *MEASURED, "--quiet", "--picture", file])
        check_same((done.status, done.errors), (4, f"run: cannot write {file}: {reason}\n"), file)
    return "status 4, `cannot write`"


def measured_others():
    """Where standard error takes no summary, report and status are as ever."""
    wanted = 0, ["host", "all", "jobs"]
    for closed in ([0], [2], [0, 2]):
        done = run(closing(closed, [curlpool(), *MEASURED]))
        check_same((done.status, [line.split()[0] for line in done.output.splitlines()]), wanted, f"closed {closed}")
    for name, opened in (("full", full), ("left", left_pipe)):
        with opened() as errors:
            done = run([curlpool(), *MEASURED], stderr=errors)
        check_same((done.status, [line.split()[0] for line in done.output.splitlines()]), wanted, name)
    return "report and status stay"


def audit_output():
    for options in ([], ["--all"], ["--json"]):
        for text in (TRACE, SCRIPT):
            for name, done in outputs([curlpool(), "audit", *options], text):
                check_same((done.status, done.errors), (4, "run: cannot write\n"), name)
    return "status 4, `cannot write`"


def audit_input():
    done = run(closing([0], [curlpool(), "audit"]))
    check_same(done, (3, "", "line 0: cannot read\n"), "closed")
    folder = os.open("/", os.O_RDONLY)
    try:
        check_same(run([curlpool(), "audit", "--json"], stdin=folder), (3, "", "line 0: cannot read\n"), "a folder")
    finally:
        os.close(folder)
    check_same(run([curlpool(), "audit", "/"]), (3, "", "line 0: cannot read\n"), "a folder by name")
    return "status 3, `cannot read`"


PARTS = [
    Part("streams: script, no output", script_output),
    Part("streams: script, no input", script_input),
    Part("streams: script, no errors", script_errors),
    Part("streams: script, no file of a picture", script_picture),
    Part("streams: curlpool get, no output", get_output),
    Part("streams: curlpool get, no input or errors", get_others),
    Part("streams: curlpool get --file, no output", crawl_output),
    Part("streams: curlpool get --file, no input", crawl_input),
    Part("streams: curlpool get --file, no input or errors", crawl_others),
    Part("streams: curlpool load, no output", load_output),
    Part("streams: curlpool load, no file of a trace", load_trace),
    Part("streams: curlpool load, no input or errors", load_others),
    Part("streams: curlpool load --connections, no output or picture", measured_output),
    Part("streams: curlpool load --connections, no input or errors", measured_others),
    Part("streams: curlpool audit, no output", audit_output),
    Part("streams: curlpool audit, no input", audit_input),
]
