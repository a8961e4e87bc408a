"""Delays and failures of a run: a suspended program, a reader that blocks, Ctrl-C, an outage, files that cannot be written.

A response that arrived within the time limit counts, even if the program reads it later.
"""
import json
import os
import re
import signal
import subprocess
import tempfile
import time

from program import launched

from . import programs, servers
from .programs import running
from .servers import Server, nobody

SECONDS = 60
# a pipe holds 64 KiB, some 1,500 lines: with 64 requests in flight of 0.05 seconds each, it is full after two seconds
MANY = 4_000
BLOCKED = 5
INTERRUPTED = 130


def as_started():
    """The words that start the program as ./curlpool does, which watches for Ctrl-C."""
    return launched(programs.curlpool()) if "PROGRAM" in os.environ else [programs.curlpool()]


class Delay:
    """A case: its name, and a function that returns what is wrong, or nothing."""

    def __init__(self, name, complaint):
        self.name, self.complaint = name, complaint

    def needs_nginx(self):
        return False

    def run(self, _ports):
        """Returns how it ended, and a remark."""
        began = time.monotonic()
        # ./curlpool may have to compile the program first
        programs.load(["--help"])
        found = self.complaint()
        return ("failed", found) if found else ("passed", f"{time.monotonic() - began:.1f} seconds")


def blocked_reader():
    """A crawl whose output is not read for longer than the time limit."""
    with Server(servers.takes(0.05)) as server, tempfile.NamedTemporaryFile("w", encoding="utf8", suffix=".urls") as file:
        file.write("".join(f"http://127.0.0.1:{server.port}/{number}\n" for number in range(1, MANY + 1)))
        file.flush()
        words = ["get", "--parallel", "64", "--timeout", "2", "--file", file.name]
        with running([programs.curlpool(), *words]) as run:
            time.sleep(BLOCKED)
            output, errors = run.communicate(timeout=SECONDS)
    lines = output.splitlines()
    cancelled = sum(line.startswith("Cancelled") for line in lines)
    if run.returncode != 0 or len(lines) != MANY:
        return f"{len(lines)} lines, {cancelled} of them Cancelled; status {run.returncode}, {errors[-200:]!r}"
    return None


def stopped_load():
    """A load that is suspended for longer than its time limit."""
    with Server(servers.takes(0.1)) as server:
        words = ["load", "--url", f"http://127.0.0.1:{server.port}/7", "--seconds", "6", "--timeout", "1",
                 "--connections", "16", "--workers", "2", "--quiet"]
        with running([programs.curlpool(), *words]) as run:
            time.sleep(1)
            os.killpg(run.pid, signal.SIGSTOP)
            time.sleep(2)
            os.killpg(run.pid, signal.SIGCONT)
            output, errors = run.communicate(timeout=SECONDS)
    jobs = output.splitlines()[-1].split()
    if run.returncode != 0 or jobs[2] != "0":
        return f"{jobs}; status {run.returncode}, {errors[-200:]!r}"
    return None


def late_interrupt():
    """Ctrl-C after all workers but one have ended: seven requests are answered, and the last one never is."""
    with Server(servers.hangs_up_to(1)) as server:
        urls = [f"http://127.0.0.1:{server.port}/{number}" for number in (2, 3, 4, 5, 6, 7, 8, 1)]
        words = ["load", *(word for url in urls for word in ("--url", url)), "--jobs", "8", "--workers", "8",
                 "--connections", "8", "--timeout", "50"]
        with running([*as_started(), *words]) as run:
            time.sleep(1)
            began = time.monotonic()
            os.killpg(run.pid, signal.SIGINT)
            _, errors = run.communicate(timeout=SECONDS)
    took = time.monotonic() - began
    if run.returncode != INTERRUPTED or took > 5:
        return f"status {run.returncode} after {took:.1f} seconds, {errors[-200:]!r}"
    return None


def outage():
    """A server that stops answering: the summary has the requests in flight at the end, and those never begun."""
    answered = 50
    with Server(stops_after(answered)) as server:
        run = programs.load(["--url", f"http://127.0.0.1:{server.port}/7", "--seconds", "2", "--rate", "200",
                             "--connections", "4", "--workers", "1"])
    first = run.errors.splitlines()[0]
    found = re.fullmatch(r"requests .*, 0 failed, (\d+) missed, 4 stopped", first)
    # 400 were due, and 54 began; a busy machine may take longer
    if run.status != 0 or not found or int(found[1]) < 300:
        return f"`{first}`; status {run.status}"
    return None


def end_of_a_rate():
    """A load at a rate: the third request is due at the end, and does not begin."""
    with Server(servers.lasts) as server:
        run = programs.load(["--url", f"http://127.0.0.1:{server.port}/7", "--seconds", "2", "--rate", "1"])
    first = run.errors.splitlines()[0]
    if run.status != 0 or not re.fullmatch(r"requests .*, 2 in \S+ s, 0 failed", first):
        return f"`{first}`; status {run.status}"
    return None


def stops_after(count):
    """Answers `count` requests over all connections, and then none."""
    answered = []

    def behave(connection):
        for request in connection.requests():
            if len(answered) < count:
                answered.append(request)
                connection.send(servers.counted(request.number))
    return behave


def latencies(behaviour, words):
    """The latencies of a load of four requests in one thread, in microseconds; none if it failed."""
    with Server(behaviour) as server:
        run = programs.load(["--url", f"http://127.0.0.1:{server.port}/7", "--jobs", "4", "--workers", "1", "--json", "--quiet",
                             *words])
    return json.loads(run.output)["latency_us"] if run.status == 0 else None


def late_body(connection):
    """Sends each head at once, and its body 0.3 seconds later."""
    for request in connection.requests():
        whole = servers.counted(request.number)
        connection.send(whole[:-request.number])
        time.sleep(0.3)
        connection.send(whole[-request.number:])


def whole_latency():
    """A latency ends with the last byte of the body."""
    found = latencies(late_body, ["--connections", "4"])
    return None if found and found["p50"] >= 290_000 else f"{found}"


def waiting_latency():
    """A latency begins with the request, and not with its connection: the fourth waits for three others."""
    found = latencies(servers.takes(0.2), ["--connections", "4", "--total", "1"])
    return None if found and found["max"] >= 780_000 and found["p50"] >= 380_000 else f"{found}"


def nobody_listens():
    """A load without one good response fails."""
    with nobody() as port:
        run = programs.load(["--url", f"http://127.0.0.1:{port}/", "--jobs", "3", "--quiet"])
        strict = programs.load(["--url", f"http://127.0.0.1:{port}/", "--jobs", "3", "--quiet", "--fail-above", "50"])
    if (run.status, run.errors, strict.status) != (4, "run: no good response\n", 5):
        return f"status {run.status}, {run.errors!r}; with --fail-above {strict.status}"
    return None


def unwritten_picture():
    """A load prints its report even if its picture cannot be written, and creates no file for an unknown host."""
    with Server(servers.lasts) as server:
        url = f"http://127.0.0.1:{server.port}/7"
        run = programs.load(["--url", url, "--jobs", "3", "--workers", "1", "--quiet", "--picture", "/dev/full"])
    said = "run: cannot write /dev/full: No space left on device\n"
    if (run.status, run.errors) != (4, said) or not run.output.endswith("jobs       3       0       2       0      21\n"):
        return f"status {run.status}, {run.output[-60:]!r}, {run.errors!r}"
    with tempfile.TemporaryDirectory() as folder:
        picture = os.path.join(folder, "load.svg")
        run = programs.load(["--url", "http://no-such-host.invalid/", "--jobs", "3", "--picture", picture])
        if run.status != 4 or os.path.exists(picture):
            return f"status {run.status}, and a picture of an unknown host" if os.path.exists(picture) else f"{run}"
    return None


def foreign_descriptor():
    """A closed pipe at descriptor 3 that is not the launcher's does not end a load."""
    ours, theirs = os.pipe()
    os.close(theirs)
    try:
        with running([programs.curlpool(), "load", "--seconds", "2", "--quiet"], pass_fds=(3,),
                     preexec_fn=lambda: os.dup2(ours, 3)) as run:
            _, errors = run.communicate(timeout=SECONDS)
    finally:
        os.close(ours)
    return f"status {run.returncode}, {errors[-200:]!r}" if run.returncode else None


def all_delays():
    yield Delay("get --parallel: its output is not read for longer than the time limit", blocked_reader)
    yield Delay("load: suspended for longer than the time limit", stopped_load)
    yield Delay("load: latencies of late bodies", whole_latency)
    yield Delay("load: latencies of requests that wait for a connection", waiting_latency)
    yield Delay("load: Ctrl-C while only the last request is in flight", late_interrupt)
    yield Delay("load: the server stops answering", outage)
    yield Delay("load: a request is due at the end", end_of_a_rate)
    yield Delay("load: nobody listens", nobody_listens)
    yield Delay("load: a picture that cannot be written", unwritten_picture)
    yield Delay("load: a pipe at descriptor 3", foreign_descriptor)
