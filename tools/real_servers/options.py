"""Options of curlpool get and load from the server's side: its connections, its requests, and when they arrive.

The machine may be busy, so bounds of time are one-sided, or several times the step.
"""
import json
import os
import subprocess
import tempfile
import threading
import time

from . import programs, servers
from .delays import Delay
from .servers import Server

SECONDS = 60
# how long requests of a group wait for the others, in seconds
PATIENCE = 20
NAME = "somewhere.invalid"
# a cache has 1,024 places
HOSTS = 1_100


class Recording:
    """A behaviour that records the requests of all its servers: their moments and methods, and the most in progress at
    once. It answers in groups of `group`, each once all of it have arrived, with that status."""

    def __init__(self, group=1, seconds=0.0, status="200 OK"):
        self.gathered, self.seconds, self.status = threading.Barrier(group), seconds, status
        self.counting, self.moments, self.methods, self.in_progress, self.most = threading.Lock(), [], set(), 0, 0

    def __call__(self, connection):
        for request in connection.requests():
            with self.counting:
                self.moments.append(time.monotonic())
                self.methods.add("HEAD" if request.is_head else "GET")
                self.in_progress += 1
                self.most = max(self.most, self.in_progress)
            try:
                self.gathered.wait(PATIENCE)
            except threading.BrokenBarrierError:
                return
            time.sleep(self.seconds)
            # before the response, after which the next request may arrive
            with self.counting:
                self.in_progress -= 1
            head = servers.head_of(f"Content-Length: {request.number}", status=self.status)
            connection.send(head if request.is_head else head + servers.body_of(request.number))


def url_of(server, number, host="127.0.0.1"):
    return f"http://{host}:{server.port}/{number}"


def get_all(options, urls):
    return programs.get([*options, *urls])


def load_all(options, urls):
    """Runs a load with one request to each URL."""
    return programs.load([*(word for url in urls for word in ("--url", url)), "--jobs", str(len(urls)), "--quiet", *options])


def limited(run_all, options, together, each):
    """Makes eight requests to two hosts. Returns an error unless `together` are in flight at once, and no host has more
    than `each` connections."""
    behaviour = Recording(group=together)
    with Server(behaviour) as one, Server(behaviour) as other:
        run = run_all(options, [url_of(server, number) for number in range(1, 5) for server in (one, other)])
        most = max(one.most, other.most)
    if run.status != 0:
        return f"fewer than {together} requests at once: status {run.status}, {run.errors[-200:]!r}"
    if behaviour.most != together or most > each:
        return f"{behaviour.most} requests at once in place of {together}, {most} connections of a host"
    return None


def accepted(run_all, options, count, behaviour=servers.lasts, urls=3):
    """Returns an error unless the requests open `count` connections."""
    with Server(behaviour) as server:
        run = run_all(options, [url_of(server, number) for number in range(1, urls + 1)])
        if run.status != 0 or server.accepted != count:
            return f"{server.accepted} connections in place of {count}; status {run.status}, {run.errors[-200:]!r}"
    return None


def idle_for_long(max_age, count):
    """Gives a second URL 2.5 seconds after the first. Returns an error unless they open `count` connections."""
    with Server(servers.lasts) as server:
        words = [programs.curlpool(), "get", "--file", "-", "--max-age", max_age]
        with programs.running(words, stdin=subprocess.PIPE) as run:
            run.stdin.write(url_of(server, 1) + "\n")
            run.stdin.flush()
            time.sleep(2.5)
            output, errors = run.communicate(url_of(server, 2) + "\n", timeout=SECONDS)
        if run.returncode != 0 or server.accepted != count:
            return f"{server.accepted} connections in place of {count}; status {run.returncode}, {output!r}, {errors!r}"
    return None


def idle():
    return idle_for_long("1", 2) or idle_for_long("60", 1)


def heads(run_all):
    behaviour = Recording()
    with Server(behaviour) as server:
        run = run_all(["--head"], [url_of(server, 7)])
    return None if run.status == 0 and behaviour.methods == {"HEAD"} else f"{run}, {behaviour.methods}"


def resolved(run_all):
    """A name that only the option knows."""
    with Server(servers.lasts) as server:
        run = run_all(["--resolve", f"{NAME}:{server.port}:127.0.0.1"], [url_of(server, 7, NAME)])
        return None if run.status == 0 and server.accepted == 1 else f"{run}, {server.accepted} connections"


def late(run_all):
    """A request without an answer ends at its time limit, and not before."""
    began = time.monotonic()
    with Server(servers.hangs_up_to(1)) as server:
        run = run_all(["--timeout", "2"], [url_of(server, 1)])
    took = time.monotonic() - began
    return None if run.status == 4 and 2 <= took < 20 else f"{took:.1f} seconds; {run}"


def failing(run_all):
    """A status of 404 is a good response, unless `--fail` is given."""
    with Server(Recording(status="404 Not Found")) as server:
        statuses = [run_all(options, [url_of(server, 7)]).status for options in ([], ["--fail"])]
    return None if statuses == [0, 4] else f"statuses {statuses}"


def paced():
    """Forty requests at twenty a second take about two seconds, and do not arrive a second's at a time."""
    behaviour = Recording()
    with Server(behaviour) as server:
        run = programs.load(["--url", url_of(server, 7), "--jobs", "40", "--rate", "20", "--quiet"])
    moments = behaviour.moments
    in_share = max(sum(moment <= later < moment + 0.05 for later in moments) for moment in moments)
    if run.status != 0 or len(moments) != 40 or moments[-1] - moments[0] < 1.5 or in_share >= 20:
        return f"{len(moments)} requests in {moments[-1] - moments[0]:.2f} s, {in_share} in a share of 50 ms; {run.errors!r}"
    return None


def warmed_up():
    """The requests of a warm-up, two thirds of all, are in no figure."""
    behaviour = Recording()
    with Server(behaviour) as server:
        run = programs.load(["--url", url_of(server, 7), "--warmup", "2", "--seconds", "1", "--rate", "50", "--json",
                             "--quiet"])
    counted = json.loads(run.output or "{}").get("requests", 0)
    if run.status != 0 or not 0 < 2 * counted < len(behaviour.moments):
        return f"{counted} requests of {len(behaviour.moments)}; status {run.status}, {run.errors!r}"
    return None


def for_seconds():
    began = time.monotonic()
    with Server(servers.takes(0.01)) as server:
        run = programs.load(["--url", url_of(server, 7), "--seconds", "2", "--quiet"])
    took = time.monotonic() - began
    return None if run.status == 0 and 2 <= took < 20 else f"{took:.1f} seconds; {run}"



def lines_of(trace, word):
    """The number of lines of a trace that begin with that word."""
    return sum(line.startswith(word + " ") for line in trace.splitlines())


def traced():
    """A trace is written while the load runs. It is lawful, and has each event of the report."""
    with Server(servers.lasts) as one, Server(servers.lasts) as other, tempfile.TemporaryDirectory() as folder:
        name = os.path.join(folder, "load.trace")
        urls = [word for server in (one, other) for word in ("--url", url_of(server, 1))]
        words = [programs.curlpool(), "load", *urls, "--seconds", "3", "--rate", "200", "--quiet", "--trace", name]
        with programs.running(words) as run:
            time.sleep(2)
            early = os.path.getsize(name)
            output, errors = run.communicate(timeout=SECONDS)
        with open(name, encoding="utf8") as file:
            trace = file.read()
        audit = programs.run([programs.curlpool(), "audit", name])
    if run.returncode != 0 or not 1_000 < early < len(trace):
        return f"{early} bytes after two seconds, {len(trace)} in all; status {run.returncode}, {errors!r}"
    said = [int(number) for number in output.splitlines()[2].split()[2:5]]
    counted = [lines_of(trace, word) for word in ("opened", "leased", "closed")]
    if said != counted or not audit.output.startswith("lawful: "):
        return f"the report has {said}, the trace {counted}; {audit}"
    return None


def many_hosts():
    """More hosts than a cache has places: each has its URL."""
    names = [f"n{number}.invalid" for number in range(1, HOSTS + 1)]
    with Server(servers.lasts) as server, tempfile.NamedTemporaryFile("w", encoding="utf8", suffix=".urls") as file:
        file.writelines(f"{url_of(server, number, name)}\n" for number, name in enumerate(names, 1))
        file.flush()
        addresses = [word for name in names for word in ("--resolve", f"{name}:{server.port}:127.0.0.1")]
        run = programs.get(["--parallel", "4", "--file", file.name, *addresses])
        lines = {f"200 {number} new {url_of(server, number, name)}" for number, name in enumerate(names, 1)}
    if run.status != 0 or set(run.output.splitlines()) != lines:
        return f"{len(run.output.splitlines())} lines; status {run.status}, {run.errors[-200:]!r}"
    return None


def in_a_file():
    """The URLs of a file come after the URLs of the command line, each once."""
    behaviour = Recording()
    with Server(behaviour) as server, tempfile.TemporaryDirectory() as folder:
        name = os.path.join(folder, "urls")
        with open(name, "w", encoding="utf8") as file:
            file.write(f"# comment\n\n{url_of(server, 2)}\r\n{url_of(server, 3)}")
        run = programs.get(["--file", name, url_of(server, 1)])
        wanted = [f"200 {number} {'new' if number == 1 else 'reused'} {url_of(server, number)}" for number in (1, 2, 3)]
    if run.status != 0 or run.output.splitlines() != wanted or len(behaviour.moments) != 3:
        return f"{len(behaviour.moments)} requests; {run}"
    return None


def all_options():
    for name, run_all, at_once in (("get", get_all, "--parallel"), ("load", load_all, "--connections")):
        cases = {
            at_once: lambda of=run_all, at=at_once: limited(of, [at, "4"], 4, 4),
            "--host-limit": lambda of=run_all, at=at_once: limited(of, [at, "8", "--host-limit", "2"], 4, 2),
            "--total": lambda of=run_all, at=at_once: limited(of, [at, "8", "--total", "2"], 2, 2),
            "--head": lambda of=run_all: heads(of),
            "--resolve": lambda of=run_all: resolved(of),
            "--timeout": lambda of=run_all: late(of),
            "--fail": lambda of=run_all: failing(of),
        }
        yield from (Delay(f"{name} {option}, at the server", complaint) for option, complaint in cases.items())
    yield Delay("get --fresh, at the server", lambda: accepted(get_all, ["--fresh"], 3))
    yield Delay("get --max-life, at the server", lambda: accepted(get_all, ["--max-life", "1"], 2, servers.takes(2.2), 2)
                or accepted(get_all, ["--max-life", "60"], 1))
    yield Delay("get --max-age, at the server", idle)
    yield Delay("get --file, at the server", in_a_file)
    yield Delay("get --resolve, of more hosts than places, at the server", many_hosts)
    yield Delay("load --forbid-reuse, at the server", lambda: accepted(load_all, ["--forbid-reuse"], 3))
    yield Delay("load --rate, at the server", paced)
    yield Delay("load --warmup, at the server", warmed_up)
    yield Delay("load --seconds, at the server", for_seconds)
    yield Delay("load --trace, of URLs", traced)
