"""The tables of tools/measure of many requests at once: beside wrk, at one nginx; and what the system is asked for."""
import contextlib
import os
import re
import statistics
import subprocess
import tempfile
import time
from subprocess import DEVNULL
from typing import NamedTuple

from program import proved_tries
from real_servers.nginx import found, free_ports

from .clients import seconds_of_children
from .commands import need, preloadable, run, show, stop

WORKERS = 4
CONNECTIONS = (64, 256)
ROUNDS = 11
# of a run of ours, and the seconds of one of wrk's
FEWER, MORE, SECONDS = 10_000, 210_000, 3
FEWER_COUNTED, MORE_COUNTED = 10_000, 50_000
TOTALS = (0, 3, 1)
# ten seconds and more of few connections
SCARCE, SCARCE_REQUESTS = (3, 1), 200_000
TOLD = re.compile(r"good (\d+) failed 0 ")
LATE = re.compile(r" late (\d+)$", re.MULTILINE)
OF_WRK = re.compile(r"Requests/sec:\s+([\d.]+)")
# reads of the clock ask nothing of the system
CLOCK = "clock_gettime"
CONFIGURATION = """
daemon off; pid pid; error_log stderr; worker_processes auto;
events { worker_connections 4096; }
http {
    access_log off; keepalive_requests 1000000000;
    client_body_temp_path kept; proxy_temp_path kept; fastcgi_temp_path kept; uwsgi_temp_path kept; scgi_temp_path kept;
    server { listen 127.0.0.1:PORT; location / { return 200 "ok"; } LOCATIONS }
}
"""


class Speed(NamedTuple):
    """Requests a second, and seconds of processors for each."""

    requests: float
    processors: float


@contextlib.contextmanager
def nginx_by(locations):
    """Runs nginx, which answers two bytes to each request, except at these locations; its port."""
    program = found()
    if program is None:
        stop("nginx is not there")
    [port] = free_ports(1)
    with tempfile.TemporaryDirectory() as room:
        path = os.path.join(room, "configuration")
        with open(path, "w", encoding="utf8") as file:
            file.write(CONFIGURATION.replace("PORT", str(port)).replace("LOCATIONS", locations))
        with subprocess.Popen([program, "-p", room, "-c", path], stdout=DEVNULL, stderr=DEVNULL) as server:
            try:
                time.sleep(1)
                yield port
            finally:
                server.terminate()


def words_by(workers, places, total, count, port):
    return ["many", str(workers), str(places), str(total), str(count), str(port)]


def words_of(program, places, total, count, port):
    return [program, *words_by(WORKERS, places, total, count, port)]


def seconds_of(words, count):
    """By the clock, and of processors; ends all if not every request was good."""
    before, began = seconds_of_children(), time.monotonic()
    said = run(words)
    seconds = time.monotonic() - began, seconds_of_children() - before
    told = TOLD.match(said)
    if not told or int(told[1]) != count:
        stop(f"{' '.join(words)} said {said}")
    return seconds


def our_speed(program, places, total, port):
    fewer, more = (seconds_of(words_of(program, places, total, count, port), count) for count in (FEWER, MORE))
    clock, processors = (long - short for long, short in zip(more, fewer, strict=True))
    return Speed((MORE - FEWER) / clock, processors / (MORE - FEWER))


def speed_of_wrk(connections, port):
    before = seconds_of_children()
    said = run(["wrk", f"-t{WORKERS}", f"-c{connections}", f"-d{SECONDS}s", f"http://127.0.0.1:{port}/"])
    speed = float(OF_WRK.search(said)[1])
    return Speed(speed, (seconds_of_children() - before) / (speed * SECONDS))


def show_beside_wrk(program, port):
    rows = []
    for connections in CONNECTIONS:
        pairs = [(our_speed(program, connections, 0, port), speed_of_wrk(connections, port)) for _ in range(ROUNDS)]
        ours, theirs = zip(*pairs, strict=True)
        rows.append((connections, *(round(statistics.median(one.requests for one in of)) for of in (ours, theirs)),
                     f"{statistics.median(one.requests / other.requests for one, other in pairs):.2f}",
                     *(f"{statistics.median(1e6 * one.processors for one in of):.1f}" for of in (ours, theirs))))
    show(("connections", "requests a second", "wrk's", "of wrk's", "processor microseconds a request", "wrk's"), rows)
    print(f"Medians of {ROUNDS} rounds in turn, {WORKERS} threads each; a ratio is within a round.\n")


def calls_of(words, counter):
    """How often the program called each function that the preloaded library counts."""
    with tempfile.NamedTemporaryFile("r", encoding="utf8") as file:
        run(words, env={**os.environ, "LD_PRELOAD": counter, "CALLS": file.name})
        return {name: int(count) for name, count in map(str.split, file)}


def show_calls_of_many(program, port):
    rows = []
    with tempfile.TemporaryDirectory() as room:
        counter = preloadable("measuring/count_calls.c", room)
        for total in TOTALS:
            fewer, more = (calls_of(words_of(program, CONNECTIONS[0], total, count, port), counter)
                           for count in (FEWER_COUNTED, MORE_COUNTED))
            calls = {name: (count - fewer[name]) / (MORE_COUNTED - FEWER_COUNTED) for name, count in more.items()}
            clock = calls.pop(CLOCK)
            told = ", ".join(f"`{name}` {count:.2f}" for name, count in sorted(calls.items()) if count >= 0.005)
            rows.append((total or "none", f"{sum(calls.values()):.2f}", told, f"{clock:.2f}"))
    show(("most connections", "system calls a request", "of these", "clock reads"), rows)
    print(f"{WORKERS} threads with {CONNECTIONS[0]} places together.\n")


def show_late_grants(program, port):
    """Few connections among many places: each grant is one for a transfer that waits."""
    rows = []
    for total in SCARCE:
        words = words_of(program, CONNECTIONS[1], total, SCARCE_REQUESTS, port)
        began = time.monotonic()
        said = LATE.search(run(words))
        rows.append((total, SCARCE_REQUESTS, f"{time.monotonic() - began:.1f}", int(said[1])))
    show(("most connections", "requests", "seconds", "grants that no ring told of"), rows)
    print(f"{WORKERS} threads with {CONNECTIONS[1]} places together.\n")


def many():
    need("wrk")
    program = proved_tries()
    with nginx_by("") as port:
        show_beside_wrk(program, port)
        show_calls_of_many(program, port)
        show_late_grants(program, port)
