"""What an audit takes: time and memory of long traces."""
import os
import re
import statistics
import subprocess
import tempfile
import time

from measuring.commands import PLAIN_CLEARS, show, stop
from program import BUILT, build_unless_current

RUNS = 5
# how long to wait before the memory of an audit is asked for again
PAUSE = 0.002
PEAK = re.compile(r"^VmHWM:\s+(\d+) kB$", re.MULTILINE)
# how many bytes of a trace are written at a time
PIECE = 1 << 20
HEAD = "limits 0 0 65535\n"


def sites(count):
    return "".join(f"site http://{number}.test/\n" for number in range(count))


def in_turn(connections, lines):
    """A trace at one host: each connection comes back, and is leased by the next transfer, in turn."""
    yield HEAD + sites(1)
    for transfer in range(connections):
        yield f"get {transfer} 0 0 at 0\nopened 0.{transfer} for {transfer} at 0\n"
    for turn in range((lines - 2 * connections - 2) // 4):
        transfer, connection = turn + connections, turn % connections
        yield (f"back {turn} 0 keep at {turn}\nreturned 0.{connection} by {turn} at {turn}\n"
               f"get {transfer} 0 0 at {turn}\nleased 0.{connection} to {transfer} at {turn}\n")


def opened_and_closed(hosts, lines):
    """A trace in which each transfer's connection is closed after its response, at hosts in turn."""
    yield HEAD + sites(hosts)
    for turn in range((lines - hosts - 1) // 5):
        host = turn % hosts
        yield (f"get {turn} {host} 0 at {turn}\nopened {host}.{turn} for {turn} at {turn}\n"
               f"back {turn} {host} close at {turn}\nreturned {host}.{turn} by {turn} at {turn}\n"
               f"closed {host}.{turn} not-persistent at {turn}\n")


def waiting(lines):
    """A trace of one connection, for which each transfer waits."""
    yield f"limits 1 0 4\n{sites(1)}get 0 0 0 at 0\nopened 0.1 for 0 at 0\n"
    for turn in range((lines - 4) // 5):
        yield (f"get {turn + 1} 0 0 at {turn}\nwaits {turn + 1} host 0 at {turn}\nback {turn} 0 keep at {turn}\n"
               f"returned 0.1 by {turn} at {turn}\nleased 0.1 to {turn + 1} at {turn}\n")


def never_answered(lines):
    """A trace of transfers that ask and are never answered."""
    yield HEAD + sites(1)
    for transfer in range(lines - 2):
        yield f"get {transfer} 0 0 at 0\n"


TRACES = (
    ("one connection comes back and is leased in turn", lambda: in_turn(1, 1_000_000)),
    ("the same, ten times as long", lambda: in_turn(1, 10_000_000)),
    ("1,000 connections, each in turn", lambda: in_turn(1_000, 10_000_000)),
    ("each connection is opened and closed, at eight hosts", lambda: opened_and_closed(8, 1_000_000)),
    ("each transfer waits", lambda: waiting(1_000_000)),
    ("each transfer asks, and is never answered", lambda: never_answered(1_000_000)),
)


def written(pieces, path):
    """Writes a trace there, and counts its lines."""
    lines, held, size = 0, [], 0
    with open(path, "w", encoding="ascii") as file:
        for piece in pieces:
            held.append(piece)
            size += len(piece)
            lines += piece.count("\n")
            if size > PIECE:
                file.write("".join(held))
                held, size = [], 0
        file.write("".join(held))
    return lines


def peak_of(pid):
    """The most bytes of memory that a process had so far; 0 once it has ended."""
    with open(f"/proc/{pid}/status", encoding="ascii") as file:
        found = PEAK.search(file.read())
    return int(found[1]) * 1024 if found else 0


def measured(path):
    """Seconds and most bytes of memory of an audit of that trace, which has to be lawful. What the system tells of a
    child's memory counts that of Python, which it began as, so it is asked while the audit runs."""
    began, peak = time.perf_counter(), 0
    with subprocess.Popen([BUILT, "audit", path], stdout=subprocess.PIPE, env={**os.environ, **PLAIN_CLEARS}) as child:
        while child.poll() is None:
            peak = max(peak, peak_of(child.pid))
            time.sleep(PAUSE)
        seconds, said = time.perf_counter() - began, child.stdout.read()
    if child.returncode != 0:
        stop(f"an audit ended with {child.returncode}: {said[-200:]!r}")
    return seconds, peak


def audits():
    build_unless_current()
    rows = []
    with tempfile.TemporaryDirectory() as room:
        path = os.path.join(room, "trace")
        for what, trace in TRACES:
            lines = written(trace(), path)
            runs = [measured(path) for _ in range(RUNS)]
            seconds = [one for one, _ in runs]
            rows.append((what, lines, f"{os.path.getsize(path) / 1e6:.0f}", f"{min(seconds):.2f}",
                         f"{statistics.median(seconds):.2f}", round(lines / statistics.median(seconds), -4),
                         f"{max(size for _, size in runs) / 1e6:.1f}"))
    show(("Trace", "lines", "MB", "seconds, best", "median", "lines a second", "memory, MB"),
         [tuple(int(it) if isinstance(it, float) else it for it in row) for row in rows])
