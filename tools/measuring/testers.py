"""What load testers and crawlers ask of curlpool, at one nginx: latencies beside wrk's, a rate, memory, and many URLs."""
import json
import os
import re
import signal
import statistics
import subprocess
import tempfile
import threading
import time
from subprocess import DEVNULL, PIPE

from .clients import curlpool, seconds_of_children
from .commands import need, run, show
from .many import WORKERS, nginx_by

CONNECTIONS = (4, 64, 256, 1_024)
# after a warm-up second, since wrk counts no request from before its connection is open
ROUNDS, SECONDS, WARMUP = 11, 2, 1
# how often wrk is asked for a report with both percentiles
RUNS_OF_WRK = 3
RATE, RATED_SECONDS = 1_000, 10
# a server that stops for so long in each five seconds
STOPPED, RUNNING = 0.5, 4.5
# when memory is looked at, in seconds after the start
FIRST, LAST = 60, 100
URLS, AT_ONCE = 10_000, 64
UNITS = {"us": 1, "ms": 1_000, "s": 1_000_000}
OF_WRK = re.compile(r"^\s+(50|99)%\s+([\d.]+)(us|ms|s)$", re.MULTILINE)


def words_of_load(port, *more):
    return [curlpool(), "load", "--url", f"http://127.0.0.1:{port}/", "--workers", str(WORKERS), "--quiet", "--json", *more]


def our_latencies(connections, port):
    """Microseconds that 50 and 99 percent of the requests do not pass."""
    words = words_of_load(port, "--connections", str(connections), "--seconds", str(SECONDS), "--warmup", str(WARMUP))
    told = json.loads(run(words))
    return told["latency_us"]["p50"], told["latency_us"]["p99"]


def latencies_of_wrk(connections, port):
    """The same of wrk, which now and then prints a report without a percentile: then it runs once more."""
    words = ["wrk", f"-t{WORKERS}", f"-c{connections}", f"-d{SECONDS}s", "--latency", f"http://127.0.0.1:{port}/"]
    for _ in range(RUNS_OF_WRK):
        said = run(words)
        found = {part: float(number) * UNITS[unit] for part, number, unit in OF_WRK.findall(said)}
        if len(found) == 2:
            return found["50"], found["99"]
    raise SystemExit(f"wrk prints no percentiles: {said}")


def show_latencies(port):
    rows = []
    for connections in CONNECTIONS:
        pairs = [(our_latencies(connections, port), latencies_of_wrk(connections, port)) for _ in range(ROUNDS)]
        ours, theirs = zip(*pairs, strict=True)
        for place, part in enumerate(("50%", "99%")):
            ratio = statistics.median(one[place] / other[place] for one, other in pairs)
            rows.append((connections, part, *(round(statistics.median(one[place] for one in of)) for of in (ours, theirs)),
                         f"{ratio:.2f}"))
    show(("connections", "percentile", "microseconds", "wrk's", "ratio"), rows)
    print(f"Medians of {ROUNDS} rounds in turn, {WORKERS} threads each; a ratio is within a round.\n")


def stopping(servers, over):
    """Stops the server for a while, again and again, until that is over."""
    while not over.wait(RUNNING):
        for number in (signal.SIGSTOP, signal.SIGCONT):
            for server in servers:
                os.kill(server, number)
            if number == signal.SIGSTOP:
                time.sleep(STOPPED)


def children_named(name, process):
    """The children of a process whose command has that name."""
    with open(f"/proc/{process}/task/{process}/children", encoding="utf8") as file:
        children = [int(child) for child in file.read().split()]
    return [child for child in children if name in command_of(child)]


def command_of(process):
    with open(f"/proc/{process}/comm", encoding="utf8") as file:
        return file.read()


def rated(port):
    return json.loads(run(words_of_load(port, "--rate", str(RATE), "--seconds", str(RATED_SECONDS), "--connections", "64")))


def workers_of_nginx():
    """The processes of the nginx that this run started."""
    [server] = children_named("nginx", os.getpid())
    return children_named("nginx", server)


def show_rate(port):
    over = threading.Event()
    alone = rated(port)
    thread = threading.Thread(target=stopping, args=(workers_of_nginx(), over))
    thread.start()
    stopped = rated(port)
    over.set()
    thread.join()
    show(("server", "requests a second", "99% within, microseconds", "missed"),
         [(name, f"{1e6 * told['requests'] / told['elapsed_us']:.1f}", told["latency_us"]["p99"], told["missed"])
          for name, told in (("as it is", alone), ("stops for half a second in each five", stopped))])


def resident(process):
    with open(f"/proc/{process.pid}/status", encoding="utf8") as file:
        return int(re.search(r"VmRSS:\s+(\d+) kB", file.read())[1])


def show_memory(port):
    words = words_of_load(port, "--seconds", str(LAST + 2), "--connections", "64", "--total", "3")
    with subprocess.Popen(words, stdout=PIPE, stdin=DEVNULL, text=True) as process:
        time.sleep(FIRST)
        first = resident(process)
        time.sleep(LAST - FIRST)
        last = resident(process)
        told = json.loads(process.communicate()[0])
    account = told["connections"]
    show(("requests", "resident kB after 60 s", "after 100 s", "opened less closed", "open"),
         [(told["requests"], first, last, account["opened"] - account["closed"], account["open"])])


def timed(words):
    """Seconds by the clock, and of processors."""
    before, began = seconds_of_children(), time.monotonic()
    subprocess.run(words, stdout=DEVNULL, stderr=DEVNULL, check=True)
    return time.monotonic() - began, seconds_of_children() - before


def show_urls(port):
    with tempfile.TemporaryDirectory() as room:
        ours, theirs = os.path.join(room, "urls"), os.path.join(room, "words")
        urls = [f"http://127.0.0.1:{port}/{number}" for number in range(URLS)]
        with open(ours, "w", encoding="utf8") as file:
            file.write("\n".join(urls))
        with open(theirs, "w", encoding="utf8") as file:
            file.write("".join(f'url = "{url}"\noutput = "/dev/null"\n' for url in urls))
        clients = (("curlpool get", [curlpool(), "get", "--parallel", str(AT_ONCE), "--file", ours]),
                   ("curl -Z", ["curl", "-s", "-Z", "--parallel-max", str(AT_ONCE), "-K", theirs]))
        rounds = [[timed(words) for _, words in clients] for _ in range(ROUNDS)]
    rows = []
    for place, (name, _) in enumerate(clients):
        clock, processors = (statistics.median(one[place][part] for one in rounds) for part in (0, 1))
        rows.append((name, round(URLS / clock), f"{1e6 * processors / URLS:.1f}"))
    show(("client", "URLs a second", "processor microseconds a URL"), rows)
    print(f"Medians of {ROUNDS} rounds in turn, {URLS:,} URLs, {AT_ONCE} at once.\n")


def testers():
    need("wrk")
    need("curl")
    with nginx_by("") as port:
        show_latencies(port)
        show_urls(port)
        show_rate(port)
        show_memory(port)
