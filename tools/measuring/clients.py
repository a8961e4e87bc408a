"""Programs that send requests to a server of tools/peers, and what a request takes of them."""
import collections
import contextlib
import functools
import json
import os
import resource
import re
import shutil
import statistics
import subprocess
import tempfile
import time
from subprocess import DEVNULL, PIPE
from typing import Callable, NamedTuple

from program import BUILT, build_unless_current

from .commands import compiled, need, run, show, stop

BODY_BYTES = 2
# how many requests two runs make: what the second takes more is without the start of the program
FEWER, MORE = 2_000, 22_000
FEWER_TRACED, MORE_TRACED = 1_000, 3_000
TOLD = re.compile(r"good (\d+) (?:.* )?opened (\d+) (?:.* )?bytes (\d+)\n")
COUNT_CALLS_TO = ("strace", "-f", "-c", "-o")


def counts_of_peer(said):
    """Good requests, connections opened, and bytes of all bodies, as a peer of tools/peers prints them; or nothing."""
    told = TOLD.search(said)
    return told and tuple(map(int, told.groups()))


def counts_of_get(said):
    """The same of the lines of `curlpool get`."""
    lines = [line.split() for line in said.splitlines()]
    if any(len(line) < 4 or line[0] != "200" for line in lines):
        return None
    return len(lines), sum(line[2] == "new" for line in lines), sum(int(line[1]) for line in lines)


def counts_of_load(said):
    """The same of the object that `curlpool load --json` prints."""
    told = json.loads(said)
    return told["good"], told["connections"]["opened"], told["bytes"]


class Client(NamedTuple):
    """A program that sends requests to each site in turn."""

    name: str
    words: Callable  # which start it, by the number of requests and the ports of the sites
    counts: Callable = counts_of_peer
    # numbers of requests of two runs, timed and traced
    timed: tuple = (FEWER, MORE)
    traced: tuple = (FEWER_TRACED, MORE_TRACED)


class Cost(NamedTuple):
    """Seconds by the clock, and seconds of processors."""

    clock: float
    processors: float


@functools.cache
def has_libcurl():
    """Whether a program in C can be built that uses libcurl."""
    need("cc")
    words = ["cc", "-E", "-include", "curl/curl.h", "-x", "c", os.devnull]
    return subprocess.run(words, stdout=DEVNULL, stderr=DEVNULL).returncode == 0


def words_of_peer(program, workers, count, ports):
    return [program, str(workers), str(count), *ports]


def make_peers(workers, room):
    """The peers, with so many threads; they are built there. It is said where libcurl is left out."""
    program = compiled("peers/raw_load.c", room, "-lpthread")
    peers = [Client("raw epoll", functools.partial(words_of_peer, program, workers))]
    if has_libcurl():
        program = compiled("peers/curl_load.c", room, "-lcurl", "-lpthread")
        peers.append(Client("libcurl", functools.partial(words_of_peer, program, workers)))
    else:
        print("The headers of libcurl are missing, so it is left out.\n")
    return peers


@contextlib.contextmanager
def serving(words, sites):
    """Runs the server, and gives its ports. It ends with its input."""
    with subprocess.Popen([*words, str(sites)], stdin=PIPE, stdout=PIPE, text=True) as started:
        yield started.stdout.readline().split()


def curlpool():
    """The program curlpool, built. PROGRAM names another one."""
    if not os.environ.get("PROGRAM"):
        build_unless_current()
    return os.environ.get("PROGRAM") or BUILT


def connections(client, words, said, count):
    """Connections that a run opened; ends all if not every request was good."""
    counts = client.counts(said)
    if not counts or (counts[0], counts[2]) != (count, BODY_BYTES * count):
        stop(f"{' '.join(words)} said {said[-2000:]}")
    return counts[1]


def seconds_of_children():
    """Of processors, by all processes that have ended."""
    used = resource.getrusage(resource.RUSAGE_CHILDREN)
    return used.ru_utime + used.ru_stime


def cost_of_run(client, count, ports):
    """What a run of so many requests takes, and how many connections it opens."""
    words = client.words(count, ports)
    before, began = seconds_of_children(), time.monotonic()
    said = run(words, stdin=DEVNULL)
    cost = Cost(time.monotonic() - began, seconds_of_children() - before)
    return cost, connections(client, words, said, count)


def cost_of_request(client, ports):
    """What a request takes, and how many connections the longer run opens."""
    (fewer, _), (more, opened) = (cost_of_run(client, count, ports) for count in client.timed)
    count = client.timed[1] - client.timed[0]
    return Cost(*((long - short) / count for long, short in zip(more, fewer, strict=True))), opened


def costs_of(clients, ports, rounds):
    """What a request of each client takes in each round, and the most connections that a run of it opens."""
    found, most = {client: [] for client in clients}, collections.Counter()
    for _ in range(rounds):
        for client in clients:
            cost, opened = cost_of_request(client, ports)
            found[client].append(cost)
            most[client] = max(most[client], opened)
    return found, most


def median_ratio(costs, others, part):
    """Of one part of what requests take, round by round."""
    pairs = zip(costs, others, strict=True)
    return statistics.median(getattr(one, part) / getattr(other, part) for one, other in pairs)


def show_costs(clients, peers, ports, rounds, compares_speed):
    """The costs of each client, as ratios to those of the peers too; also the ratios of requests a second, if they are
    compared."""
    loads = [os.getloadavg()[0]]
    found, most = costs_of(clients, ports, rounds)
    loads.append(os.getloadavg()[0])
    rows, compared = [], peers if compares_speed else []
    for client in clients:
        costs = found[client]
        # who takes half the time makes twice as many requests
        rows.append((client.name, round(statistics.median(1 / cost.clock for cost in costs)),
                     *(f"{median_ratio(found[peer], costs, 'clock'):.2f}" for peer in compared),
                     f"{statistics.median(1e6 * cost.processors for cost in costs):.1f}",
                     *(f"{median_ratio(costs, found[peer], 'processors'):.2f}" for peer in peers), most[client]))
    show(("Client", "requests a second", *(f"of {peer.name}'s" for peer in compared),
          "processor microseconds a request", *(f"of {peer.name}'s" for peer in peers), "connections"), rows)
    counts = sorted({more - fewer for fewer, more in (client.timed for client in clients)})
    said = " or ".join(f"{count:,}" for count in counts)
    print(f"Medians of {rounds} rounds of {said} requests, on {os.cpu_count()} processors; the load average was "
          f"{loads[0]:.1f} before them and {loads[1]:.1f} after them.\n")


def calls_of_run(client, count, ports):
    """How often a run makes each system call."""
    words = client.words(count, ports)
    with tempfile.NamedTemporaryFile("r", encoding="utf8") as file:
        connections(client, words, run([*COUNT_CALLS_TO, file.name, *words], stdin=DEVNULL), count)
        lines = [line.split() for line in file]
    rows = [line for line in lines if len(line) > 4 and line[3].isdigit() and line[-1] != "total"]
    return collections.Counter({row[-1]: int(row[3]) for row in rows})


def calls_of_request(client, ports):
    """How often a request makes each system call."""
    fewer, more = (calls_of_run(client, count, ports) for count in client.traced)
    return {name: (more[name] - fewer[name]) / (client.traced[1] - client.traced[0]) for name in more}


def show_calls(clients, server, sites):
    """The system calls of each client, where strace can count them."""
    if shutil.which("strace") is None:
        print("strace is missing, so system calls are not counted.\n")
        return
    rows = []
    # the server is traced too, since no client is to find its answer sooner than it would untraced
    with serving([*COUNT_CALLS_TO, os.devnull, server], sites) as ports:
        for client in clients:
            counts = calls_of_request(client, ports)
            told = (f"`{name}` {count:.2f}" for name, count in sorted(counts.items()) if count >= 0.005)
            rows.append((client.name, f"{sum(counts.values()):.2f}", ", ".join(told)))
    show(("Client", "system calls a request", "of these"), rows)
