"""The tables of tools/measure of a load: what a request takes of threads that share one cache, with libcurl and with raw
epoll, and where they share one connection."""
import functools
import statistics
import tempfile

from .clients import Client, cost_of_request, counts_of_load, curlpool, make_peers, serving, show_calls, show_costs
from .commands import compiled, show

SITES, WORKERS = 2, 4
ROUNDS = 21
ROUNDS_OF_ONE = 5


def words_of_load(program, workers, total, count, ports):
    """A load of paths at these ports, of which each thread has one request under way."""
    urls = [f"--url=http://127.0.0.1:{port}/{number}" for number, port in enumerate(ports, 1)]
    return [program, "load", *urls, "--workers", str(workers), "--total", str(total), "--jobs", str(count), "--json", "--quiet"]


def show_one_connection(program, server):
    """What a job takes where all threads share one connection, and so wait for one another."""
    client = Client("curlpool", functools.partial(words_of_load, program, WORKERS, 1), counts_of_load)
    rows = []
    for sites in (1, SITES):
        with serving([server], sites) as ports:
            found = [cost_of_request(client, ports) for _ in range(ROUNDS_OF_ONE)]
        costs, opened = zip(*found, strict=True)
        rows.append((sites, round(statistics.median(1 / cost.clock for cost in costs)),
                     f"{statistics.median(1e6 * cost.processors for cost in costs):.1f}", max(opened)))
    show(("sites", "jobs a second", "processor microseconds a job", "connections"), rows)
    print(f"Medians of {ROUNDS_OF_ONE} rounds, {WORKERS} threads, at most one connection open.\n")


def load():
    program = curlpool()
    with tempfile.TemporaryDirectory() as room:
        server = compiled("peers/server.c", room)
        client = Client("curlpool, one shared cache", functools.partial(words_of_load, program, WORKERS, 0), counts_of_load)
        peers = make_peers(WORKERS, room)
        with serving([server], SITES) as ports:
            show_costs([client, *peers], peers, ports, ROUNDS, compares_speed=True)
        show_calls([client, *peers], server, SITES)
        show_one_connection(program, server)
