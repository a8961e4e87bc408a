"""The table sockets of tools/measure: what a request takes over sockets here, with libcurl and with raw epoll."""
import functools
import itertools
import tempfile

from .clients import Client, counts_of_get, counts_of_load, curlpool, make_peers, serving, show_calls, show_costs
from .commands import compiled
from .load import words_of_load

SITES = 2
ROUNDS = 41


def words_of_get(program, count, ports):
    urls = [f"http://127.0.0.1:{port}/{number}" for number, port in enumerate(ports, 1)]
    return [program, "get", *itertools.islice(itertools.cycle(urls), count)]


def make_clients():
    """Those over sockets here."""
    program = curlpool()
    return [Client("curlpool get", functools.partial(words_of_get, program), counts_of_get),
            Client("curlpool load", functools.partial(words_of_load, program, 1, 0), counts_of_load)]


def sockets():
    with tempfile.TemporaryDirectory() as room:
        server = compiled("peers/server.c", room)
        clients, peers = make_clients(), make_peers(1, room)
        with serving([server], SITES) as ports:
            show_costs([*clients, *peers], peers, ports, ROUNDS, compares_speed=False)
        show_calls([*clients, *peers], server, SITES)
