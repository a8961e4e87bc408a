"""What a request takes while other connections are silent: `tries many` beside nginx."""
import contextlib
import re
import socket
import statistics
import threading
import time

from program import proved_tries
from real_servers.nginx import free_ports

from .commands import PLAIN_CLEARS, need, run, show
from .many import WORKERS, calls_of, nginx_by, words_by

# silent connections, and how many places there are: one is left
PLACES = (1, 256)
FEWER, MORE = 1_000, 5_000
COUNTED_PLACES = (8, 1_024)
FEWER_COUNTED, MORE_COUNTED = 1_000, 5_000
COUNTED = re.compile(r"Collected : (\d+)")
# a silent connection among so many, for so many rounds of so many requests
AMONG, ROUNDS, MANY = 8, 11, 100_000
SILENT = "location = /{} {{ proxy_pass http://127.0.0.1:{}; proxy_read_timeout 600s; }}\n"


@contextlib.contextmanager
def silence(last):
    """A server that answers nobody, and closes all its connections once it is asked for the last path; its port."""
    kept = []
    with socket.create_server(("127.0.0.1", 0), backlog=2_048) as server:

        def accept():
            with contextlib.suppress(OSError):
                while True:
                    peer, _ = server.accept()
                    kept.append(peer)
                    if peer.recv(4_096).startswith(f"GET /{last} ".encode()):
                        break
            for peer in kept:
                peer.close()

        thread = threading.Thread(target=accept)
        thread.start()
        yield server.getsockname()[1]
        thread.join()


def with_silent(silent, places, count, action, workers=1):
    """What the action answers for the words of a run with so many places, some of which wait for a silent server."""
    jobs = silent + count
    with silence(jobs) as backend:
        locations = "".join(SILENT.format(job, backend) for job in (*range(silent), jobs))
        with nginx_by(locations) as port:
            return action(words_by(workers, places, 0, jobs + 1, port))


def calls_of_request(program, places):
    """System calls of a request, by name."""
    fewer, more = (with_silent(places - 1, places, count, lambda words: calls_of([program, *words]))
                   for count in (FEWER, MORE))
    return {name: (count - fewer.get(name, 0)) / (MORE - FEWER) for name, count in more.items()}


def instructions_of_request(program, places):
    words = ["valgrind", "--tool=callgrind", "--callgrind-out-file=/dev/null", program]
    fewer, more = (with_silent(places - 1, places, count, lambda said: int(COUNTED.search(run([*words, *said]))[1]))
                   for count in (FEWER_COUNTED, MORE_COUNTED))
    return (more - fewer) // (MORE_COUNTED - FEWER_COUNTED)


def speed(program, silent, places):
    """Requests a second of four threads."""
    def seconds(words):
        began = time.monotonic()
        run([program, *words])
        return time.monotonic() - began
    return MANY / with_silent(silent, places, MANY, seconds, WORKERS)


def show_one_of_eight(program):
    pairs = [(speed(program, 1, AMONG), speed(program, 0, AMONG - 1)) for _ in range(ROUNDS)]
    hanging, alone = zip(*pairs, strict=True)
    show(("places", "silent connections", "requests a second", "ratio"),
         [(AMONG, "1", round(statistics.median(hanging)), f"{statistics.median(one / other for one, other in pairs):.2f}"),
          (AMONG - 1, "0", round(statistics.median(alone)), "1.00")])
    print(f"Medians of {ROUNDS} rounds in turn, {WORKERS} threads.\n")


def silent():
    need("strace")
    need("valgrind")
    program = proved_tries()
    rows = []
    for places in PLACES:
        calls = calls_of_request(program, places)
        told = ", ".join(f"`{name}` {count:.2f}" for name, count in sorted(calls.items()) if count >= 0.005)
        rows.append((places - 1, f"{sum(calls.values()):.2f}", told))
    show(("silent connections", "system calls a request", "of these"), rows)
    counts = [(places, instructions_of_request(program, places)) for places in COUNTED_PLACES]
    show(("places", "instructions a request"), counts)
    print("One thread; all places but one wait for a response.\n")
    show_one_of_eight(program)
