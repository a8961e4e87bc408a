"""What the recorders have their pools do: requests in batches to some hosts, and the responses to them.

A recorder is told a plan as JSON. It sends the requests of a batch side by side, waits until all have ended, and tells
that the pool is at rest; before the last batch it pauses. A request has a number of its own, which is the path that it
asks for and the length of its body, and a kind, which says how the server will answer it.
"""
import json
import random

from real_servers.servers import SURPLUS, body_of, chunk_of, counted, head_of

# how often each kind of response comes; `both` has both lengths, of which a trace says `close`
KINDS = {"keep": 12, "close": 2, "old": 1, "old-keep": 1, "eof": 1, "cut": 1, "surplus": 1, "both": 1}
HOSTS, BATCHES, REQUESTS, PAUSE = 3, 12, 24, 3
SEED = 11
# the most seconds that a pool is told to keep an idle connection, and what its trace says of that: moments are whole
# seconds, so that two may differ by one second more than passed between them
AGE, AGE_IN_TRACE = 1, 2
# what is wrong on purpose: connections are reused after a response with close, or past the age, of which the pool isn't
# told
WRONG = ("closes", "ages")


def plan_of(ports):
    """The plan for servers at these ports."""
    rng, number, batches = random.Random(SEED), 0, []
    for place in range(BATCHES):
        batch = []
        for _ in range(REQUESTS):
            number += 1
            # before the pause, so that connections are idle in it
            kind = "keep" if place == BATCHES - 2 else rng.choices(list(KINDS), KINDS.values())[0]
            # the first host is asked most
            batch.append({"host": min(rng.randrange(len(ports) + 2), len(ports) - 1) if rng.random() < 0.6 else 0,
                          "number": number, "kind": kind})
        batches.append(batch)
    return {"ports": ports, "batches": batches, "pause": PAUSE}


def read(path):
    with open(path, encoding="utf8") as file:
        return json.load(file)


def kind_in_trace(kind):
    return "close" if kind == "both" else kind


def answers(kinds, hides_close=False):
    """Has a server answer the request of each number in its kind. Where it may, it leaves the connection open."""
    def behave(connection):
        for request in connection.requests():
            kind = kinds[request.number]
            connection.send(response(request.number, "keep" if hides_close and kind == "close" else kind))
            if kind in ("eof", "cut"):
                return
    return behave


def response(number, kind):
    if kind == "close":
        return counted(number, "Connection: close")
    if kind == "old":
        return counted(number, version="1.0")
    if kind == "old-keep":
        return counted(number, "Connection: keep-alive", version="1.0")
    if kind == "eof":
        return head_of() + body_of(number)
    if kind == "cut":
        return counted(number)[:-1]
    if kind == "surplus":
        return counted(number) + SURPLUS
    if kind == "both":
        head = head_of(f"Content-Length: {number}", "Transfer-Encoding: chunked")
        return head + chunk_of(body_of(number)) + chunk_of(b"")
    return counted(number)
