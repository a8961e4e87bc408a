"""Many requests at once: curlpool get --parallel and curlpool load, at servers that close, cut, and answer late or twice.

A request asks for the path of its number, which is answered with as many bytes. So the answer to another request shows
by its length: no URL may have one. A server that sends an answer which nobody asked for once the next request is on
its way is not among them: no client can tell the answers apart then.
"""
import json
import re
import tempfile
import time

from . import programs, servers
from .servers import Server

AT_ONCE = 32
REQUESTS = 1_500
# of servers that wait before they answer, or let a transfer run into its time limit
FEW = 200
FAULTS = {"Cut", "Read", "Write", "Cancelled"}
LINE = re.compile(r"(?:200 (\d+) (?:new|reused)(?: retried)?|([A-Z][A-Za-z]+)(?: retried)?) http://127\.0\.0\.1:\d+/(\d+)")

# what a server does, how many requests it gets, and whether some of them may have no whole answer
BEHAVIOURS = [
    ("connections last", servers.lasts, REQUESTS, False),
    ("each response ends its connection, unsaid", servers.ends_after(1), REQUESTS, True),
    ("each third response ends its connection, unsaid", servers.ends_after(3), REQUESTS, True),
    ("surplus with each response", servers.sends_surplus, REQUESTS, False),
    ("each answer twice, in one write", servers.answers_twice, REQUESTS, False),
    ("late answers", servers.takes(0.05), REQUESTS, False),
    ("100 Continue before each response", servers.sends_interim("100 Continue"), REQUESTS, False),
    ("a chunk's line in two writes", servers.cuts_chunk_lines, REQUESTS, False),
    ("reset in place of the second answer", servers.resets_at(2), REQUESTS, True),
    ("reset in place of the second answer, and once more", servers.resets_twice, REQUESTS, True),
    ("ended in place of the second answer", servers.ends_at(2), REQUESTS, True),
    ("half a body of each second, and then nothing", servers.stalls, FEW, True),
    ("each second response is cut", servers.cuts_even, REQUESTS, True),
    ("each response is cut", servers.cuts_each, REQUESTS, True),
    ("both lengths", servers.gives_both_lengths, REQUESTS, False),
    ("HTTP/1.0 with keep-alive", servers.answers_old("Connection: keep-alive"), REQUESTS, False),
    ("HTTP/1.1, a body until the end", servers.ends_its_body("1.1"), REQUESTS, False),
]


class Crowd:
    """A server, and the program that is to get each answer from it, many at once."""

    def __init__(self, kind, behaviour):
        self.kind = kind
        self.text, self.behaviour, self.requests, self.may_fail = behaviour
        self.name = f"{kind}: {self.text}"

    def needs_nginx(self):
        return False

    def run(self, _ports):
        """How it ended, and what there is to say of it."""
        began = time.monotonic()
        with Server(self.behaviour) as server:
            found = crowd_of_urls(self, server) if self.kind == "get --parallel" else crowd_of_jobs(self, server)
        if found:
            return "failed", found
        return "passed", f"{self.requests} requests, {server.accepted} connections; {time.monotonic() - began:.1f} seconds"


class LongFile:
    """A file of more lines than a crawl reads at once, whose first URLs are never answered: those behind them have to be
    fetched meanwhile."""

    name = "get --parallel: the first requests of a long file have no answer"
    hung, answered, comments = 3, 200, 5_000

    def needs_nginx(self):
        return False

    def run(self, _ports):
        """How it ended, and what there is to say of it."""
        with Server(servers.hangs_up_to(self.hung)) as server:
            urls = [f"http://127.0.0.1:{server.port}/{number}" for number in range(1, self.hung + self.answered + 1)]
            with tempfile.NamedTemporaryFile("w", encoding="utf8", suffix=".urls") as file:
                file.write("\n".join([*urls[:self.hung], *["#"] * self.comments, *urls[self.hung:]]))
                file.flush()
                run = programs.get(["--parallel", str(AT_ONCE), "--timeout", "3", "--file", file.name])
        told = [LINE.fullmatch(line) for line in run.output.splitlines()]
        if run.status != 4 or None in told or sorted(found[0].rsplit(" ", 1)[1] for found in told) != sorted(urls):
            return "failed", f"{len(told)} lines for {len(urls)} URLs; status {run.status}, {run.errors[-200:]!r}"
        if any(found[2] for found in told[:self.answered]):
            return "failed", "URLs that are answered waited for those that are not"
        return "passed", f"{self.answered} answers before {self.hung} requests were cancelled"


def crowd_of_urls(crowd, server):
    """What is wrong with the lines of a crawl, or nothing."""
    urls = [f"http://127.0.0.1:{server.port}/{number}" for number in range(1, crowd.requests + 1)]
    with tempfile.NamedTemporaryFile("w", encoding="utf8", suffix=".urls") as file:
        file.write("\n".join(urls))
        file.flush()
        run = programs.get(["--parallel", str(AT_ONCE), "--timeout", "1", "--file", file.name])
    lines = run.output.splitlines()
    told = [LINE.fullmatch(line) for line in lines]
    for line, found in zip(lines, told, strict=True):
        if not found or (found[1] or found[3]) != found[3] or (found[2] and found[2] not in FAULTS):
            return f"`{line}`"
    if sorted(int(found[3]) for found in told) != list(range(1, crowd.requests + 1)):
        return f"{len(lines)} lines for {crowd.requests} URLs; status {run.status}, {run.errors[-200:]!r}"
    failed = sum(1 for found in told if found[2])
    if run.status != (4 if failed else 0) or (failed and not crowd.may_fail):
        return f"{failed} failed, status {run.status}"
    return too_many(crowd, server)


def crowd_of_jobs(crowd, server):
    """What is wrong with the counts of a load, or nothing."""
    number = 7
    run = programs.load(["--url", f"http://127.0.0.1:{server.port}/{number}", "--jobs", str(crowd.requests),
                         "--connections", str(AT_ONCE), "--timeout", "1", "--json", "--quiet"])
    told = json.loads(run.output or "{}")
    if not told or run.status != (0 if told["good"] else 4):
        return f"status {run.status}, {run.errors[-200:]!r}"
    if told["good"] + told["failed"] != crowd.requests or told["requests"] != crowd.requests:
        return f"{told['good']} good, {told['failed']} failed of {crowd.requests}"
    if told["bytes"] != number * told["good"] or told["statuses"]["2xx"] != told["good"]:
        return f"{told['bytes']} bytes of {told['good']} bodies of {number}"
    if told["failed"] and not crowd.may_fail:
        return f"{told['failed']} failed"
    if told["connections"]["opened"] < server.accepted:
        return f"{server.accepted} connections were accepted, and {told['connections']['opened']} opened"
    return too_many(crowd, server)


def too_many(crowd, server):
    """Whether more connections were open at once than transfers, at a server that ends none."""
    if crowd.behaviour is servers.lasts and server.most > AT_ONCE:
        return f"{server.most} connections at once"
    return None


def all_crowds():
    for kind in ("get --parallel", "load --connections"):
        yield from (Crowd(kind, behaviour) for behaviour in BEHAVIOURS)
    yield LongFile()
