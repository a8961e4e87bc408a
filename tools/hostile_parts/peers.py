"""Requests to servers that misbehave: by curlpool get one after another, and by threads over one shared cache.

Whatever they do, no request gets the answer to another one.
"""
import contextlib
import re
import time

from program import built_tries
from real_servers import servers
from real_servers.servers import Server, counted, nobody

from . import behaviours
from .parts import Part, check, check_same
from .programs import curlpool, run

GOOD = re.compile(r"(\d+) (\d+) (new|reused)( retried)? (\S+)")
BAD = re.compile(r"([A-Z]\w+) (\S+)")
TOTALS = re.compile(r"good (\d+) of (\d+) reused (\d+) retried (\d+) opened (\d+) closed (\d+) alive (\d+) bytes (\d+)")
# what a peer can make of a request
OF_PEERS = {"Read", "Write", "Cut", "BadResponse"}
LENGTH = 20
# seconds in which a request that is answered is answered beside other work too
TIMEOUT = 3


@contextlib.contextmanager
def listening(*listed):
    """Servers of these behaviours, for as long as this lasts."""
    with contextlib.ExitStack() as stack:
        yield [stack.enter_context(Server(behaviour)) for behaviour in listed]


@contextlib.contextmanager
def sites_of(behaviour, count):
    """So many servers, of which each answers its own jobs alone: those whose number modulo the count is its place."""
    def is_of(site):
        return lambda number: number % count == site

    with contextlib.ExitStack() as stack:
        yield [stack.enter_context(Server(behaviour, is_asked_here=is_of(site))) for site in range(count)]


def path_of(number):
    return f"/{number}"


def get(urls, *options):
    return run([curlpool(), "get", *options, *urls])


def lines_of_get(urls, *options):
    """The lines of the URLs, where each has one and the status says whether all were answered."""
    done = get(urls, *options)
    lines = done.output.splitlines()
    check(len(lines) == len(urls), f"{len(lines)} lines of {len(urls)} URLs: {done.told()}")
    failed = sum(1 for line in lines if BAD.fullmatch(line))
    said = f"run: {failed} of {len(urls)} failed\n" if failed else ""
    check_same((done.status, done.errors), (4 if failed else 0, said), "status and standard error")
    return [line.removesuffix(f" {url}") for line, url in zip(lines, urls, strict=True)]


def check_lines(found, wanted):
    for number, (one, may) in enumerate(zip(found, wanted, strict=True), 1):
        check(one in may.split(" or "), f"line {number}: `{one}` in place of `{may}`")


def each(behaviour, wanted, *options):
    """What comes of as many requests for twenty bytes as there are answers wanted."""
    def do():
        with listening(behaviour) as (server,):
            urls = [f"http://127.0.0.1:{server.port}/{LENGTH}"] * len(wanted)
            check_lines(lines_of_get(urls, *options), wanted)
        return f"{len(wanted)} requests"
    return do


def cut_at_each_byte():
    """A response on a new connection, cut after each number of its bytes."""
    length = len(counted(LENGTH))
    return each(behaviours.cuts_at_each_byte, ["Cut"] * length + [f"200 {LENGTH} new"])()


def second_cut_at_each_byte():
    """One on a connection that was used before: it is tried once more only where no byte of it came."""
    length = len(counted(LENGTH))
    wanted = [f"200 {LENGTH} new", f"200 {LENGTH} new retried"]
    wanted += ["Cut", f"200 {LENGTH} new"] * (length - 1) + [f"200 {LENGTH} reused"]
    return each(behaviours.cuts_the_second_at_each_byte(), wanted)()


def never_answered():
    """Requests that nobody answers are cancelled, each after its seconds, and those beside them are answered."""
    with listening(behaviours.never_answers, servers.lasts, servers.stalls) as hosts:
        urls = [f"http://127.0.0.1:{server.port}/{number}" for number in (2, 4) for server in hosts]
        began = time.monotonic()
        found = lines_of_get(urls, "--timeout", str(TIMEOUT))
        took = time.monotonic() - began
    check_lines(found, ["Cancelled", "200 2 new", "Cancelled", "Cancelled", "200 4 reused", "Cancelled"])
    check(took >= 4 * TIMEOUT, f"took {took:.1f} seconds")
    return f"4 of {len(urls)} were cancelled"


def lines_of_load(workers, total, jobs, ports):
    """What came of each job, and the totals, where they are those of the jobs."""
    done = run([built_tries(), "load", "each", str(workers), str(total), str(jobs), *map(str, ports)])
    *lines, totals = done.output.splitlines() or [""]
    found = TOTALS.fullmatch(totals)
    check(done.status == 0 and found and len(lines) == jobs, f"{len(lines)} lines of {jobs} jobs: {done.told()}")
    return lines, [int(one) for one in found.groups()]


def check_job(number, line):
    """Its length, where it was answered: that of its number."""
    good = GOOD.fullmatch(line)
    if not good:
        bad = BAD.fullmatch(line)
        check(bad and bad[1] in OF_PEERS and bad[2] == path_of(number), f"job {number}: `{line}`")
        return None
    check_same((good[1], good[2], good[5]), ("200", str(number), path_of(number)), f"job {number}")
    return good


def check_load(workers, total, jobs, hosts):
    """Carries the jobs out, each of which has to get its own answer or a fault, and checks the account."""
    lines, (good, count, reused, retried, opened, closed, alive, size) = lines_of_load(
        workers, total, jobs, [server.port for server in hosts])
    answers = [check_job(number, line) for number, line in enumerate(lines)]
    numbers = [number for number, one in enumerate(answers) if one]
    counted_here = (len(numbers), jobs, sum(one[3] == "reused" for one in answers if one),
                    sum(bool(one[4]) for one in answers if one), sum(numbers))
    check_same((good, count, reused, retried, size), counted_here, "totals")
    check_same(opened, closed + alive, "opened connections")
    check(total == 0 or alive <= total, f"{alive} are open, of {total} at most")
    accepted = sum(server.accepted for server in hosts)
    check(accepted == opened, f"{accepted} connections were accepted, and {opened} opened")
    return len(numbers), opened


def threads(behaviour, total, sites=2, workers=8, jobs=400, all_good=False):
    """Threads request paths of servers of that behaviour."""
    def do():
        with sites_of(behaviour, sites) as hosts:
            good, opened = check_load(workers, total, jobs, hosts)
        check(good == jobs or not all_good, f"{jobs - good} of {jobs} have no answer")
        return f"{good} of {jobs} were answered, each with its own bytes; {opened} connections"
    return do


def drawn_threads():
    """The same, each connection treated in a way that is drawn for it, under several totals."""
    good = opened = jobs = 0
    for seed in range(12):
        with sites_of(behaviours.drawn(seed), 1 + seed % 3) as hosts:
            found = check_load(1 + seed % 8, seed % 4, 300, hosts)
        good, opened, jobs = good + found[0], opened + found[1], jobs + 300
    return f"{good} of {jobs} were answered, each with its own bytes; {opened} connections"


def nobody_listens():
    with nobody() as port:
        lines, totals = lines_of_load(4, 1, 50, [port])
    check_same(lines, [f"Dial {path_of(number)}" for number in range(50)], "lines")
    good, jobs, _, _, opened, closed, alive, _ = totals
    check_same((good, jobs, opened, closed, alive), (0, 50, 50, 50, 0), "totals")
    return "50 jobs, 50 Dial; nothing is left open"


def limits():
    """Heads, fields, interim heads and chunk lines at their limits, and past them."""
    good, bad = f"200 {LENGTH} new", "BadResponse"
    rows = ((behaviours.sends_head, 16_384), (behaviours.sends_fields, 100), (behaviours.sends_interim_heads, 8),
            (behaviours.sends_chunk_line, 1_024))
    for behave, most in rows:
        for number, wanted in ((most, good), (most + 1, bad)):
            with listening(behave(number)) as (server,):
                found = lines_of_get([f"http://127.0.0.1:{server.port}/{LENGTH}"])
            check_same(found, [wanted], f"{behave.__name__} of {number}")
    return f"{2 * len(rows)} responses"


def answers(*ends):
    return [f"200 {LENGTH} {end}" for end in ends]


PARTS = [
    Part("peers: a response cut at every byte", cut_at_each_byte),
    Part("peers: a second response cut at every byte", second_cut_at_each_byte),
    Part("peers: reset in place of an answer", each(servers.resets_at(1), ["Read or Write"] * 20)),
    Part("peers: half-closed after each answer", each(behaviours.half_closes_after(1), answers(
        "new", *["new retried"] * 19))),
    Part("peers: half-closed in a body", each(behaviours.half_closes_in_body, ["Cut"] * 20)),
    Part("peers: each idle connection is ended", each(servers.ends_after(1), answers("new", *["new retried"] * 19))),
    Part("peers: answered before the request has come whole", each(
        behaviours.answers_after_the_first_line, answers("new", *["reused"] * 19))),
    Part("peers: a byte at a time", each(behaviours.sends_single_bytes, answers("new", *["reused"] * 19))),
    Part("peers: limits of responses", limits),
    Part("peers: nobody answers", never_answered),
    Part("peers: nobody listens, by threads", nobody_listens),
    Part("peers: connections last, by threads", threads(servers.lasts, 0, all_good=True)),
    Part("peers: one connection for all, by threads", threads(servers.lasts, 1, all_good=True)),
    Part("peers: each idle connection is ended, by threads", threads(servers.ends_after(1), 2, all_good=True)),
    Part("peers: each third answer is reset, by threads", threads(servers.resets_at(3), 3, all_good=True)),
    Part("peers: a byte at a time, by threads", threads(behaviours.sends_single_bytes, 3, jobs=100, all_good=True)),
    Part("peers: drawn ways, by threads", drawn_threads),
]
