"""Memory that is refused: each request for it in turn, alone and from it on, until a run meets no such request.

The scripts are tried by tools/failing-allocations, and calls by tools/failing-allocations-in-tests. Here curlpool get,
curlpool load, curlpool audit and words of the command line are tried the same way. Each run has to give all memory back.
"""
import collections
import contextlib
import functools
import itertools
import os
import re
import tempfile

from failing_malloc import Runner, misrefused, refuse_each
from program import TOP
from real_servers import servers
from real_servers.servers import Server

from .parts import Part, check
from .programs import curlpool, run, tests_of, tool

# the crates whose tests of allocation failures try the public calls that may be refused memory, and how many requests
# are refused alone at least: all, but for a few of threads, which ask for some more or fewer each time
CRATES = {"memory_tests": 690, "thread_memory_tests": 850}
# the status of words that are refused
REFUSED_WORDS = 2
SECONDS = 60
SECONDS_OF_ALL = 600
JOBS, MOST_OPEN = 12, 1
WORDS_OF_LOAD = ["load", "--sites", "2", "--jobs", str(JOBS), "--workers", "2", "--host-limit", str(MOST_OPEN), "--total",
                 str(MOST_OPEN)]
# words that are answered without a network or threads: five that are refused, and one that is not
WORDS = (
    ("load", "--jobs", "0"), ("load", "--sites", "9"), ("get", "--timeout", "0", "http://127.0.0.1/"),
    ("get", "ftp://a/"), ("get", "http://127.0.0.1:65536/"), ("--help",),
)
# a trace that has several violations, and each way to tell them
TRACE = os.path.join(TOP, "tests", "traces", "all-violations.trace")
AUDITS = ([], ["--all", "--state"], ["--all", "--json"])
BROKEN = 1
# how many bytes an audit reads at a time, and those of a comment
PIECE, COMMENT = 65_536, 2_000
FAULT = re.compile(r"(?:Memory|Refused|Dial)(?: retried)? (\S+)\n")
ALLOCATIONS = re.compile(r"\b(\d+) allocations", re.MULTILINE)
REFUSED = re.compile(r"^refused: (\d+) alone, (\d+) for good$", re.MULTILINE)


def last_of(text):
    lines = text.strip().splitlines()
    return lines[-1] if lines else ""


def by_tool(name, *words, **variables):
    """Runs one of the tools, which say `0 wrong` at the end; what it said."""
    done = run([tool(name), *words], SECONDS_OF_ALL, env={**os.environ, **variables})
    wrong = [line.strip() for line in done.output.splitlines() if "WRONG" in line]
    check(done.status == 0 and last_of(done.output) == "0 wrong",
          f"{'; '.join(wrong[:3]) or last_of(done.errors)}; status {done.status}")
    return done.output


def scripts():
    said = by_tool("failing-allocations", PROGRAM=curlpool())
    count = sum(map(int, ALLOCATIONS.findall(said)))
    return f"{len(ALLOCATIONS.findall(said))} scripts, {count} allocations, each alone and all from it on"


def calls_of(crate, least):
    said = by_tool("failing-allocations-in-tests", "--only", "want_of_memory", crate, TESTS=tests_of(crate))
    tests = sum(1 for line in said.splitlines() if not line.startswith(" ") and ALLOCATIONS.search(line))
    alone, for_good = map(int, REFUSED.search(said).groups())
    check(alone >= least, f"{alone} allocations were refused alone, and not {least} or more")
    return f"{tests} tests, {alone} allocations refused alone, {for_good} for good"


def wrong_front(run, lines, urls):
    """What is wrong with what get wrote, or nothing: each URL has its line, or a fault for lack of memory, or the run
    ended before it."""
    found = run.output.decode().splitlines(keepends=True)
    if len(found) > len(lines):
        return f"{len(found)} lines"
    for line, ample, url in zip(found, lines, urls, strict=False):
        fault = FAULT.fullmatch(line)
        is_answer = line.split(" ")[:2] == ample.split(" ")[:2] and line.endswith(f" {url}\n")
        if not is_answer and not (fault and fault[1] == url):
            return f"`{line.strip()}` in place of `{ample.strip()}`"
    return None


def wrong_get(run, ample, urls):
    """What is wrong with a run of get, or nothing."""
    lines = ample.output.decode().splitlines(keepends=True)
    if run.status == 0:
        is_whole = run.output.count(b"\n") == len(lines)
        return wrong_front(run, lines, urls) if is_whole and not run.errors else f"status 0, {run.errors!r}"
    found = run.output.decode().splitlines()
    failed = sum(1 for line in found if not line[0].isdigit())
    said = run.errors.decode()
    is_said = said == f"run: {failed} of {len(urls)} failed\n" if len(found) == len(urls) and failed else (
        said == "run: out of memory\n")
    if run.status != 4 or not is_said:
        return f"status {run.status}, {run.output!r}, {said!r}"
    return wrong_front(run, lines, urls)


def wrong_load(run, _):
    """What is wrong with a run of load, or nothing. If memory runs out for the trace alone, it prints its report too."""
    lines = run.output.decode().splitlines()
    is_report = [line.split()[0] for line in lines] == ["host", "host", "all", "jobs"] and adds_up(lines)
    if run.status == 0:
        is_right = is_report and not run.errors
    else:
        is_right = run.status == 4 and (is_report or not run.output) and run.errors in REFUSED_LOADS
    return None if is_right else f"status {run.status}, {run.output!r}, {run.errors!r}"


REFUSED_LOADS = (b"run: out of memory\n", b"run: cannot listen\n", b"run: cannot start thread\n")


def adds_up(lines):
    """Whether the report's sums are those of its hosts, no more are open than may be, and each job was answered or
    failed."""
    hosts = [list(map(int, line.split()[2:])) for line in lines[:2]]
    sums = list(map(int, lines[2].split()[2:]))
    jobs, bad, *_, size = map(int, lines[3].split()[1:])
    is_closed = all(opened - closed == alive for opened, _, closed, _, alive in hosts)
    is_sum = sums == [sum(one) for one in zip(*hosts, strict=True)]
    return is_sum and is_closed and sums[-1] <= MOST_OPEN and (jobs, size) == (JOBS, 2 * (jobs - bad))


def unreturned(run):
    """What is said of a run that did not give all memory back, or nothing."""
    return f"{run.kept} blocks were not given back" if run.kept else None


def refuse_all(words, wrong_with, may_vary=False, statuses=(0,)):
    """Refuses each allocation of a run in turn, alone and all from it on; what there is to say of it. If it may vary,
    the run asks for some more or fewer allocations each time."""
    with tempfile.TemporaryDirectory() as room:
        runner = Runner(room, SECONDS)
        ample = runner.run(words)
        check(ample.status in statuses and ample.asked > 0 and not ample.kept,
              f"in ample memory: status {ample.status}, {ample.errors!r}, {ample.kept} blocks were not given back")
        ends = collections.Counter()
        for how, run_at in (("alone", runner.alone), ("from it on", runner.from_it_on)):
            for number, run in refuse_each(functools.partial(run_at, words, b""), ample, may_vary=may_vary):
                found = run.killed() or wrong_with(run, ample) or unreturned(run) or misrefused(
                    number, run, ample, how == "alone", may_vary)
                check(not found, f"allocation {number} {how}: {found}")
                if run.refused:
                    ends[how] += 1
                    ends[run.status == ample.status] += 1
    return (f"{ends['alone']} allocations refused alone, {ends['from it on']} for good; {ends[True]} runs whole, "
            f"{ends[False]} that say so")


def get(*options):
    with contextlib.ExitStack() as stack:
        ports = [stack.enter_context(Server(servers.lasts)).port for _ in range(2)]
        urls = [f"http://127.0.0.1:{port}/{number}" for number, port in zip((1, 2, 3), itertools.cycle(ports))]
        return refuse_all([curlpool(), "get", *options, *urls], functools.partial(wrong_get, urls=urls), may_vary=True)


def load(words):
    return refuse_all([curlpool(), *words], wrong_load, may_vary=True)


def wrong_audit(run, ample):
    """What is wrong with an audit, or nothing: it is the whole, or its lines so far and that there is no memory."""
    if (run.status, run.output, run.errors) == (ample.status, ample.output, ample.errors):
        return None
    is_told = run.status == 4 and run.errors == b"run: out of memory\n" and ample.output.startswith(run.output)
    return None if is_told else f"status {run.status}, {run.output!r}, {run.errors!r}"


def audit(options, trace=TRACE):
    return refuse_all([curlpool(), "audit", *options, trace], wrong_audit, statuses=(BROKEN,))


def audit_in_pieces():
    """The same behind comments, of which one goes over the end of the piece that is read first."""
    with tempfile.TemporaryDirectory() as room, open(TRACE, "rb") as trace:
        path = os.path.join(room, "long.trace")
        with open(path, "wb") as file:
            file.write((b"#" * COMMENT + b"\n") * (PIECE // COMMENT + 1) + trace.read())
        return audit(["--all"], path)


def wrong_answer(run, ample):
    """What is wrong with an answer to words, or nothing: it is the one that ample memory gives, or that there is no
    memory, and then nothing else is written."""
    found = run.status, run.output, run.errors
    may_be = (ample.status, ample.output, ample.errors), (4, b"", b"run: out of memory\n")
    return None if found in may_be else f"status {run.status}, {run.output!r}, {run.errors!r}"


def words_of(words):
    return refuse_all([curlpool(), *words], wrong_answer, statuses=(0, REFUSED_WORDS))


PARTS = [
    Part("memory: scripts", scripts),
    *(Part(f"memory: calls, in {crate}", functools.partial(calls_of, crate, least), needs_tests=True)
      for crate, least in CRATES.items()),
    Part("memory: curlpool get", get),
    Part("memory: curlpool get --head", functools.partial(get, "--head")),
    Part("memory: curlpool load", functools.partial(load, WORDS_OF_LOAD)),
    Part("memory: curlpool load --trace", functools.partial(load, [*WORDS_OF_LOAD, "--trace", os.devnull])),
    *(Part(" ".join(["memory: curlpool audit", *options]), functools.partial(audit, options)) for options in AUDITS),
    Part("memory: curlpool audit in pieces", audit_in_pieces),
    *(Part(f"memory: curlpool {' '.join(words)}", functools.partial(words_of, words)) for words in WORDS),
]
