"""Too few descriptors: connections that cannot be opened fail, and nothing else does."""
import json
import re

from program import built_tries
from real_servers import servers
from real_servers.servers import nobody

from .parts import Part, check, check_same
from .peers import GOOD, TOTALS, listening, path_of
from .programs import curlpool, run

PORTS, DESCRIPTORS = 40, 16
REFUSED_LOADS = {"cannot listen", "cannot start thread", "poll failed", "out of memory"}


def under(descriptors, words):
    """Runs the command with so many descriptors at most."""
    return run(["sh", "-c", f'ulimit -n {descriptors}; exec "$@"', "sh", *words])


def get():
    """Each connection is left open, so from some URL on there is no descriptor for another one."""
    with listening(*[servers.lasts] * PORTS) as hosts:
        urls = [f"http://127.0.0.1:{server.port}/{number}" for number, server in enumerate(hosts, 1)]
        done = under(DESCRIPTORS, [curlpool(), "get", *urls])
    good = done.output.count(" new ")
    wanted = [f"200 {number} new {url}\n" if number <= good else f"Dial {url}\n" for number, url in enumerate(urls, 1)]
    check_same(done, (4, "".join(wanted), f"run: {PORTS - good} of {PORTS} failed\n"), "get")
    check(DESCRIPTORS // 2 <= good < DESCRIPTORS, f"{good} were answered")
    return f"{good} of {PORTS} were answered under {DESCRIPTORS} descriptors, {PORTS - good} Dial"


def is_answered(number, line):
    """Whether the job got its own answer; one that did not could not dial."""
    good = GOOD.fullmatch(line)
    is_own = good and (good[2], good[5]) == (str(number), path_of(number))
    check(is_own or line == f"Dial {path_of(number)}", f"job {number}: `{line}`")
    return bool(good)


def threads():
    """Threads that want more connections than there are descriptors."""
    good = jobs = 0
    for descriptors in range(6, 60, 6):
        with listening(*[servers.takes(0.002)] * 2) as hosts:
            ports = (str(one.port) for one in hosts)
            done = under(descriptors, [built_tries(), "load", "each", "16", "0", "200", *ports])
        if done.status == 1 and not done.output:
            continue
        *lines, totals = done.output.splitlines() or [""]
        found = TOTALS.fullmatch(totals)
        check(done.status == 0 and found and len(lines) == 200, f"under {descriptors}: {done.told()}")
        good += sum(is_answered(number, line) for number, line in enumerate(lines))
        jobs += len(lines)
        check(int(found[5]) == int(found[6]) + int(found[7]), f"under {descriptors}: {totals}")
    check(0 < good < jobs, f"{good} of {jobs} were answered")
    return f"{good} of {jobs} were answered, the others could not dial"


def load():
    """A load has a report, or says why there is none."""
    told = set()
    for descriptors in range(4, 40, 3):
        done = under(descriptors, [curlpool(), "load", "--jobs", "200", "--workers", "16"])
        text = done.errors.removeprefix("run: ").removesuffix("\n")
        is_report = done.status == 0 and re.search(r"^jobs +200 ", done.output, re.MULTILINE) and not done.errors
        check(is_report or (done.status == 4 and not done.output and text in REFUSED_LOADS),
              f"under {descriptors}: {done.told()}")
        told.add(text or "a report")
    return ", ".join(sorted(told))


def many_at_once():
    """Each job of a load has one result, the account balances, and nothing is left leased beside what is open."""
    good = jobs = 0
    with listening(servers.lasts) as [server]:
        for descriptors in range(15, 90, 15):
            done = under(descriptors, [curlpool(), "load", "--url", f"http://127.0.0.1:{server.port}/2", "--jobs", "200",
                                       "--connections", "64", "--json", "--quiet"])
            if done.status == 4 and done.errors.removeprefix("run: ").removesuffix("\n") in REFUSED_LOADS:
                continue
            told = json.loads(done.output)
            account = told["connections"]
            check(told["good"] + told["failed"] == 200 and told["faults"]["Dial"] == told["failed"], done.told())
            check_same(account["opened"] - account["closed"], account["open"], f"under {descriptors}")
            good, jobs = good + told["good"], jobs + 200
    check(0 < good < jobs, f"{good} of {jobs} were answered")
    return f"{good} of {jobs} were answered, the others could not dial"


def dials_that_fail():
    """Connections that are refused leave no descriptor: many fit among few."""
    with nobody() as port:
        urls = [f"http://127.0.0.1:{port}/{number}" for number in range(200)]
        done = under(DESCRIPTORS, [curlpool(), "get", *urls])
    check_same(done, (4, "".join(f"Dial {url}\n" for url in urls), "run: 200 of 200 failed\n"), "get")
    return "200 Dial"


PARTS = [
    Part("descriptors: curlpool get of many ports", get),
    Part("descriptors: refused connections leave none", dials_that_fail),
    Part("descriptors: threads that want too many", threads),
    Part("descriptors: curlpool load", load),
    Part("descriptors: many requests at once", many_at_once),
]
