"""The tables of tools/measure of the library for C: what a pair takes, and the crawler beside curl."""
import os
import resource
import statistics
import subprocess
import sys
import tempfile
import time

from program import TOP
from real_servers import nginx

from .commands import need, run, show, stop

URLS, ROUNDS = 10_000, 7
AT_ONCE = 64


def installed(room):
    """The library, installed there."""
    prefix = os.path.join(room, "prefix")
    run([os.path.join(TOP, "tools", "install-c"), prefix])
    return prefix


def built(source, prefix, room, *options):
    """A program over the library."""
    need("cc")
    program = os.path.join(room, os.path.basename(source).removesuffix(".c"))
    run(["cc", "-O2", *options, "-I", os.path.join(prefix, "include"), "-o", program, os.path.join(TOP, source),
         os.path.join(prefix, "lib", "libcurlpool.a"), "-lpthread"])
    return program


def pairs(a_round):
    """What a pair of acquire and give back takes, while other leases are out."""
    with tempfile.TemporaryDirectory() as room:
        program = built("tools/measuring/c_pairs.c", installed(room), room)
        rows = [(leases, a_round([program, "facts", str(leases)]), a_round([program, "read", str(leases)]))
                for leases in (1, 1_000)]
    show(("other leases", "`acquire`, `give_back_as`", "`acquire`, `begin`, `feed`, `give_back`"), rows)


def cost_of(words):
    """The seconds that a command takes, by the clock and of the processor."""
    before, begin = resource.getrusage(resource.RUSAGE_CHILDREN), time.monotonic()
    done = subprocess.run(words, stdin=subprocess.DEVNULL, stdout=subprocess.DEVNULL, stderr=subprocess.PIPE, check=False)
    seconds, after = time.monotonic() - begin, resource.getrusage(resource.RUSAGE_CHILDREN)
    if done.returncode != 0:
        stop(f"{' '.join(words)} ended with {done.returncode}: {done.stderr[-500:]}")
    return seconds, after.ru_utime + after.ru_stime - before.ru_utime - before.ru_stime


def written(room, name, lines):
    path = os.path.join(room, name)
    with open(path, "w", encoding="utf8") as file:
        file.writelines(lines)
    return path


def crawl():
    """The crawler beside curl, on the same URLs of a local nginx."""
    need("curl")
    if not nginx.found():
        stop("nginx is not installed")
    with tempfile.TemporaryDirectory() as room, nginx.running() as ports:
        crawler = built("c/examples/crawl.c", installed(room), room, "-std=gnu11")
        urls = [f"http://127.0.0.1:{ports['nginx']}/{1 + number % nginx.MOST_BYTES}" for number in range(URLS)]
        lists = {"crawl": written(room, "urls", (f"{url}\n" for url in urls)),
                 "curl": written(room, "config", (f'url = "{url}"\noutput = "/dev/null"\n' for url in urls))}
        commands = {
            "`c/examples/crawl.c`, `-n 64 -h 64`": [crawler, "-n", str(AT_ONCE), "-h", str(AT_ONCE), lists["crawl"]],
            "`curl -Z --parallel-max 64`": ["curl", "-q", "-s", "-Z", "--parallel-max", str(AT_ONCE), "-K",
                                            lists["curl"]],
        }
        found = {name: [] for name in commands}
        for _ in range(ROUNDS):
            for name, words in commands.items():
                found[name].append(cost_of(words))
    rows = []
    for name, costs in found.items():
        clock, processor = (statistics.median(column) for column in zip(*costs, strict=True))
        rows.append((name, round(URLS / clock), f"{1e6 * processor / URLS:.0f}"))
    show(("program", "requests a second", "processor microseconds a request"), rows)
    print(f"Medians of {ROUNDS} rounds of {URLS:,} URLs of a local nginx, whose own work is not counted.\n", file=sys.stdout)
