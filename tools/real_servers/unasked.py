"""What curl and curlpool make of a response that nobody asked for."""
import os
import shutil

from kept_programs import FIRST, Kept
from program import is_current

from . import programs
from .cases import UNASKED
from .places import started
from .servers import LATER, SOON

ASKED = f"""\
Server A sends, {SOON * 1_000:.0f} ms after each response, a whole one of 7 bytes, unsolicited.
Asked in turn: 1 byte of A; 2 bytes of B, which takes {LATER} ms; 3 bytes of A again."""


def by_curl():
    """What curl answers, in lines as those of curlpool get; nothing where there is no curl."""
    if shutil.which("curl") is None:
        return []
    words = ["curl", "-q", "-s", "--noproxy", "*", "-w", "%{http_code} %{size_download} %{num_connects}\n"]
    with started(UNASKED, {}) as places:
        for url in places.urls:
            words += ["-o", "/dev/null", url]
        answers = [line.split() for line in programs.run(words).output.splitlines()]
    return [f"{status} {length} {'reused' if connects == '0' else 'new'} {url}"
            for url, (status, length, connects) in zip(places.urls, answers, strict=False)]


def name_of_curl():
    """Its name and its version, or that there is none."""
    if shutil.which("curl") is None:
        return "no curl"
    return " ".join(programs.run(["curl", "--version"]).output.split()[:2])


def length_by_curl():
    """How many bytes curl gives for the last of the requests, in words."""
    lines = by_curl()
    return f"{name_of_curl()}: {lines[-1].split()[1]} bytes for 3" if len(lines) == UNASKED.requests else name_of_curl()


def said_of_wait():
    """That curlpool is compiled first, if no program of the present sources is there."""
    is_there = os.environ.get("PROGRAM") or is_current() or Kept().found(FIRST)
    return "" if is_there else " (compiled first, which takes minutes)"


def show():
    """Prints what both answer; gives whether curlpool answered what was asked for."""
    print(ASKED, name_of_curl(), *map(remarked, by_curl()), f"curlpool get{said_of_wait()}", sep="\n", flush=True)
    with started(UNASKED, {}) as places:
        run = programs.get(places.urls)
    lines = run.output.splitlines()
    print(*map(remarked, lines or run.errors.splitlines()[-3:]), sep="\n")
    return [[line] for line in lines] == list(UNASKED.lines(places.urls))


def remarked(line):
    """The line, which says so where a response has not as many bytes as its URL asks for."""
    status, _, rest = line.partition(" ")
    length, asked = rest.split(" ")[0], line.rpartition("/")[2]
    is_wrong = status.isdigit() and length != asked
    return f"  {line} (not the {asked} bytes that were asked for)" if is_wrong else f"  {line}"
