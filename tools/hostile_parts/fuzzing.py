"""The reader of responses: mutated responses of a corpus, read at once and in pieces, and rows that state its reports."""
import os
import re
import subprocess

from program import TOP, built_tries

from . import corpus
from .parts import Part, Wrong, check

SEED, COUNT = 40, 1_000_000
SECONDS = 600
ROWS = os.path.join(TOP, "tests", "responses.rows")
# from which it is known that a corpus is read, and that all its kinds of ends are met
LISTED = 20_000
ENDS = {"whole", "surplus", "until-end", "more", "BadHead", "BadLength", "BadChunk", "HeadTooLong", "TooManyInterims", "TrailerTooLong"}


def fuzz(*words):
    """What the program writes, and its status."""
    done = subprocess.run([built_tries(), "fuzz", *map(str, words)], input=corpus.text(), stdout=subprocess.PIPE, timeout=SECONDS)
    return done.returncode, done.stdout.decode()


def listed(seed, count):
    """The lines of so many responses: the bytes, the method, the status, the framing, the body's length, and the end."""
    status, text = fuzz(seed, count, "LIST")
    if status != 0:
        raise Wrong(f"status {status}: {text[-2000:]}")
    for line in text.splitlines()[:-1]:
        bytes_, method, code, framing, length, end = line.split()
        yield bytes.fromhex(bytes_[1:]), method, int(code), framing, int(length), end


def both_ways():
    status, text = fuzz(SEED, COUNT)
    check(status == 0 and text == f"{COUNT} responses, 0 differ\n", f"status {status}: {text[:2000]}")
    return f"{COUNT:,} from a corpus of {len(corpus.responses())}, at once and in drawn pieces: none differs"


def ends():
    met = {end for *_, end in listed(SEED, LISTED)}
    check(met == ENDS, f"the ends {sorted(ENDS - met)} were not met")
    return f"{LISTED:,} of them end in each of {len(ENDS)} ways"


def rows():
    """Each row of tests/responses.rows holds: at once, byte by byte, and cut in two at each byte."""
    done = subprocess.run([built_tries(), "read", ROWS], stdout=subprocess.PIPE, encoding="utf8", timeout=SECONDS)
    found = re.search(r"^(\d+) rows, 0 wrong\n\Z", done.stdout, re.MULTILINE)
    with open(ROWS, encoding="utf8") as file:
        count = sum(1 for line in file if line.strip() and not line.startswith("#"))
    check(done.returncode == 0 and found and int(found[1]) == count, f"status {done.returncode}: {done.stdout[-2000:]}")
    return f"{count} rows, each cut at every byte"


PARTS = [
    Part("fuzzing: rows of responses", rows),
    Part("fuzzing: responses at once and in pieces", both_ways),
    Part("fuzzing: responses end in each way", ends),
]
