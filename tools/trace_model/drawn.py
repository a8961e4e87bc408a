"""Random traces: lawful ones, ones that break a rule on purpose, damaged ones, and soups of random lines."""
from typing import NamedTuple

from trace_model.audit import Audit
from trace_model.breaking import BREAKERS, Site
from trace_model.reading import CAUSES, KINDS, Unreadable
from trace_model.scripted import random_trace
from trace_model.variants import varied

TRIES = 8
WORDS = ("get", "back", "opened", "leased", "returned", "closed", "waits", "left", "limit", "limits", "site", "rest",
         "at", "for", "to", "by", "host", "fresh", "forbid", "age", *KINDS, *CAUSES, "0", "1", "2", "0.1", "1.1",
         "65536", "4294967296", "18446744073709551616", "x")


class Drawn(NamedTuple):
    """A random trace: the way in which it was drawn, and its bytes."""

    way: str
    text: bytes


def draw(rng, number):
    """The trace of that number: of twenty, five are a pool's, ten break a rule, two are damaged, three soups."""
    place = number % 20
    if place < 5:
        return Drawn("scripted", text_of(rng, varied(rng, scripted(rng))))
    if place < 15:
        rule = list(BREAKERS)[(number // 20 * 10 + place - 5) % len(BREAKERS)]
        return Drawn(rule, text_of(rng, broken(rng, rule)))
    if place < 17:
        return Drawn("damaged", text_of(rng, damaged(rng, varied(rng, scripted(rng)))))
    return Drawn("soup", text_of(rng, soup(rng)))


def scripted(rng):
    return random_trace(rng, rng.random() < 0.2)


def text_of(rng, trace):
    """The bytes of a trace, with one of two line ends, and now and then without the last."""
    end = rng.choice(("\n", "\n", "\n", "\r\n"))
    text = "".join(f"{line}{end}" for line in trace)
    return (text.removesuffix(end) if rng.random() < 0.05 else text).encode()


# one rule is broken

def broken(rng, rule):
    """A trace that breaks the rule somewhere, or after some tries one that doesn't."""
    for _ in range(TRIES):
        trace = varied(rng, scripted(rng))
        place, lines = place_to_break(rng, trace, BREAKERS[rule])
        if lines:
            return [*trace[:place], *lines, *trace[place:]]
    return trace


def place_to_break(rng, trace, breaker):
    """A random place of those at which the rule can be broken, and the lines that do so."""
    run, way, found, place_found, lines_found = Audit(tells_all=True), rng.random(), 0, None, None
    for place, line in enumerate(trace, 1):
        try:
            run.read(place, line.encode())
        except Unreadable:
            break
        if run.report.violations:
            break
        hosts = [host for host in run.history.hosts if host.opened or host.waiters] if run.history else []
        lines = breaker(Site(rng, run.history, rng.choice(hosts), way)) if hosts else None
        if lines:
            found += 1
            if rng.randrange(found) == 0:
                place_found, lines_found = place, lines
    return place_found, lines_found


# damage

def damaged(rng, trace):
    """One to three lines lost, doubled, swapped, or changed in a word."""
    trace = list(trace)
    for _ in range(rng.choice((1, 1, 2, 3))):
        # the first lines too, which are few
        place = rng.randrange(min(len(trace), 4) if rng.random() < 0.15 else len(trace))
        way = rng.random()
        if way < 0.25:
            trace.insert(place, trace[rng.randrange(len(trace))])
        elif way < 0.45 and len(trace) > 1:
            del trace[place]
        elif way < 0.6 and place > 0:
            trace[place - 1], trace[place] = trace[place], trace[place - 1]
        elif way < 0.62:
            trace[place] = trace[place].ljust(rng.choice((2_304, 2_305)))
        else:
            trace[place] = with_other_word(rng, trace[place])
    return trace


def with_other_word(rng, line):
    words = line.split() or [""]
    place = rng.randrange(len(words))
    if words[place].isdigit() and rng.random() < 0.6:
        words[place] = str(max(0, int(words[place]) + rng.choice((-2, -1, 1, 1, 2, 100))))
    else:
        words[place:place + rng.choice((0, 1, 1))] = [rng.choice(WORDS)]
    return " ".join(words)


# soups

def soup(rng):
    """Random lines of few transfers, connections and moments."""
    hosts, now = rng.choice((1, 1, 2)), 0
    trace = ["limits {} {} {}".format(rng.choice((0, 1, 2, 2)), rng.choice((0, 0, 1, 2, 3)), rng.choice((1, 1, 2)))]
    trace += [f"site http://h{host}.test/" for host in range(hosts)]
    trace = ["order host", *trace] if rng.random() < 0.1 else trace
    if rng.random() < 0.2:
        trace.append("rest")
    for _ in range(rng.randint(3, 30)):
        now += rng.choice((0, 0, 0, 1, 1, 2, 60, 119))
        moment = max(0, now - 1) if rng.random() < 0.03 else now
        trace += pinch(rng, rng.randrange(hosts), moment)
    return trace


def pinch(rng, host, now):
    """One or two random lines."""
    transfer, connection = rng.randint(1, 3), f"{host}.{rng.randint(1, 3)}"
    options = rng.choice(("", "", "", "", " age 1", " life 60", " fresh", " forbid", " forbid age 0 life 1"))
    get = [f"get {transfer} {host} {rng.choice((0, 0, 0, 1))} at {now}{options}"] if rng.random() < 0.9 else []
    kind = rng.choice(("keep", "keep", "keep", *KINDS))
    back = [f"back {transfer} {host} {kind} at {now}"] if rng.random() < 0.95 else []
    cause = rng.choice(("", "", *CAUSES))
    lines = {
        "opened": [*get, f"opened {connection} for {transfer} at {now}"],
        "leased": [*get, f"leased {connection} to {transfer} at {now}"],
        "returned": [*back, f"returned {connection} by {transfer} at {now}"],
        "closed": [" ".join(f"closed {connection} {cause} at {now}".split())],
        "waits": [*get, f"waits {transfer} host {host} at {now}"],
        "left": [f"left {transfer} host {host} at {now}"],
        "limit": [f"limit {host} {rng.randint(0, 3)} at {now}"],
        "rest": [rng.choice(("rest", "upkeep", f"look {host}", f"claim {transfer} {host}", f"prune 5 0 at {now}"))],
    }
    return lines[rng.choices(list(lines), (6, 4, 5, 3, 2, 1, 1, 2))[0]]
