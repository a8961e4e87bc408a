"""Other traces of the same pool: as another pool would number, or another recorder would write. Traces are lists of
lines of text."""
import re

ENDING_CAUSES = ("cut", "forbidden", "not-persistent")
HEAD = ("order", "limits", "site")
ASKS = ("get", "claim", "back", "drop", "leave", "prune", "look", "upkeep")
GREATEST = 2 ** 64 - 1


def host_of(line):
    """The host of a line, if it has one."""
    name, *words = line.split() or [""]
    if name in ("opened", "leased", "returned", "closed"):
        return int(words[0].partition(".")[0])
    if name in ("get", "claim", "back", "drop", "leave"):
        return int(words[1])
    if name in ("waits", "left"):
        return int(words[2])
    return int(words[0]) if name in ("limit", "look") else None


def head_len(trace):
    """How many lines stand before the first one that asks or says."""
    return next((place for place, line in enumerate(trace) if line.split()[0] not in HEAD), len(trace))


def moment_of(line):
    return int(line.split()[-1])


def without_causes(rng, trace):
    """Some causes of closes are left out."""
    share = rng.choice((0.3, 1))
    return [re.sub(r"^(closed \S+) \S+ at", r"\1 at", line) if rng.random() < share else line for line in trace]


def without_waits(_, trace):
    """No wait is told, and so no end of one."""
    return [line for line in trace if line.split()[0] not in ("waits", "left")]


def renumbered(rng, trace):
    """Connections have other numbers, some of them that of a closed one."""
    names, told = {}, []
    for line in trace:
        words = line.split()
        if words[0] in ("opened", "leased", "returned", "closed"):
            host = words[1].partition(".")[0]
            if words[0] == "opened":
                used = {name for name in names.values() if name.startswith(f"{host}.")}
                free = [f"{host}.{number}" for number in (0, 1, 2, 3, 4, rng.randint(5, GREATEST))]
                names[words[1]] = rng.choice([name for name in free if name not in used])
            old = words[1]
            words[1] = names[old]
            if words[0] == "closed":
                del names[old]
        told.append(" ".join(words))
    return told


def closed_later(rng, trace):
    """Connections that came back to be closed are closed some lines later."""
    told = list(trace)
    for place in range(len(told) - 1, -1, -1):
        words = told[place].split()
        if words[0] == "closed" and words[2] in ENDING_CAUSES and rng.random() < 0.6:
            host = host_of(told.pop(place))
            later = min(place + rng.randint(1, 12), len(told))
            moment = max([int(words[-1]), *(moment_of(line) for line in told[place:later] if is_event_of(line, host))])
            told.insert(later, " ".join([*words[:-1], str(moment)]))
    return told


def is_event_of(line, host):
    return " at " in line and line.split()[0] not in ASKS and host_of(line) == host


def with_rests(rng, trace):
    """The trace says itself when the pool is at rest: between commands, but seldom."""
    first = head_len(trace)
    told = [*trace[:first], "rest"]
    for line in trace[first:]:
        if line.split()[0] in ASKS and rng.random() < 0.2:
            told.append("rest")
        told.append(line)
    return told


def by_host(rng, trace):
    """The lines of each host are in order, but not those of two hosts."""
    first = head_len(trace)
    parts = {}
    for line in trace[first:]:
        parts.setdefault(host_of(line), []).append(line)
    told = ["order host", *trace[:first]]
    while parts:
        host = rng.choice(list(parts))
        told.append(parts[host].pop(0))
        if not parts[host]:
            del parts[host]
    return told


def spelled(rng, trace):
    """Comments, blank lines, spaces and leading zeros that change nothing."""
    told = []
    for line in trace:
        if rng.random() < 0.05:
            told.append(rng.choice(("", "# a comment", "   ", "claimed 0.1", "refused stranger", "upkeep 0")))
        share = 0 if line == "upkeep 0" else 0.1
        words = [f"0{word}" if word.isdigit() and rng.random() < share else word for word in line.split()]
        told.append(rng.choice((" ", " ", " ", "  ")).join(words) + rng.choice(("", "", "", " ")))
    return told


VARIANTS = (without_causes, without_waits, renumbered, closed_later, with_rests, by_host, spelled)


def varied(rng, trace):
    """The trace with one variant, with two, or as it is; the variants keep their order."""
    count = rng.choice((0, 0, 1, 1, 2))
    for variant in sorted(rng.sample(VARIANTS, count), key=VARIANTS.index):
        trace = variant(rng, trace)
    return trace
