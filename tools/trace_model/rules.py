"""Every rule, as a function that gives a finding if the rule is broken, and the order in which they are told.

A rule is named for its function, with `-` for `_`. The rules of an event ask the history before it.
"""
from dataclasses import dataclass, replace

from trace_model import lines
from trace_model.history import History, Host

IDLE_CAUSES = ("too-old", "host-room", "total-room", "cache-full", "pruned")
HOLDER_CAUSES = ("dropped", "withdrawn")
ENDING_CAUSES = ("cut", "forbidden", "not-persistent")


@dataclass(frozen=True)
class Earlier:
    """The earlier line that matters, and what happened there."""

    line: int
    text: str


@dataclass(frozen=True)
class Finding:
    """What is wrong, and the earlier line that matters, if there is one."""

    text: str
    earlier: Earlier | None = None
    # the same with another idle connection, if several are idle: any of them may be named
    others: tuple["Finding", ...] = ()


@dataclass(frozen=True)
class Case:
    """An event, the host that it happened at, and what its transfer wants, if that is known."""

    event: lines.Event
    host: Host
    want: lines.Want | None

    def connection(self):
        return self.host.connections.get(self.event.connection)

    def name(self):
        return self.host.name_of(self.event.connection)


def start_of(host, connection):
    return Earlier(connection.start_line,
                   f"transfer {connection.holder.transfer} got {host.name_of(connection.number)}")


def return_of(host, connection):
    return Earlier(connection.return_line, f"{host.name_of(connection.number)} came back")


def wait_of(waiter):
    return Earlier(waiter.line, f"transfer {waiter.want.transfer} began to wait")


def seconds(count):
    return "1 second" if count == 1 else f"{count} seconds"


def any_of(findings):
    """The first of these findings, with the others beside it, or nothing."""
    first, *others = [*findings] or [None]
    return replace(first, others=tuple(others)) if first else None


# any event

def earlier(case):
    host = case.host
    if case.event.moment < host.moment:
        return Finding(f"before moment {host.moment}, that of the host's last event",
                       Earlier(host.line, f"the last event of host {host.index}"))


# starts

def full(case):
    count, limit = len(case.host.connections), case.host.limit
    if count >= limit:
        return Finding(f"past the host limit: {count} open, limit {limit}")


def not_first(case):
    first = case.host.first_waiter()
    if first and first.want.transfer != case.event.transfer:
        return Finding(f"not the first waiter: transfer {first.want.transfer} waits before", wait_of(first))


def holds(case):
    connection = case.host.held.get(case.event.transfer)
    if connection:
        name = case.host.name_of(connection.number)
        return Finding(f"transfer {case.event.transfer} holds {name} already", start_of(case.host, connection))


# a connection

def not_open(case):
    if case.connection() is None:
        return Finding(f"{case.name()} isn't open")


def ended(case):
    connection = case.connection()
    if connection.ending:
        return Finding(f"reused after {connection.ending.text}", return_of(case.host, connection))


def in_use(case):
    connection = case.connection()
    asks_idle = isinstance(case.event, lines.Leased) or case.event.cause in IDLE_CAUSES
    if asks_idle and not connection.is_idle():
        return Finding(f"in use: transfer {connection.holder.transfer} holds it", start_of(case.host, connection))


def other_lane(case):
    lane, want = case.connection().lane, case.want
    if want and lane != want.lane:
        return Finding(f"another lane: {lane}, and transfer {want.transfer} wants lane {want.lane}")


def wants_new(case):
    if case.want and case.want.is_fresh:
        return Finding(f"transfer {case.want.transfer} wants a new connection")


def idle_too_long(case):
    connection, want = case.connection(), case.want
    age = case.event.moment - connection.since
    if want and age > want.max_age:
        return Finding(f"idle for {seconds(age)}, and transfer {want.transfer} accepts {want.max_age}",
                       return_of(case.host, connection))


def open_too_long(case):
    want, life = case.want, case.event.moment - case.connection().born
    if want and want.max_life and life > want.max_life:
        return Finding(f"open for {seconds(life)}, and transfer {want.transfer} accepts {want.max_life}")


def not_held(case):
    connection, event = case.connection(), case.event
    if isinstance(event, lines.Closed):
        is_broken = event.cause in HOLDER_CAUSES and connection.is_idle()
        return Finding("nobody holds it") if is_broken else None
    if connection.ending:
        return Finding(f"{case.name()} came back already")
    if connection.is_idle():
        return Finding(f"transfer {event.transfer} doesn't hold it: nobody does")
    if connection.holder.transfer != event.transfer:
        return Finding(f"transfer {event.transfer} doesn't hold it: transfer {connection.holder.transfer} does")


def other_cause(case):
    connection, cause = case.connection(), case.event.cause
    if connection.ending and cause not in (None, connection.ending.cause):
        return Finding(f"it came back to be closed as {connection.ending.cause}", return_of(case.host, connection))


def not_owed(case):
    if case.event.cause in ENDING_CAUSES and not case.connection().ending:
        return Finding("no response ended its use")


# the queue, and the limit

def waits_already(case):
    waiter = case.host.waiters.get(case.event.transfer)
    if waiter:
        return Finding(f"transfer {case.event.transfer} waits already", wait_of(waiter))


def beside_idle(case):
    return any_of(Finding(f"waits beside an idle connection, {case.host.name_of(connection.number)}",
                          return_of(case.host, connection)) for connection in case.host.idle())


def not_waiting(case):
    if case.event.transfer not in case.host.waiters:
        return Finding(f"transfer {case.event.transfer} doesn't wait")


def below_open(case):
    count = len(case.host.connections)
    if case.event.limit < count:
        return Finding(f"{count} are open")


# at rest

def total(history: History):
    count = history.open_len()
    if count > history.total:
        return Finding(f"past the total: {count} open, total {history.total}")


def kept(history: History):
    count = history.idle_len()
    if count > history.most_kept:
        return Finding(f"past the kept limit: {count} idle, {history.most_kept} kept at most")


def waiter_idle(host: Host):
    waiter = host.first_waiter()
    return any_of(Finding(f"a waiter beside an idle connection: transfer {waiter.want.transfer} waits, "
                          f"{host.name_of(connection.number)} is idle", wait_of(waiter))
                  for connection in (host.idle() if waiter else ()))


def waiter_room(history: History, host: Host):
    waiter, count = host.first_waiter(), len(host.connections)
    if waiter and count < host.limit and (history.open_len() < history.total or history.idle_len() > 0):
        return Finding(f"a waiter beside room: transfer {waiter.want.transfer} waits, "
                       f"{count} of {host.limit} are open at host {host.index}", wait_of(waiter))


ORDER = {
    lines.Opened: (earlier, full, not_first, holds),
    lines.Leased: (earlier, not_open, ended, in_use, other_lane, wants_new, idle_too_long, open_too_long, not_first,
                   holds),
    lines.Returned: (earlier, not_open, not_held),
    lines.Closed: (earlier, not_open, other_cause, not_held, not_owed, in_use),
    lines.Waits: (earlier, holds, waits_already, beside_idle),
    lines.Left: (earlier, not_waiting),
    lines.NewLimit: (earlier, below_open),
}
AT_REST = (total, kept, waiter_idle, waiter_room)


def name_of(rule):
    return rule.__name__.replace("_", "-")


# all rules, each once, in the order in which they are told
NAMES = tuple(dict.fromkeys(name_of(rule) for rules in (*ORDER.values(), AT_REST) for rule in rules))


def first_broken(case):
    """The first rule that the event breaks, and the finding, or nothing."""
    for rule in ORDER[type(case.event)]:
        finding = rule(case)
        if finding:
            return name_of(rule), finding
    return None
