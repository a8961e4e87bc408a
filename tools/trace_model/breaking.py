"""For each rule, lines that break it if they stand at a place of a lawful trace.

A breaker is asked at a place, of a host with what happened there so far, and gives the lines to insert, or nothing if
the rule can't be broken there so. Its transfers and connections are new ones, so that one rule is broken at a time.
"""
from dataclasses import dataclass
from random import Random

from trace_model.history import History, Host
from trace_model.rules import ENDING_CAUSES, HOLDER_CAUSES, IDLE_CAUSES

NEW_TRANSFER, NEW_CONNECTION = 1_000, 5_000
PERSISTENT_KINDS = ("keep", "keep", "old-keep")


@dataclass
class Site:
    """A host at a place of a trace, and the hand that draws. The way, from 0 to 1, is the same at all places of a
    trace: of several ways to break a rule, one is drawn before the place is."""

    rng: Random
    history: History
    host: Host
    way: float

    def moment(self):
        return self.host.moment + self.rng.choice((0, 0, 1))

    def rest(self):
        """A line at which the pool is judged at rest."""
        return self.rng.choice(("rest", f"look {self.host.index}"))

    def transfer(self):
        return NEW_TRANSFER + self.rng.randrange(100)

    def connection(self):
        return NEW_CONNECTION + self.rng.randrange(100)

    def one_of(self, connections):
        """The name and the value of one of the connections, or nothing."""
        found = [one for one in self.host.connections.values() if connections(one)]
        return self.rng.choice(found) if found else None

    def idle(self):
        return self.one_of(lambda one: one.is_idle())

    def held(self):
        return self.one_of(lambda one: not one.is_idle() and not one.ending)

    def owed(self):
        return self.one_of(lambda one: one.ending)

    def is_full(self):
        return len(self.host.connections) >= self.host.limit

    def has_room(self):
        return not self.is_full() and self.history.open_len() < self.history.total

    def get(self, transfer, lane=0, options=""):
        return f"get {transfer} {self.host.index} {lane} at {self.host.moment} {options}".rstrip()

    def back(self, transfer, kind):
        return f"back {transfer} {self.host.index} {kind} at {self.host.moment}"

    def opened(self, connection, transfer):
        return f"opened {self.host.index}.{connection} for {transfer} at {self.moment()}"

    def leased(self, connection, transfer, moment=None):
        moment = self.moment() if moment is None else moment
        return f"leased {self.host.index}.{connection} to {transfer} at {moment}"

    def returned(self, connection, transfer):
        return f"returned {self.host.index}.{connection} by {transfer} at {self.moment()}"

    def closed(self, connection, cause=""):
        return " ".join(f"closed {self.host.index}.{connection} {cause} at {self.moment()}".split())

    def waits(self, transfer):
        return f"waits {transfer} host {self.host.index} at {self.moment()}"

    def left(self, transfer):
        return f"left {transfer} host {self.host.index} at {self.moment()}"

    def limit(self, limit, moment=None):
        return f"limit {self.host.index} {limit} at {self.moment() if moment is None else moment}"


def earlier(site):
    host, transfer = site.host, site.transfer()
    if host.moment == 0:
        return None
    moment = host.moment - site.rng.randint(1, min(host.moment, 3))
    idle, held = site.idle(), site.held()
    events = {
        "opened": [site.get(transfer), site.opened(site.connection(), transfer)],
        "leased": idle and [site.get(transfer, idle.lane), site.leased(idle.number, transfer)],
        "returned": held and not held.holder.forbids_reuse and [
            site.back(held.holder.transfer, "keep"), site.returned(held.number, held.holder.transfer)],
        "closed": idle and [site.closed(idle.number)],
        "waits": [site.get(transfer), site.waits(transfer)],
        "left": host.waiters and [site.left(site.rng.choice(list(host.waiters)))],
        "limit": [site.limit(host.limit)],
    }
    lines = list(events.values())[int(site.way * len(events))]
    return lines and [*lines[:-1], f"{lines[-1].rpartition(' ')[0]} {moment}"]


def full(site):
    transfer = site.transfer()
    return [site.get(transfer), site.opened(site.connection(), transfer)] if site.is_full() else None


def not_first(site):
    waiters, transfer, idle = list(site.host.waiters), site.transfer(), site.idle()
    if not waiters:
        return None
    if site.way < 0.2:
        # without a line that asks, at which the pool would be at rest
        return [site.leased(idle.number, transfer)] if idle else None
    if site.is_full():
        return None
    if site.way < 0.6:
        return [site.opened(site.connection(), site.rng.choice(waiters[1:]))] if waiters[1:] else None
    asks = [site.get(transfer)] if site.way < 0.9 else []
    return [*asks, site.opened(site.connection(), transfer)]


def holds(site):
    if not site.host.held:
        return None
    transfer, idle = site.rng.choice(list(site.host.held)), site.idle()
    asks = [site.get(transfer)] if site.rng.random() < 0.7 else []
    if site.way < 0.4:
        return [*asks, site.waits(transfer)]
    if site.host.waiters:
        return None
    if site.way < 0.7:
        return [site.get(transfer, idle.lane, "age 1000000"), site.leased(idle.number, transfer)] if idle else None
    return None if site.is_full() else [*asks, site.opened(site.connection(), transfer)]


def not_open(site):
    connection, transfer = site.connection(), site.transfer()
    if site.way < 0.3:
        return [site.closed(connection, site.rng.choice(("", "dropped", "cut", "pruned")))]
    if site.way < 0.6:
        return [site.back(transfer, "keep"), site.returned(connection, transfer)]
    return [site.get(transfer), site.leased(connection, transfer)]


def ended(site):
    owed, transfer = site.owed(), site.transfer()
    return [site.get(transfer, owed.lane), site.leased(owed.number, transfer)] if owed else None


def in_use(site):
    held, transfer = site.held(), site.transfer()
    if not held:
        return None
    if site.way < 0.5:
        return [site.closed(held.number, site.rng.choice(IDLE_CAUSES))]
    return [site.get(transfer, held.lane), site.leased(held.number, transfer)]


def other_lane(site):
    idle, transfer = site.idle(), site.transfer()
    return [site.get(transfer, idle.lane + 1), site.leased(idle.number, transfer)] if idle else None


def wants_new(site):
    idle, transfer = site.idle(), site.transfer()
    if not idle:
        return None
    options = site.rng.choice(("fresh", "fresh age 0", "forbid fresh"))
    return [site.get(transfer, idle.lane, options), site.leased(idle.number, transfer)]


def idle_too_long(site):
    idle, transfer = site.idle(), site.transfer()
    if not idle:
        return None
    age = site.rng.choice((0, 1, 5, 118))
    # now and then at the bound itself, which is lawful
    moment = max(site.host.moment, idle.since + age + site.rng.choice((0, 1, 1, 1, 2)))
    options = "" if age == 118 else f"age {age}"
    return [site.get(transfer, idle.lane, options), site.leased(idle.number, transfer, moment)]


def open_too_long(site):
    idle, transfer = site.idle(), site.transfer()
    if not idle:
        return None
    life = site.rng.choice((1, 2, 10))
    moment = max(site.host.moment, idle.born + life + site.rng.choice((0, 1, 1, 1, 2)))
    options = f"life {life} age {moment}"
    return [site.get(transfer, idle.lane, options), site.leased(idle.number, transfer, moment)]


def not_held(site):
    transfer, kind = site.transfer(), site.rng.choice(("keep", "close"))
    if site.way < 0.25:
        idle = site.idle()
        return [site.closed(idle.number, site.rng.choice(HOLDER_CAUSES))] if idle else None
    if site.way < 0.5:
        found = site.owed()
        transfer = site.rng.choice((transfer, found.holder.transfer)) if found else transfer
    else:
        found = site.idle() if site.way < 0.75 else site.held()
    return [site.back(transfer, kind), site.returned(found.number, transfer)] if found else None


def other_cause(site):
    owed = site.owed()
    if not owed:
        return None
    others = [cause for cause in (*ENDING_CAUSES, *HOLDER_CAUSES, *IDLE_CAUSES) if cause != owed.ending.cause]
    return [site.closed(owed.number, site.rng.choice(others))]


def not_owed(site):
    found = site.one_of(lambda one: not one.ending)
    return [site.closed(found.number, site.rng.choice(ENDING_CAUSES))] if found else None


def waits_already(site):
    if not site.host.waiters:
        return None
    transfer = site.rng.choice(list(site.host.waiters))
    asks = [site.get(transfer)] if site.rng.random() < 0.5 else []
    return [*asks, site.waits(transfer)]


def beside_idle(site):
    transfer = site.transfer()
    return [site.get(transfer, site.rng.choice((0, 1))), site.waits(transfer)] if site.idle() else None


def not_waiting(site):
    others = [transfer for transfer in (site.transfer(), *site.host.held) if transfer not in site.host.waiters]
    return [site.left(site.rng.choice(others))]


def below_open(site):
    count = len(site.host.connections)
    return [site.limit(site.rng.choice((*range(1, count), *range(1, count), count)))] if count > 1 else None


def total(site):
    is_at_total = site.history.open_len() == site.history.total
    if not is_at_total or site.is_full() or site.host.waiters:
        return None
    transfer = site.transfer()
    return [site.get(transfer), site.opened(site.connection(), transfer)]


def kept(site):
    is_at_kept = site.history.idle_len() == site.history.most_kept
    if not is_at_kept or site.host.waiters or site.owed():
        return None
    held = site.held()
    if held and not held.holder.forbids_reuse:
        transfer = held.holder.transfer
        return [site.back(transfer, "keep"), site.returned(held.number, transfer), "rest"]
    if not site.has_room():
        return None
    transfer, connection = site.transfer(), site.connection()
    return [site.get(transfer), site.opened(connection, transfer), site.back(transfer, "keep"),
            site.returned(connection, transfer), "rest"]


def waiter_idle(site):
    held = site.one_of(lambda one: not one.is_idle() and not one.ending and not one.holder.forbids_reuse)
    if not held or not site.host.waiters:
        return None
    transfer = held.holder.transfer
    kind = site.rng.choice(PERSISTENT_KINDS)
    return [site.back(transfer, kind), site.returned(held.number, transfer), site.rest()]


def waiter_room(site):
    held = site.held()
    if not site.host.waiters:
        return None
    if site.way < 0.3:
        has_room = site.history.open_len() < site.history.total
        return [site.limit(site.host.limit + 1), site.rest()] if site.is_full() and has_room else None
    if not held:
        return None
    return [f"look {site.host.index}", site.closed(held.number, site.rng.choice(("", *HOLDER_CAUSES)))]


BREAKERS = {rule.__name__.replace("_", "-"): rule for rule in (
    earlier, full, not_first, holds, not_open, ended, in_use, other_lane, wants_new, idle_too_long, open_too_long,
    not_held, other_cause, not_owed, waits_already, beside_idle, not_waiting, below_open, total, kept, waiter_idle,
    waiter_room)}
