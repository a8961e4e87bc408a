"""Judges each event a second time, by searches of its host's log: whether a legal log may go on with it.

A log has the events taken, and no table beside it. The model of scripts has its searches. Nothing here knows of rules
or of their order: an event is allowed, or it isn't.
"""
import functools

from script_model.model import Host
from trace_model import lines
from trace_model.audit import Audit
from trace_model.rules import ENDING_CAUSES, IDLE_CAUSES


class Disagreement(Exception):
    """The two judges differ."""


class LogHost:
    """A host's log, in which connections have numbers that are never used again."""

    def __init__(self, host):
        self.log, self.numbers = Host(host.index, host.limit), {}

    def last_moment(self):
        return self.log.log[-1][0] if self.log.log else 0

    def may_start(self, transfer):
        """The first waiter may start, and if none waits whoever holds nothing."""
        waiting = self.log.waiting()
        return waiting[0]["t"] == transfer if waiting else self.log.held_by(transfer) is None

    def number_of(self, event):
        """The number in the log of an open connection, or nothing."""
        number = self.numbers.get(event.connection)
        return number if number in self.log.open() else None

    def is_allowed(self, case):
        return case.event.moment >= self.last_moment() and self.allows(case.event, case)

    @functools.singledispatchmethod
    def allows(self, event, case):
        raise TypeError(event)

    @allows.register
    def _(self, event: lines.Opened, case):
        return len(self.log.open()) < self.log.limit() and self.may_start(event.transfer)

    @allows.register
    def _(self, event: lines.Leased, case):
        number = self.number_of(event)
        is_fit = number in self.log.idle() and (
            case.want is None or self.log.fits(number, want_in_log(case.want), event.moment))
        return is_fit and self.may_start(event.transfer)

    @allows.register
    def _(self, event: lines.Returned, case):
        number = self.number_of(event)
        # that it came back to be closed stands in no log yet
        is_held = number is not None and number == self.log.held_by(event.transfer)
        return is_held and not case.connection().ending

    @allows.register
    def _(self, event: lines.Closed, case):
        number = self.number_of(event)
        if number is None:
            return False
        if case.connection().ending:
            return event.cause in (None, case.connection().ending.cause)
        is_idle = number in self.log.idle()
        return event.cause is None or event.cause not in ENDING_CAUSES and is_idle == (event.cause in IDLE_CAUSES)

    @allows.register
    def _(self, event: lines.Waits, case):
        is_new = all(want["t"] != event.transfer for want in self.log.waiting())
        return is_new and self.log.held_by(event.transfer) is None and not self.log.idle()

    @allows.register
    def _(self, event: lines.Left, case):
        return any(want["t"] == event.transfer for want in self.log.waiting())

    @allows.register
    def _(self, event: lines.NewLimit, case):
        return len(self.log.open()) <= event.limit

    def enter(self, case):
        """Enters an event that was taken; with a close the return before it, if that was held back."""
        event = case.event
        if isinstance(event, lines.Opened):
            self.numbers[event.connection] = max(self.log.opened(), default=0) + 1
        number = self.numbers[event.connection] if isinstance(event, lines.ConnectionEvent) else None
        if isinstance(event, lines.Closed) and case.connection().ending:
            self.log.add(event.moment, "returned", number, case.connection().holder.transfer)
        entry = {
            lines.Opened: lambda: ("opened", number, want_in_log(case.want)),
            lines.Leased: lambda: ("leased", number, want_in_log(case.want)),
            lines.Returned: lambda: ("returned", number, event.transfer),
            lines.Closed: lambda: ("closed", number, event.cause),
            lines.Waits: lambda: ("waits", want_in_log(case.want)),
            lines.Left: lambda: ("left", event.transfer),
            lines.NewLimit: lambda: ("limit", event.limit),
        }[type(event)]()
        self.log.add(event.moment, *entry)


def want_in_log(want):
    """A want as the model of scripts has it."""
    return {"t": want.transfer, "lane": want.lane, "age": want.max_age, "life": want.max_life,
            "fresh": want.is_fresh, "forbid": want.forbids_reuse}


class DoubleAudit(Audit):
    """An audit that stops if its verdict on an event is not that of the host's log, or its counts at rest."""

    def __init__(self):
        super().__init__(tells_all=True)
        self.logs = []

    def first_broken(self, case):
        if not self.logs:
            self.logs = [LogHost(host) for host in self.history.hosts]
        log = self.logs[case.host.index]
        broken = super().first_broken(case)
        if log.is_allowed(case) == (broken is not None):
            raise Disagreement(f"{case.event}: {broken or 'no rule is broken'}")
        if not broken:
            log.enter(case)
        return broken

    def rest_of_all(self):
        counts = [(len(host.connections), len(host.connections) - len(host.held), list(host.waiters))
                  for host in self.history.hosts]
        by_log = [(len(log.log.open()), len(log.log.idle()), [want["t"] for want in log.log.waiting()])
                  for log in self.logs]
        if self.logs and counts != by_log:
            raise Disagreement(f"{counts} at rest, by the logs {by_log}")
        super().rest_of_all()
