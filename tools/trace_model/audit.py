"""Reads a trace line by line, takes each event that breaks no rule, and keeps a report."""
from dataclasses import dataclass, field
from typing import NamedTuple

from trace_model import lines, rules, sites
from trace_model.history import History, ending_of
from trace_model.reading import MOST_LIMIT, Unreadable, lines_of, read_line, words_of

# connections that are opened at one host
MOST_OPENED = (1 << 32) - 1


@dataclass(frozen=True)
class Violation:
    """A broken rule, at a line of the trace whose words are the event."""

    line: int
    event: str
    rule: str
    finding: rules.Finding
    # the open connections and the waiters of its host, before it
    state: str


@dataclass
class Report:
    """What an audit has found so far."""

    violations: list[Violation] = field(default_factory=list)
    events: int = 0
    hosts: int = 0
    open: int = 0
    has_waits: bool = False
    # lines of connections whose `opened` was not taken
    passed_by: int = 0
    # the line at which the trace couldn't be read on, and why
    fault: tuple[int, str] | None = None


class Stop(Exception):
    """One violation is enough."""


class Place(NamedTuple):
    """A line of the trace: its number and its words."""

    line: int
    words: str


class Audit:
    """An audit of one trace; of all violations, or of the first alone."""

    def __init__(self, tells_all=False):
        self.tells_all, self.report = tells_all, Report()
        self.limits, self.sites, self.history = None, [], None
        self.is_by_host = self.rests_alone = False
        # by host and transfer: the last get that no start or wait has used up, the last back that no return has
        self.asked, self.given = {}, {}
        # connections, by host and number, whose `opened` was not taken
        self.not_taken = set()
        # the last event taken, and the rules that the last rest found broken, by host
        self.last, self.last_host, self.found_at_rest = None, None, set()

    def read(self, number, text):
        """Reads the line of that number."""
        line = read_line(text)
        if line is None:
            return
        if isinstance(line, (lines.OrderHost, lines.Limits, lines.Site)):
            self.read_head(line)
            return
        self.begin(line)
        if isinstance(line, lines.Event):
            self.read_event(line, Place(number, b" ".join(words_of(text)).decode("ascii")))
        elif isinstance(line, lines.Rest):
            self.rest()
        elif isinstance(line, lines.Asks):
            self.read_asks(line)

    # before the first line that asks or says

    def read_head(self, line):
        if isinstance(line, lines.OrderHost):
            if self.is_by_host or self.limits:
                raise Unreadable("wrong place")
            self.is_by_host = True
        elif isinstance(line, lines.Limits):
            if self.limits:
                raise Unreadable("wrong place")
            if line.kept == 0 or max(line.host, line.total, line.kept) > MOST_LIMIT:
                raise Unreadable("bad limits")
            self.limits = line
        else:
            self.add_site(line)

    def add_site(self, line):
        if not self.limits or self.history:
            raise Unreadable("wrong place")
        try:
            site = sites.site_of(line.word)
        except sites.BadSite:
            raise Unreadable("bad site") from None
        if site not in self.sites:
            if len(self.sites) == sites.MOST_SITES:
                raise Unreadable("too many sites")
            self.sites.append(site)
            self.report.hosts += 1

    def begin(self, line):
        """Makes the hosts, before the first line that is neither of the limits nor of a site."""
        if not self.limits:
            raise Unreadable("wrong place")
        if not self.history:
            self.history = History(self.limits, len(self.sites))
            self.rests_alone = isinstance(line, lines.Rest)

    # lines that ask

    def read_asks(self, line):
        is_there = line.site is not None and line.site < len(self.sites)
        if not self.rests_alone and not self.is_by_host:
            self.rest()
        elif not self.rests_alone and is_there:
            self.rest_of_one(self.history.hosts[line.site])
        if is_there and isinstance(line, lines.Get):
            self.asked[line.site, line.want.transfer] = line.want
        elif is_there and isinstance(line, lines.Back):
            self.given[line.site, line.transfer] = line.kind

    # events

    def read_event(self, event, place):
        host = self.host_of(event)
        self.report.events += 1
        self.report.has_waits |= isinstance(event, lines.Waits)
        if self.is_of_not_taken(event):
            self.report.passed_by += 1
            return
        case = rules.Case(event, host, self.want_of(event, host))
        self.refuse_unreadable(case)
        if self.is_held_back(case):
            self.hold_back(case, place)
        else:
            broken = self.first_broken(case)
            if not broken:
                self.take(case, place)
            else:
                if isinstance(event, lines.Opened):
                    self.not_taken.add((event.host, event.connection))
                self.tell(*broken, place, host)
                return
        self.last, self.last_host = place, host

    def first_broken(self, case):
        return rules.first_broken(case)

    def host_of(self, event):
        if isinstance(event, lines.NewLimit) and event.limit > MOST_LIMIT:
            raise Unreadable("bad limits")
        if event.host >= len(self.sites):
            raise Unreadable("no such site")
        return self.history.hosts[event.host]

    def is_of_not_taken(self, event):
        """Whether the event is of a connection whose `opened` was not taken, and doesn't open it once more."""
        if not isinstance(event, lines.ConnectionEvent):
            return False
        key = event.host, event.connection
        if isinstance(event, lines.Opened) or key not in self.not_taken:
            return False
        if isinstance(event, lines.Closed):
            self.not_taken.remove(key)
        return True

    def want_of(self, event, host):
        """What the transfer of a start or a wait wants, if that is known."""
        if not isinstance(event, (lines.Opened, lines.Leased, lines.Waits)):
            return None
        waiter = host.waiters.get(event.transfer)
        return waiter.want if waiter else self.asked.get((host.index, event.transfer))

    def refuse_unreadable(self, case):
        event, host = case.event, case.host
        if isinstance(event, lines.Opened):
            if event.connection in host.connections:
                raise Unreadable(f"{case.name()} is open already")
            if host.opened == MOST_OPENED:
                raise Unreadable("too many connections")
        if isinstance(event, (lines.Opened, lines.Leased, lines.Waits)) and not case.want:
            is_wrong_anyway = event.transfer in host.held or host.waiters and not isinstance(event, lines.Waits)
            if not is_wrong_anyway:
                raise Unreadable(f"transfer {event.transfer} asked for nothing")
        if isinstance(event, lines.Returned) and (host.index, event.transfer) not in self.given:
            raise Unreadable(f"transfer {event.transfer} gave nothing back")

    def is_held_back(self, case):
        """Whether the event is the return, by its holder, of a connection that is to be closed."""
        if not isinstance(case.event, lines.Returned):
            return False
        connection = case.connection()
        if not connection or connection.is_idle() or connection.ending:
            return False
        return connection.holder.transfer == case.event.transfer and self.ending_of(case) is not None

    def ending_of(self, case):
        return ending_of(self.given[case.host.index, case.event.transfer], case.connection().holder)

    def hold_back(self, case, place):
        connection = case.connection()
        connection.ending, connection.return_line = self.ending_of(case), place.line
        del self.given[case.host.index, case.event.transfer]

    def take(self, case, place):
        event, host = case.event, case.host
        if isinstance(event, (lines.Opened, lines.Leased)):
            if not host.waiters.pop(event.transfer, None):
                del self.asked[host.index, event.transfer]
            (host.open if isinstance(event, lines.Opened) else host.lease)(event, case.want, place.line)
            if isinstance(event, lines.Opened):
                self.not_taken.discard((event.host, event.connection))
        elif isinstance(event, lines.Returned):
            host.take_back(event, place.line)
            del self.given[host.index, event.transfer]
        elif isinstance(event, lines.Closed):
            host.close(event)
        elif isinstance(event, lines.Waits):
            host.wait(case.want, place.line)
            del self.asked[host.index, event.transfer]
        elif isinstance(event, lines.Left):
            del host.waiters[event.transfer]
        elif isinstance(event, lines.NewLimit):
            host.limit = event.limit
        host.stamp(event, place.line)

    # rests

    def rest(self):
        """Judges the pool where all of it is at rest; in a trace in order by host each host alone."""
        if self.is_by_host:
            for host in self.history.hosts:
                self.rest_of_one(host)
        else:
            self.rest_of_all()

    def rest_of_all(self):
        history = self.history
        self.judge_rest(rules.total, None, rules.total(history))
        self.judge_rest(rules.kept, None, rules.kept(history))
        for host in history.hosts:
            self.rest_of_one(host)
            self.judge_rest(rules.waiter_room, host, rules.waiter_room(history, host))

    def rest_of_one(self, host):
        self.judge_rest(rules.waiter_idle, host, rules.waiter_idle(host))

    def judge_rest(self, rule, host, finding):
        """Tells the finding, unless the last rest had it too."""
        key = rule, host and host.index
        if not finding:
            self.found_at_rest.discard(key)
        elif key not in self.found_at_rest:
            self.found_at_rest.add(key)
            self.tell(rules.name_of(rule), finding, self.last, host or self.last_host)

    def end(self):
        """Judges the pool at the end of the trace."""
        if self.history:
            self.rest_of_all()

    def tell(self, rule, finding, place, host):
        self.report.violations.append(
            Violation(place.line, place.words, rule, finding, state_of(host)))
        if not self.tells_all:
            raise Stop


def state_of(host):
    """The open connections of a host, and its waiters."""
    connections = [
        f"{host.name_of(one.number)} idle since {one.since}" if one.is_idle()
        else f"{host.name_of(one.number)} leased to {one.holder.transfer}" for one in host.connections.values()]
    waiters = ", ".join(map(str, host.waiters))
    text = f"host {host.index}: {', '.join(connections) or 'nothing open'}"
    return f"{text}; waiting {waiters}" if waiters else text


def audit(stream, tells_all=False):
    """The report on the trace that a stream of bytes has."""
    return report_of(Audit(tells_all), stream)


def report_of(run, stream):
    """The report of an audit on the trace that a stream of bytes has."""
    number = 0
    try:
        for number, text in enumerate(lines_of(stream), 1):
            run.read(number, text)
        run.end()
    except Unreadable as fault:
        run.report.fault = number, str(fault)
    except Stop:
        pass
    run.report.open = run.history.open_len() if run.history else 0
    return run.report
