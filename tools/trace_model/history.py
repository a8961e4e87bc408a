"""What the events taken so far come to: for each host its connections, its waiters and its limit."""
from dataclasses import dataclass, field

from trace_model.lines import Want
from trace_model.reading import MOST_LIMIT

# by kind of response: the words for it, if it doesn't let its connection persist
ENDINGS = {"close": "a response with close", "old": "a response of HTTP/1.0", "cut": "a truncated response",
           "eof": "a response that lasted until the connection ended", "surplus": "a response with surplus bytes"}


@dataclass(frozen=True)
class Ending:
    """Why a connection that came back has to be closed."""

    cause: str
    text: str


def ending_of(kind, want):
    """The ending of a use, if a response of that kind ends it, or its want does."""
    if kind == "cut":
        return Ending("cut", ENDINGS[kind])
    if want.forbids_reuse:
        return Ending("forbidden", "a use that forbids reuse")
    return Ending("not-persistent", ENDINGS[kind]) if kind in ENDINGS else None


@dataclass
class Connection:
    """An open connection. Lines are those of the trace, by number."""

    number: int
    lane: int
    born: int
    # the want of the transfer that holds it
    holder: Want | None
    start_line: int
    since: int = 0
    return_line: int = 0
    # it came back, and is to be closed; until then its transfer holds it
    ending: Ending | None = None

    def is_idle(self):
        return self.holder is None


@dataclass(frozen=True)
class Waiter:
    want: Want
    line: int


@dataclass
class Host:
    """A host. Connections stand in the order in which they were opened, waiters first in, first out."""

    index: int
    limit: int
    connections: dict[int, Connection] = field(default_factory=dict)
    waiters: dict[int, Waiter] = field(default_factory=dict)
    # the connection of each transfer that holds one
    held: dict[int, Connection] = field(default_factory=dict)
    # the moment and the line of the last event
    moment: int = 0
    line: int = 0
    opened: int = 0

    def idle(self):
        """The idle connections, the least recently returned one first."""
        return sorted((one for one in self.connections.values() if one.is_idle()), key=lambda one: one.return_line)

    def first_waiter(self):
        return next(iter(self.waiters.values()), None)

    def name_of(self, number):
        return f"{self.index}.{number}"

    def stamp(self, event, line):
        self.moment, self.line = event.moment, line

    def open(self, event, want, line):
        connection = Connection(event.connection, want.lane, event.moment, want, line)
        self.connections[event.connection] = self.held[want.transfer] = connection
        self.opened += 1

    def lease(self, event, want, line):
        connection = self.connections[event.connection]
        connection.holder, connection.start_line = want, line
        self.held[want.transfer] = connection

    def take_back(self, event, line):
        connection = self.connections[event.connection]
        del self.held[connection.holder.transfer]
        connection.holder, connection.since, connection.return_line = None, event.moment, line

    def wait(self, want, line):
        self.waiters[want.transfer] = Waiter(want, line)

    def close(self, event):
        connection = self.connections.pop(event.connection)
        if not connection.is_idle():
            del self.held[connection.holder.transfer]


class History:
    """All hosts, under the limits that they share."""

    def __init__(self, limits, hosts):
        self.total, self.most_kept = limits.total or MOST_LIMIT, limits.kept
        self.hosts = [Host(index, limits.host or MOST_LIMIT) for index in range(hosts)]

    def open_len(self):
        return sum(len(host.connections) for host in self.hosts)

    def idle_len(self):
        return sum(len(host.connections) - len(host.held) for host in self.hosts)
