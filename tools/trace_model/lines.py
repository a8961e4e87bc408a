"""The lines of a trace, as values: what a pool was asked, what it did, and what a trace says of itself."""
from dataclasses import dataclass
from typing import NamedTuple

DEFAULT_AGE, DEFAULT_LIFE = 118, 0


class Want(NamedTuple):
    """What a transfer wants of its connection; ages are in seconds, and no lifetime limit is 0."""

    transfer: int
    lane: int
    max_age: int = DEFAULT_AGE
    max_life: int = DEFAULT_LIFE
    is_fresh: bool = False
    forbids_reuse: bool = False


@dataclass(frozen=True)
class OrderHost:
    """`order host`: lines are in order within each host alone."""


@dataclass(frozen=True)
class Limits:
    """`limits H T C`: connections open to a host, open in total, and kept idle."""

    host: int
    total: int
    kept: int


@dataclass(frozen=True)
class Site:
    """`site URL`: the next host, unless it is there already."""

    word: bytes


@dataclass(frozen=True)
class Rest:
    """`rest`: the pool is at rest here."""


@dataclass(frozen=True)
class Asks:
    """A line that asks, of a site or of all: whatever it is, the pool was at rest before it."""

    site: int | None


@dataclass(frozen=True)
class Get(Asks):
    """`get`: a transfer acquires a connection, or begins to wait for one."""

    want: Want


@dataclass(frozen=True)
class Back(Asks):
    """`back`: a transfer gives its connection back after a response of that kind."""

    transfer: int
    kind: str


@dataclass(frozen=True)
class Event:
    """A line that says what happened at a host, in a moment."""

    host: int
    moment: int


@dataclass(frozen=True)
class ConnectionEvent(Event):
    """An event of a connection, which has the number that the pool gave it."""

    connection: int


@dataclass(frozen=True)
class Opened(ConnectionEvent):
    transfer: int


@dataclass(frozen=True)
class Leased(ConnectionEvent):
    transfer: int


@dataclass(frozen=True)
class Returned(ConnectionEvent):
    transfer: int


@dataclass(frozen=True)
class Closed(ConnectionEvent):
    # nothing if the trace doesn't tell it
    cause: str | None


@dataclass(frozen=True)
class Waits(Event):
    transfer: int


@dataclass(frozen=True)
class Left(Event):
    transfer: int


@dataclass(frozen=True)
class NewLimit(Event):
    limit: int
