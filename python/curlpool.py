"""libcurl's connection pool for HTTP/1.1, as a class over the shared library of tools/install-c.

    with curlpool.Pool(hosts=16, host_limit=6) as pool:
        site = pool.site("example.com", 80)
        lease = pool.acquire(site, transfer=1)

A connection is known by its token, any 64-bit number of yours, as a file descriptor. `lease.token` is None for a new
connection: dial it, then `lease.attach(token)`. Give each lease back with the facts of its response, or abandon it.
Sockets whose tokens `pool.closed()` tells are yours to close. A pool is for one thread at a time.

The library is found as `libcurlpool.so`, or where CURLPOOL_LIBRARY says.
"""
import ctypes
import dataclasses
import enum
import os
import time

__all__ = ["Error", "Facts", "Framing", "Lease", "Pool", "Response", "Status", "Target", "Waiter", "target"]


class Status(enum.IntEnum):
    """What a call answers; curlpool.h says which call answers which."""

    OK = 0
    NEW = 1
    REUSED = 2
    WAIT = 3
    MORE = 4
    WHOLE = 5
    NONE = 6
    NO_MEMORY = 7
    FULL = 8
    STRANGER = 9
    CLOSED = 10
    ALREADY_OPEN = 11
    BAD_LIMIT = 12
    BAD_SITE = 13
    BUSY = 14
    EXHAUSTED = 15
    LEASED = 16
    UNATTACHED = 17
    ATTACHED = 18
    UNREAD = 19
    ENDED = 20
    BAD_VALUE = 21
    BAD_HEAD = 22
    BAD_LENGTH = 23
    BAD_CHUNK = 24
    HEAD_TOO_LONG = 25
    TOO_MANY_INTERIMS = 26
    TRAILER_TOO_LONG = 27
    NOT_TEXT = 28
    NOT_URL = 29
    NOT_HTTP = 30
    URL_TOO_LONG = 31
    SMALL = 32


class Framing(enum.IntEnum):
    """How the end of a body is found."""

    NO_BODY = 0
    COUNTED = 1
    CHUNKED = 2
    UNTIL_CLOSE = 3
    FAULTY = 4


class Error(Exception):
    """A call was refused: with this status."""

    def __init__(self, status):
        super().__init__(_library.curlpool_strstatus(status).decode())
        self.status = Status(status)


class _Handle(ctypes.Structure):
    _fields_ = [("there", ctypes.c_bool), ("held", ctypes.c_void_p)]


class _Facts(ctypes.Structure):
    _fields_ = [("version", ctypes.c_uint32), ("framing", ctypes.c_uint32),
                *((name, ctypes.c_bool) for name in ("close", "keep_alive", "request_close", "both_lengths", "upgraded",
                                                     "whole", "surplus"))]


class _Response(ctypes.Structure):
    _fields_ = [("body_length", ctypes.c_uint64), ("status", ctypes.c_uint32), ("version", ctypes.c_uint32),
                ("framing", ctypes.c_uint32), ("persists", ctypes.c_bool), ("whole", ctypes.c_bool),
                ("surplus", ctypes.c_bool)]


class _Look(ctypes.Structure):
    _fields_ = [(name, ctypes.c_uint32) for name in ("alive", "idle", "leased", "waiting")]
    _fields_ += [("queued", ctypes.c_bool)]


class _Counts(ctypes.Structure):
    _fields_ = [(name, ctypes.c_uint64) for name in ("opened", "reused", "closed", "waited")]


class _Target(ctypes.Structure):
    _fields_ = [("host_length", ctypes.c_size_t), ("path_length", ctypes.c_size_t), ("port", ctypes.c_uint16)]


_library = ctypes.CDLL(os.environ.get("CURLPOOL_LIBRARY", "libcurlpool.so"))
_u16, _u32, _u64, _flag, _size = ctypes.c_uint16, ctypes.c_uint32, ctypes.c_uint64, ctypes.c_bool, ctypes.c_size_t
_bytes, _out = ctypes.c_char_p, ctypes.POINTER
_ARGUMENTS = {
    "open": [_u32] * 4,
    "site": [_bytes, _size, _u16, _out(_u32)],
    "acquire": [_u32, _u64, _u32, _u64, _u64, _u32, _u64, _out(_u64), _out(_u64)],
    "attach": [_u64, _u64],
    "claim": [_u64, _out(_u64)],
    "granted": [_out(_u64)],
    "begin": [_u64, _flag, _flag],
    "feed": [_u64, _bytes, _size],
    "end": [_u64],
    "response": [_u64, _out(_Response)],
    "give_back": [_u64, _u64],
    "give_back_as": [_u64, _out(_Facts), _u64],
    "abandon": [_u64, _u64],
    "withdraw": [_u64, _u64],
    "prune": [_u64, _u64, _u64, _out(_u32)],
    "upkeep": [_out(_u32)],
    "set_host_limit": [_u32, _u32, _u64],
    "look": [_u32, _out(_Look)],
    "counts": [_u32, _out(_Counts)],
    "closed": [_out(_u64)],
    "take_log": [_u32, _bytes, _size, _out(_size)],
    "drop_logs": [],
    "close_all": [_u64],
    "close": [],
}
for _name, _types in _ARGUMENTS.items():
    _function = getattr(_library, f"curlpool_{_name}")
    _function.argtypes, _function.restype = [_out(_Handle), *_types], _u32
_library.curlpool_target.argtypes = [_bytes, _size, _bytes, _size, _out(_Target)]
_library.curlpool_target.restype = _u32
_library.curlpool_strstatus.argtypes, _library.curlpool_strstatus.restype = [_u32], _bytes
_library.curlpool_version.argtypes, _library.curlpool_version.restype = [], _bytes


def _now():
    return int(time.monotonic())


def version():
    """The version of the library."""
    return _library.curlpool_version().decode()


@dataclasses.dataclass
class Target:
    """Where a URL leads to."""

    host: str
    port: int
    path: str


def target(url):
    """Where an http URL leads to, by the URL Standard's rules; raises Error."""
    data, room, found = url.encode(), ctypes.create_string_buffer(8192), _Target()
    status = _library.curlpool_target(data, len(data), room, len(room), found)
    if status != Status.OK:
        raise Error(status)
    text = room.raw[:found.host_length + found.path_length].decode()
    return Target(text[:found.host_length], found.port, text[found.host_length:])


@dataclasses.dataclass
class Facts:
    """What decides whether a connection persists after its response."""

    whole: bool
    framing: Framing = Framing.COUNTED
    http11: bool = True
    close: bool = False
    keep_alive: bool = False
    request_close: bool = False
    both_lengths: bool = False
    upgraded: bool = False
    surplus: bool = False


@dataclasses.dataclass
class Response:
    """What the bytes of a response tell so far; a status of 0 before its final head has come."""

    status: int
    body_length: int
    framing: Framing
    persists: bool
    whole: bool
    surplus: bool


class Waiter:
    """A transfer that waits. Claim it once `Pool.granted` tells it, or withdraw it."""

    def __init__(self, pool, slot):
        self._pool, self.slot = pool, slot

    def claim(self):
        """Its lease, if it has its connection; else None."""
        token = _u64()
        status = self._pool._call("claim", self.slot, token, wanted=(Status.NEW, Status.REUSED, Status.WAIT))
        if status == Status.WAIT:
            return None
        return Lease(self._pool, self.slot, token.value if status == Status.REUSED else None)

    def withdraw(self):
        """Ends the wait."""
        self._pool._call("withdraw", self.slot, _now())


class Lease:
    """A connection that a transfer has: with its token, or None for a new one."""

    def __init__(self, pool, slot, token):
        self._pool, self.slot, self.token = pool, slot, token

    def attach(self, token):
        """Gives a new connection its token."""
        self._pool._call("attach", self.slot, token)
        self.token = token

    def begin(self, is_head=False, request_close=False):
        """Begins the response that is read from it."""
        self._pool._call("begin", self.slot, is_head, request_close)

    def feed(self, data):
        """Reads one piece more of the response: whether it is whole. Raises Error if it is none."""
        wanted = (Status.MORE, Status.WHOLE)
        return self._pool._call("feed", self.slot, bytes(data), len(data), wanted=wanted) == Status.WHOLE

    def end(self):
        """The connection has ended."""
        self._pool._call("end", self.slot)

    def response(self):
        """What the response tells so far."""
        told = _Response()
        self._pool._call("response", self.slot, told)
        return Response(told.status, told.body_length, Framing(told.framing), told.persists, told.whole, told.surplus)

    def give_back(self):
        """Gives it back with the facts of the bytes that were fed."""
        self._pool._call("give_back", self.slot, _now())

    def give_back_as(self, facts):
        """Gives it back with these facts."""
        told = _Facts(int(facts.http11), facts.framing, facts.close, facts.keep_alive, facts.request_close,
                      facts.both_lengths, facts.upgraded, facts.whole, facts.surplus)
        self._pool._call("give_back_as", self.slot, told, _now())

    def abandon(self):
        """Closes it."""
        self._pool._call("abandon", self.slot, _now())


class Pool:
    """A pool of connections. It ends where it is left as a context manager, or by `end`, which tells what to close."""

    def __init__(self, hosts=64, host_limit=0, total=0, connects=64):
        self._handle = _Handle()
        self._call("open", hosts, host_limit, total, connects)

    def __enter__(self):
        return self

    def __exit__(self, *_):
        for _token in self.end():
            pass

    def _call(self, name, *words, wanted=(Status.OK,)):
        words = [ctypes.byref(word) if isinstance(word, (ctypes.Structure, ctypes._SimpleCData)) else word
                 for word in words]
        status = getattr(_library, f"curlpool_{name}")(ctypes.byref(self._handle), *words)
        if status not in wanted:
            raise Error(status)
        return status

    def site(self, host, port):
        """The site of a host."""
        data, site = host.encode(), _u32()
        self._call("site", data, len(data), port, site)
        return site.value

    def acquire(self, site, transfer, lane=0, max_age=118, max_life=0, fresh=False, forbid_reuse=False):
        """A lease for the transfer, or a waiter."""
        slot, token = _u64(), _u64()
        flags = int(fresh) + 2 * int(forbid_reuse)
        status = self._call("acquire", site, transfer, lane, max_age, max_life, flags, _now(), slot, token,
                            wanted=(Status.NEW, Status.REUSED, Status.WAIT))
        if status == Status.WAIT:
            return Waiter(self, slot.value)
        return Lease(self, slot.value, token.value if status == Status.REUSED else None)

    def granted(self):
        """The slots of the waiters that have their connections since the last call."""
        slot, found = _u64(), []
        while self._call("granted", slot, wanted=(Status.OK, Status.NONE)) == Status.OK:
            found.append(slot.value)
        return found

    def closed(self):
        """The tokens of the connections that the pool has closed since the last call."""
        token, found = _u64(), []
        while self._call("closed", token, wanted=(Status.OK, Status.NONE)) == Status.OK:
            found.append(token.value)
        return found

    def prune(self, max_age, max_life=0):
        """Closes idle connections that are too old: how many."""
        closed = _u32()
        self._call("prune", max_age, max_life, _now(), closed)
        return closed.value

    def set_host_limit(self, site, limit):
        """Changes the most connections that may be open to a site's host."""
        self._call("set_host_limit", site, limit, _now())

    def look(self, site):
        """The counts of a site at this moment."""
        told = _Look()
        self._call("look", site, told)
        return {name: getattr(told, name) for name, _ in _Look._fields_}

    def counts(self, site):
        """What happened at a site."""
        told = _Counts()
        self._call("counts", site, told)
        return {name: getattr(told, name) for name, _ in _Counts._fields_}

    def log(self, site):
        """What happened at a site since the last call, as lines."""
        room, written, text, status = ctypes.create_string_buffer(4096), _size(), b"", Status.MORE
        while status == Status.MORE:
            status = self._call("take_log", site, room, len(room), written, wanted=(Status.OK, Status.MORE))
            text += room.raw[:written.value]
        return text.decode().splitlines()

    def drop_logs(self):
        """Forgets what happened, so that it takes no memory."""
        self._call("drop_logs")

    def end(self):
        """Ends all: the tokens of the connections that were open or were not told yet. A second call does nothing."""
        if not self._handle.there:
            return []
        self._call("close_all", _now())
        found = self.closed()
        self._call("close")
        return found
