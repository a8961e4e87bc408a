"""What is tried, and what it has to give: of each request in order, and of all together.

A request has the number of its place, from 1, and asks for the path of that number, which is answered with as many
bytes. So an answer to another request shows by its length.

What has to come follows from these rules. A connection is reused after a response that was read whole, with nothing
after it in the same read, that said where it ends by one length or has no body, without the option close, and in
HTTP/1.1 or with the option keep-alive. It is looked at before it is used again: where its server ended it, or sent
anything since, it is not used. A request whose reused connection is unfit or fails, or is ended, before any byte of a
response is sent once more, on a new one, and its line says `retried`, whatever comes of that. Any other failure is a
fault.
"""
import dataclasses
import itertools
import re

from . import servers
from .servers import LATER, SOON, nobody


@dataclasses.dataclass(frozen=True)
class Case:
    """Requests to servers in turn. A server is a behaviour, nginx by its name in nginx.py, or nobody.

    The order says what each request gives: `new, 9 reused` is ten, again and again; what stands before `then` comes
    once. A fault is given by its name, or by two with `or` between. If each server is a behaviour, they accept as many
    connections as are opened.
    """

    name: str
    at: tuple
    order: str
    requests: int
    opened: int
    reused: int = 0
    retried: int = 0
    failed: int = 0
    status: int = 200
    has_bodies: bool = True
    address: str = "127.0.0.1"
    options: tuple = ()
    # whether 127.0.0.1 has a name in the URLs
    is_named: bool = False

    def needs_nginx(self):
        return any(isinstance(at, str) for at in self.at)

    def answers(self):
        """What the order says of each request."""
        once, _, again = self.order.rpartition("then ")
        endless = itertools.chain(parts_of(once), itertools.cycle(parts_of(again)))
        return list(itertools.islice(endless, self.requests))

    def length(self, number):
        return number if self.has_bodies else 0

    def lines(self, urls):
        """The lines that may come for each of the URLs."""
        for number, (url, answer) in enumerate(zip(urls, self.answers(), strict=True), 1):
            if is_good(answer):
                yield [f"{self.status} {self.length(number)} {answer} {url}"]
            else:
                yield [f"{fault} {url}" for fault in answer.split(" or ")]


def parts_of(text):
    parts = []
    for part in filter(None, text.split(", ")):
        count, what = re.fullmatch(r"(?:(\d+) )?(.+)", part).groups()
        parts += int(count or 1) * [what]
    return parts


def is_good(answer):
    return answer.startswith(("new", "reused"))


# a server that answers late: the connections of the other one are idle meanwhile
LATE = servers.takes(LATER / 1_000)

# a response to A, one of B meanwhile, and one of A again
UNASKED = Case("an unasked answer, beside curl", (servers.answers_unasked, LATE), "2 new, new retried", 3,
               opened=3, retried=1)

CASES = [
    # nginx closes with the thousandth response where nothing is set
    Case("nginx, nothing set", ("nginx",), "new, 999 reused", 1_010, opened=2, reused=1_008),
    Case("nginx, keepalive_requests 10", ("nginx-ten",), "new, 9 reused", 300, opened=30, reused=270),
    Case("nginx, chunks by includes", ("nginx-includes",), "new, then reused", 300, opened=1, reused=299),
    Case("nginx and others in turn", ("nginx", servers.lasts, servers.ends_after(1)),
         "3 new, then 2 reused, new retried", 300, opened=102, reused=198, retried=99),
    Case("connections last", (servers.lasts,), "new, then reused", 300, opened=1, reused=299),
    Case("each response ends its connection, unsaid", (servers.ends_after(1),), "new, then new retried", 300,
         opened=300, retried=299),
    Case("each third response ends its connection, unsaid", (servers.ends_after(3),),
         "new, 2 reused, then new retried, 2 reused", 300, opened=100, reused=200, retried=99),
    Case("surplus with each response", (servers.sends_surplus,), "new", 300, opened=300),
    Case("surplus after each response", (servers.sends_late_surplus, LATE), "2 new, then new retried, reused", 9,
         opened=6, reused=3, retried=4),
    Case("an unasked answer", (servers.answers_unasked, LATE), "2 new, then new retried, reused", 6,
         opened=4, reused=2, retried=2),
    Case("100 Continue before each response", (servers.sends_interim("100 Continue"),), "new, then reused", 300,
         opened=1, reused=299),
    Case("103 Early Hints before each response",
         (servers.sends_interim("103 Early Hints", "Link: </style.css>; rel=preload"),), "new, then reused", 300,
         opened=1, reused=299),
    Case("a chunk's line in two writes", (servers.cuts_chunk_lines,), "new, then reused", 300, opened=1, reused=299),
    Case("idle connections end, no pause", (servers.ends_idle_after(30),), "new, then reused", 300,
         opened=1, reused=299),
    Case("idle connections end, a longer pause", (servers.ends_idle_after(SOON), LATE),
         "2 new, then new retried, reused", 9, opened=6, reused=3, retried=4),
    Case("reset in place of the first answer", (servers.resets_at(1),), "Read or Write", 300, opened=300, failed=300),
    Case("reset in place of the second answer", (servers.resets_at(2),), "new, then new retried", 300,
         opened=300, retried=299),
    Case("reset in place of the second answer, and once more", (servers.resets_twice,),
         "new, Read retried or Write retried", 300, opened=300, failed=150),
    Case("half a body of each second, and then nothing", (servers.stalls,), "new, Cancelled", 4,
         opened=2, failed=2, options=("--timeout", "3")),
    Case("both lengths", (servers.gives_both_lengths,), "new", 300, opened=300),
    Case("HTTP/1.0", (servers.answers_old(),), "new", 300, opened=300),
    Case("HTTP/1.0 with keep-alive", (servers.answers_old("Connection: keep-alive"),), "new, then reused", 300,
         opened=1, reused=299),
    Case("HTTP/1.0, a body until the end", (servers.ends_its_body("1.0"),), "new", 300, opened=300),
    Case("HTTP/1.1, a body until the end", (servers.ends_its_body("1.1"),), "new", 300, opened=300),
    Case("nobody listens", (nobody,), "Dial", 300, opened=0, failed=300),
    Case("each response is cut", (servers.cuts_each,), "Cut", 300, opened=300, failed=300),
    Case("each second response is cut", (servers.cuts_even,), "new, Cut", 300, opened=150, failed=150),
    Case("ended in place of the first answer", (servers.ends_at(1),), "Cut", 300, opened=300, failed=300),
    Case("ended in place of the second answer", (servers.ends_at(2),), "new, then new retried", 300,
         opened=300, retried=299),
    Case("204", (servers.answers_no_content,), "new, then reused", 300, opened=1, reused=299, status=204,
         has_bodies=False),
    Case("304", (servers.answers_not_modified,), "new, then reused", 300, opened=1, reused=299, status=304,
         has_bodies=False),
    Case("the address ::1", (servers.lasts,), "new, then reused", 300, opened=1, reused=299, address="[::1]"),
    Case("localhost, where only ::1 listens", (servers.lasts,), "new, then reused", 300, opened=1, reused=299,
         address="localhost"),
    Case("HEAD", (servers.lasts,), "new, then reused", 100, opened=1, reused=99, has_bodies=False,
         options=("--head",)),
    Case("HEAD of nginx", ("nginx",), "new, then reused", 100, opened=1, reused=99, has_bodies=False,
         options=("--head",)),
    # whole seconds are counted: after 3 a connection was idle for more than 1
    Case("idle for too long", (servers.lasts, servers.takes(3)), "3 new", 3, opened=3, options=("--max-age", "1")),
    UNASKED,
    Case("a name in /etc/hosts", (servers.lasts,), "new, then reused", 100, opened=1, reused=99, is_named=True),
]
