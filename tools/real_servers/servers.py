"""Servers that treat their clients in ways of their own: each behaviour is a function that is handed a connection."""
import contextlib
import itertools
import re
import socket
import socketserver
import struct
import threading
import time
from typing import NamedTuple

# how long a server waits until the client has surely read what was sent, and how long a client waits, in milliseconds,
# until a server has surely done what it does after that: both hold beside other work too
SOON, LATER = 0.3, 1_500
REQUEST = re.compile(rb"(GET|HEAD) /(\d+) HTTP/1\.1\r\n(?:.*\r\n)*Host: .+")
SURPLUS = b"surplus of 20 bytes!"


class Request(NamedTuple):
    is_head: bool
    number: int


class Connection:
    """A connection of a server, whose place is 1 for the first that it accepted, 2 for the next one, and so on."""

    def __init__(self, stream, place, is_asked_here):
        self.stream, self.place, self.came, self.is_asked_here = stream, place, b"", is_asked_here
        # each write goes out at once
        stream.setsockopt(socket.IPPROTO_TCP, socket.TCP_NODELAY, 1)

    def requests(self):
        """The requests, each once it has come whole, until the client ends the connection. What is no request, or has a
        number that this server is not asked for, is answered with 400 and ends them."""
        while True:
            while b"\r\n\r\n" not in self.came:
                piece = self.stream.recv(65536)
                if not piece:
                    return
                self.came += piece
            head, _, self.came = self.came.partition(b"\r\n\r\n")
            found = REQUEST.match(head)
            if not found or not self.is_asked_here(int(found[2])):
                self.refuse()
                return
            yield Request(found[1] == b"HEAD", int(found[2]))

    def refuse(self):
        self.send(head_of("Content-Length: 0", "Connection: close", status="400 Bad Request"))

    def send(self, text):
        self.stream.sendall(text)

    def reset(self):
        """Has the connection reset where it is closed next."""
        self.stream.setsockopt(socket.SOL_SOCKET, socket.SO_LINGER, struct.pack("ii", 1, 0))


class Server(socketserver.ThreadingTCPServer):
    """A server on a port of its own, which treats each connection by its behaviour, closes it then, and counts them."""

    daemon_threads = True
    request_queue_size = 128

    def __init__(self, behaviour, address="127.0.0.1", port=0, is_asked_here=lambda number: True):
        self.behaviour, self.accepted, self.is_asked_here = behaviour, 0, is_asked_here
        # how many connections are open, and the most that were
        self.open, self.most, self.counting = 0, 0, threading.Lock()
        self.address_family = socket.AF_INET6 if ":" in address else socket.AF_INET
        super().__init__((address, port), None)
        self.port = self.server_address[1]
        threading.Thread(target=self.serve_forever, args=(0.01,), daemon=True).start()

    def get_request(self):
        stream, address = super().get_request()
        self.accepted += 1
        with self.counting:
            self.open += 1
            self.most = max(self.most, self.open)
        return Connection(stream, self.accepted, self.is_asked_here), address

    def finish_request(self, connection, _):
        with contextlib.suppress(OSError):
            self.behaviour(connection)

    def shutdown_request(self, connection):
        # not as in the base class, which ends the connection before it is reset
        with self.counting:
            self.open -= 1
        connection.stream.close()

    def __exit__(self, *_):
        self.shutdown()
        self.server_close()


@contextlib.contextmanager
def nobody():
    """A port of 127.0.0.1 on which nobody listens, nor can."""
    with socket.socket() as held:
        held.bind(("127.0.0.1", 0))
        yield held.getsockname()[1]


def local_name():
    """A name of 127.0.0.1 in /etc/hosts besides localhost, if the system looks there first; or nothing."""
    with contextlib.suppress(OSError):
        with open("/etc/nsswitch.conf", encoding="utf8") as file:
            if not any(line.split()[:2] == ["hosts:", "files"] for line in file):
                return None
        with open("/etc/hosts", encoding="utf8") as file:
            lines = [line.partition("#")[0].split() for line in file]
        names = [name for words in lines if words[:1] == ["127.0.0.1"] for name in words[1:]]
        return next((name for name in names if not name.startswith("localhost")), None)
    return None


def has_ipv6():
    """Whether the address ::1 can be listened on."""
    with contextlib.suppress(OSError), socket.socket(socket.AF_INET6) as tried:
        tried.bind(("::1", 0))
        return True
    return False


def head_of(*fields, status="200 OK", version="1.1"):
    return "".join(f"{line}\r\n" for line in (f"HTTP/{version} {status}", *fields, "")).encode()


def body_of(number):
    """As many bytes as the number says."""
    return (b"%d," % number * number)[:number]


def counted(number, *fields, version="1.1"):
    """A response whose body has so many bytes, and says so in its head."""
    return head_of(f"Content-Length: {number}", *fields, version=version) + body_of(number)


def chunk_of(data):
    return b"%x\r\n%s\r\n" % (len(data), data)


def lasts(connection):
    """Answers each request, and leaves the connection open."""
    for request in connection.requests():
        whole = counted(request.number)
        connection.send(whole[:-request.number] if request.is_head else whole)


def ends_after(count):
    """Ends each connection after so many responses, which do not tell of it."""
    def behave(connection):
        for request in itertools.islice(connection.requests(), count):
            connection.send(counted(request.number))
    return behave


def ends_idle_after(seconds):
    """Ends each connection on which no request comes for so long."""
    def behave(connection):
        connection.stream.settimeout(seconds)
        lasts(connection)
    return behave


def sends_surplus(connection):
    """Twenty bytes more, in one write with the response."""
    for request in connection.requests():
        connection.send(counted(request.number) + SURPLUS)


def answers_twice(connection):
    """The whole response twice, in one write."""
    for request in connection.requests():
        connection.send(2 * counted(request.number))


def sends_late_surplus(connection):
    """Twenty bytes more, soon after the response."""
    for request in connection.requests():
        connection.send(counted(request.number))
        time.sleep(SOON)
        connection.send(SURPLUS)


def answers_unasked(connection):
    """A whole response of 7 bytes that nobody asked for, soon after each response."""
    for request in connection.requests():
        connection.send(counted(request.number))
        time.sleep(SOON)
        connection.send(counted(7))


def takes(seconds):
    """Answers each request after so long."""
    def behave(connection):
        for request in connection.requests():
            time.sleep(seconds)
            connection.send(counted(request.number))
    return behave


def sends_interim(status, *fields):
    """An interim response before each response, in a write of its own."""
    def behave(connection):
        for request in connection.requests():
            connection.send(head_of(*fields, status=status))
            connection.send(counted(request.number))
    return behave


def cuts_chunk_lines(connection):
    """The line before a chunk comes in two writes, of which the first has one digit."""
    for request in connection.requests():
        text = chunk_of(body_of(request.number)) + chunk_of(b"")
        connection.send(head_of("Transfer-Encoding: chunked"))
        connection.send(text[:1])
        time.sleep(0.003)
        connection.send(text[1:])


def ends_at(count):
    """Reads the request of that place on each connection, and ends the connection in place of an answer."""
    def behave(connection):
        for request in itertools.islice(connection.requests(), count - 1):
            connection.send(counted(request.number))
        next(connection.requests(), None)
    return behave


def resets_at(count):
    """The same, but resets the connection."""
    def behave(connection):
        ends_at(count)(connection)
        connection.reset()
    return behave


def resets_twice(connection):
    """Resets at the second request of each first, third, .. connection, and at the first request of all others."""
    resets_at(1 + connection.place % 2)(connection)


def stalls(connection):
    """Sends the half of each body of an even number, and then nothing."""
    for request in connection.requests():
        connection.send(front_of_even(request.number))


def hangs_up_to(last):
    """Never answers a request for a number up to that one."""
    def behave(connection):
        for request in connection.requests():
            if request.number > last:
                connection.send(counted(request.number))
    return behave


def cuts_even(connection):
    """Ends the connection after the half of each body of an even number."""
    for request in connection.requests():
        connection.send(front_of_even(request.number))
        if request.number % 2 == 0:
            return


def front_of_even(number):
    """The response, but for an even number without the second half of its body."""
    return counted(number)[:-(number // 2)] if number % 2 == 0 else counted(number)


def cuts_each(connection):
    """Ends the connection one byte before the end of its first body."""
    for request in itertools.islice(connection.requests(), 1):
        connection.send(counted(request.number)[:-1])


def gives_both_lengths(connection):
    """Chunks, with a Content-Length beside."""
    for request in connection.requests():
        head = head_of(f"Content-Length: {request.number}", "Transfer-Encoding: chunked")
        connection.send(head + chunk_of(body_of(request.number)) + chunk_of(b""))


def answers_old(*fields):
    """Answers in HTTP/1.0 with these fields, and leaves the connection open."""
    def behave(connection):
        for request in connection.requests():
            connection.send(counted(request.number, *fields, version="1.0"))
    return behave


def ends_its_body(version):
    """Ends the connection where the first body ends; the head gives no length."""
    def behave(connection):
        for request in itertools.islice(connection.requests(), 1):
            connection.send(head_of(version=version) + body_of(request.number))
    return behave


def answers_no_content(connection):
    for _ in connection.requests():
        connection.send(head_of(status="204 No Content"))


def answers_not_modified(connection):
    """The head counts the body that 200 would have; none comes."""
    for request in connection.requests():
        connection.send(head_of(f"Content-Length: {request.number}", status="304 Not Modified"))
