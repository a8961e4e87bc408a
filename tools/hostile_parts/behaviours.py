"""Servers that make things hard: behaviours beside those of real_servers, each a function that is handed a connection.

A request for /K is answered with K bytes, so an answer to another request shows by its length.
"""
import itertools
import random
import socket
import threading

from real_servers import servers
from real_servers.servers import REQUEST, counted, head_of


def half_closes_after(count):
    """Ends its own side after so many responses, and goes on reading until the client ends its side."""
    def behave(connection):
        for request in itertools.islice(connection.requests(), count):
            connection.send(counted(request.number))
        connection.stream.shutdown(socket.SHUT_WR)
        while connection.stream.recv(65536):
            pass
    return behave


def half_closes_in_body(connection):
    """Ends its own side in the middle of the first body, and goes on reading."""
    for request in itertools.islice(connection.requests(), 1):
        connection.send(counted(request.number)[:-1 - request.number // 2])
        connection.stream.shutdown(socket.SHUT_WR)
        while connection.stream.recv(65536):
            pass


def never_answers(connection):
    """Reads the requests, and nothing else."""
    for _ in connection.requests():
        pass


def read_to(end, connection, came=b""):
    """What has come, with bytes that are read one by one until it ends so; nothing where the client ends before."""
    while not came.endswith(end):
        piece = connection.stream.recv(1)
        if not piece:
            return b""
        came += piece
    return came


def answers_after_the_first_line(connection):
    """Answers as soon as the first line of a request has come, byte by byte, and reads the rest of it afterwards."""
    while came := read_to(b"\r\n", connection):
        number = int(REQUEST.match(came + b"Host: a\r\n")[2])
        if not connection.is_asked_here(number):
            connection.refuse()
            return
        connection.send(counted(number))
        if not read_to(b"\r\n\r\n", connection, came):
            return


def sends_single_bytes(connection):
    """Each byte of a response in a write of its own."""
    for request in connection.requests():
        whole = counted(request.number)
        for place in range(len(whole)):
            connection.send(whole[place:place + 1])


def cuts_at_each_byte(connection):
    """Sends no byte of the first response on the first connection, and on each later one a byte more; ends it then."""
    for request in itertools.islice(connection.requests(), 1):
        connection.send(counted(request.number)[:connection.place - 1])


def cuts_the_second_at_each_byte():
    """The first response of a connection is whole. The second one is cut after one byte more each time, from none."""
    cuts, lock = itertools.count(), threading.Lock()

    def behave(connection):
        requests = connection.requests()
        for request in itertools.islice(requests, 1):
            connection.send(counted(request.number))
        for request in itertools.islice(requests, 1):
            with lock:
                cut = next(cuts)
            connection.send(counted(request.number)[:cut])
    return behave


def sends_interim_heads(count):
    """So many interim heads before each response."""
    def behave(connection):
        for request in connection.requests():
            connection.send(head_of(status="100 Continue") * count + counted(request.number))
    return behave


def sends_chunk_line(length):
    """A chunk whose line has so many bytes before its end."""
    def behave(connection):
        for request in connection.requests():
            size = b"%x;" % request.number
            line = size + b"x" * (length - 2 - len(size)) + b"\r\n"
            body = servers.body_of(request.number)
            connection.send(head_of("Transfer-Encoding: chunked") + line + body + b"\r\n" + servers.chunk_of(b""))
    return behave


def sends_fields(count):
    """A head of so many fields, one of them the length."""
    def behave(connection):
        for request in connection.requests():
            more = ["A: b"] * (count - 1)
            connection.send(counted(request.number, *more))
    return behave


def sends_head(length):
    """A head of so many bytes."""
    def behave(connection):
        for request in connection.requests():
            fewest = len(counted(request.number, "A: ")) - request.number
            connection.send(counted(request.number, "A: " + "x" * (length - fewest)))
    return behave


def sends_no_response(connection):
    """Text that is no response."""
    for _ in connection.requests():
        connection.send(b"220 mail.example ESMTP\r\n\r\n")


ALL = (
    servers.lasts, servers.ends_after(1), servers.ends_after(2), servers.resets_at(1), servers.resets_at(2),
    servers.sends_surplus, servers.gives_both_lengths, servers.cuts_each, servers.ends_at(1), servers.ends_at(2),
    servers.answers_old(), servers.answers_old("Connection: keep-alive"), servers.ends_its_body("1.1"),
    servers.cuts_chunk_lines, half_closes_after(1), half_closes_after(2), half_closes_in_body,
    answers_after_the_first_line, sends_single_bytes, sends_interim_heads(8), sends_interim_heads(9), sends_no_response,
)


def drawn(seed):
    """Each connection is treated by a behaviour that is drawn for it."""
    def behave(connection):
        random.Random(f"{seed} {connection.place}").choice(ALL)(connection)
    return behave
