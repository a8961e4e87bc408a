#!/usr/bin/env python3
"""The corpus of `tries fuzz`: some 300 responses, of heads and bodies of our own.

Run by itself, it writes them as the program reads them, to standard output or to the file that is named: each as four
bytes, which are its length, the highest byte first, and its bytes. They are the same ones in each run.
"""
import sys

OK = b"HTTP/1.1 200 OK\r\n"
TE = b"Transfer-Encoding: chunked\r\n"
END = b"\r\n"
BODIES = [
    b"", b"x", b"ok", b"hello, world", b"0\r\n\r\n", b"\r\n\r\n", b"HTTP/1.1 200 OK\r\nContent-Length: 2\r\n\r\nok",
    bytes(range(256)), b"\x00" * 40, b"line\n" * 60, b"y" * 1000,
]
STATUS_LINES = [
    OK, b"HTTP/1.1 200\r\n", b"HTTP/1.1 200 \r\n", b"HTTP/1.1 404 Not Found\r\n", b"HTTP/1.1 500 Internal Server Error\r\n",
    b"HTTP/1.1 206 Partial Content\r\n", b"HTTP/1.1 301 Moved\r\n", b"HTTP/1.0 200 OK\r\n", b"HTTP/1.0 404 No\r\n",
    b"HTTP/1.1 999 Odd\r\n", b"HTTP/1.1 600 Odd\r\n", b"HTTP/1.1 200 Caf\xc3\xa9 \xff\r\n", b"HTTP/1.1 200 \tTab\r\n",
]
FIELDS = [
    b"", b"Connection: close\r\n", b"Connection: keep-alive\r\n", b"connection:Keep-Alive , x,close\r\n",
    b"Date: Sun, 06 Nov 1994 08:49:37 GMT\r\nServer: example/1.0 (unix)\r\nContent-Type: text/html; charset=utf-8\r\n",
    b"Empty:\r\nX-Y: \t a b \t\r\n", b"Set-Cookie: a=b; Path=/\r\nSet-Cookie: c=d\r\n", b"ETag: \"\xe9\xff\"\r\n",
]
EXTENSIONS = [b"", b" ", b";a", b";a=b", b" ; a=\"b;c\"", b"\t;x=1;y=2"]
TRAILERS = [b"", b"Expires: 0\r\n", b"A: b\r\nC:\r\n", b"Content-Length: 3\r\n", b"Connection: close\r\n"]
INTERIMS = [b"HTTP/1.1 100 Continue\r\n\r\n", b"HTTP/1.1 103 Early Hints\r\nLink: </a>; rel=preload\r\n\r\n", b"HTTP/1.0 199 X\r\n\r\n"]


def length(count):
    return b"Content-Length: %d\r\n" % count


def chunk(data, extension=b"", pattern=b"%x"):
    return pattern % len(data) + extension + b"\r\n" + data + b"\r\n"


def last_chunk(extension=b"", trailer=b""):
    return b"0" + extension + b"\r\n" + trailer + b"\r\n"


def counted():
    """Bodies that Content-Length counts, below each status line and with each set of fields."""
    for line in STATUS_LINES:
        yield line + length(5) + END + b"hello"
    for fields in FIELDS:
        for body in BODIES[:6]:
            yield OK + fields + length(len(body)) + END + body
    for body in BODIES:
        yield OK + length(len(body)) + END + body


def chunked():
    """Bodies in chunks, with extensions, trailer sections and odd sizes."""
    for line in STATUS_LINES:
        yield line + TE + END + chunk(b"hello") + last_chunk()
    for extension in EXTENSIONS:
        for trailer in TRAILERS:
            yield OK + TE + END + chunk(b"hello", extension) + chunk(b"x" * 20, extension, b"%X") + last_chunk(extension, trailer)
    for body in BODIES[1:]:
        yield OK + TE + END + chunk(body, pattern=b"000%x") + last_chunk()
        yield OK + TE + END + b"".join(chunk(body[at:at + 1]) for at in range(min(len(body), 40))) + last_chunk()


def until_close():
    """Bodies that last until the connection ends."""
    for line in STATUS_LINES:
        yield line + END + b"hello"
    for body in BODIES:
        yield OK + END + body
    for coding in (b"gzip", b"chunked, gzip", b"identity", b"gzip, chunked", b"chunked, chunked", b" CHUNKED ", b"", b",chunked,"):
        yield OK + b"Transfer-Encoding:" + coding + b"\r\n" + END + chunk(b"hello") + last_chunk()


def lengths():
    """Lengths that are none, several, or stand beside a transfer coding."""
    for value in (b"", b"-1", b"+5", b"5x", b"0x5", b"5, 5", b"5,6", b"5 ", b"\t5", b"05", b"18446744073709551615",
                  b"18446744073709551616", b"99999999999999999999999", b",", b"5,", b"5;"):
        yield OK + b"Content-Length: " + value + b"\r\n" + END + b"hello"
    for first, second in ((5, 5), (5, 6), (0, 0)):
        yield OK + length(first) + length(second) + END + b"hello"
    for parts in (TE + length(5), length(5) + TE, TE + length(0), TE + TE, b"Transfer-Encoding: gzip\r\n" + TE):
        yield OK + parts + END + chunk(b"hello") + last_chunk()


def without_body():
    """Responses whose status leaves them no body, and interim ones before others."""
    for line in (b"HTTP/1.1 204 No Content\r\n", b"HTTP/1.1 304 Not Modified\r\n", b"HTTP/1.1 101 Switching Protocols\r\n"):
        for fields in (b"", length(5), TE, b"Upgrade: websocket\r\nConnection: Upgrade\r\n"):
            yield line + fields + END
            yield line + fields + END + b"hello"
    for count in (1, 2, 7, 8, 9):
        for interim in INTERIMS:
            yield interim * count + OK + length(2) + END + b"ok"
    yield INTERIMS[0] + b"HTTP/1.1 101 Switching Protocols\r\n\r\n" + b"\x81\x05hello"
    yield INTERIMS[0]


def limits():
    """Heads, fields, chunk lines and trailer sections at each limit and past it."""
    for count in (98, 99, 100, 101):
        fields = b"".join(b"A%d: b\r\n" % number for number in range(count))
        yield OK + fields + END + b"hello"
        yield OK + TE + END + chunk(b"hello") + last_chunk(trailer=fields)
    for count in (16383, 16384, 16385):
        head = OK + length(2) + b"X: "
        yield head + b"x" * (count - len(head) - 4) + b"\r\n" + END + b"ok"
    for count in (1023, 1024, 1025):
        yield OK + TE + END + b"5;" + b"a" * (count - 4) + b"\r\nhello\r\n" + last_chunk()
    for count in (8191, 8192, 8193):
        yield OK + TE + END + chunk(b"hello") + b"0\r\nX: " + b"x" * (count - 7) + b"\r\n" + END
    for size in (b"ffffffffffffffff", b"10000000000000000", b"00000000000000000000005", b"fffffffffffffffe", b"", b"g", b"5 5", b"-5"):
        yield OK + TE + END + size + b"\r\nhello\r\n" + last_chunk()


def odd():
    """Texts that are nearly responses, or none."""
    good = length(2) + END + b"ok"
    for line in (b"HTTP/1.1 2000 OK\r\n", b"HTTP/1.1 20 OK\r\n", b"HTTP/1.1  200 OK\r\n", b"HTTP/2 200 OK\r\n", b"HTTP/1.2 200 OK\r\n",
                 b"http/1.1 200 OK\r\n", b" HTTP/1.1 200 OK\r\n", b"ICY 200 OK\r\n", b"HTTP/1.1 200 OK\n", b"HTTP/1.1\r\n", b"HTTP/1.1 099 X\r\n"):
        yield line + good
    for field in (b"A : b\r\n", b" A: b\r\n", b"A b\r\n", b"A: b\r\n c\r\n", b": b\r\n", b"A: b\n", b"A: \x00\r\n", b"A\xff: b\r\n", b"A: b\rc\r\n"):
        yield OK + field + good
    yield from (b"\r\n" + OK + good, b"\r\n\n\r\n" + OK + good, b"\n" * 30 + OK + good, OK + b"\n" + good, OK.replace(b"\r", b"") + b"Content-Length: 2\n\nok")
    yield from (b"", b"\r\n", b"H", b"GET / HTTP/1.1\r\nHost: a\r\n\r\n", b"<html></html>", b"\x16\x03\x01\x02\x00\x01\x00")
    yield OK + good + OK + good
    yield OK + TE + END + b"5\r\nhelloX\r\n" + last_chunk()
    yield OK + TE + END + b"5\nhello\n0\n\n"


def responses():
    return [*counted(), *chunked(), *until_close(), *lengths(), *without_body(), *limits(), *odd()]


def text():
    """The file that the program reads."""
    return b"".join(len(response).to_bytes(4, "big") + response for response in responses())


if __name__ == "__main__":
    with open(sys.argv[1], "wb") if len(sys.argv) > 1 else open(1, "wb") as file:
        file.write(text())
