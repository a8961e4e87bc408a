#!/usr/bin/env python3
"""Records what libcurl's multi interface does: libcurl_multi.py PLAN [closes|ages].

One multi handle in one thread keeps the connections of all hosts. A connection is opened when libcurl asks for a
socket, and closed when it gives the socket back. Before a request is sent, libcurl tells the local port of its
connection: one that is known is reused. A return and the beginning of a wait are told by libcurl's texts alone.
"""
import ctypes
import os
import socket
import sys
import time

sys.dont_write_bytecode = True
sys.path.insert(0, os.path.dirname(os.path.dirname(os.path.abspath(__file__))))
from recorders import libcurl, plan
from recorders.libcurl import number, pointer, text
from recorders.trace import Trace

MOST_OF_A_HOST, MOST_IN_TOTAL, MOST_KEPT = 2, 4, 3
MILLISECONDS, WAIT = 10_000, 100
RETURNED, WAITS = b"left intact", b"No connections available"


class Connection:
    """An open connection: its host and its number there, and the transfer that has it."""

    def __init__(self, host, transfer, place):
        self.host, self.transfer, self.place = host, transfer, place


class Recorder:
    """A multi handle, and what is known of its transfers and connections."""

    def __init__(self, curl, trace, age):
        self.curl, self.trace, self.multi = curl, trace, curl.curl_multi_init()
        # the most seconds that libcurl is told to keep an idle connection, if it is told
        self.age = age
        # by number
        self.requests, self.waiting = {}, set()
        # by the transfer that has it, by its descriptor, and by its local port
        self.held, self.by_descriptor, self.by_port = {}, {}, {}
        self.functions = {
            libcurl.WRITE_FUNCTION: libcurl.Write(lambda _, size, count, data: size * count),
            libcurl.DEBUG_FUNCTION: libcurl.Debug(self.told), libcurl.OPEN_FUNCTION: libcurl.Open(self.open),
            libcurl.CLOSE_FUNCTION: libcurl.Close(self.close), libcurl.PREREQ_FUNCTION: libcurl.Prereq(self.begin),
        }
        for option, value in ((libcurl.MAX_HOST_CONNECTIONS, MOST_OF_A_HOST), (libcurl.MAX_CONNECTS, MOST_KEPT),
                              (libcurl.MAX_TOTAL_CONNECTIONS, MOST_IN_TOTAL)):
            curl.curl_multi_setopt(pointer(self.multi), option, number(value))

    def open(self, transfer, _, address):
        """libcurl dials for a transfer."""
        family = address.contents.family
        descriptor = socket.socket(family, address.contents.type, address.contents.protocol).detach()
        host = self.requests[transfer]["host"]
        self.waiting.discard(transfer)
        connection = Connection(host, transfer, self.trace.opened(host, transfer))
        self.held[transfer] = self.by_descriptor[descriptor] = connection
        return descriptor

    def close(self, _, descriptor):
        connection = self.by_descriptor.pop(descriptor)
        self.held.pop(connection.transfer, None)
        self.trace.closed(connection.host, connection.place)
        os.close(descriptor)
        return 0

    def begin(self, transfer, _, __, ___, port):
        """libcurl is about to send the request, over the connection that has this local port."""
        if transfer in self.held:
            self.by_port[port] = self.held[transfer]
            return 0
        connection = self.held[transfer] = self.by_port[port]
        connection.transfer = transfer
        self.waiting.discard(transfer)
        self.trace.leased(connection.host, connection.place, transfer)
        return 0

    def told(self, _, kind, data, size, transfer):
        """libcurl tells what it does."""
        said = data[:size] if kind == libcurl.INFO_TEXT else b""
        if WAITS in said and transfer not in self.waiting:
            self.waiting.add(transfer)
            self.trace.waits(self.requests[transfer]["host"], transfer)
        elif RETURNED in said:
            connection = self.held.pop(transfer)
            connection.transfer = None
            kind_told = plan.kind_in_trace(self.requests[transfer]["kind"])
            self.trace.returned(connection.host, connection.place, transfer, kind_told)
        return 0

    def add(self, request, port):
        """Begins a transfer."""
        transfer, easy = request["number"], self.curl.curl_easy_init()
        self.requests[transfer] = request
        self.trace.get(transfer, request["host"])
        options = {libcurl.URL: text(f"http://127.0.0.1:{port}/{transfer}"), libcurl.PROXY: text(""),
                   libcurl.VERBOSE: number(1), libcurl.NO_SIGNAL: number(1),
                   libcurl.HTTP_VERSION: number(libcurl.HTTP_1_1),
                   libcurl.TIMEOUT_MILLISECONDS: number(MILLISECONDS), libcurl.DEBUG_DATA: pointer(transfer),
                   libcurl.OPEN_DATA: pointer(transfer), libcurl.PREREQ_DATA: pointer(transfer), **self.functions}
        if self.age is not None:
            options[libcurl.MAX_AGE] = number(self.age)
        for option, value in options.items():
            self.curl.curl_easy_setopt(pointer(easy), option, value)
        self.curl.curl_multi_add_handle(self.multi, easy)

    def run(self):
        """Carries on until all transfers have ended."""
        running, count = ctypes.c_int(1), ctypes.c_int()
        while running.value:
            self.curl.curl_multi_perform(self.multi, running)
            while message := self.curl.curl_multi_info_read(self.multi, count):
                easy = message.contents.transfer
                self.curl.curl_multi_remove_handle(self.multi, easy)
                self.curl.curl_easy_cleanup(easy)
            if running.value:
                self.curl.curl_multi_poll(self.multi, None, 0, WAIT, count)


def main():
    told, wrong = plan.read(sys.argv[1]), sys.argv[2:3]
    limits = MOST_OF_A_HOST, MOST_IN_TOTAL, MOST_KEPT
    trace = Trace(limits, told["ports"], plan.AGE_IN_TRACE)
    recorder = Recorder(libcurl.library(), trace, None if wrong == ["ages"] else plan.AGE)
    for place, batch in enumerate(told["batches"]):
        if place == len(told["batches"]) - 1:
            time.sleep(told["pause"])
        for request in batch:
            recorder.add(request, told["ports"][request["host"]])
        recorder.run()
        trace.rest()
    trace.write()
    sys.stdout.flush()


if __name__ == "__main__":
    main()
