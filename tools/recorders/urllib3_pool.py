#!/usr/bin/env python3
"""Records what the pools of urllib3 do: urllib3_pool.py PLAN [closes|ages].

Threads send the requests of a plan through one pool for each host, which has at most two connections and lets threads
wait for them. A pool has no age at which it closes idle connections. It keeps connections and free places in a queue.
Starts and returns are recorded by the queue, under its own lock, so that nothing happens between the two; waits by its
condition.
"""
import concurrent.futures
import http.client
import os
import queue
import sys
import threading
import time

sys.dont_write_bytecode = True
sys.path.insert(0, os.path.dirname(os.path.dirname(os.path.abspath(__file__))))
import urllib3
from urllib3.connection import HTTPConnection
from urllib3.connectionpool import HTTPConnectionPool

from recorders import plan
from recorders.trace import Trace

THREADS, MOST_OF_A_HOST, SECONDS = 8, 2, 10
# no limit of all hosts together
LIMITS = (MOST_OF_A_HOST, 0, 65_535)
# what the thread at work does: the transfer, its kind, the number of the connection that was opened for it, whether it
# waits
at_work = threading.local()


class WaitTold(threading.Condition):
    """The condition on which threads wait for a connection or a free place."""

    def __init__(self, recorded):
        super().__init__(recorded.mutex)
        self.recorded = recorded

    def wait(self, timeout=None):
        if not at_work.waits:
            at_work.waits = True
            self.recorded.trace.waits(self.recorded.host, at_work.transfer)
        return super().wait(timeout)


class RecordedQueue(queue.LifoQueue):
    """A pool's queue. A free place is None, or a connection that was closed."""

    # the pool fills its queue with free places before these are set
    trace = host = None

    def __init__(self, most):
        super().__init__(most)
        self.not_empty = WaitTold(self)

    def _get(self):
        item = super()._get()
        at_work.waits, at_work.opened = False, None
        if item is None or item.number is None:
            at_work.opened = self.trace.opened(self.host, at_work.transfer)
        else:
            item.transfer = at_work.transfer
            self.trace.leased(self.host, item.number, at_work.transfer)
        return item

    def _put(self, item):
        if item is not None and item.number is not None:
            self.trace.returned(self.host, item.number, item.transfer, at_work.kind)
        super()._put(item)


class RecordedConnection(HTTPConnection):
    number = transfer = recorded = None

    def close(self):
        if self.number is not None:
            number, self.number = self.number, None
            self.recorded.trace.closed(self.recorded.host, number)
        super().close()


class ForgetsClose(http.client.HTTPResponse):
    """A response that never ends its connection, whatever it says."""

    def _check_close(self):
        return False


class ForgetfulConnection(RecordedConnection):
    response_class = ForgetsClose


class RecordedPool(HTTPConnectionPool):
    QueueCls, ConnectionCls = RecordedQueue, RecordedConnection

    def _get_conn(self, timeout=None):
        connection = super()._get_conn(timeout)
        if connection.number is None:
            if at_work.opened is None:
                # the one that was leased had been ended by its server: one more is asked for
                self.pool.trace.get(at_work.transfer, self.pool.host)
                at_work.opened = self.pool.trace.opened(self.pool.host, at_work.transfer)
            connection.recorded, connection.number = self.pool, at_work.opened
            connection.transfer = at_work.transfer
        return connection


class ForgetfulPool(RecordedPool):
    ConnectionCls = ForgetfulConnection


def send(pool, request):
    at_work.transfer, at_work.kind, at_work.waits = request["number"], plan.kind_in_trace(request["kind"]), False
    pool.pool.trace.get(request["number"], request["host"])
    try:
        pool.urlopen("GET", f"/{request['number']}", retries=False, timeout=SECONDS)
    except urllib3.exceptions.HTTPError:
        # a truncated response, or one that begins with surplus bytes
        pass


def main():
    told, wrong = plan.read(sys.argv[1]), sys.argv[2:3]
    trace = Trace(LIMITS, told["ports"], plan.AGE_IN_TRACE if wrong == ["ages"] else None)
    kind_of_pool, pools = ForgetfulPool if wrong == ["closes"] else RecordedPool, []
    for host, port in enumerate(told["ports"]):
        pools.append(kind_of_pool("127.0.0.1", port, maxsize=MOST_OF_A_HOST, block=True))
        pools[host].pool.trace, pools[host].pool.host = trace, host
    with concurrent.futures.ThreadPoolExecutor(THREADS) as threads:
        for place, batch in enumerate(told["batches"]):
            if place == len(told["batches"]) - 1:
                time.sleep(told["pause"])
            list(threads.map(lambda request: send(pools[request["host"]], request), batch))
            trace.rest()
    trace.write()


if __name__ == "__main__":
    main()
