"""Tests of curlpool.py: python3 python/test_curlpool.py."""
import unittest

import curlpool
from curlpool import Error, Facts, Framing, Lease, Pool, Status, Waiter

KEPT = Facts(whole=True)


class Calls(unittest.TestCase):
    def test_a_connection_is_reused(self):
        with Pool(hosts=2, host_limit=1) as pool:
            site = pool.site("a.test", 80)
            lease = pool.acquire(site, 1)
            self.assertIsInstance(lease, Lease)
            self.assertIsNone(lease.token)
            lease.attach(7)
            waiter = pool.acquire(site, 2)
            self.assertIsInstance(waiter, Waiter)
            self.assertIsNone(waiter.claim())
            self.assertEqual(pool.granted(), [])
            lease.give_back_as(KEPT)
            self.assertEqual(pool.granted(), [waiter.slot])
            again = waiter.claim()
            self.assertEqual(again.token, 7)
            again.abandon()
            self.assertEqual(pool.closed(), [7])
            with self.assertRaises(Error) as raised:
                again.abandon()
            self.assertEqual(raised.exception.status, Status.STRANGER)
            self.assertEqual(pool.counts(site), {"opened": 1, "reused": 1, "closed": 1, "waited": 1})
            self.assertEqual(len(pool.log(site)), 5)
            self.assertEqual(pool.log(site), [])

    def test_a_response_is_read(self):
        with Pool() as pool:
            lease = pool.acquire(pool.site("a.test", 80), 1)
            lease.attach(9)
            lease.begin()
            self.assertFalse(lease.feed(b"HTTP/1.1 200 OK\r\nContent-Length: 2\r\n\r\n"))
            self.assertTrue(lease.feed(b"ok"))
            told = lease.response()
            self.assertEqual((told.status, told.body_length, told.framing), (200, 2, Framing.COUNTED))
            self.assertTrue(told.persists)
            lease.give_back()
            self.assertEqual(pool.look(0)["idle"], 1)
            self.assertEqual(pool.prune(0), 0)
            self.assertEqual(pool.end(), [9])
            self.assertEqual(pool.end(), [])

    def test_errors_are_raised(self):
        for words, status in (({"connects": 0}, Status.BAD_LIMIT), ({"hosts": 1025}, Status.BAD_LIMIT)):
            with self.assertRaises(Error) as raised:
                Pool(**words)
            self.assertEqual(raised.exception.status, status)
        with Pool() as pool, self.assertRaises(Error) as raised:
            pool.acquire(64, 1)
        self.assertEqual(str(raised.exception), "no such site")

    def test_targets(self):
        self.assertEqual(curlpool.target("http://A.test:81/b?c#d"), curlpool.Target("a.test", 81, "/b?c"))
        for url, status in (("nothing", Status.NOT_URL), ("ftp://a/", Status.NOT_HTTP)):
            with self.assertRaises(Error) as raised:
                curlpool.target(url)
            self.assertEqual(raised.exception.status, status)

    def test_the_version(self):
        self.assertRegex(curlpool.version(), r"^\d+\.\d+\.\d+$")


if __name__ == "__main__":
    unittest.main()
