"""A trace as a recorder writes it: by one clock, under one lock."""
import sys
import threading
import time


class Trace:
    """The lines of a trace, the newest last. Each method appends one, with the moment of the call."""

    def __init__(self, limits, ports, age=None):
        self.lock, self.began, self.opened_at = threading.RLock(), time.monotonic(), {}
        self.options = "" if age is None else f" age {age}"
        self.lines = [f"limits {limits[0]} {limits[1]} {limits[2]}"]
        self.lines += [f"site http://127.0.0.1:{port}/" for port in ports]
        # what happens beside a call is no rest
        self.lines.append("rest")

    def say(self, text):
        with self.lock:
            self.lines.append(f"{text} at {int(time.monotonic() - self.began)}")

    def get(self, transfer, host):
        with self.lock:
            self.say(f"get {transfer} {host} 0")
            self.lines[-1] += self.options

    def opened(self, host, transfer):
        """Gives the number of the connection, which is the next one of its host."""
        with self.lock:
            number = self.opened_at[host] = self.opened_at.get(host, 0) + 1
            self.say(f"opened {host}.{number} for {transfer}")
            return number

    def leased(self, host, number, transfer):
        self.say(f"leased {host}.{number} to {transfer}")

    def returned(self, host, number, transfer, kind):
        with self.lock:
            self.say(f"back {transfer} {host} {kind}")
            self.say(f"returned {host}.{number} by {transfer}")

    def closed(self, host, number):
        self.say(f"closed {host}.{number}")

    def waits(self, host, transfer):
        self.say(f"waits {transfer} host {host}")

    def rest(self):
        with self.lock:
            self.lines.append("rest")

    def write(self):
        sys.stdout.write("".join(f"{line}\n" for line in self.lines))
