"""https through stunnel, as docs/command-line.md describes it: by examples/https.conf, with a server of this machine in
place of www.example.com. Skipped if stunnel or openssl is missing."""
import contextlib
import os
import shutil
import ssl
import subprocess
import tempfile
import time
from typing import NamedTuple

from program import TOP

from . import nginx, programs, servers
from .servers import Server

CONFIGURATION = os.path.join(TOP, "examples", "https.conf")
HOST, OTHER_HOST = "www.example.com", "other.example.com"
REQUESTS = 20


class TlsServer(Server):
    """A server whose connections are encrypted."""

    def __init__(self, behaviour, certificate):
        self.context = ssl.SSLContext(ssl.PROTOCOL_TLS_SERVER)
        self.context.load_cert_chain(certificate)
        super().__init__(behaviour)

    def get_request(self):
        connection, address = super().get_request()
        # the first read makes the handshake, in the thread of the connection
        connection.stream = self.context.wrap_socket(connection.stream, server_side=True, do_handshake_on_connect=False)
        return connection, address


class Tunnel(NamedTuple):
    """A way for curlpool to a server behind stunnel."""

    port: int

    def urls(self):
        return [f"http://{HOST}:{self.port}/{number}" for number in range(1, REQUESTS + 1)]

    def resolved(self):
        return ["--resolve", f"{HOST}:{self.port}:127.0.0.1"]


class Missing(Exception):
    """What this machine lacks."""


def program(name, package):
    """The path of a program; some systems keep it off the path of users."""
    found = shutil.which(name, path=f"{os.environ.get('PATH', os.defpath)}:/usr/local/sbin:/usr/sbin")
    if not found:
        raise Missing(f"{name} is missing: apt-get install {package}")
    return found


def make_certificate(room, host):
    """A file with a key and a certificate that it signs for itself."""
    path = os.path.join(room, "certificate")
    subprocess.run([program("openssl", "openssl"), "req", "-x509", "-newkey", "ec", "-pkeyopt", "ec_paramgen_curve:P-256",
                    "-nodes", "-keyout", path + ".key", "-out", path, "-days", "2", "-subj", f"/CN={host}", "-addext",
                    f"subjectAltName=DNS:{host}"], check=True, capture_output=True, stdin=subprocess.DEVNULL)
    with open(path + ".key", encoding="ascii") as key, open(path, "a", encoding="ascii") as certificate:
        certificate.write(key.read())
    return path


def configure(room, accept, connect, certificate):
    """Writes the configuration of the example with these ports, and this certificate as the trusted one."""
    changed = {"accept": f"127.0.0.1:{accept}", "connect": f"127.0.0.1:{connect}"}
    lines = []
    with open(CONFIGURATION, encoding="utf8") as file:
        for line in file:
            key = line.partition(" = ")[0]
            lines.append(f"CAfile = {certificate}\n" if key == "CApath" else
                         f"{key} = {changed[key]}\n" if key in changed else line)
    path = os.path.join(room, "https.conf")
    nginx.write(path, "".join(lines))
    return path


@contextlib.contextmanager
def tunnelled(host):
    """Starts a server with a certificate of that host, and stunnel before it."""
    stunnel = program("stunnel", "stunnel4")
    with tempfile.TemporaryDirectory(prefix="real-servers-") as room:
        certificate = make_certificate(room, host)
        [accept] = nginx.free_ports(1)
        with TlsServer(servers.lasts, certificate) as server, \
                open(os.path.join(room, nginx.SAID), "w", encoding="utf8") as said:
            started = subprocess.Popen([stunnel, configure(room, accept, server.port, certificate)],
                                       stdin=subprocess.DEVNULL, stdout=said, stderr=said, start_new_session=True)
            try:
                if not nginx.is_ready(started, [accept]):
                    raise OSError("stunnel did not start")
                yield Tunnel(accept)
            finally:
                programs.end(started)


class ThroughStunnel:
    """Requests to a server that speaks TLS alone."""

    def __init__(self, name, host, complaint):
        self.name, self.host, self.complaint = name, host, complaint

    def needs_nginx(self):
        return False

    def run(self, _ports):
        """How it ended, and what there is to say of it."""
        began = time.monotonic()
        try:
            with tunnelled(self.host) as tunnel:
                found = self.complaint(tunnel)
        except Missing as missing:
            return "skipped", str(missing)
        except OSError as error:
            return "failed", str(error)
        return ("failed", found) if found else ("passed", f"{REQUESTS} requests; {time.monotonic() - began:.1f} seconds")


def wrong_lines(tunnel):
    """What is wrong with the lines of curlpool get, or nothing."""
    run = programs.get([*tunnel.resolved(), *tunnel.urls()])
    wanted = [f"200 {number} {'reused' if number > 1 else 'new'} {url}" for number, url in enumerate(tunnel.urls(), 1)]
    if run.status != 0 or run.output.splitlines() != wanted:
        return f"status {run.status}, {run.output[:200]!r}, {run.errors[-200:]!r}"
    return None


def wrong_report(tunnel):
    """What is wrong with the report of curlpool load, or nothing."""
    run = programs.load([*tunnel.resolved(), "--url", tunnel.urls()[6], "--jobs", str(REQUESTS), "--workers", "1",
                         "--quiet"])
    wanted = ["jobs", str(REQUESTS), "0", str(REQUESTS - 1), "0", str(7 * REQUESTS)]
    if run.status != 0 or (run.output.splitlines() or [""])[-1].split() != wanted:
        return f"status {run.status}, {run.output[:200]!r}, {run.errors[-200:]!r}"
    return None


def not_refused(tunnel):
    """What is wrong with the lines of curlpool get if the certificate is not the host's, or nothing."""
    run = programs.get([*tunnel.resolved(), *tunnel.urls()])
    lines = run.output.splitlines()
    # stunnel ends the connection, even while it is dialled
    faults = {line.split(" ")[0] for line in lines}
    if run.status != 4 or not faults <= {"Dial", "Read", "Write", "Cut"} or len(lines) != REQUESTS:
        return f"status {run.status}, {run.output[:200]!r}, {run.errors[-200:]!r}"
    return None


def all_tunnels():
    yield ThroughStunnel("get: https through stunnel", HOST, wrong_lines)
    yield ThroughStunnel("load: https through stunnel", HOST, wrong_report)
    yield ThroughStunnel("get: https through stunnel, another host's certificate", OTHER_HOST, not_refused)
