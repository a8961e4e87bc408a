"""Where the requests of a case go: its servers are started for it alone, but for nginx."""
import contextlib
from typing import NamedTuple

from .servers import Server, has_ipv6, local_name, nobody


class Places(NamedTuple):
    """The URLs of a case, and the servers that were started for it."""

    urls: list
    servers: list

    def accepted(self):
        """How many connections these servers accepted."""
        return sum(server.accepted for server in self.servers)


def what_is_missing(case, ports):
    """What the case needs and this machine has not, or nothing."""
    if case.needs_nginx() and not ports:
        return "nginx is missing: apt-get install nginx-light"
    if case.address != "127.0.0.1" and not has_ipv6():
        return "there is no address ::1"
    if case.is_named and not local_name():
        return "/etc/hosts has no name of 127.0.0.1 besides localhost, or is not looked at first"
    return None


@contextlib.contextmanager
def started(case, ports):
    """Starts the servers of the case for as long as this lasts. Its URLs are at them in turn."""
    with contextlib.ExitStack() as stack:
        servers = []
        hosts = [start(at, case.address, ports, stack, servers) for at in case.at]
        if case.is_named:
            hosts = [host.replace("127.0.0.1", local_name()) for host in hosts]
        yield Places([f"http://{hosts[number % len(hosts)]}/{number + 1}" for number in range(case.requests)], servers)


def start(at, address, ports, stack, servers):
    """Starts a server, and gives its host and port."""
    if isinstance(at, str):
        return f"127.0.0.1:{ports[at]}"
    if at is nobody:
        return f"127.0.0.1:{stack.enter_context(nobody())}"
    if address == "localhost":
        # nobody can listen there but at ::1
        server = Server(at, "::1", stack.enter_context(nobody()))
    else:
        server = Server(at, address.strip("[]"))
    servers.append(stack.enter_context(server))
    return f"{address}:{server.port}"
