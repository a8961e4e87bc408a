"""nginx with a configuration of its own, in a temporary folder, as the current user."""
import contextlib
import os
import pwd
import shutil
import socket
import subprocess
import tempfile
import time

from .programs import end

# it is ready in a tenth of that
SECONDS = 60
TRIES = 3
# what nginx writes
SAID = "said"
# each file is named for the number of its bytes
MOST_BYTES = 1_200
# what stands in the server of that name
SERVERS = {
    "nginx": "",
    "nginx-ten": "keepalive_requests 10;",
    "nginx-includes": "ssi on; root pages; location /files/ { root .; }",
}
CONFIGURATION = """
daemon off;
pid pid;
error_log stderr;
USER
events {}
http {
    access_log off;
    default_type text/html;
    client_body_temp_path kept;
    proxy_temp_path kept;
    fastcgi_temp_path kept;
    uwsgi_temp_path kept;
    scgi_temp_path kept;
    root files;
    SERVERS
}
"""


def found():
    """Where nginx is, or nothing; some systems keep it off the path of users."""
    return shutil.which("nginx", path=f"{os.environ.get('PATH', os.defpath)}:/usr/local/sbin:/usr/sbin")


def write(path, text):
    with open(path, "w", encoding="utf8") as file:
        file.write(text)


def write_files(room):
    """Files of 1, 2, .. bytes, and for each a page that includes it and has nothing else."""
    for folder in ("files", "pages"):
        os.mkdir(os.path.join(room, folder))
    for number in range(1, MOST_BYTES + 1):
        write(os.path.join(room, "files", str(number)), (f"{number}," * number)[:number])
        write(os.path.join(room, "pages", str(number)), f'<!--#include virtual="/files/{number}" -->')


def write_configuration(room, ports):
    # where it runs as root, nginx would have its workers run as nobody
    user = f"user {pwd.getpwuid(0).pw_name};" if os.geteuid() == 0 else ""
    servers = [f"server {{ listen 127.0.0.1:{ports[name]}; {inside} }}" for name, inside in SERVERS.items()]
    path = os.path.join(room, "configuration")
    write(path, CONFIGURATION.replace("USER", user).replace("SERVERS", "\n    ".join(servers)))
    return path


def free_ports(count):
    with contextlib.ExitStack() as stack:
        held = [stack.enter_context(socket.socket()) for _ in range(count)]
        for one in held:
            one.bind(("127.0.0.1", 0))
        return [one.getsockname()[1] for one in held]


def answers(port):
    with contextlib.suppress(OSError), socket.create_connection(("127.0.0.1", port), timeout=SECONDS):
        return True
    return False


def is_ready(started, ports):
    """Waits until each port answers: whether they do before nginx ends, and in time."""
    latest = time.monotonic() + SECONDS
    for port in ports:
        while not answers(port):
            if started.poll() is not None or time.monotonic() > latest:
                return False
            time.sleep(0.02)
    return started.poll() is None


@contextlib.contextmanager
def started_once(room):
    """Runs nginx once: the port of each server by its name; nothing if nginx did not start."""
    ports = dict(zip(SERVERS, free_ports(len(SERVERS)), strict=True))
    with open(os.path.join(room, SAID), "w", encoding="utf8") as said:
        started = subprocess.Popen([found(), "-p", room, "-c", write_configuration(room, ports)],
                                   stdin=subprocess.DEVNULL, stdout=said, stderr=said, start_new_session=True)
        try:
            yield ports if is_ready(started, ports.values()) else None
        finally:
            end(started)


@contextlib.contextmanager
def running():
    """Runs nginx, and gives the port of each server by its name. If another program takes one of the free ports first,
    it is started once more."""
    with tempfile.TemporaryDirectory(prefix="real-servers-") as room:
        write_files(room)
        for _ in range(TRIES):
            with started_once(room) as ports:
                if ports:
                    yield ports
                    return
        with open(os.path.join(room, SAID), encoding="utf8") as said:
            raise OSError(f"nginx did not start: {said.read().strip()}")
