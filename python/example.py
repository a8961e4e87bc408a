"""Fetches a page ten times by http.client, over connections that curlpool keeps: python3 python/example.py."""
import http.client
import http.server
import threading

import curlpool


class Handler(http.server.BaseHTTPRequestHandler):
    """A server that answers each request with two bytes, and leaves the connection open."""

    protocol_version = "HTTP/1.1"

    def do_GET(self):
        self.send_response(200)
        self.send_header("Content-Length", "2")
        self.end_headers()
        self.wfile.write(b"ok")

    def log_message(self, *_):
        pass


def fetch(pool, connections, url, transfer):
    """Fetches a URL over a connection of the pool: status and body."""
    target = curlpool.target(url)
    lease = pool.acquire(pool.site(target.host, target.port), transfer)
    if lease.token is None:
        connection = http.client.HTTPConnection(target.host, target.port)
        connection.connect()
        lease.attach(connection.sock.fileno())
        connections[lease.token] = connection
    connection = connections[lease.token]
    connection.request("GET", target.path)
    response = connection.getresponse()
    body = response.read()
    lease.give_back_as(curlpool.Facts(whole=True, http11=response.version == 11, close=response.will_close))
    for token in pool.closed():
        connections.pop(token).close()
    return response.status, body


def main():
    server = http.server.ThreadingHTTPServer(("127.0.0.1", 0), Handler)
    threading.Thread(target=server.serve_forever, daemon=True).start()
    url, connections = f"http://127.0.0.1:{server.server_port}/", {}
    with curlpool.Pool(host_limit=6) as pool:
        answers = {fetch(pool, connections, url, transfer) for transfer in range(10)}
        counts = pool.counts(0)
        for token in pool.end():
            connections.pop(token).close()
    server.shutdown()
    print(f"{answers}: {counts['opened']} opened, {counts['reused']} reused")
    assert answers == {(200, b"ok")} and counts["opened"] == 1 and counts["reused"] == 9 and not connections


if __name__ == "__main__":
    main()
