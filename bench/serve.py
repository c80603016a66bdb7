"""Sends the same requests to a gateway that serves and to Python's http.server, and compares their seconds."""

import http.server
import multiprocessing
import socket
import sys
import time

import formats
from counts import can_count, counted, counting
from gateways import KEY, Pairs, Running, free_ports, message_length, port_of

PAIRS = Pairs(sys.argv[1], sys.argv[2])
CONNECTIONS = int(sys.argv[3])
# As many as a gateway takes on one connection.
REQUESTS = 64
ROUNDS = 3
PROPOSAL = formats.transfer("alpha.1", "alpha", "beta", KEY, formats.terms(250, "gold", "ann", "bob"), formats.CHAIN[:2]).texts


def request(body):
    return f"POST /satp HTTP/1.1\r\nHost: 127.0.0.1\r\nContent-Type: application/jose\r\nContent-Length: {len(body)}\r\n\r\n{body}".encode()


# The bodies, and what the yardstick answers to them: a code and as many bytes as the gateway does.
BODIES = {
    "refused, 2 bytes": ("{}", 400, "jws parts 1\n"),
    "a proposal once more, 388 bytes": (PROPOSAL[0], 200, PROPOSAL[1]),
    "refused, 8,192 bytes": ("x" * 8192, 400, "jws parts 1\n"),
}


def take(connection, held, count):
    """Reads so many answers."""
    while count > 0:
        while (length := message_length(held)) is not None:
            held, count = held[length:], count - 1
            if count == 0:
                return held
        more = connection.recv(65536)
        if not more:
            sys.exit(f"bench/serve: {count} answers are missing")
        held += more
    return held


def load(port, content, at_once):
    """The seconds that all connections take."""
    begun = time.perf_counter()
    for _ in range(CONNECTIONS):
        with socket.create_connection(("127.0.0.1", port)) as connection:
            connection.setsockopt(socket.IPPROTO_TCP, socket.TCP_NODELAY, 1)
            if at_once:
                connection.sendall(content * REQUESTS)
                take(connection, b"", REQUESTS)
            else:
                held = b""
                for _ in range(REQUESTS):
                    connection.sendall(content)
                    held = take(connection, held, 1)
    return time.perf_counter() - begun


def ours(body, at_once):
    beta = PAIRS.fresh()[1]
    serving = beta.serve(CONNECTIONS)
    seconds = load(port_of(beta.listens), request(body), at_once)
    serving.end()
    return seconds


def yardstick(port, code, text):
    class Handler(http.server.BaseHTTPRequestHandler):
        protocol_version = "HTTP/1.1"
        disable_nagle_algorithm = True
        wbufsize = -1

        def do_POST(self):
            self.rfile.read(int(self.headers["Content-Length"]))
            self.send_response(code)
            self.send_header("Content-Type", "text/plain")
            self.send_header("Content-Length", str(len(text)))
            self.end_headers()
            self.wfile.write(text.encode())

        def log_message(self, *_):
            pass

    http.server.HTTPServer(("127.0.0.1", port), Handler).serve_forever()


def theirs(body, code, text, at_once):
    port = free_ports(1)[0]
    process = multiprocessing.Process(target=yardstick, args=(port, code, text), daemon=True)
    process.start()
    while True:
        try:
            socket.create_connection(("127.0.0.1", port)).close()
            break
        except ConnectionError:
            time.sleep(0.01)
    try:
        return load(port, request(body), at_once)
    finally:
        process.kill()
        process.join()


def instructions(body):
    """Those of one request: what four connections need more than one, by the requests that they have more. None where they can't be counted."""

    def whole(connections):
        beta = PAIRS.fresh()[1]
        serving = Running(counting(beta.words("serve", listen=beta.listens, connections=connections)))
        serving.wait_for_line()
        if not serving.out:
            return None
        for _ in range(connections):
            with socket.create_connection(("127.0.0.1", port_of(beta.listens))) as connection:
                connection.sendall(request(body) * REQUESTS)
                take(connection, b"", REQUESTS)
        return counted(serving.end()[2])

    one, four = whole(1), whole(4)
    return None if None in (one, four) else (four - one) / (3 * REQUESTS)


def main():
    requests = CONNECTIONS * REQUESTS
    for what, (body, code, text) in BODIES.items():
        for how, at_once in (("one at a time", False), ("64 at once", True)):
            pairs = [(ours(body, at_once), theirs(body, code, text, at_once)) for _ in range(ROUNDS)]
            mine, other = (min(it) for it in zip(*pairs))
            print(f"{what}, {how}: {requests / mine:.0f} requests a second, http.server {requests / other:.0f}, ratio {other / mine:.2f}")
        count = instructions(body) if can_count() else None
        print(f"{what}: {'instructions are skipped' if count is None else f'{count:.0f} instructions a request'}")


main()
