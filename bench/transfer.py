"""Whole transfers between two gateways, and between a plain pair in Python that exchanges the same texts and commits as often."""

import http.client
import http.server
import multiprocessing
import os
import sqlite3
import statistics
import sys
import time

from counts import can_count, counted, counting
from gateways import Pairs, Running, committed, free_ports, line, want
from plain import ROWS, Side

PAIRS = Pairs(sys.argv[1], sys.argv[2])
TRANSFERS, ROUNDS = int(sys.argv[3]), int(sys.argv[4])


# The gateways of the program: a `start` for each transfer, against one that serves them all.


def ours():
    alpha, beta = PAIRS.fresh()
    serving = beta.serve(TRANSFERS)
    begun = time.perf_counter()
    for number in range(1, TRANSFERS + 1):
        want("a transfer", alpha.start(number, 1), committed(f"alpha.{number}", 11))
    seconds = time.perf_counter() - begun
    serving.end()
    return TRANSFERS / seconds


# The plain pair: its sides are in bench/plain.py.


def opened(path):
    base = sqlite3.connect(path, isolation_level=None, check_same_thread=False)
    mode = base.execute("pragma journal_mode=wal").fetchone()[0]
    base.execute("pragma synchronous=full")
    if mode != "wal" or base.execute("pragma synchronous").fetchone()[0] != 2:
        sys.exit("bench/transfer: SQLite refuses the settings")
    return base


def recipient(path, port):
    side = Side(opened(path), "recipient")

    class Handler(http.server.BaseHTTPRequestHandler):
        protocol_version = "HTTP/1.1"
        disable_nagle_algorithm = True
        wbufsize = -1

        def do_POST(self):
            session, more = side.take(self.rfile.read(int(self.headers["Content-Length"])).decode())
            text = side.say(session).encode() if more else b""
            self.send_response(200 if more else 204)
            if more:
                self.send_header("Content-Type", "application/jose")
                self.send_header("Content-Length", str(len(text)))
            self.end_headers()
            self.wfile.write(text)

        def log_message(self, *_):
            pass

    http.server.HTTPServer(("127.0.0.1", port), Handler).serve_forever()


def transfer(side, port, session):
    connection = http.client.HTTPConnection("127.0.0.1", port)
    text = side.say(session)
    while True:
        connection.request("POST", "/satp", body=text.encode(), headers={"Content-Type": "application/jose"})
        answer = connection.getresponse()
        body = answer.read().decode()
        if answer.status == 204:
            connection.close()
            return
        side.take(body)
        text = side.say(session)


def theirs(name):
    port = free_ports(1)[0]
    path = lambda side: os.path.join(PAIRS.folder, f"{name}-{side}.db")
    process = multiprocessing.Process(target=recipient, args=(path("beta"), port), daemon=True)
    process.start()
    while True:
        try:
            http.client.HTTPConnection("127.0.0.1", port).connect()
            break
        except ConnectionError:
            time.sleep(0.01)
    side = Side(opened(path("alpha")), "origin")
    begun = time.perf_counter()
    for number in range(1, TRANSFERS + 1):
        transfer(side, port, f"alpha.{number}")
    seconds = time.perf_counter() - begun
    process.kill()
    process.join()
    rows = [sqlite3.connect(path(it)).execute("select count(*) from rows").fetchone()[0] for it in ("alpha", "beta")]
    want("the commits of the plain pair", rows, [ROWS[it] * TRANSFERS for it in ("origin", "recipient")])
    return TRANSFERS / seconds


def instructions():
    """Those of one `start`, and those that `serve` needs for a transfer more. None where they can't be counted."""

    def whole(transfers):
        alpha, beta = PAIRS.fresh()
        serving = Running(counting(beta.words("serve", listen=beta.listens, connections=transfers)))
        serving.wait_for_line()
        if not serving.out:
            return None, None
        starts = []
        for number in range(1, transfers + 1):
            started = Running(counting(alpha.words("start", **alpha.started(number))))
            status, out, err = started.end()
            want("a counted transfer", (status, out), (0, line(f"alpha.{number} committed in 11 messages")))
            starts.append(counted(err))
        return starts[0], counted(serving.end()[2])

    (start, one), (_, three) = whole(1), whole(3)
    return None if None in (start, one, three) else (start, (three - one) / 2)


def main():
    pairs = [(ours(), theirs(f"round-{turn}")) for turn in range(ROUNDS)]
    mine, other = (statistics.median(it) for it in zip(*pairs))
    ratio = statistics.median(one / another for one, another in pairs)
    print(f"{ROUNDS} rounds of {TRANSFERS} transfers")
    print(f"gateways: {mine:.1f} transfers a second")
    print(f"http.server, http.client, hmac and SQLite {sqlite3.sqlite_version} (WAL, synchronous=FULL): {other:.1f} transfers a second")
    print(f"ratio: {ratio:.2f}")
    counts = instructions() if can_count() else None
    if counts is None:
        print("instructions are skipped")
    else:
        print(f"instructions of a transfer: {counts[0] / 1e6:.1f} million of start, {counts[1] / 1e6:.1f} million of serve")


main()
