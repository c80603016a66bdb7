"""The wire over TCP against peers that are slow, silent, that reset, and that never close; with strace where it can be used."""

import os
import re
import shutil
import socket
import struct
import subprocess
import sys
import time

DRIVER = os.path.abspath(sys.argv[1])
LOG = os.path.join(os.path.abspath(sys.argv[2]), "strace.log")
# Milliseconds: for an address, for a byte, for a connection, and for the end.
PATIENCE = "patience 2000 400 1500 400"
CLOSE_WITH_RESET = struct.pack("ii", 1, 0)


def want(what, found, wanted):
    if found != wanted:
        print(f"wire: {what}: {found!r}, and not {wanted!r}")
        sys.exit(1)


def want_within(what, seconds, least, most):
    if not least <= seconds <= most:
        print(f"wire: {what} took {seconds:.2f} s, and not {least} to {most}")
        sys.exit(1)


class Driver:
    """A driver with its own wire."""

    def __init__(self, *before):
        self.process = subprocess.Popen(
            [*before, DRIVER], stdin=subprocess.PIPE, stdout=subprocess.PIPE, text=True, bufsize=1
        )
        self.want("done", PATIENCE)

    def begin(self, line):
        self.process.stdin.write(line + "\n")
        self.process.stdin.flush()

    def said(self):
        return self.process.stdout.readline().rstrip("\n")

    def ask(self, line):
        self.begin(line)
        return self.said()

    def want(self, wanted, line):
        want(line, self.ask(line), wanted)

    def timed(self, line):
        begun = time.monotonic()
        answer = self.ask(line)
        return answer, time.monotonic() - begun

    def listen(self):
        """Listens at a port that is free, and gives its place."""
        with socket.create_server(("127.0.0.1", 0)) as free:
            place = free.getsockname()
        self.want("done", f"listen 127.0.0.1:{place[1]}")
        return place

    def end(self):
        self.process.stdin.close()
        want("the status of the driver", self.process.wait(timeout=60), 0)


def accepted(driver, place):
    """A peer whose connection the driver has accepted."""
    peer = socket.create_connection(place, timeout=10)
    driver.want("done", "accept")
    return peer


def reset(peer):
    peer.setsockopt(socket.SOL_SOCKET, socket.SO_LINGER, CLOSE_WITH_RESET)
    peer.close()


# The peers.


def bytes_both_ways(driver, place):
    peer = accepted(driver, place)
    driver.want("barred", "accept")
    peer.sendall(b"hello")
    driver.want("3 read hel", "read 3")
    driver.want("2 read lo", "read 100")
    driver.want("0 read ", "read 0")
    driver.want("4 written", "write 4")
    want("what the peer reads", peer.recv(100), b"xxxx")
    driver.want("0 written", "write 0")
    peer.shutdown(socket.SHUT_WR)
    driver.want("0 read ", "read 100")
    driver.want("done", "shut")
    want("the end", peer.recv(100), b"")
    driver.want("barred", "read 1")


def slow(driver, place):
    """Each byte comes in time, and is answered at once; but the connection lasts too long."""
    peer = accepted(driver, place)
    begun = time.monotonic()
    answers = []
    while not answers or answers[-1] == "1 read s":
        driver.begin("read 100")
        time.sleep(0.2)
        peer.sendall(b"s")
        answers.append(driver.said())
    want("the last answer to a slow peer", answers[-1], "failed")
    want_within("a slow peer", time.monotonic() - begun, 1.4, 5)
    want("the count of answers to a slow peer is 5 or more", len(answers) >= 5, True)
    driver.want("failed", "write 1")
    driver.want("done", "shut")
    peer.close()


def silent(driver, place):
    peer = accepted(driver, place)
    answer, seconds = driver.timed("read 100")
    want("a silent peer", answer, "failed")
    want_within("a silent peer", seconds, 0.35, 1.4)
    # The fault leaves the connection, and a byte that comes later is heard.
    peer.sendall(b"l")
    driver.want("1 read l", "read 100")
    driver.want("done", "shut")
    peer.close()


def never_reads(driver, place):
    """Writes are short, and then one takes nothing for as long as the wire waits."""
    peer = accepted(driver, place)
    begun = time.monotonic()
    answers = [driver.ask("write 100000000")]
    while answers[-1] != "failed":
        count, word = answers[-1].split(" ")
        want("a write that the peer doesn't read", word, "written")
        want("it is short", 0 < int(count) < 100_000_000, True)
        answers.append(driver.ask("write 100000000"))
    want("a write to a full peer is short at first", len(answers) > 1, True)
    want_within("writes to a full peer", time.monotonic() - begun, 0.35, 5)
    driver.want("done", "shut")
    peer.close()


def resets(driver, place):
    """Within a connection, and before it is accepted. Neither ends the accepting, nor the driver."""
    peer = accepted(driver, place)
    peer.sendall(b"abc")
    driver.want("3 read abc", "read 100")
    reset(peer)
    time.sleep(0.1)
    driver.want("failed", "read 100")
    driver.want("failed", "write 1")
    driver.want("done", "shut")
    early = socket.create_connection(place, timeout=10)
    reset(early)
    time.sleep(0.1)
    answer = driver.ask("accept")
    want("an accepting after a reset", answer, "done")
    driver.want("failed", "read 100")
    driver.want("done", "shut")
    bytes_both_ways(driver, place)


def never_closes(driver, place):
    peer = accepted(driver, place)
    answer, seconds = driver.timed("shut")
    want("the end with a peer that doesn't close", answer, "done")
    want_within("the end with a peer that doesn't close", seconds, 0.35, 1.4)
    peer.close()


def leaves_bytes_unread(driver, place):
    """What was said last arrives, though bytes of the peer were never read."""
    peer = accepted(driver, place)
    peer.sendall(b"y" * 60_000)
    driver.want("5 written", "write 5")
    driver.begin("shut")
    time.sleep(0.1)
    want("the last answer", peer.recv(100), b"xxxxx")
    want("the end after it", peer.recv(100), b"")
    peer.close()
    want("the end with bytes unread", driver.said(), "done")


def connects():
    """To a name that has several addresses, and to none that answers."""
    driver = Driver()
    with socket.create_server(("127.0.0.1", 0)) as server:
        server.settimeout(10)
        driver.want("done", f"connect localhost:{server.getsockname()[1]}")
        peer, _ = server.accept()
        driver.want("barred", f"connect localhost:{server.getsockname()[1]}")
        driver.want("2 written", "write 2")
        want("what the server reads", peer.recv(100), b"xx")
        peer.close()
        driver.want("0 read ", "read 1")
        driver.want("done", "shut")
        port = server.getsockname()[1]
    driver.want("failed", f"connect 127.0.0.1:{port}")
    driver.want("barred", "write 1")
    driver.end()


# With strace.


def can_trace():
    return shutil.which("strace") is not None and subprocess.run(["strace", "-o", LOG, "true"], stderr=subprocess.DEVNULL).returncode == 0


def traced(*further):
    return Driver("strace", "-e", "trace=accept4,recvfrom,sendto,setsockopt", *further, "-o", LOG)


def calls_in_log():
    with open(LOG) as log:
        return log.read()


def one_call_each():
    """A read is one call, and so is a write. The option is set before the first of them."""
    driver = traced()
    peer = accepted(driver, driver.listen())
    peer.sendall(b"hello")
    driver.want("5 read hello", "read 100")
    driver.want("70 written", "write 70")
    peer.close()
    driver.end()
    names = re.findall(r"^(accept4|recvfrom|sendto)\(", calls_in_log(), re.MULTILINE)
    want("the calls", names, ["accept4", "recvfrom", "sendto"])
    want("the option is set", "TCP_NODELAY, [1]" in calls_in_log(), True)
    want("it is set once", calls_in_log().count("TCP_NODELAY"), 1)


def drops_no_more():
    """At the end, of a peer that has said more than is dropped."""
    driver = traced()
    peer = accepted(driver, driver.listen())
    peer.sendall(b"y" * 200_000)
    driver.want("done", "shut")
    peer.close()
    driver.end()
    counts = re.findall(r"^recvfrom\(.* = (\d+)$", calls_in_log(), re.MULTILINE)
    want("the bytes that are dropped", sum(map(int, counts)), 65_536)


def tried_again():
    """Calls of the system that fail once, and are made again."""
    for call, error in (("accept4", "EINTR"), ("accept4", "ECONNABORTED"), ("accept4", "ECONNRESET"), ("recvfrom", "EINTR"), ("sendto", "EINTR")):
        driver = traced("-e", f"inject={call}:error={error}:when=1")
        peer = accepted(driver, driver.listen())
        peer.sendall(b"hello")
        driver.want("5 read hello", "read 100")
        driver.want("7 written", "write 7")
        want(f"what the peer reads after {error} of {call}", peer.recv(100), b"x" * 7)
        peer.close()
        driver.end()
        want(f"{error} of {call} was injected", calls_in_log().count("INJECTED"), 1)


def not_tried_again():
    """Calls of the system whose failure is a fault."""
    for call, error, line in (("accept4", "EMFILE", "accept"), ("recvfrom", "EIO", "read 9"), ("sendto", "EIO", "write 9")):
        driver = traced("-e", f"inject={call}:error={error}:when=1")
        place = driver.listen()
        if line == "accept":
            peer = socket.create_connection(place, timeout=10)
        else:
            peer = accepted(driver, place)
        peer.sendall(b"hello")
        driver.want("failed", line)
        peer.close()
        driver.end()


def options_fail():
    """A stream whose option can't be set is passed over, and the next one is accepted."""
    driver = traced("-e", "inject=setsockopt:error=EINVAL:when=2")
    place = driver.listen()
    with socket.create_connection(place, timeout=10):
        peer = accepted(driver, place)
        peer.sendall(b"second")
        driver.want("6 read second", "read 100")
        peer.close()
    driver.end()
    want("the option failed", calls_in_log().count("INJECTED"), 1)


def main():
    driver = Driver()
    place = driver.listen()
    for peer in (bytes_both_ways, slow, silent, never_reads, resets, never_closes, leaves_bytes_unread):
        peer(driver, place)
    driver.end()
    connects()
    if not can_trace():
        print("wire: passed; calls of the system that fail are skipped, strace can't be used here")
        return
    one_call_each()
    drops_no_more()
    tried_again()
    not_tried_again()
    options_fail()
    print("wire: passed")


main()
