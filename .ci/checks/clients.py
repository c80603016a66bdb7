"""Posts to a gateway that serves: by curl, by http.client, and byte by byte over plain sockets."""

import http.client
import os
import shutil
import socket
import struct
import subprocess
import sys
import time

import formats
from formats import CHAIN, HEADER, NO_LINK, Chain, canonical, encoded, signed
from gateways import KEY, Messages, Pairs, fail, port_of, served, shown, want

PAIRS = Pairs(sys.argv[1], sys.argv[2])
TERMS = formats.terms(250, "gold", "ann", "bob")
CLOSE_WITH_RESET = struct.pack("ii", 1, 0)
PHRASES = {
    200: "OK",
    204: "No Content",
    400: "Bad Request",
    404: "Not Found",
    405: "Method Not Allowed",
    409: "Conflict",
    411: "Length Required",
    413: "Payload Too Large",
    415: "Unsupported Media Type",
    417: "Expectation Failed",
    431: "Request Header Fields Too Large",
    501: "Not Implemented",
    503: "Service Unavailable",
    505: "HTTP Version Not Supported",
}
GO_ON = b"HTTP/1.1 100 Continue\r\n\r\n"
# What curl writes, with the body `{}`.
AS_CURL = (
    b"POST /satp HTTP/1.1\r\nHost: 127.0.0.1:7002\r\nUser-Agent: curl/8.5.0\r\nAccept: */*\r\n"
    b"Content-Type: application/jose\r\nContent-Length: 2\r\n\r\n{}"
)


def answered(code, body=b"", close=False):
    """The bytes of an answer."""
    lines = [f"HTTP/1.1 {code} {PHRASES[code]}"]
    if code == 405:
        lines.append("Allow: POST")
    if code != 204:
        lines += [f"Content-Type: {'application/jose' if code == 200 else 'text/plain'}", f"Content-Length: {len(body)}"]
    if close:
        lines.append("Connection: close")
    return "".join(it + "\r\n" for it in lines).encode() + b"\r\n" + body


def refusal(code, text, close=False):
    return answered(code, text.encode() + b"\n", close)


NO_JWS = refusal(400, "jws parts 1")


def posted(body, *lines, host="a"):
    """The bytes of a request."""
    head = ["POST /satp HTTP/1.1", f"Host: {host}", *lines, f"Content-Length: {len(body)}"]
    return "".join(it + "\r\n" for it in head).encode() + b"\r\n" + body


class Serving:
    """Beta serves as many connections as are made within, and says so at the end."""

    def __init__(self, what, connections, requests, faults=0, beta=None):
        self.what, self.counts = what, (connections, requests, faults)
        self.beta = beta or PAIRS.fresh()[1]

    def __enter__(self):
        self.serving = self.beta.serve(self.counts[0])
        self.port = port_of(self.beta.listens)
        self.url = f"http://127.0.0.1:{self.port}/satp"
        return self

    def __exit__(self, fault, *_):
        if fault is None:
            want(f"what serve prints after {self.what}", self.serving.end(), served(*self.counts))

    def connect(self):
        return Messages(socket.create_connection(("127.0.0.1", self.port), timeout=60))

    def want_closed(self, what, content, wanted):
        """These bytes are answered by those, and then the connection is closed."""
        peer = self.connect()
        peer.send(content)
        want(what, rest(peer), wanted)
        peer.close()


def rest(peer):
    """All that still comes up to the end, and the fault where the connection ends by one."""
    found = peer.held
    try:
        while more := peer.connection.recv(65536):
            found += more
    except OSError as fault:
        return found, repr(fault)
    return found


# Heads.


def head(*lines, body=b"{}"):
    return "".join(it + "\r\n" for it in lines).encode() + b"\r\n" + body


POST, HOST, TWO = "POST /satp HTTP/1.1", "Host: a", "Content-Length: 2"
FAULTS = [
    ("a head without a colon", head(POST, "Host a", TWO), 400, "head"),
    ("no head at all", b"\x16\x03\x01\x02\x00\x01\x00\x01\xfc\x03\x03\r\n\r\n", 400, "head"),
    ("65 header lines", head(POST, HOST, *["a: b"] * 63, TWO), 431, "many headers"),
    ("a long head", head(POST, HOST, "a: " + "b" * 8192, TWO), 431, "head long"),
    ("HTTP/1.0", head("POST /satp HTTP/1.0", HOST, TWO), 505, "version"),
    ("GET", head("GET /satp HTTP/1.1", HOST, body=b""), 405, "method"),
    ("another target", head("POST /satp/ HTTP/1.1", HOST, TWO), 404, "target"),
    ("an absolute target", head("POST http://a/satp HTTP/1.1", HOST, TWO), 404, "target"),
    ("no host", head(POST, TWO), 400, "no host"),
    ("two hosts", head(POST, HOST, "host: a", TWO), 400, "two hosts"),
    ("chunks", head(POST, HOST, "Transfer-Encoding: chunked", body=b"2\r\n{}\r\n0\r\n\r\n"), 501, "chunked"),
    ("chunks and a length", head(POST, HOST, "transfer-encoding: identity", TWO), 501, "chunked"),
    ("a coding", head(POST, HOST, "Content-Encoding: gzip", TWO), 415, "coding"),
    ("an expectation", head(POST, HOST, "Expect: the-unexpected", TWO), 417, "expect"),
    ("no length", head(POST, HOST), 411, "length missing"),
    ("a length with a sign", head(POST, HOST, "Content-Length: +2"), 400, "length bad"),
    ("a list of lengths", head(POST, HOST, "Content-Length: 2, 2"), 400, "length bad"),
    ("an empty length", head(POST, HOST, "Content-Length:"), 400, "length bad"),
    ("a length of 20 digits", head(POST, HOST, "Content-Length: 00000000000000000002"), 400, "length bad"),
    ("a second length", head(POST, HOST, TWO, "Content-Length: 3"), 400, "length bad"),
    ("a length of 8,193", head(POST, HOST, "Content-Length: 8193", body=b"x" * 8193), 413, "body long 8193"),
    ("a body that isn't read", head(POST, HOST, "Content-Length: 60000", body=b"x" * 60_000), 413, "body long 60000"),
    ("a length of 19 digits", head(POST, HOST, "Content-Length: 9999999999999999999"), 413, "body long 9999999999999999999"),
    ("the version before the method", head("GET /satp HTTP/1.0", body=b""), 505, "version"),
    ("the method before the target", head("PUT / HTTP/1.1", body=b""), 405, "method"),
    ("the target before the host", head("POST / HTTP/1.1", body=b""), 404, "target"),
    ("chunks before the expectation", head(POST, HOST, "Transfer-Encoding: chunked", "Expect: x"), 501, "chunked"),
    ("the expectation before the length", head(POST, HOST, "Expect: x"), 417, "expect"),
]
TAKEN = [
    ("as curl writes it", AS_CURL),
    ("64 header lines", head(POST, HOST, *["a: b"] * 61, TWO, TWO)),
    ("lines that end with a line feed alone", AS_CURL.replace(b"\r\n", b"\n")),
    ("empty lines before it", b"\r\n\n" + AS_CURL),
    ("other cases", head(POST, "hOST: a", "cONTENT-lENGTH: 2")),
    ("one length, written twice", head(POST, HOST, TWO, "Content-Length: 02")),
    ("no coding", head(POST, HOST, "Content-Encoding: Identity", TWO)),
    ("bytes past ASCII", head(POST, "Host: \xe4", TWO)),
    ("a body of 8,192 bytes", posted(b"x" * 8192)),
    ("an expectation with the body at once", head(POST, HOST, "Expect: 100-Continue", TWO)),
]
CLOSING = ["Connection: close", "Connection: keep-alive ,\tCLOSE", "connection: Close,x"]


def heads():
    with Serving("faults of requests", len(FAULTS), 0) as beta:
        for what, content, code, text in FAULTS:
            beta.want_closed(what, content, refusal(code, text, close=True))
    with Serving("requests on one connection", 1, len(TAKEN)) as beta:
        peer = beta.connect()
        for what, content in TAKEN:
            peer.send(content)
            want(what, peer.next(), NO_JWS)
        peer.close()
    with Serving("requests that close", len(CLOSING), len(CLOSING)) as beta:
        for closing in CLOSING:
            beta.want_closed(closing, head(POST, HOST, closing, TWO) * 2, refusal(400, "jws parts 1", close=True))


def in_pieces():
    """The request in two pieces, cut after each byte, and in as many as it has bytes."""
    cuts = range(1, len(AS_CURL))
    with Serving("a request in pieces", len(cuts) + 1, len(cuts) + 1) as beta:
        for cut in cuts:
            peer = beta.connect()
            peer.send(AS_CURL[:cut])
            time.sleep(0.002)
            peer.send(AS_CURL[cut:])
            want(f"a request cut after {cut} bytes", peer.next(), NO_JWS)
            peer.close()
        peer = beta.connect()
        send_bytes(peer, AS_CURL)
        want("a request byte by byte", peer.next(), NO_JWS)
        peer.close()


def send_bytes(peer, content):
    for byte in content:
        peer.send(bytes([byte]))


def held_back():
    """The body comes once the server says that it may."""
    request = AS_CURL.replace(b"Accept: */*", b"Expect: 100-continue")
    with Serving("a body that is held back", 2, 3) as beta:
        for pieces in (1, 2):
            peer = beta.connect()
            for _ in range(pieces):
                peer.send(request[:-2])
                want("the interim answer", peer.next(), GO_ON)
                peer.send(b"{")
                time.sleep(0.05)
                peer.send(b"}")
                want("the answer after it", peer.next(), NO_JWS)
            peer.close()


def many():
    """Of 65 requests on one connection 64 are answered."""
    wanted = NO_JWS * 63 + refusal(400, "jws parts 1", close=True)
    with Serving("65 requests", 2, 128) as beta:
        beta.want_closed("65 requests at once", AS_CURL * 65, wanted)
        peer = beta.connect()
        for place in range(1, 64):
            peer.send(AS_CURL)
            want(f"the {place}th answer", peer.next(), NO_JWS)
        peer.send(AS_CURL)
        want("the 64th answer", rest(peer), refusal(400, "jws parts 1", close=True))
        peer.close()


def ends():
    """Clients that say nothing, that end within a request, and one that resets."""
    with Serving("clients that end", 5, 1, faults=1) as beta:
        for content in (b"", b"POST /sa", AS_CURL[:-1]):
            peer = beta.connect()
            peer.send(content)
            peer.connection.shutdown(socket.SHUT_WR)
            want(f"the answer to {content!r} and the end", rest(peer), b"")
            peer.close()
        peer = beta.connect()
        peer.send(AS_CURL[:-1])
        peer.connection.setsockopt(socket.SOL_SOCKET, socket.SO_LINGER, CLOSE_WITH_RESET)
        time.sleep(0.1)
        peer.close()
        beta.want_closed("a client after them", head(POST, HOST, CLOSING[0], TWO), refusal(400, "jws parts 1", close=True))


def silent():
    """A client that stays silent is given up after half a minute, and the next one is served."""
    with Serving("a silent client", 2, 1, faults=1) as beta:
        peer = beta.connect()
        peer.send(b"POST")
        begun = time.monotonic()
        beta.want_closed("a client after it", head(POST, HOST, CLOSING[0], TWO), refusal(400, "jws parts 1", close=True))
        seconds = time.monotonic() - begun
        if not 25 < seconds < 45:
            fail(f"a client waits {seconds:.0f} s for a silent one before it, and not 30")
        peer.close()


# curl.


def curl(*words):
    return subprocess.run(["curl", "-s", "-i", "--max-time", "30", *words], capture_output=True).stdout


def by_curl():
    if shutil.which("curl") is None:
        print("clients: curl is skipped, it isn't here")
        return
    for length in (8193, 60_000):
        with open(os.path.join(PAIRS.folder, f"long-{length}"), "wb") as file:
            file.write(b"x" * length)
    braces = ["-H", "Content-Type: application/jose", "-d", "{}"]
    with Serving("curl", 8, 4) as beta:
        want("curl with {}", curl(*braces, beta.url), NO_JWS)
        want("curl with two posts", curl(*braces, beta.url, beta.url), NO_JWS * 2)
        want("curl that expects to go on", curl("-H", "Expect: 100-continue", *braces, beta.url), GO_ON + NO_JWS)
        want("curl that gets", curl(beta.url), refusal(405, "method", close=True))
        for length in (8193, 60_000):
            posts = curl("--data-binary", f"@{PAIRS.folder}/long-{length}", beta.url)
            want(f"curl with {length} bytes", posts, refusal(413, f"body long {length}", close=True))
        want("curl with HTTP/1.0", curl("-0", *braces, beta.url), refusal(505, "version", close=True))
        want("curl with chunks", curl("-H", "Transfer-Encoding: chunked", *braces, beta.url), refusal(501, "chunked", close=True))


# Messages.


def by_http_client(serving):
    """What posts a text on one connection of http.client, and gives code and body."""
    connection = http.client.HTTPConnection("127.0.0.1", serving.port, timeout=60)

    def post(text):
        try:
            connection.request("POST", "/satp", body=text.encode(), headers={"Content-Type": "application/jose"})
            answer = connection.getresponse()
            body = answer.read()
        except (OSError, http.client.HTTPException) as fault:
            return repr(fault)
        kind = {200: "application/jose", 204: None}.get(answer.status, "text/plain")
        want(f"the type of a {answer.status}", answer.getheader("Content-Type"), kind)
        return answer.status, body.decode()

    return post, connection.close


def by_bytes(serving):
    """The same over a plain socket, byte by byte."""
    peer = serving.connect()

    def post(text):
        send_bytes(peer, posted(text.encode()))
        found = peer.next()
        start, _, body = found.partition(b"\r\n\r\n")
        code = int(start.split(b" ")[1])
        want(f"the bytes of a {code}", found, answered(code, body))
        return code, body.decode()

    return post, peer.close


def sessions():
    """Whole sessions from an origin that composes and signs by itself, with each message that the gateway answers with."""
    for name, way in (("http.client", by_http_client), ("single bytes", by_bytes)):
        alpha, beta = PAIRS.fresh()
        texts = formats.transfer("alpha.1", "alpha", "beta", KEY, TERMS).texts
        with Serving(f"a session by {name}", 1, 24, beta=beta) as serving:
            post, close = way(serving)
            for place in (11, 9, 7, 5, 3):
                want(f"place {place} at first, by {name}", post(texts[place - 1]), (409, "gap 0\n"))
            for place in (1, 3, 5, 7, 9):
                want(f"place {place} by {name}", post(texts[place - 1]), (200, texts[place]))
                if place == 9:
                    want("commit-final once more", post(texts[8]), (200, texts[9]))
                    want("the recipient's own text", post(texts[9]), (400, "receiver\n"))
                    want("the entry", formats.Ledger(beta.ledger_payloads()).entries, {"alpha.1": "assigned"})
            want(f"place 11 by {name}", post(texts[10]), (204, ""))
            records = beta.payloads()
            # A whole session looks at its last two texts alone.
            for place in range(1, 12, 2):
                want(f"place {place} at last", post(texts[place - 1]), (200, texts[9]) if place < 11 else (204, ""))
            chain = Chain("alpha.1", "alpha", "beta", KEY, texts)
            update = lambda entries: (200, chain.update(1, entries))
            want("the logs compared", post(chain.compared("recover", 0)), update([]))
            want("the end of a recovery", post(chain.compared("recover-success", 0)), (204, ""))
            shorter = Chain("alpha.1", "alpha", "beta", KEY, texts[:10])
            want("a shorter log", post(shorter.compared("recover", 0)), update([texts[10]]))
            want("one that is shorter by two", post(Chain("alpha.1", "alpha", "beta", KEY, texts[:9]).compared("recover", 0)), (409, "shorter 2\n"))
            other = Chain("alpha.1", "alpha", "beta", KEY, texts[:10] + ["x"])
            want("another log", post(other.compared("recover", 0)), (409, "other hash\n"))
            close()
        want("the records after it", beta.payloads() == records, True)
        want("what is free after it", beta.ledger().free(), {("gold", "bob"): 600})
        want("show after it", beta.on("show"), shown("alpha.1", "recipient", "assigned", "none", "committed", CHAIN))


def changed(message, **members):
    """A message with members changed, or without those that are None, signed."""
    found = {name: value for name, value in (message | members).items() if value is not None}
    return signed(KEY, canonical(found).encode())


def refusals():
    """Each refusal of a gateway. None changes its records, and the connection stays."""
    alpha, beta = PAIRS.fresh()
    chain = Chain("alpha.1", "alpha", "beta", KEY)
    proposal = formats.message_in(chain.push(CHAIN[0], terms=TERMS))
    plain = canonical(proposal).encode()
    other = Chain("alpha.1", "alpha", "beta", KEY)
    before = [
        ("", 400, "jws parts 1"),
        ("a.b", 400, "jws parts 2"),
        (chain.texts[0] + ".", 400, "jws parts 4"),
        ("eyJhbGciOiJIUzI1NiJ9=.e30.", 400, "jws base64 1"),
        ("eyJhbGciOiJIUzI1NiJ9.e3.", 400, "jws base64 2"),
        ("e30.e30.", 400, "jws header"),
        ("eyJhbGciOiJub25lIn0.e30.", 400, "jws algorithm"),
        (signed(KEY, plain, b'{"alg":"HS256","crit":["exp"]}'), 400, "jws critical"),
        ("eyJhbGciOiJIUzI1NiJ9.e30.", 400, "jws signature"),
        (signed(bytes(32), plain), 400, "jws signature"),
        (signed(KEY, plain, b'{"typ":"JWT","alg":"HS256"}'), 400, "header"),
        (signed(KEY, b"{"), 400, "json"),
        (signed(KEY, b"[]"), 400, "member kind"),
        (changed(proposal, kind="propose"), 400, "value kind"),
        (changed(proposal, version=None), 400, "member version"),
        (changed(proposal, x=1), 400, "member unknown"),
        (changed(proposal, terms=TERMS | {"amount": 0}), 400, "value amount"),
        (changed(proposal, version=2), 400, "value version"),
        (signed(KEY, plain[:8] + b" " + plain[8:]), 400, "not canonical at 8"),
        (signed(KEY, plain + b"\n"), 400, "not canonical at 242"),
        (changed(proposal, receiver="alpha"), 400, "receiver"),
        (changed(proposal, sender="gamma"), 400, "receiver"),
        (changed(proposal, session="gamma.1"), 400, "strange gamma.1"),
        (changed(proposal, session="beta.7"), 400, "strange beta.7"),
        (changed(proposal, sequence=2), 409, "sender"),
        (changed(proposal, sequence=3), 409, "gap 0"),
        (changed(proposal, previous=encoded(bytes(31) + b"\1")), 409, "previous"),
        (other.next("transfer-commence"), 409, "tale 1"),
        (chain.compared("recover-success", 0), 409, "longer 1"),
        (chain.signed(0, {"kind": "recover", "length": 3, "last": encoded(bytes(32))}), 409, "longer 3"),
        (chain.signed(0, {"kind": "recover", "length": 0, "last": encoded(bytes(31) + b"\1")}), 409, "other hash"),
        (chain.update(0, []), 409, "entry 1"),
        (other.update(0, [chain.texts[0]]), 409, "entry 1"),
        (chain.update(0, [changed(proposal, version=2)]), 409, "entry 1"),
    ]
    unnamed = Chain("alpha.5", "alpha", "beta", KEY)
    with Serving("refusals", 1, len(before) + 2 + 16, beta=beta) as serving:
        post, close = by_http_client(serving)
        records = beta.payloads()
        for text, code, line in before:
            want(f"{line}: {text}", post(text), (code, line + "\n"))
        # No record names the session, and none is made.
        want("the logs of an unnamed session", post(unnamed.compared("recover", 0)), (200, unnamed.update(1, [])))
        want("the records after refusals", beta.payloads() == records, True)
        receipt = chain.push("proposal-receipt")
        want("a proposal", post(chain.texts[0]), (200, receipt))
        records = beta.payloads()
        commence = formats.message_in(chain.next("transfer-commence"))
        longer = Chain("alpha.1", "alpha", "beta", KEY, chain.texts + ["x", "y"])
        after = [
            (changed(proposal, terms=TERMS | {"amount": 251}), 409, "other 1"),
            (changed(commence, sequence=4), 409, "sender"),
            (changed(commence, sequence=5), 409, "gap 2"),
            (changed(commence, previous=NO_LINK), 409, "previous"),
            (changed(commence, kind="lock-assert"), 409, "tale 3"),
            (changed(commence, kind="transfer-complete"), 409, "tale 3"),
            (longer.compared("recover", 0), 409, "longer 2"),
            (other.compared("recover", 0), 409, "shorter 2"),
            (longer.update(0, []), 409, "longer 2"),
            (chain.update(0, [chain.texts[0]]), 409, "entry 3"),
            (Chain("alpha.1", "alpha", "beta", KEY, chain.texts + ["x"]).update(0, [chain.texts[0]]), 409, "entry 3"),
            (chain.signed(0, {"kind": "recover-success", "length": 2, "last": NO_LINK}), 409, "other hash"),
            (chain.signed(0, {"kind": "recover-success", "length": 1, "last": NO_LINK}), 409, "shorter 1"),
        ]
        for text, code, line in after:
            want(f"{line}: {text}", post(text), (code, line + "\n"))
        want("a proposal once more", post(chain.texts[0]), (200, receipt))
        want("equal logs", post(chain.update(0, [])), (204, ""))
        first = Chain("alpha.1", "alpha", "beta", KEY, chain.texts[:1])
        want("a log that is shorter by one", post(first.compared("recover", 0)), (200, chain.update(1, [receipt])))
        want("the records after them", beta.payloads() == records, True)
        close()


def adopted():
    """A recovery in which the gateway takes the last text of the other log, and one in which it says its own again."""
    alpha, beta = PAIRS.fresh()
    texts = formats.transfer("alpha.1", "alpha", "beta", KEY, TERMS).texts
    with Serving("updates", 1, 4, beta=beta) as serving:
        post, close = by_http_client(serving)
        of = lambda length: Chain("alpha.1", "alpha", "beta", KEY, texts[:length])
        want("an update with the first text", post(of(1).update(0, texts[:1])), (200, texts[1]))
        want("an update with the next text", post(of(3).update(0, [texts[2]])), (200, texts[3]))
        want("an update of a shorter log", post(of(3).update(0, [])), (200, texts[3]))
        want("the rest of its logs", post(of(4).compared("recover", 0)), (200, of(4).update(1, [])))
        close()


def full_gateway():
    """The 2,048th session is accepted, and no further one."""
    alpha, beta = PAIRS.fresh()
    records = beta.payloads()
    chains = [formats.transfer(f"alpha.{number}", "alpha", "beta", KEY, TERMS, CHAIN[:2]) for number in range(1, 2050)]
    for chain in chains[:2047]:
        records.append(formats.began_record(chain.session, "recipient", TERMS, chain.texts[0]))
    beta.put("journal-a", formats.journal(records))
    with Serving("a full gateway", 1, 4, beta=beta) as serving:
        post, close = by_http_client(serving)
        want("the 2,048th session", post(chains[2047].texts[0]), (200, chains[2047].texts[1]))
        want("the 2,049th session", post(chains[2048].texts[0]), (503, "full 2048\n"))
        want("one that was accepted", post(chains[6].texts[0]), (200, chains[6].texts[1]))
        adopts = Chain("alpha.2049", "alpha", "beta", KEY, chains[2048].texts[:1])
        want("the 2,049th session in an update", post(adopts.update(0, adopts.texts)), (503, "full 2048\n"))
        close()
    want("the records of a full gateway", len(beta.payloads()), 1 + 2048 + 2)


def main():
    heads()
    in_pieces()
    held_back()
    many()
    ends()
    by_curl()
    sessions()
    refusals()
    adopted()
    full_gateway()
    silent()
    print("clients: passed")


main()
