"""Is the peer of a gateway that starts, resumes and recovers: a plain one over http.server, and broken ones over sockets."""

import http.server
import json
import socket
import struct
import sys
import threading

import formats
from formats import CHAIN, Chain
from gateways import KEY, Messages, Pairs, committed, port_of, refused, rolled_back, shown, want

try:
    from joserfc import jws as joserfc_jws
    from joserfc.jwk import OctKey
except ImportError:
    joserfc_jws = None

PAIRS = Pairs(sys.argv[1], sys.argv[2])
TERMS = formats.terms(250, "gold", "ann", "bob")
CLOSE_WITH_RESET = struct.pack("ii", 1, 0)


# What the peer knows of signatures is another implementation's, where that is installed.


def sign(payload):
    if joserfc_jws is None:
        return formats.signed(KEY, payload)
    return joserfc_jws.serialize_compact({"alg": "HS256"}, payload, OctKey.import_key(KEY))


def verified(text):
    if joserfc_jws is not None:
        found = joserfc_jws.deserialize_compact(text, OctKey.import_key(KEY))
        return json.dumps(found.protected, separators=(",", ":")).encode(), found.payload
    header, payload, _ = map(formats.decoded, text.split("."))
    want("a signature", text, formats.signed(KEY, payload, header))
    return header, payload


# The peer that keeps to the rules.


class Recipient:
    """Takes the texts of one session, and answers each with its own next one, up to where it rejects."""

    def __init__(self, texts=(), rejects_at=None):
        self.chain = Chain("alpha.1", "alpha", "beta", KEY, texts)
        self.rejects_at, self.answers = rejects_at, []

    def answer(self, text):
        header, payload = verified(text)
        want("the header of a text", header, formats.HEADER)
        message = json.loads(payload)
        want("a text", payload.decode(), formats.canonical(message))
        names = {"sender": "alpha", "receiver": "beta", "session": "alpha.1", "version": 1}
        want(f"the names in {message}", {name: message[name] for name in names}, names)
        if message["kind"] == "recover":
            return self.compared(message)
        if message["kind"] == "recover-success":
            want("the end of a recovery", text, self.chain.compared("recover-success", 0))
            return 204, ""
        if text not in self.chain.texts:
            self.take(message, text)
        return self.own_last()

    def take(self, message, text):
        kind = message["kind"]
        wanted = self.chain.next(kind, **({"terms": TERMS} if kind == CHAIN[0] else {}))
        want(f"the {kind}", text, wanted)
        self.chain.texts.append(text)
        if kind == "transfer-complete":
            return
        if kind == "rollback":
            self.make("rollback-ack")
        elif len(self.chain.texts) + 1 == self.rejects_at:
            self.make("reject", reason="aborted")
        else:
            self.make(CHAIN[len(self.chain.texts)])

    def make(self, kind, **further):
        text = self.chain.next(kind, **further)
        want(f"the {kind} as another implementation signs it", sign(formats.decoded(text.split(".")[1])), text)
        self.chain.texts.append(text)

    def own_last(self):
        return (204, "") if len(self.chain.texts) % 2 else (200, self.chain.texts[-1])

    def compared(self, message):
        """The answer to `recover` of a log that is as long, or shorter by one."""
        more = len(self.chain.texts) - message["length"]
        known = Chain("alpha.1", "alpha", "beta", KEY, self.chain.texts[: message["length"]])
        want("what a recovery compares", formats.canonical(message), formats.canonical(formats.message_in(known.compared("recover", 0))))
        return 200, self.chain.update(1, self.chain.texts[-more:] if more else [])


class Server:
    """http.server with such a recipient."""

    def __init__(self, gateway, recipient):
        self.faults, self.posts, self.connections = [], 0, 0
        outer = self

        class Handler(http.server.BaseHTTPRequestHandler):
            protocol_version = "HTTP/1.1"

            def setup(self):
                super().setup()
                outer.connections += 1

            def do_POST(self):
                outer.posts += 1
                body = self.rfile.read(int(self.headers["Content-Length"]))
                try:
                    names = ["Host", "Content-Type", "Content-Length"]
                    want("the target", self.path, "/satp")
                    want("the lines of a head", self.headers.items(), list(zip(names, [gateway.dials, "application/jose", str(len(body))])))
                    code, text = recipient.answer(body.decode())
                except (SystemExit, Exception) as fault:
                    outer.faults.append(fault)
                    code, text = 500, ""
                self.send_response(code)
                if code != 204:
                    self.send_header("Content-Length", str(len(text)))
                self.end_headers()
                self.wfile.write(text.encode())

            def log_message(self, *_):
                pass

        self.server = http.server.HTTPServer(("127.0.0.1", port_of(gateway.dials)), Handler)
        threading.Thread(target=self.server.serve_forever, args=[0.02], daemon=True).start()

    def __enter__(self):
        return self

    def __exit__(self, fault, *_):
        self.server.shutdown()
        self.server.server_close()
        if fault is None:
            want("what the peer found wrong", self.faults, [])


def driven(what, alpha, recipient, command, wanted, posts):
    with Server(alpha, recipient) as server:
        found = alpha.start() if command == "start" else alpha.on(command)
    want(what, found, wanted)
    want(f"the connections and posts of {what}", (server.connections, server.posts), (1, posts))


def own_texts(alpha):
    return [record[-1] for record in alpha.records() if record[0] in ("began", "took", "made")]


def plain():
    """Whole sessions, and those that the peer rejects at each of its places."""
    alpha, _ = PAIRS.fresh()
    recipient = Recipient()
    driven("a transfer to http.server", alpha, recipient, "start", committed("alpha.1", 11), 6)
    want("the texts of both", own_texts(alpha), recipient.chain.texts)
    want("show after it", alpha.on("show"), shown("alpha.1", "origin", "burnt", "commit", "committed", CHAIN))
    driven("its recovery", alpha, recipient, "recover", committed("alpha.1", 3), 2)
    for place in (2, 4, 6, 8):
        alpha, _ = PAIRS.fresh()
        recipient = Recipient(rejects_at=place)
        driven(f"a transfer that is rejected at {place}", alpha, recipient, "start", rolled_back("alpha.1", place + 2), place // 2 + 1)
        kinds = CHAIN[: place - 1] + ["reject", "rollback", "rollback-ack"]
        want("show after it", alpha.on("show"), shown("alpha.1", "origin", "released", "back", "rolled back", kinds))
        want("the texts of both", own_texts(alpha), recipient.chain.texts)
        want("what is free after it", alpha.ledger().free(), {("gold", "ann"): 1000})


# Peers that are broken.


class Broken(threading.Thread):
    """Takes requests, answers them in turn with these bytes, in pieces, and closes; or resets after them."""

    def __init__(self, gateway, answers, resets=False, pieces=65536):
        super().__init__(daemon=True)
        self.answers, self.resets, self.pieces, self.posts = answers, resets, pieces, []
        self.listener = socket.create_server(("127.0.0.1", port_of(gateway.dials)))
        self.start()

    def run(self):
        dialled, _ = self.listener.accept()
        self.listener.close()
        peer = Messages(dialled)
        for answer in self.answers:
            self.posts.append(peer.next())
            for place in range(0, len(answer), self.pieces):
                peer.send(answer[place : place + self.pieces])
        if self.resets:
            dialled.setsockopt(socket.SOL_SOCKET, socket.SO_LINGER, CLOSE_WITH_RESET)
        else:
            dialled.shutdown(socket.SHUT_WR)
            # What is posted after the answers.
            self.posts += [it for it in [peer.next()] if it]
        peer.close()


def answer(body, *lines, code=200):
    head = [f"HTTP/1.1 {code} any words", *lines, f"Content-Length: {len(body)}"]
    return "".join(it + "\r\n" for it in head).encode() + b"\r\n" + body.encode()


NOTHING = b"HTTP/1.1 204 No Content\r\n\r\n"
GO_ON = b"HTTP/1.1 100 Continue\r\n\r\n"


def want_broken(what, command, answers, wanted, posts, **further):
    """A command against such a peer: how it ends, and what it posted."""
    alpha, _ = PAIRS.fresh()
    if command != "start":
        want("a start without a peer", alpha.start(), refused(6, "wire failed"))
    peer = Broken(alpha, answers, **further)
    found = alpha.start() if command == "start" else alpha.on(command)
    peer.join(60)
    want(f"{command} with {what}", found, wanted)
    head = f"POST /satp HTTP/1.1\r\nHost: {alpha.dials}\r\nContent-Type: application/jose\r\nContent-Length: "
    wanted_posts = [f"{head}{len(text)}\r\n\r\n{text}".encode() for text in posts]
    want(f"the posts of {command} with {what}", peer.posts, wanted_posts)
    return alpha


def transfer_texts():
    return formats.transfer("alpha.1", "alpha", "beta", KEY, TERMS).texts


def chain_of(texts):
    return Chain("alpha.1", "alpha", "beta", KEY, texts)


def first_post(command):
    """What the command posts first of a session that has its proposal alone."""
    texts = transfer_texts()
    return chain_of(texts[:1]).compared("recover", 0) if command == "recover" else texts[0]


def no_answers(command):
    """Answers that end too early, or that are none."""
    whole = answer(transfer_texts()[1])
    for what, content in (("no answer", b""), ("a part of a head", whole[:20]), ("a part of a body", whole[:-1]), ("an interim answer", GO_ON)):
        want_broken(what, command, [content], refused(7, "answer ended early"), [first_post(command)])
    want_broken("a reset", command, [b""], refused(6, "wire failed"), [first_post(command)], resets=True)
    for what, content in (
        ("a greeting", b"SSH-2.0-OpenSSH_9.2\r\n"),
        ("HTTP/1.0", b"HTTP/1.0 200 OK\r\nContent-Length: 0\r\n\r\n"),
        ("chunks", b"HTTP/1.1 200 OK\r\nTransfer-Encoding: chunked\r\n\r\n0\r\n\r\n"),
        ("a coding", answer("", "Content-Encoding: gzip")),
        ("no length", b"HTTP/1.1 200 OK\r\n\r\n"),
        ("two lengths", answer("", "Content-Length: 1")),
        ("a long body", answer("x" * 8193)),
        ("a long head", answer("", "a: " + "b" * 8192)),
        ("65 header lines", answer("", *["a: b"] * 64)),
        ("17 interim answers", GO_ON * 17 + whole),
    ):
        want_broken(what, command, [content], refused(7, "answer not http"), [first_post(command)])


def other_codes(command):
    for code in (101, 199, 201, 203, 205, 304, 400, 404, 409, 500, 503, 599):
        found = answer("a text", code=code)
        want_broken(f"code {code}", command, [found], refused(7, f"answer status {code}"), [first_post(command)])
    want_broken("code 204", command, [NOTHING], refused(7, "answer missing"), [first_post(command)])
    want_broken("16 interim answers", command, [GO_ON * 16 + NOTHING], refused(7, "answer missing"), [first_post(command)])


def refused_texts(command):
    texts = transfer_texts()
    receipt = formats.message_in(texts[1])
    changed = lambda **members: formats.signed(KEY, formats.canonical(receipt | members).encode())
    plain_receipt = formats.canonical(receipt).encode()
    for text, fault in (
        ("{}", "jws parts 1"),
        (formats.signed(bytes(32), plain_receipt), "jws signature"),
        (formats.signed(KEY, plain_receipt, b'{"alg":"HS256","typ":"JWT"}'), "header"),
        (formats.signed(KEY, b"receipt"), "json"),
        (changed(version=2), "value version"),
        (texts[0], "receiver"),
        (changed(session="gamma.1"), "strange gamma.1"),
        (changed(session="alpha.2"), "strange alpha.2"),
        (texts[3], "gap 1"),
        (changed(sequence=3), "sender"),
        (changed(previous=formats.NO_LINK), "previous"),
        (changed(kind="lock-receipt"), "tale 2"),
        (chain_of(texts[:3]).update(1, texts[1:3]), "longer 2"),
        (chain_of(texts[:2]).update(1, []), "entry 2"),
        (chain_of(texts[:2]).update(1, texts[:1]), "entry 2"),
        (chain_of([texts[1]]).compared("recover", 1), "other hash"),
        (chain_of(texts[:2]).compared("recover-success", 1), "longer 1"),
    ):
        alpha = want_broken(fault, command, [answer(text)], refused(7, f"answer refused: {fault}"), [first_post(command)])
        want(f"the records after {fault}", [record[0] for record in alpha.records()[1:]], ["began"] + ["rescue"] * (command == "recover"))
        want(f"show after {fault}", alpha.on("show"), shown("alpha.1", "origin", "absent", "none", "open", CHAIN[:1]))


def turns(command):
    """The receipt comes again and again: sixteen texts are posted, and no further one."""
    texts = transfer_texts()
    second = chain_of(texts[:2]).next("rollback") if command == "recover" else texts[2]
    posts = [first_post(command)] + [second] * 15
    want_broken("the receipt again and again", command, [answer(texts[1])] * 16, refused(7, "too many turns"), posts)


def late_ends():
    """Answers to the texts of a whole transfer, up to the last one."""
    texts = transfer_texts()
    answers = [answer(text) for text in texts[1::2]]
    for pieces in (1, 64):
        want_broken(f"answers in pieces of {pieces}", "start", answers + [NOTHING], committed("alpha.1", 11), texts[::2], pieces=pieces)
    want_broken("no answer to the last text", "start", answers + [b""], refused(7, "answer ended early"), texts[::2])
    # The last text is answered by the one before it, and posted again.
    want_broken("a text in place of 204", "start", answers + [answers[-1], NOTHING], committed("alpha.1", 13), texts[::2] + [texts[10]])
    want_broken("code 503 at last", "start", answers + [answer("broken\n", code=503)], refused(7, "answer status 503"), texts[::2])
    want_broken("more than an answer", "start", answers[:-1] + [answers[-1] + b"more", NOTHING], refused(7, "answer not http"), texts[::2])
    # The bytes after the answer to the last text aren't looked at.
    want_broken("more than the last answer", "start", answers + [NOTHING + b"more"], committed("alpha.1", 11), texts[::2])


def main():
    plain()
    late_ends()
    for command in ("start", "resume", "recover"):
        no_answers(command)
        other_codes(command)
        refused_texts(command)
        turns(command)
    beside = "hmac" if joserfc_jws is None else "joserfc"
    print(f"peer: passed, signatures by {beside}")


main()
