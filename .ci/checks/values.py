"""Compares the driver and the program with a plain reading of docs/FORMATS.md and docs/PROTOCOL.md, over random values.

What no proof excludes is a body that gives up for want of memory at all values but those that a test names. So the
values here are many: both ends of each range, and what lies between.
"""

import json
import random
import subprocess
import sys

from drill_model import generated
from formats import CHAIN, NO_LINK, canonical, encoded, link, signed

DRIVER, PROGRAM = sys.argv[1:]
REASONS = ["unknown-asset", "mint-capped", "aborted", "ledger-taken"]
NAME_BYTES = "abcdefghijklmnopqrstuvwxyz0123456789-"
ENTRY_BYTES = "ABCDEFGHIJKLMNOPQRSTUVWXYZabcdefghijklmnopqrstuvwxyz0123456789-_."
MOST_AMOUNT = 2**53 - 1
MOST_NUMBER = 2**32 - 1


class Draw:
    """Random values of the formats, their ends more often than chance has them."""

    def __init__(self, seed):
        self.random = random.Random(seed)

    def between(self, least, most):
        near = [least, least + 1, most - 1, most]
        middle = self.random.randint(least, most)
        small = self.random.randint(least, min(most, least + 1000))
        return min(most, max(least, self.random.choice([*near, middle, small, middle, small])))

    def text(self, symbols, length):
        return "".join(self.random.choice(symbols) for _ in range(length))

    def name(self):
        return self.text(NAME_BYTES, self.between(1, 32))

    def names(self):
        one, other = self.name(), self.name()
        return (one, other) if one != other else self.names()

    def session(self, gateway):
        return f"{gateway}.{self.between(1, MOST_NUMBER)}"

    def amount(self):
        return self.between(1, MOST_AMOUNT)

    def terms(self):
        return {
            "amount": self.amount(),
            "asset": self.name(),
            "beneficiary": self.name(),
            "originator": self.name(),
        }

    def link(self):
        return encoded(self.random.randbytes(32))

    def key(self):
        return self.random.randbytes(self.between(32, 64))


def message(draw, kind, place):
    """A message of this kind; place is that of a chain message."""
    sender, receiver = draw.names()
    said = {
        "kind": kind,
        "receiver": receiver,
        "sender": sender,
        "session": draw.session(draw.random.choice([sender, receiver])),
        "version": 1,
    }
    if kind in ("recover", "recover-success"):
        said["length"] = draw.between(0, 11)
        said["last"] = draw.link() if said["length"] else NO_LINK
    elif kind == "recover-update":
        said["length"] = draw.between(0, 11)
        count = draw.random.randrange(3)
        said["entries"] = [draw.text(ENTRY_BYTES, draw.between(1, 2048)) for _ in range(count)]
    else:
        said["sequence"] = place
        said["previous"] = draw.link()
        if kind == "transfer-proposal":
            said["terms"] = draw.terms()
        if kind == "reject":
            said["reason"] = draw.random.choice(REASONS)
    return canonical(said)


def messages(draw):
    """Messages of all seventeen kinds, chain messages at all places."""
    found = []
    for kind in CHAIN + ["reject", "rollback", "rollback-ack"]:
        for place in range(1, 12):
            found += [message(draw, kind, place) for _ in range(6)]
    for kind in ("recover", "recover-update", "recover-success"):
        found += [message(draw, kind, 0) for _ in range(200)]
    return found


def chain_kinds():
    """The kinds of the whole chains: the transfer, and each early end."""
    found = [CHAIN]
    for length in (2, 4, 6, 8):
        found.append(CHAIN[:length] + ["rollback", "rollback-ack"])
    for length in (1, 3, 5, 7):
        found.append(CHAIN[:length] + ["reject", "rollback", "rollback-ack"])
    return found


def chain(draw, key, kinds):
    """A chain's canonical texts and its signed texts."""
    origin, recipient = draw.names()
    session = draw.session(origin)
    plain, texts = [], []
    for place, kind in enumerate(kinds, 1):
        sender, receiver = (origin, recipient) if place % 2 else (recipient, origin)
        said = {
            "kind": kind,
            "previous": link(texts[-1]) if texts else NO_LINK,
            "receiver": receiver,
            "sender": sender,
            "sequence": place,
            "session": session,
            "version": 1,
        }
        if kind == "transfer-proposal":
            said["terms"] = draw.terms()
        if kind == "reject":
            said["reason"] = draw.random.choice(REASONS)
        plain.append(canonical(said))
        texts.append(signed(key, plain[-1].encode()))
    return plain, texts


def short(text):
    return bytes([len(text)]) + text.encode()


def session_bytes(draw):
    return short(draw.name()) + draw.between(1, MOST_NUMBER).to_bytes(4, "big")


def terms_bytes(draw):
    names = b"".join(short(draw.name()) for _ in range(3))
    return draw.amount().to_bytes(8, "big") + names


def long_text(draw):
    length = draw.between(1, 2048)
    return length.to_bytes(2, "big") + draw.random.randbytes(length)


def record(draw, byte):
    """The payload of a record with this first byte."""
    random_byte = lambda least, most: bytes([draw.random.randint(least, most)])
    if byte == 0x00:
        name, peer = draw.names()
        host = draw.text(NAME_BYTES, draw.between(1, 40))
        at = f"{host}:{draw.between(1, 65535)}"
        key = draw.key()
        return bytes([byte]) + short(name) + short(peer) + short(at) + bytes([len(key)]) + key
    if byte == 0x10:
        return bytes([byte]) + random_byte(1, 2)
    if byte == 0x11:
        return bytes([byte]) + short(draw.name()) + draw.amount().to_bytes(8, "big")
    if byte == 0x12:
        return bytes([byte]) + short(draw.name()) + short(draw.name()) + draw.amount().to_bytes(8, "big")
    if byte == 0x13:
        return bytes([byte]) + random_byte(1, 5) + session_bytes(draw) + terms_bytes(draw)
    begun = bytes([byte]) + session_bytes(draw)
    return begun + {
        0x01: lambda: random_byte(0, 1) + terms_bytes(draw) + long_text(draw),
        0x02: lambda: random_byte(2, 14) + long_text(draw),
        0x03: lambda: random_byte(2, 14) + long_text(draw),
        0x04: lambda: random_byte(1, 5),
        0x05: lambda: random_byte(1, 8),
        0x06: lambda: b"",
    }[byte]()


class Check:
    """Runs what is checked, and counts what differs."""

    def __init__(self):
        self.faults = 0
        self.counts = {}

    def holds(self, holds, what):
        if not holds:
            self.faults += 1
            print(f"values: {what[:300]}")

    def drive(self, mode, lines, wanted):
        """The driver answers each of these lines with the wanted one."""
        done = subprocess.run([DRIVER, mode], input="".join(it + "\n" for it in lines), capture_output=True, text=True)
        answers = done.stdout.split("\n")[:-1]
        self.holds(done.returncode == 0, f"{mode} ended with {done.returncode} after {len(answers)} lines")
        for line, want, answer in zip(lines, wanted, answers):
            self.holds(answer == want, f"{mode} {line} gave {answer}")
        self.counts[mode] = self.counts.get(mode, 0) + len(answers)

    def run(self, words, given, status, wanted):
        """The program ends so, and prints this line."""
        done = subprocess.run([PROGRAM, *words], input=given, capture_output=True, text=True)
        self.holds(done.returncode == status, f"{words} over {given} ended with {done.returncode}")
        self.holds(done.stdout == wanted, f"{words} over {given} printed {done.stdout}")
        self.counts[words[0]] = self.counts.get(words[0], 0) + 1


def check_texts(check, draw):
    texts = messages(draw)
    check.drive("texts", texts, texts)
    for text in draw.random.sample(texts, 60):
        kind = json.loads(text)["kind"]
        check.run(["check"], text, 0, f"text {kind} {len(text)} bytes\n")
        key = draw.key()
        jws = signed(key, text.encode())
        check.run(["check", f"--key={encoded(key)}"], jws, 0, f"jws {kind} {len(jws)} bytes\n")


def check_answers(check, draw):
    for _ in range(60):
        plain, _ = chain(draw, draw.key(), CHAIN[:1])
        said = json.loads(plain[0])
        receipt = {
            "kind": "proposal-receipt",
            "previous": link(plain[0]),
            "receiver": said["sender"],
            "sender": said["receiver"],
            "sequence": 2,
            "session": said["session"],
            "version": 1,
        }
        name = said["receiver"]
        check.run(["answer", name], plain[0], 0, canonical(receipt) + "\n")


def check_chains(check, draw):
    lines, wanted = [], []
    for kinds in chain_kinds():
        for _ in range(12):
            key = draw.key()
            plain, texts = chain(draw, key, kinds)
            lines.append(" ".join([encoded(key), *plain]))
            wanted.append(" ".join(texts))
    check.drive("chains", lines, wanted)


def check_records(check, draw):
    payloads = []
    for byte in (0x00, 0x01, 0x02, 0x03, 0x04, 0x05, 0x06, 0x10, 0x11, 0x12, 0x13):
        payloads += [encoded(record(draw, byte)) for _ in range(150)]
    check.drive("records", payloads, payloads)


def check_schedules(check, draw):
    seeds = [0, 1, 2, 7, 8, 100, MOST_NUMBER] + [draw.between(1, MOST_NUMBER) for _ in range(4)]
    seeds = [seed for seed in seeds if seed]
    check.drive("schedules", [f"{seed} {';'.join(generated(seed))}" for seed in seeds], ["same"] * len(seeds))


def main():
    check, draw = Check(), Draw(8785)
    check_texts(check, draw)
    check_answers(check, draw)
    check_chains(check, draw)
    check_records(check, draw)
    check_schedules(check, draw)
    counts = ", ".join(f"{count} {what}" for what, count in check.counts.items())
    print(f"values: {counts}, {check.faults} faults")
    return 1 if check.faults else 0


sys.exit(main())
