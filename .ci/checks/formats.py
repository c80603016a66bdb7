"""Texts, records, journals and ledgers, as a plain reading of docs/FORMATS.md, docs/PROTOCOL.md and docs/DEVICES.md has them."""

import base64
import collections
import hashlib
import hmac
import json

CHAIN = [
    "transfer-proposal",
    "proposal-receipt",
    "transfer-commence",
    "commence-ack",
    "lock-assert",
    "lock-receipt",
    "commit-prepare",
    "commit-ready",
    "commit-final",
    "commit-final-ack",
    "transfer-complete",
]
# The numbers of kinds, operations and decisions in records begin with 1.
KINDS = CHAIN + ["reject", "rollback", "rollback-ack"]
OPERATIONS = ["lock", "burn", "mint", "assign", "release"]
DECISIONS = ["commit", "aborted", "lock-refused", "rejected", "rescued", "unknown-asset", "mint-capped", "ledger-taken"]
LEDGERS = ["accounts", "outputs"]
ROLES = ["origin", "recipient"]
RESULTS = {"lock": "locked", "burn": "burnt", "mint": "minted", "assign": "assigned", "release": "released"}
NO_LINK = "A" * 43
HEADER = b'{"alg":"HS256"}'


# Texts.


def encoded(data):
    return base64.urlsafe_b64encode(data).rstrip(b"=").decode()


def decoded(text):
    return base64.urlsafe_b64decode(text + "=" * (-len(text) % 4))


def link(text):
    return encoded(hashlib.sha256(text.encode()).digest())


def signed(key, payload, header=HEADER):
    text = encoded(header) + "." + encoded(payload)
    return text + "." + encoded(hmac.new(key, text.encode(), hashlib.sha256).digest())


def canonical(message):
    return json.dumps(message, sort_keys=True, separators=(",", ":"))


def message_in(text):
    return json.loads(decoded(text.split(".")[1]))


def terms(amount, asset, originator, beneficiary):
    return {"amount": amount, "asset": asset, "beneficiary": beneficiary, "originator": originator}


class Chain:
    """The signed texts of a session from the first one on, and the messages of its recovery."""

    def __init__(self, session, origin, recipient, key, texts=()):
        self.session, self.sides, self.key, self.texts = session, (origin, recipient), key, list(texts)

    def signed(self, sender, further):
        """A message of the side, signed."""
        names = {"sender": self.sides[sender], "receiver": self.sides[1 - sender], "session": self.session, "version": 1}
        return signed(self.key, canonical(names | further).encode())

    def next(self, kind, **further):
        """The text of this kind that comes next, which isn't taken yet."""
        place = len(self.texts) + 1
        previous = link(self.texts[-1]) if self.texts else NO_LINK
        return self.signed((place - 1) % 2, {"kind": kind, "previous": previous, "sequence": place} | further)

    def push(self, kind, **further):
        self.texts.append(self.next(kind, **further))
        return self.texts[-1]

    def compared(self, kind, sender):
        """`recover` or `recover-success` of a side that has this chain."""
        last = link(self.texts[-1]) if self.texts else NO_LINK
        return self.signed(sender, {"kind": kind, "length": len(self.texts), "last": last})

    def update(self, sender, entries):
        return self.signed(sender, {"kind": "recover-update", "length": len(self.texts), "entries": entries})


def transfer(session, origin, recipient, key, terms, kinds=CHAIN, reason=None):
    """The chain of these kinds."""
    chain = Chain(session, origin, recipient, key)
    for kind in kinds:
        chain.push(kind, **({"terms": terms} if kind == CHAIN[0] else {"reason": reason} if kind == "reject" else {}))
    return chain


# Payloads of records. Names are texts here, and sessions as they are written.


def number(value, count=8):
    return value.to_bytes(count, "big")


def short(text):
    return number(len(text), 1) + text.encode()


def session_field(session):
    name, count = session.rsplit(".", 1)
    return short(name) + number(int(count), 4)


def terms_field(terms):
    return number(terms["amount"]) + short(terms["asset"]) + short(terms["beneficiary"]) + short(terms["originator"])


def numbered(names, name):
    return number(names.index(name) + 1, 1)


def setup_record(name, peer, at, key):
    return b"\x00" + short(name) + short(peer) + short(at) + number(len(key), 1) + key


def began_record(session, role, terms, text):
    return b"\x01" + session_field(session) + number(ROLES.index(role), 1) + terms_field(terms) + number(len(text), 2) + text.encode()


def text_record(how, session, kind, text):
    byte = {"took": b"\x02", "made": b"\x03"}[how]
    return byte + session_field(session) + numbered(KINDS, kind) + number(len(text), 2) + text.encode()


def did_record(session, operation):
    return b"\x04" + session_field(session) + numbered(OPERATIONS, operation)


def chose_record(session, decision):
    return b"\x05" + session_field(session) + numbered(DECISIONS, decision)


def rescue_record(session):
    return b"\x06" + session_field(session)


def ledger_record(kind):
    return b"\x10" + numbered(LEDGERS, kind)


def asset_record(asset, cap):
    return b"\x11" + short(asset) + number(cap)


def hold_record(asset, owner, amount):
    return b"\x12" + short(asset) + short(owner) + number(amount)


def act_record(operation, session, terms):
    return b"\x13" + numbered(OPERATIONS, operation) + session_field(session) + terms_field(terms)


class Fields:
    """The fields of a payload, one after the other."""

    def __init__(self, payload):
        self.payload, self.at = payload, 0

    def bytes(self, count):
        found = self.payload[self.at : self.at + count]
        if len(found) < count:
            raise ValueError(f"a record ends within a field: {self.payload!r}")
        self.at += count
        return found

    def number(self, count=8):
        return int.from_bytes(self.bytes(count), "big")

    def one_of(self, names):
        return names[self.number(1) - 1]

    def short(self):
        return self.bytes(self.number(1)).decode()

    def text(self):
        return self.bytes(self.number(2)).decode()

    def session(self):
        return f"{self.short()}.{self.number(4)}"

    def terms(self):
        amount = self.number()
        asset, beneficiary, originator = self.short(), self.short(), self.short()
        return terms(amount, asset, originator, beneficiary)


def record(payload):
    """The fields of a payload, its kind first."""
    fields = Fields(payload)
    byte = fields.number(1)
    read = {
        0x00: lambda: ("setup", fields.short(), fields.short(), fields.short(), fields.bytes(fields.number(1))),
        0x01: lambda: ("began", fields.session(), ROLES[fields.number(1)], fields.terms(), fields.text()),
        0x02: lambda: ("took", fields.session(), fields.one_of(KINDS), fields.text()),
        0x03: lambda: ("made", fields.session(), fields.one_of(KINDS), fields.text()),
        0x04: lambda: ("did", fields.session(), fields.one_of(OPERATIONS)),
        0x05: lambda: ("chose", fields.session(), fields.one_of(DECISIONS)),
        0x06: lambda: ("rescue", fields.session()),
        0x10: lambda: ("kind", fields.one_of(LEDGERS)),
        0x11: lambda: ("asset", fields.short(), fields.number()),
        0x12: lambda: ("hold", fields.short(), fields.short(), fields.number()),
        0x13: lambda: ("act", fields.one_of(OPERATIONS), fields.session(), fields.terms()),
    }[byte]()
    if fields.at != len(payload):
        raise ValueError(f"bytes after the last field: {payload!r}")
    return read


# Journals.


def piece(payload):
    """What an append writes after the gate: the length, the payload and the next gate."""
    return number(len(payload), 2) + payload + b"\x00"


def journal(payloads):
    return b"".join(b"\x01" + piece(payload)[:-1] for payload in payloads) + b"\x00"


class Damaged(Exception):
    """A gate that is open before a record that isn't whole."""


def payloads(image):
    """The list that the bytes of a journal stand for."""
    found, at = [], 0
    while len(image) > 1 and image[at] == 1:
        length = int.from_bytes(image[at + 1 : at + 3], "big")
        if not 1 <= length <= 4096 or len(image) < at + 3 + length + 1:
            raise Damaged(at)
        found.append(image[at + 3 : at + 3 + length])
        at += 3 + length
    return found


# Ledgers.


class Ledger:
    """What the payloads of a ledger come to: the entries, and what is free."""

    def __init__(self, payloads):
        self.caps, self.entries = {}, {}
        # The kept terms of a session; the outputs of an owner by their numbers, where accounts are one output each.
        self.terms, self.outputs, self.made = {}, {}, 0
        for payload in payloads:
            fields = record(payload)
            {"kind": self.begin, "asset": self.asset, "hold": self.add, "act": self.act}[fields[0]](*fields[1:])

    def begin(self, kind):
        self.kind = kind

    def asset(self, asset, cap):
        self.caps[asset] = cap

    def add(self, asset, owner, amount):
        if amount == 0:
            return
        self.made += 1
        self.outputs[self.made] = (asset, owner, amount)

    def take(self, asset, owner, amount):
        """Takes outputs in ascending order until they suffice, and makes one of the rest."""
        left = amount
        for place in sorted(self.outputs):
            if left > 0 and self.outputs[place][:2] == (asset, owner):
                left -= self.outputs.pop(place)[2]
        if left > 0:
            raise ValueError(f"{owner} hasn't {amount} {asset}")
        self.add(asset, owner, -left)

    def act(self, operation, session, terms):
        entry = self.entries.get(session, "absent")
        if (operation, entry) not in [
            ("lock", "absent"),
            ("burn", "locked"),
            ("mint", "absent"),
            ("assign", "minted"),
            ("release", "absent"),
            ("release", "locked"),
            ("release", "minted"),
        ]:
            raise ValueError(f"{operation} of {session}, which is {entry}")
        terms = self.terms.setdefault(session, terms)
        asset, amount = terms["asset"], terms["amount"]
        if operation == "lock":
            self.take(asset, terms["originator"], amount)
        if operation == "mint" and (asset not in self.caps or self.total(asset) + amount > self.caps[asset]):
            raise ValueError(f"{session} may not mint {amount} {asset}")
        if operation == "assign":
            self.add(asset, terms["beneficiary"], amount)
        if (operation, entry) == ("release", "locked"):
            self.add(asset, terms["originator"], amount)
        self.entries[session] = RESULTS[operation]

    def free(self):
        """What each owner has free of each asset."""
        found = collections.Counter()
        for asset, owner, amount in self.outputs.values():
            found[asset, owner] += amount
        return dict(found)

    def free_sum(self, asset):
        return sum(amount for (held, _), amount in self.free().items() if held == asset)

    def total(self, asset):
        kept = [session for session, entry in self.entries.items() if entry in ("locked", "minted")]
        return self.free_sum(asset) + sum(self.terms[it]["amount"] for it in kept if self.terms[it]["asset"] == asset)
