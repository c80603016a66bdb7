"""A plain pair in Python, beside which transfers are measured: two sides that exchange the eleven texts of a transfer and commit what a gateway appends to its
journal or its ledger as rows. They compose, sign and verify the same texts, but keep no rules: they know one order of messages."""

import sys

import formats

KEY = bytes(range(32))
TERMS = formats.terms(1, "gold", "ann", "bob")


class Side:
    """Keeps the texts of its sessions, and the rows that a gateway of this role has as records and as operations, in a database of SQLite."""

    # After which place what rows come beside that of the text itself.
    BESIDE = {
        "origin": {4: ["lock", "did lock"], 8: ["chose commit", "burn", "did burn"]},
        "recipient": {7: ["mint", "did mint"], 9: ["assign", "did assign"]},
    }

    def __init__(self, base, role):
        self.base, self.role, self.chains = base, role, {}
        self.base.execute("create table rows (number integer primary key, session text not null, what text not null, content blob not null)")

    def row(self, session, what, content=b""):
        self.base.execute("insert into rows (session, what, content) values (?, ?, ?)", (session, what, content))

    def say(self, session):
        """The side's next text, which is kept first."""
        chain = self.chains.setdefault(session, formats.Chain(session, "alpha", "beta", KEY))
        kind = formats.CHAIN[len(chain.texts)]
        text = chain.push(kind, **further(kind, TERMS))
        self.row(session, kind, text.encode())
        return text

    def take(self, text):
        """Verifies a text of the peer and keeps it, and what comes of it. Gives the session and whether it goes on."""
        message = formats.message_in(text)
        session = message["session"]
        chain = self.chains.setdefault(session, formats.Chain(session, "alpha", "beta", KEY))
        kind = formats.CHAIN[len(chain.texts)]
        if text != chain.next(kind, **further(kind, message.get("terms"))):
            sys.exit(f"bench/plain: the {kind} is another one")
        chain.texts.append(text)
        self.row(session, kind, text.encode())
        for what in self.BESIDE[self.role].get(len(chain.texts), []):
            self.row(session, what)
        return session, len(chain.texts) < len(formats.CHAIN)


# How many rows a side commits for a transfer.
ROWS = {role: len(formats.CHAIN) + sum(map(len, beside.values())) for role, beside in Side.BESIDE.items()}


def further(kind, terms):
    return {"terms": terms} if kind == formats.CHAIN[0] else {}
