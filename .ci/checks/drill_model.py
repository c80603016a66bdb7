"""Drills as a plain model: messages and records by their kinds, ledgers by their entries, without bytes, devices or connections.

It is written from the rules, as docs/PROTOCOL.md and docs/FORMATS.md have those of the protocol and of schedules, and not from the program.
Those of a drill are these.

- A command is a line that is no `stop`, `fail`, `lose` or `twice`. Those hold for the next command alone. A later one of the same sort takes the
  place of an earlier one, and `stop` and `fail` are one sort. A command that its gateway refuses changes nothing.
- An append of a record is four events, and an operation that changes an entry is one. A side that stops makes no further call on its site after so
  many events; what needs none, such as saying a reply, it still does. The record of an append that was cut stands if three of its events were made and
  the pick is 1 modulo 256: then the byte that closes the append was written, if not synced.
- An append is four calls, and an operation is one. A side whose call fails makes no further one in that command. The record of an append stands if the
  third or fourth of its calls failed. An operation that failed has no effect.
- The messages of a command are the texts that are posted and those that are answered, in order. A message that is lost was sent, and the exchange ends
  there. A post that comes twice is handed over twice before its answer is read; an answer that comes twice is handed over once more after the command.
  The second reply is sent, and nobody hears it. A message that is lost doesn't come twice.
- A side that stopped, or whose call failed, is opened again before it is used next: before a command, or before an answer is handed over after one.
- In the end the origin of each session that a `start` names recovers it, and nothing disturbs that.
"""

import collections
import re
from typing import NamedTuple

from formats import CHAIN, RESULTS

NAMES = {"A": "alpha", "B": "beta"}
ROUNDS = 200
MOST_LINES = 4096
MOST_BYTES = 262_144
MOST_NUMBER = 2**32 - 1
MOST_AMOUNT = 2**53 - 1
MOST_SESSIONS = 2048
MOST_POSTS = 16
MOST_TEXTS_OF_A_ROUND = 8


class Impossible(Exception):
    """What the rules exclude. Either they are wrong, or this model."""


# Schedules.


def generated(seed):
    """The lines of a number's schedule."""
    state = seed

    def drawn():
        nonlocal state
        state = (state * 6364136223846793005 + 1442695040888963407) % 2**64
        return state >> 33

    def side():
        return "AB"[drawn() % 2]

    lines = []
    for turn in range(1, ROUNDS + 1):
        starter, owner, receiver = ("A", "ann", "bob") if turn % 2 else ("B", "bob", "ann")
        number = (turn + 1) // 2
        amount, trouble = 1 + drawn() % 100, drawn() % 4
        if trouble == 1:
            lines.append(f"stop {side()} {1 + drawn() % 60} {drawn() % 8}")
        elif trouble == 2:
            lines.append(f"lose {1 + drawn() % 11}")
        elif trouble == 3:
            lines.append(f"twice {1 + drawn() % 11}")
        lines.append(f"start {starter} {number} gold {amount} {owner} {receiver}")
        if trouble == 1 and drawn() % 2 == 0:
            lines.append(f"abort {side()} {NAMES[starter]}.{number}")
        if turn % 10 == 0:
            lines.append(f"deliver {side()} {1 + drawn() % (5 * turn)}")
    return lines


class Refused(Exception):
    """A schedule that isn't read: the line that a command prints."""


NUMBER, PICK, NAME = "[1-9][0-9]*", "(?:0|[1-9][0-9]*)", "[a-z0-9-]{1,32}"
SESSION = rf"{NAME}\.{NUMBER}"
FORMS = {
    "start": ["[AB]", NUMBER, NAME, NUMBER, NAME, NAME],
    "resume": ["[AB]", SESSION],
    "recover": ["[AB]", SESSION],
    "abort": ["[AB]", SESSION],
    "deliver": ["[AB]", NUMBER],
    "stop": ["[AB]", NUMBER, PICK],
    "fail": ["[AB]", NUMBER],
    "lose": [NUMBER],
    "twice": [NUMBER],
}
AMOUNT_FIELD = 4


def read_line(line):
    """The fields of a line, its word first, or none."""
    fields = line.split(" ")
    form = FORMS.get(fields[0])
    if form is None or len(fields) != 1 + len(form) or not all(map(re.fullmatch, form, fields[1:])):
        return None
    numbers = {place: int(field.rsplit(".", 1)[-1]) for place, field in enumerate(fields) if form_of(form, place) in (NUMBER, PICK, SESSION)}
    for place, number in numbers.items():
        if number > (MOST_AMOUNT if (fields[0], place) == ("start", AMOUNT_FIELD) else MOST_NUMBER):
            return None
    return tuple(field_value(form_of(form, place), field, numbers.get(place)) for place, field in enumerate(fields))


def form_of(form, place):
    return form[place - 1] if place else None


def field_value(form, field, number):
    if form == SESSION:
        return field.split(".", 1)[0], number
    return field if number is None else number


def read(text):
    """The lines of a schedule."""
    if len(text) > MOST_BYTES:
        raise Refused("input too long")
    *lines, rest = text.split(b"\n")
    found = [read_line(line.decode("latin-1")) for line in lines[:MOST_LINES]]
    for number, line in enumerate(found, 1):
        if line is None:
            raise Refused(f"schedule line {number} refused")
    if rest or len(lines) > MOST_LINES:
        raise Refused(f"schedule line {len(found) + 1} refused")
    return found


# Texts. A session is the name of its origin and a number; a link is the text itself.


class Terms(NamedTuple):
    amount: int
    asset: str
    originator: str
    beneficiary: str


class Message(NamedTuple):
    """A message of a chain; further is the terms of a proposal, or the reason of a refusal."""

    session: tuple
    place: int
    kind: str
    previous: object
    further: object

    def sender(self):
        origin = self.session[0]
        return origin if self.place % 2 else peer_of(origin)


class Recover(NamedTuple):
    session: tuple
    side: str
    length: int
    last: object

    def sender(self):
        return self.side


class Update(NamedTuple):
    session: tuple
    side: str
    length: int
    entries: tuple

    def sender(self):
        return self.side


class Success(NamedTuple):
    session: tuple
    side: str
    length: int
    last: object

    def sender(self):
        return self.side


def peer_of(name):
    return "beta" if name == "alpha" else "alpha"


# Ledgers.


class Ledger:
    """Entries, and by them what is free."""

    CHANGES = {
        ("lock", "absent"),
        ("burn", "locked"),
        ("mint", "absent"),
        ("assign", "minted"),
        ("release", "absent"),
        ("release", "locked"),
        ("release", "minted"),
    }

    def __init__(self, cap, holds):
        self.cap, self.holds = cap, holds
        # The entry and the terms of each session that has one.
        self.entries = {}

    def entry(self, session):
        return self.entries[session][0] if session in self.entries else "absent"

    def free(self, asset, owner):
        free = sum(amount for held, holder, amount in self.holds if (held, holder) == (asset, owner))
        for entry, terms in self.entries.values():
            if terms.asset == asset:
                free -= terms.amount if entry in ("locked", "burnt") and terms.originator == owner else 0
                free += terms.amount if entry == "assigned" and terms.beneficiary == owner else 0
        return free

    def free_sum(self, asset):
        """What all owners have free."""
        signs = {"locked": -1, "burnt": -1, "assigned": 1}
        moved = sum(signs.get(entry, 0) * terms.amount for entry, terms in self.entries.values() if terms.asset == asset)
        return moved + sum(amount for held, _, amount in self.holds if held == asset)

    def total(self, asset):
        kept = [terms.amount for entry, terms in self.entries.values() if entry in ("locked", "minted") and terms.asset == asset]
        return self.free_sum(asset) + sum(kept)

    def answer(self, operation, session, terms):
        entry = self.entry(session)
        if entry == RESULTS[operation]:
            return "done"
        if operation == "lock":
            if entry != "absent":
                return "taken"
            return "done" if self.free(terms.asset, terms.originator) >= terms.amount else "no funds"
        if operation == "mint":
            if entry != "absent":
                return "taken"
            if terms.asset not in self.cap:
                return "unknown asset"
            return "done" if self.total(terms.asset) + terms.amount <= self.cap[terms.asset] else "capped"
        if (operation, entry) not in self.CHANGES:
            raise Impossible(f"{operation} of {session}, which is {entry}")
        return "done"

    def change(self, operation, session, terms):
        """Later operations go by the terms of the first."""
        kept = self.entries[session][1] if session in self.entries else terms
        self.entries[session] = RESULTS[operation], kept


# Records, and what a role does by them.


class Log:
    """What the records of a session say."""

    def __init__(self, role, proposal):
        self.role, self.texts = role, [proposal]
        self.done, self.way, self.rescue = set(), None, False

    def push(self, what, value):
        if what == "text":
            self.texts.append(value)
        elif what == "did":
            self.done.add(value)
        elif what == "chose":
            self.way = value
        elif what == "rescue":
            self.rescue = True

    @property
    def terms(self):
        return self.texts[0].further

    @property
    def last(self):
        return self.texts[-1].kind

    def has(self, kind):
        return any(text.kind == kind for text in self.texts)

    def is_whole(self):
        return self.last in ("transfer-complete", "rollback-ack")

    def is_back(self):
        return self.way not in (None, "commit")

    def own_turn(self):
        """The last message is the other side's."""
        return len(self.texts) % 2 == (0 if self.role == "origin" else 1)

    def own_last(self):
        """The last text, where it is this side's."""
        return None if self.own_turn() else self.texts[-1]

    def may_rescue(self):
        return self.role == "origin" and self.way is None and not self.rescue and not self.is_whole()

    def next(self):
        return origin_next(self) if self.role == "origin" else recipient_next(self)

    def composed(self, kind):
        """The text of this kind that comes next."""
        reason = self.way if self.way in ("unknown-asset", "mint-capped", "ledger-taken") else "aborted"
        return Message(self.texts[0].session, len(self.texts) + 1, kind, self.texts[-1], reason if kind == "reject" else None)


def extends(kinds, kind):
    """Whether a tale of these kinds has a longer one that ends with this kind."""
    length = len(kinds)
    if kind == "rollback-ack":
        return length > 0 and kinds[-1] == "rollback"
    if kind == "rollback":
        return length > 0 and (kinds[-1] == "reject" or (kinds == CHAIN[:length] and length in (2, 4, 6, 8)))
    if kind == "reject":
        return kinds == CHAIN[:length] and length in (1, 3, 5, 7)
    return length < len(CHAIN) and kinds == CHAIN[:length] and kind == CHAIN[length]


def origin_next(log):
    """What comes next at an origin: what to do and with what, or none."""
    last, done = log.last, log.done
    if log.is_whole():
        return None
    if log.is_back() and "release" not in done:
        return "act", "release"
    if log.is_back() and log.own_turn():
        return "make", "rollback"
    if log.way == "commit" and last == "commit-ready" and "burn" not in done:
        return "act", "burn"
    if log.way == "commit" and last == "commit-ready":
        return "make", "commit-final"
    if last == "commit-final-ack":
        return "make", "transfer-complete"
    if log.way is None and last == "reject":
        return "choose", "rejected"
    if log.way is None and last == "commit-ready":
        return "choose", "commit"
    if log.way is None and log.own_turn() and log.rescue:
        return "choose", "rescued"
    if last == "proposal-receipt":
        return "make", "transfer-commence"
    if last == "commence-ack" and "lock" not in done:
        return "act", "lock"
    if last == "commence-ack":
        return "make", "lock-assert"
    if last == "lock-receipt":
        return "make", "commit-prepare"
    return None


def recipient_next(log):
    """What comes next at a recipient."""
    last, done = log.last, log.done
    release = log.has("commit-prepare") and "release" not in done and log.way in (None, "aborted")
    if log.is_whole():
        return None
    if last == "rollback" and release:
        return "act", "release"
    if last == "rollback":
        return "make", "rollback-ack"
    if log.is_back() and release:
        return "act", "release"
    if log.is_back() and log.own_turn():
        return "make", "reject"
    if last == "commit-prepare" and "mint" not in done:
        return "act", "mint"
    if last == "commit-final" and "assign" not in done:
        return "act", "assign"
    answers = {
        "transfer-proposal": "proposal-receipt",
        "transfer-commence": "commence-ack",
        "lock-assert": "lock-receipt",
        "commit-prepare": "commit-ready",
        "commit-final": "commit-final-ack",
    }
    return ("make", answers[last]) if last in answers else None


def after(operation, answer):
    """The record of an operation's answer."""
    if answer == "done":
        return "did", operation
    refusals = {"unknown asset": "unknown-asset", "capped": "mint-capped", "taken": "ledger-taken"}
    return "chose", "lock-refused" if operation == "lock" else refusals[answer]


# Sites that stop, or whose call fails.


class Stop:
    """A site that has so many events left."""

    def __init__(self, events, pick):
        self.events, self.pick = events, pick

    def append(self):
        """Whether an append is made, and whether its record stands."""
        events, self.events = self.events, max(0, self.events - 4)
        if events >= 4:
            return True, True
        return False, events == 3 and self.pick % 256 == 1

    def act(self, changes):
        """Whether an operation is made."""
        made = self.events > 0
        if made and changes:
            self.events -= 1
        return made


class Failure:
    """A site that has so many calls left up to the one that fails."""

    def __init__(self, calls):
        self.calls = calls

    def append(self):
        calls, self.calls = self.calls, self.calls - 4
        return calls > 4, calls >= 3

    def act(self, changes):
        del changes
        self.calls -= 1
        return self.calls > 0


class Undisturbed:
    """A site that neither stops nor fails."""

    def append(self):
        return True, True

    def act(self, changes):
        del changes
        return True


# Gateways.


class Unanswered(Exception):
    """A call that its gateway refuses."""


class Down(Unanswered):
    """A call of a gateway whose site stopped or failed."""


class Gateway:
    def __init__(self, name, ledger):
        self.name, self.ledger = name, ledger
        # By the sessions that its records name, and how many of them have each role.
        self.logs, self.begun = {}, collections.Counter()
        self.open()

    def open(self, site=None):
        """Opens it, over a site that may be disturbed from now on."""
        self.site, self.broken = site or Undisturbed(), False

    # What changes something.

    def append(self, session, what, value=None):
        made, stands = self.site.append()
        if stands and what == "began":
            self.logs[session] = Log(self.role(session), value)
            self.begun[self.role(session)] += 1
        elif stands:
            self.logs[session].push(what, value)
        if not made:
            self.breaks()

    def act(self, session, operation):
        terms = self.logs[session].terms
        answer = self.ledger.answer(operation, session, terms)
        changes = answer == "done" and self.ledger.entry(session) != RESULTS[operation]
        if not self.site.act(changes):
            self.breaks()
        if changes:
            self.ledger.change(operation, session, terms)
        self.append(session, *after(operation, answer))

    def breaks(self):
        self.broken = True
        raise Down

    def work(self, session):
        """What is due, until nothing is."""
        log = self.logs[session]
        while (step := log.next()) is not None:
            what, value = step
            if what == "act":
                self.act(session, value)
            elif what == "make":
                self.append(session, "text", log.composed(value))
            else:
                self.append(session, "chose", value)

    # Calls of the gateway's own side.

    def role(self, session):
        return "origin" if session[0] == self.name else "recipient"

    def known(self, session):
        if self.broken or session not in self.logs:
            raise Unanswered
        return self.logs[session]

    def start(self, session, terms):
        if self.broken or session in self.logs or self.begun["origin"] == MOST_SESSIONS:
            raise Unanswered
        proposal = Message(session, 1, CHAIN[0], None, terms)
        self.append(session, "began", proposal)
        return proposal

    def resume(self, session):
        """The last text, or none where the chain is whole."""
        log = self.known(session)
        self.work(session)
        return None if log.is_whole() else log.texts[-1]

    def rescue(self, session):
        log = self.known(session)
        self.enter_recovery(session)
        return Recover(session, self.name, len(log.texts), log.texts[-1])

    def enter_recovery(self, session):
        if self.logs[session].may_rescue():
            self.append(session, "rescue")
        self.work(session)

    def closing(self, session):
        texts = self.logs[session].texts
        return Success(session, self.name, len(texts), texts[-1])

    def abort(self, session):
        log = self.known(session)
        if self.too_late(log):
            raise Unanswered
        if not log.is_back() and not log.has("rollback"):
            self.append(session, "chose", "aborted")
        self.work(session)

    @staticmethod
    def too_late(log):
        if log.role == "origin":
            return log.way == "commit"
        return log.has("commit-ready") and not log.has("rollback")

    # Texts of the peer.

    def handle(self, text):
        """The reply, or none."""
        if self.broken:
            raise Down
        if text.sender() == self.name:
            raise Unanswered
        if self.role(text.session) == "origin" and text.session not in self.logs:
            raise Impossible(f"{text.session} is heard of at {self.name}, which didn't begin it")
        hear = {Message: self.hear, Recover: self.hear_recover, Update: self.hear_update, Success: self.hear_success}
        return hear[type(text)](text)

    def texts(self, session):
        return self.logs[session].texts if session in self.logs else []

    def is_next(self, text):
        """Whether a message comes right after the chain."""
        texts = self.texts(text.session)
        if text.place != len(texts) + 1:
            return False
        if text.previous != (texts[-1] if texts else None) or not extends([it.kind for it in texts], text.kind):
            raise Impossible(f"{text.kind} of {text.session} doesn't fit the chain at {self.name}")
        return True

    def take(self, text):
        if text.session in self.logs:
            self.append(text.session, "text", text)
        elif self.begun["recipient"] == MOST_SESSIONS:
            raise Impossible(f"{self.name} has no room for {text.session}")
        else:
            self.append(text.session, "began", text)
        self.work(text.session)
        return self.logs[text.session].own_last()

    def hear(self, text):
        if self.is_next(text):
            return self.take(text)
        texts = self.texts(text.session)
        if text.place > len(texts):
            raise Unanswered
        if texts[text.place - 1] != text:
            raise Impossible(f"{text.kind} of {text.session} is another one at {self.name}")
        self.work(text.session)
        if self.logs[text.session].is_whole():
            own = [it for it in texts if it.sender() == self.name]
            return own[-1] if text.place < len(texts) else None
        return texts[text.place] if text.place < len(texts) else None

    def hear_recover(self, text):
        texts = self.texts(text.session)
        self.compare(texts, text)
        if not texts:
            return Update(text.session, self.name, 0, ())
        self.enter_recovery(text.session)
        return Update(text.session, self.name, len(texts), tuple(texts[text.length :]))

    def compare(self, texts, text):
        """Refuses a chain whose length differs from this one's by more than one."""
        if abs(text.length - len(texts)) > 1:
            raise Unanswered
        if 0 < text.length <= len(texts) and text.last != texts[text.length - 1]:
            raise Impossible(f"the chain of {text.session} at {self.name} is another one")

    def hear_update(self, text):
        texts = self.texts(text.session)
        longer = text.length - len(texts)
        if abs(longer) > 1 or len(text.entries) != max(longer, 0):
            raise Unanswered
        if longer == 1:
            return self.adopt(text.session, text.entries[0])
        if longer == -1:
            return self.logs[text.session].own_last()
        return None

    def adopt(self, session, entry):
        if entry.session != session or entry.sender() == self.name or not self.is_next(entry):
            raise Unanswered
        return self.take(entry)

    def hear_success(self, text):
        texts = self.texts(text.session)
        if text.length != len(texts):
            raise Unanswered
        self.compare(texts, text)
        return None


# The messages of a command.

REFUSED = object()


class Exchange:
    """A driving gateway and its peer, and which message is lost or comes twice."""

    def __init__(self, driver, peer, sent, lost=None, twice=None):
        self.driver, self.peer, self.sent, self.lost, self.twice = driver, peer, sent, lost, twice
        self.count = 0
        # The answer that is to be handed over once more.
        self.repeated = None

    def drive(self, session, text, closes):
        """Posts a text and what comes of it; at the end, where it closes, that both sides agree."""
        for _ in range(MOST_POSTS):
            answer = self.post(text)
            if answer is REFUSED:
                return
            text = None if answer is None else hand(self.driver, answer)
            if text is REFUSED:
                return
            if text is None:
                if not closes or not self.driver.logs[session].is_whole():
                    return
                text, closes = self.driver.closing(session), False

    def passes(self, text):
        """Sends a message. Whether it arrives."""
        self.sent.append(text)
        self.count += 1
        return self.count != self.lost

    def post(self, text):
        """The answer that arrives: a text, none, or a refusal. A connection that ends counts as a refusal."""
        if not self.passes(text):
            return REFUSED
        repeats = self.count == self.twice
        answer = hand(self.peer, text)
        second = hand(self.peer, text) if repeats else None
        arrives = True
        if is_text(answer):
            arrives = self.passes(answer)
            if arrives and self.count == self.twice:
                self.repeated = answer
        if is_text(second):
            self.sent.append(second)
        return answer if arrives else REFUSED


def hand(gateway, text):
    """What a gateway replies to a text: a text, none, or a refusal."""
    try:
        return gateway.handle(text)
    except Unanswered:
        return REFUSED


def is_text(answer):
    return answer is not None and answer is not REFUSED


# Drills.

Report = collections.namedtuple("Report", "sessions committed rolled_back not_begun free_gold")


def report_line(seed, report):
    return (
        f"drill {seed}: sessions {report.sessions}, committed {report.committed}, rolled back {report.rolled_back}, "
        f"not begun {report.not_begun}, free gold {report.free_gold}"
    )


class Drill:
    def __init__(self):
        cap = {"gold": 1_000_000}
        self.sides = {
            "A": Gateway("alpha", Ledger(cap, [("gold", "ann", 10_000)])),
            "B": Gateway("beta", Ledger(cap, [("gold", "bob", 1_000)] * 10)),
        }
        self.sent, self.named = [], {}
        # The side that stops or fails in the next command, with its site; the messages that are lost and come twice.
        self.trouble, self.lost, self.twice = None, None, None

    def line(self, word, *fields):
        if word in ("stop", "fail"):
            self.trouble = fields[0], (Stop if word == "stop" else Failure)(*fields[1:])
        elif word == "lose":
            self.lost = fields[0]
        elif word == "twice":
            self.twice = fields[0]
        else:
            self.command(word, *fields)
            self.clear()

    def clear(self):
        self.trouble, self.lost, self.twice = None, None, None

    def end(self):
        # What was to go wrong in a further command doesn't.
        self.clear()
        for session in self.named:
            self.settle(session)
        return self.report()

    def command(self, word, side, *fields):
        # What is opened without need is as it was.
        for name, gateway in self.sides.items():
            gateway.open(self.trouble[1] if self.trouble and self.trouble[0] == name else None)
        if word == "start":
            fields = self.start_fields(side, *fields)
        try:
            {"start": self.start, "resume": self.resume, "recover": self.recover, "abort": self.abort, "deliver": self.deliver}[word](side, *fields)
        except Unanswered:
            pass

    def exchange(self, side):
        driver, peer = self.sides[side], self.sides["B" if side == "A" else "A"]
        return Exchange(driver, peer, self.sent, self.lost, self.twice)

    def drive(self, side, session, text, closes=False):
        exchange = self.exchange(side)
        exchange.drive(session, text, closes)
        if exchange.repeated is not None:
            self.sides[side].open()
            self.hand_over(side, exchange.repeated)

    def hand_over(self, side, text):
        reply = hand(self.sides[side], text)
        if is_text(reply):
            self.sent.append(reply)

    def start_fields(self, side, number, asset, amount, originator, beneficiary):
        session = NAMES[side], number
        self.named[session] = side
        return session, Terms(amount, asset, originator, beneficiary)

    def start(self, side, session, terms):
        self.drive(side, session, self.sides[side].start(session, terms))

    def resume(self, side, session):
        text = self.sides[side].resume(session)
        if text is not None:
            self.drive(side, session, text)

    def recover(self, side, session):
        self.drive(side, session, self.sides[side].rescue(session), closes=True)

    def abort(self, side, session):
        self.sides[side].abort(session)

    def deliver(self, side, number):
        if number <= len(self.sent):
            self.hand_over(side, self.sent[number - 1])

    # The end.

    def settle(self, session):
        """The round of a session that was begun, which nothing disturbs."""
        for gateway in self.sides.values():
            gateway.open()
        side = self.named[session]
        if session in self.sides[side].logs:
            before = len(self.sent)
            self.recover(side, session)
            if len(self.sent) - before > MOST_TEXTS_OF_A_ROUND:
                raise Impossible(f"the round of {session} has {len(self.sent) - before} texts")
            self.want_settled(session)

    def want_settled(self, session):
        origin, recipient = (self.sides[it] for it in ("AB" if session[0] == "alpha" else "BA"))
        log = origin.logs[session]
        entries = origin.ledger.entry(session), recipient.ledger.entry(session)
        ends = {"transfer-complete": [("burnt", "assigned")], "rollback-ack": [("released", "absent"), ("released", "released")]}
        if recipient.texts(session) != log.texts or entries not in ends.get(log.last, []):
            raise Impossible(f"{session} isn't settled: {log.last}, {entries}")

    def report(self):
        begun = [self.sides[side].logs[session].last for session, side in self.named.items() if session in self.sides[side].logs]
        return Report(
            sessions=len(self.named),
            committed=begun.count("transfer-complete"),
            rolled_back=begun.count("rollback-ack"),
            not_begun=len(self.named) - len(begun),
            free_gold=sum(gateway.ledger.free_sum("gold") for gateway in self.sides.values()),
        )


def drill(lines):
    """The report on the lines of a schedule that was read."""
    found = Drill()
    for line in lines:
        found.line(*line)
    return found.end()


def drilled(text):
    """The report on a schedule's text."""
    return drill(read(text))
