"""Fills two gateways over sites in memory with sessions, and compares each answer of the program with a plain reading of docs/FORMATS.md."""

import hashlib
import subprocess
import sys

import formats

MOST = 2048
KEY = bytes(range(32))
SETUPS = [
    "a setup alpha beta own asset gold 1000000;hold gold ann 1000;",
    "b setup beta alpha own asset gold 1000000;hold gold bob 350;",
    "a open",
    "b open",
]
FULL = "Full { count: 2048 }"


def begun(session, origin, recipient, owner, receiver):
    """The proposal and the receipt of a session."""
    terms = formats.terms(1, "gold", owner, receiver)
    return formats.transfer(session, origin, recipient, KEY, terms, formats.CHAIN[:2]).texts


def begun_by_alpha(number):
    return begun(f"alpha.{number}", "alpha", "beta", "ann", "bob")


def begun_by_beta():
    return begun("beta.1", "beta", "alpha", "bob", "ann")


class Case:
    """Lines, what the program has to answer to each, and how many texts were said."""

    def __init__(self):
        self.lines, self.wanted, self.said = [], [], 0
        for line in SETUPS:
            self.ask(line, "done")

    def ask(self, line, answer):
        self.lines.append(line)
        self.wanted.append(answer)

    def says(self, line, kind, text):
        self.said += 1
        link = hashlib.sha256(text.encode()).hexdigest()[:8]
        self.ask(line, f"text {self.said} {kind} {len(text)} {link}")


def started(number):
    return f"a start alpha.{number} 1 gold ann bob"


def full_of_starts():
    case = Case()
    proposals = {number: begun_by_alpha(number)[0] for number in range(1, MOST + 1)}
    for number, proposal in proposals.items():
        case.says(started(number), "transfer-proposal", proposal)
    case.ask("a count", str(4 * MOST))
    case.ask(started(MOST + 1), FULL)
    case.ask(started(1), "Exists")
    case.ask("a count", "0")
    case.ask("a open", "done")
    case.ask(started(MOST + 1), FULL)
    case.says(f"a work alpha.{MOST}", "transfer-proposal", proposals[MOST])
    # The other role has room.
    proposal, receipt = begun_by_beta()
    case.says("b start beta.1 1 gold bob ann", "transfer-proposal", proposal)
    case.says(f"a hear {case.said}", "proposal-receipt", receipt)
    return case


def full_of_proposals():
    case = Case()
    texts = {number: begun_by_alpha(number) for number in range(1, MOST + 2)}
    for number in range(1, MOST + 1):
        case.says(f"b text {texts[number][0]}", "proposal-receipt", texts[number][1])
    case.ask("b count", str(8 * MOST))
    case.ask(f"b text {texts[MOST + 1][0]}", FULL)
    case.ask("b count", "0")
    # What the gateway has is answered, and it may start sessions of its own.
    case.says(f"b text {texts[1][0]}", "proposal-receipt", texts[1][1])
    case.ask("b open", "done")
    case.ask(f"b text {texts[MOST + 1][0]}", FULL)
    case.says("b start beta.1 1 gold bob ann", "transfer-proposal", begun_by_beta()[0])
    return case


def compare(program, name, case):
    text = "\n".join(case.lines) + "\n"
    done = subprocess.run([program], input=text, capture_output=True, text=True)
    found = done.stdout.splitlines()
    wanted = [f"{line}: {answer}" for line, answer in zip(case.lines, case.wanted)] + [""]
    for number, (one, other) in enumerate(zip(found, wanted), 1):
        if one != other:
            sys.exit(f"full: {name}, line {number}: {one!r}, and not {other!r}")
    if done.returncode != 0 or len(found) != len(wanted):
        sys.exit(f"full: {name}: status {done.returncode}, {len(found)} lines and not {len(wanted)}")


compare(sys.argv[1], "starts", full_of_starts())
compare(sys.argv[1], "proposals", full_of_proposals())
print(f"full: passed, {MOST} sessions of each role")
