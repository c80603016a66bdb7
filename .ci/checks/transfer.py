"""Runs two gateways of the built program on loopback: whole transfers, recoveries of sessions that were cut, and statuses of each command."""

import fcntl
import os
import socket
import sys
import threading

import formats
from formats import CHAIN
from gateways import (
    BETA_GENESIS,
    KEY,
    History,
    Messages,
    Pairs,
    committed,
    done,
    fail,
    free_ports,
    port_of,
    read,
    refused,
    rolled_back,
    served,
    shown,
    want,
)

PAIRS = Pairs(sys.argv[1], sys.argv[2])
TERMS = formats.terms(250, "gold", "ann", "bob")
NO_SESSION = refused(3, "no session alpha.9")
WIRE_FAILED = refused(6, "wire failed")
SITE_FAILED = refused(8, "site failed")
NO_GATEWAY = refused(13, "no gateway here")
COMMANDS = ["show", "abort", "resume", "recover", "start", "serve"]
UNDONE = ["rollback", "rollback-ack"]


def options(command, listens="127.0.0.1:1"):
    """Options of a command that are listed."""
    if command == "serve":
        return {"listen": listens, "connections": 1}
    if command == "start":
        return {"number": 1, "amount": 250, "asset": "gold", "from": "ann", "to": "bob"}
    return {"session": "alpha.9"}


def want_free(what, alpha, beta, wanted_alpha, wanted_beta):
    want(f"what is free at alpha after {what}", alpha.ledger().free(), wanted_alpha)
    want(f"what is free at beta after {what}", beta.ledger().free(), wanted_beta)


def want_texts(what, sides, kinds, session="alpha.1", terms=TERMS, reason=None):
    """The texts in both journals are the one chain of these kinds."""
    origin, recipient = sides
    chain = formats.transfer(session, origin.name, recipient.name, KEY, terms, kinds, reason)
    for side in sides:
        texts = [record[-1] for record in side.records() if record[0] in ("began", "took", "made") and record[1] == session]
        want(f"the texts of {side.name} after {what}", texts, chain.texts)


def driven(driver, peer, command, **further):
    """What a drive prints, and what the peer printed that served it."""
    serving = peer.serve()
    found = driver.start(**further) if command == "start" else driver.on(command, **further)
    return found, serving.end()


def want_driven(what, driver, peer, command, wanted, requests, **further):
    want(what, driven(driver, peer, command, **further), (wanted, served(1, requests)))


# Whole transfers.


def whole():
    """A transfer of 250: what both commands print, what both show, both journals and both ledgers."""
    alpha, beta = PAIRS.fresh()
    want_driven("a transfer", alpha, beta, "start", committed("alpha.1", 11), 6)
    want("show at alpha", alpha.on("show"), shown("alpha.1", "origin", "burnt", "commit", "committed", CHAIN))
    want("show at beta", beta.on("show"), shown("alpha.1", "recipient", "assigned", "none", "committed", CHAIN))
    want_free("a transfer", alpha, beta, {("gold", "ann"): 750}, {("gold", "bob"): 600})
    want_texts("a transfer", (alpha, beta), CHAIN)
    texts = formats.transfer("alpha.1", "alpha", "beta", KEY, TERMS).texts
    said = lambda how, place: formats.text_record(how, "alpha.1", CHAIN[place - 1], texts[place - 1])
    did = lambda operation: formats.did_record("alpha.1", operation)
    began = lambda role: formats.began_record("alpha.1", role, TERMS, texts[0])
    want(
        "the journal of alpha",
        alpha.payloads()[1:],
        [began("origin"), said("took", 2), said("made", 3), said("took", 4), did("lock"), said("made", 5), said("took", 6), said("made", 7)]
        + [said("took", 8), formats.chose_record("alpha.1", "commit"), did("burn"), said("made", 9), said("took", 10), said("made", 11)],
    )
    want(
        "the journal of beta",
        beta.payloads()[1:],
        [began("recipient"), said("made", 2), said("took", 3), said("made", 4), said("took", 5), said("made", 6), said("took", 7)]
        + [did("mint"), said("made", 8), said("took", 9), did("assign"), said("made", 10), said("took", 11)],
    )
    acts = lambda *operations: [formats.act_record(operation, "alpha.1", TERMS) for operation in operations]
    want("the operations of alpha's ledger", alpha.ledger_payloads()[-2:], acts("lock", "burn"))
    want("the operations of beta's ledger", beta.ledger_payloads()[-2:], acts("mint", "assign"))
    return alpha, beta


def once_more(alpha, beta):
    """A session that is whole: a recovery compares the logs, resuming does nothing, and neither writes a record."""
    before = [read(side.at(file)) for side in (alpha, beta) for file in ("journal-a", "ledger")]
    for driver, peer in ((alpha, beta), (beta, alpha)):
        want_driven(f"a recovery of a whole session at {driver.name}", driver, peer, "recover", committed("alpha.1", 3), 2)
        # Nobody listens.
        want(f"resuming a whole session at {driver.name}", driver.on("resume"), committed("alpha.1", 0))
    want("an abort after the decision at alpha", alpha.on("abort"), refused(4, "too late at place 9"))
    want("an abort after the decision at beta", beta.on("abort"), refused(4, "too late at place 8"))
    want("the same number once more", alpha.start(), refused(4, "session alpha.1 exists"))
    after = [read(side.at(file)) for side in (alpha, beta) for file in ("journal-a", "ledger")]
    want("whether a whole session is left as it is", after == before, True)


def replays(alpha, beta):
    """What `replay` prints of both journals of the transfer, of a part of one, and of what is none."""
    lines = lambda *texts: done("\n".join(texts))
    want("replay at alpha", alpha.replay(), lines("gateway alpha peer beta", "alpha.1 origin committed 11", "records 15"))
    want("replay at beta", beta.replay(), lines("gateway beta peer alpha", "alpha.1 recipient committed 11", "records 14"))
    payloads, rescue = alpha.payloads(), bytes.fromhex("01000b0605616c7068610000000100")
    first = lambda count: alpha.replay(formats.journal(payloads[:count]))
    want("replay of a set-up", first(1), lines("gateway alpha peer beta", "records 1"))
    want("replay of three records", first(3), lines("gateway alpha peer beta", "alpha.1 origin open 2", "records 3"))
    missing = formats.journal(payloads[:3] + payloads[4:])
    for image, line in (
        (b"", "log empty"),
        (b"\x00", "log empty"),
        (b"\x01", "log empty"),
        (rescue[:6], "log damaged at 0"),
        (rescue[:14], "log damaged at 0"),
        (rescue, "record 0 refused"),
        (missing, "record 3 refused"),
        (missing[:-1] + b"\x01\x00", f"log damaged at {len(missing) - 1}"),
    ):
        want(f"replay of {image[-20:].hex()}", alpha.replay(image), refused(5, line))
    if os.path.exists("/dev/zero"):
        # An input without an end: it is read to the first byte past 134,217,728.
        with open("/dev/zero", "rb") as endless:
            want("replay of an input without an end", alpha.words_as_they_are(["replay"], stdin=endless), refused(5, "input too long"))
    if os.path.exists("/dev/full"):
        with open("/dev/full", "wb") as full:
            want("a full output of replay", alpha.replay(stdout=full), (11, None, b"satp: output failed\n"))
    for given in (["journal-a"], ["--dir", "d"], ["--help"], [""]):
        want(f"replay with {given}", alpha.words_as_they_are(["replay", *given]), refused(2, "words refused"))


def other_way():
    """Beta, whose ledger is of outputs, begins: outputs 1 and 2 are taken, and output 4 is the change."""
    alpha, beta = PAIRS.fresh()
    want_driven("a transfer of beta's", beta, alpha, "start", committed("beta.1", 11), 6, owner="bob", receiver="ann")
    want("the outputs of beta", beta.ledger().outputs, {3: ("gold", "bob", 50), 4: ("gold", "bob", 50)})
    want_free("a transfer of beta's", alpha, beta, {("gold", "ann"): 1250}, {("gold", "bob"): 100})
    terms = "250 gold from bob to ann"
    want("show at beta", beta.on("show", "beta.1"), shown("beta.1", "origin", "burnt", "commit", "committed", CHAIN, terms))
    want("show at alpha", alpha.on("show", "beta.1"), shown("beta.1", "recipient", "assigned", "none", "committed", CHAIN, terms))
    want_texts("a transfer of beta's", (beta, alpha), CHAIN, "beta.1", formats.terms(250, "gold", "bob", "ann"))
    # Sessions of both sides stand beside one another.
    want_driven("a transfer of alpha's after it", alpha, beta, "start", committed("alpha.1", 11), 6)
    want_free("both", alpha, beta, {("gold", "ann"): 1000}, {("gold", "bob"): 350})


def all_and_more():
    """All that ann has, and one more than that."""
    alpha, beta = PAIRS.fresh()
    want_driven("a transfer of all", alpha, beta, "start", committed("alpha.1", 11), 6, amount=1000)
    want_free("a transfer of all", alpha, beta, {}, {("gold", "bob"): 1350})
    alpha, beta = PAIRS.fresh()
    want_driven("a transfer of more", alpha, beta, "start", rolled_back("alpha.1", 6), 3, amount=1001)
    want_free("a transfer of more", alpha, beta, {("gold", "ann"): 1000}, {("gold", "bob"): 350})
    terms, kinds = "1001 gold from ann to bob", CHAIN[:4] + UNDONE
    want("show at alpha", alpha.on("show"), shown("alpha.1", "origin", "released", "back", "rolled back", kinds, terms))
    want("show at beta", beta.on("show"), shown("alpha.1", "recipient", "absent", "none", "rolled back", kinds, terms))
    want_texts("a transfer of more", (alpha, beta), kinds, terms=formats.terms(1001, "gold", "ann", "bob"))


def refused_mints():
    """A cap that is passed, and an asset that beta hasn't. The reason comes with the rejection."""
    kinds = CHAIN[:7] + ["reject"] + UNDONE
    for genesis, reason, free in (
        (BETA_GENESIS.replace(b"1000000", b"500"), "mint-capped", {("gold", "bob"): 350}),
        (BETA_GENESIS.replace(b"gold", b"tin"), "unknown-asset", {("tin", "bob"): 350}),
    ):
        alpha, beta = PAIRS.fresh(genesis)
        want_driven(f"a transfer with {reason}", alpha, beta, "start", rolled_back("alpha.1", 10), 5)
        want_free(reason, alpha, beta, {("gold", "ann"): 1000}, free)
        want("show at alpha", alpha.on("show"), shown("alpha.1", "origin", "released", "back", "rolled back", kinds))
        want("show at beta", beta.on("show"), shown("alpha.1", "recipient", "absent", "back", "rolled back", kinds))
        want_texts(reason, (alpha, beta), kinds, reason=reason)


def other_setups():
    """A peer that is dialled by a name, one with another key, and one that doesn't know this side."""
    alpha, beta = PAIRS.fresh()
    named = PAIRS.set_up_alone(alpha, dials=alpha.dials.replace("127.0.0.1", "localhost"))
    want_driven("a transfer to a host by name", named, beta, "start", committed("alpha.1", 11), 6)
    for what, further in (("another key", {"key": bytes(32)}), ("another name", {"name": "gamma"})):
        alpha, beta = PAIRS.fresh()
        other = PAIRS.set_up_alone(alpha, **further)
        want_driven(f"a transfer with {what}", other, beta, "start", refused(7, "answer status 400"), 1)
        want(f"the records after {what}", (len(other.records()), len(beta.records())), (2, 1))


# Sessions that were cut.


def cut(history, at_alpha, at_beta):
    """A pair with what alpha had after so many appends, and beta after so many."""
    alpha, beta = PAIRS.fresh()
    history.put(at_alpha, [alpha])
    history.put(at_beta, [beta])
    return alpha, beta


def after(history, name, *record):
    return history.before(name, record) + 1


def want_recovered(what, driver, peer, wanted, kinds, entries, requests):
    want_driven(what, driver, peer, "recover", wanted, requests)
    state = "committed" if kinds == CHAIN else "rolled back"
    decisions = [("commit" if kinds == CHAIN else "back"), "none"]
    sides = (driver, peer) if driver.name == "alpha" else (peer, driver)
    for side, role, entry, decision in zip(sides, ("origin", "recipient"), entries, decisions):
        want(f"show at {side.name} after {what}", side.on("show"), shown("alpha.1", role, entry, decision, state, kinds))
    want_texts(what, sides, kinds)
    if kinds == CHAIN:
        want_free(what, *sides, {("gold", "ann"): 750}, {("gold", "bob"): 600})
    else:
        want_free(what, *sides, {("gold", "ann"): 1000}, {("gold", "bob"): 350})


def burnt_and_not_noted(history):
    """The ledger has burnt the amount, and the record of it is missing."""
    count = history.before("alpha", ("did", "alpha.1", "burn"))
    alpha, beta = cut(history, count, count)
    want("the entry at alpha", alpha.ledger().entries, {"alpha.1": "burnt"})
    want_recovered("a burn that isn't noted", beta, alpha, committed("alpha.1", 5), CHAIN, ("burnt", "assigned"), 3)


def stops_in_a_gate(history):
    """Beta stopped as it wrote the gate of the record of `commit-ready`."""
    count = history.before("beta", ("made", "alpha.1", "commit-ready"))
    payload = history.appends[count][2]
    for gate in (0, 1, 7):
        alpha, beta = cut(history, count, count)
        image = read(beta.at("journal-a"))
        beta.put("journal-a", image[:-1] + bytes([gate]) + formats.piece(payload))
        want_recovered(f"a stop in a gate of {gate}", alpha, beta, committed("alpha.1", 6), CHAIN, ("burnt", "assigned"), 4)


def lost_and_aborted(history):
    """`commit-ready` is lost, and alpha aborts."""
    count = after(history, "beta", "made", "alpha.1", "commit-ready")
    alpha, beta = cut(history, count, count)
    want("an abort at beta", beta.on("abort"), refused(4, "too late at place 8"))
    for side in (alpha, beta):
        want(f"an abort of no session at {side.name}", side.on("abort", "alpha.9"), NO_SESSION)
    want("an abort at alpha", alpha.on("abort"), done("alpha.1 back"))
    want("the entry of an aborted session", alpha.ledger().entries, {"alpha.1": "released"})
    kinds = CHAIN[:8] + UNDONE
    want_recovered("an abort", alpha, beta, rolled_back("alpha.1", 5), kinds, ("released", "released"), 3)
    want("an abort of what is rolled back", alpha.on("abort"), (12, b"alpha.1 back\n", b""))
    want("an abort of what is rolled back at beta", beta.on("abort"), (12, b"alpha.1 back\n", b""))
    want("resuming what is rolled back", alpha.on("resume"), rolled_back("alpha.1", 0))


def aborted_at_beta(history):
    """Beta aborts after the receipt, and rejects what comes next."""
    count = after(history, "beta", "made", "alpha.1", "proposal-receipt")
    alpha, beta = cut(history, after(history, "alpha", "began"), count)
    want("an abort at beta", beta.on("abort"), done("alpha.1 back"))
    kinds = CHAIN[:3] + ["reject"] + UNDONE
    want_driven("resuming what the peer aborted", alpha, beta, "resume", rolled_back("alpha.1", 6), 3)
    want_texts("an abort at beta", (alpha, beta), kinds, reason="aborted")
    want("show at beta", beta.on("show"), shown("alpha.1", "recipient", "absent", "back", "rolled back", kinds))
    want("show at alpha", alpha.on("show"), shown("alpha.1", "origin", "released", "back", "rolled back", kinds))


def lost_proposal(history):
    count = after(history, "alpha", "began")
    alpha, beta = cut(history, count, 0)
    want("show of a session that beta doesn't know", beta.on("show"), refused(3, "no session alpha.1"))
    kinds = CHAIN[:2] + UNDONE
    want_recovered("a lost proposal", alpha, beta, rolled_back("alpha.1", 7), kinds, ("released", "absent"), 4)


def lost_prepare(history):
    count = after(history, "alpha", "made", "alpha.1", "commit-prepare")
    alpha, beta = cut(history, count, after(history, "beta", "made", "alpha.1", "lock-receipt"))
    want_recovered("a lost commit-prepare", alpha, beta, committed("alpha.1", 8), CHAIN, ("burnt", "assigned"), 5)


class Losing(threading.Thread):
    """Stands between the sides, and ends the connection in place of the answer of this number."""

    def __init__(self, here, there, answer):
        super().__init__(daemon=True)
        self.here, self.there, self.answer = socket.create_server(("127.0.0.1", here)), there, answer
        self.start()

    def run(self):
        dialled, _ = self.here.accept()
        self.here.close()
        client, server = Messages(dialled), Messages(socket.create_connection(("127.0.0.1", self.there)))
        for number in range(1, self.answer + 1):
            server.send(client.next())
            answer = server.next()
            if number < self.answer:
                client.send(answer)
        server.close()
        client.close()


def lost_answer():
    """The answer to the third text is lost. Resuming posts that text again."""
    alpha, beta = PAIRS.fresh()
    listens = free_ports(1)[0]
    losing = Losing(port_of(beta.listens), listens, 3)
    serving = beta.begin("serve", listen=f"127.0.0.1:{listens}", connections=1)
    serving.wait_for_line()
    want("a transfer whose answer is lost", alpha.start(), refused(7, "answer ended early"))
    losing.join(60)
    want("what served it", serving.end(), served(1, 3))
    want("show at alpha", alpha.on("show"), shown("alpha.1", "origin", "locked", "none", "open", CHAIN[:5]))
    want("show at beta", beta.on("show"), shown("alpha.1", "recipient", "absent", "none", "open", CHAIN[:6]))
    want_driven("resuming it", alpha, beta, "resume", committed("alpha.1", 7), 4)
    want_texts("resuming it", (alpha, beta), CHAIN)
    want_free("resuming it", alpha, beta, {("gold", "ann"): 750}, {("gold", "bob"): 600})


# Statuses.


def words():
    alpha, _ = PAIRS.fresh()
    faulty = {
        "show": [{}, {"session": "alpha"}, {"session": "alpha.0"}, {"session": "alpha.01"}, {"session": "alpha.1", "listen": "a"}],
        "abort": [{}, {"session": "Alpha.1"}, {"session": "alpha.4294967296"}, {"session": "alpha.1", "number": 1}],
        "resume": [{}, {"session": ".1"}, {"session": "alpha.1", "help": ""}],
        "recover": [{}, {"session": "alpha.-1"}, {"session": "alpha.1", "from": "ann"}],
        "start": [{}] + [options("start") | {name: value} for name, value in faulty_values()],
        "serve": [{}, {"listen": "127.0.0.1:1"}, {"connections": 1}]
        + [{"listen": "127.0.0.1:1", "connections": count} for count in (0, 1_000_001, "01", "")]
        + [{"listen": listens, "connections": 1} for listens in ("", "a b", "x" * 65)],
    }
    for command in COMMANDS:
        for given in faulty[command]:
            want(f"{command} with {given}", alpha.run(command, given), refused(2, "words refused"))
    apart = ["--dir", alpha.directory, "--session", "alpha.9"]
    for command in ("show", "abort", "resume", "recover"):
        for given in (apart, [*apart, "--"], [*apart[2:], *apart[:2]]):
            want(f"{command} with {given}", alpha.words_as_they_are([command, *given]), NO_SESSION)
        for given in ([*apart, *apart[2:]], [*apart, "more"], [*apart, "-h"], ["--dir", os.fsencode(alpha.directory) + b"\xff", *apart[2:]]):
            want(f"{command} with {given}", alpha.words_as_they_are([command, *given]), refused(2, "words refused"))
    want("the journal after refused words", len(alpha.payloads()), 1)


def faulty_values():
    yield from (("number", value) for value in (0, 4_294_967_296, "01", "-1", ""))
    yield from (("amount", value) for value in (0, 9_007_199_254_740_992, "1.0", "+1"))
    yield from ((name, value) for name in ("asset", "from", "to") for value in ("", "Gold", "x" * 33))


def no_gateway():
    """A directory that is missing is made, and its journal gets its gate."""
    for command in COMMANDS:
        alpha, _ = PAIRS.fresh()
        alpha.directory = os.path.join(alpha.directory, "above", command)
        want(f"{command} where no gateway is", alpha.run(command, options(command)), NO_GATEWAY)
        want(f"what {command} leaves there", sorted(os.listdir(alpha.directory)), ["journal-a", "lock"])
        want(f"the journal that {command} leaves there", read(alpha.at("journal-a")), b"\x00")


def damaged_journals():
    alpha, _ = PAIRS.fresh()
    setup = alpha.payloads()[0]
    rescue = bytes.fromhex("01000b0605616c7068610000000100")
    whole = formats.journal([setup])
    for image, line in (
        (rescue[:6], "journal damaged at 0"),
        (rescue[:14], "journal damaged at 0"),
        (whole[:-1] + b"\x01\x00\x00\x00", f"journal damaged at {len(whole) - 1}"),
        (rescue, "journal record 0 refused"),
        (formats.journal([setup, setup]), "journal record 1 refused"),
        (formats.journal([setup, rescue[3:14]]), "journal record 1 refused"),
        (formats.journal([setup, b"\x07"]), "journal record 1 refused"),
    ):
        for command in COMMANDS:
            alpha.put("journal-a", image)
            want(f"{command} over {image.hex()}", alpha.run(command, options(command)), refused(9, line))
            want(f"what {command} leaves of {image.hex()}", read(alpha.at("journal-a")), image)


def no_way_in():
    """The lock is held; and it is that of a gateway that serves. And directories that can't be."""
    alpha, beta = PAIRS.fresh()
    with open(alpha.at("lock"), "wb") as lock:
        fcntl.flock(lock, fcntl.LOCK_EX | fcntl.LOCK_NB)
        for command in COMMANDS:
            want(f"{command} under a lock", alpha.run(command, options(command)), SITE_FAILED)
    serving = beta.serve()
    for command in COMMANDS:
        want(f"{command} beside serve", beta.run(command, options(command)), SITE_FAILED)
    serving.kill()
    want("show after a served gateway was killed", beta.on("show", "alpha.9"), NO_SESSION)
    for directory in ("", alpha.at("ledger", "below")):
        alpha.directory = directory
        for command in COMMANDS:
            want(f"{command} in {directory!r}", alpha.run(command, options(command)), SITE_FAILED)


def no_ledger():
    """The journal is whole, and the ledger can't be raised."""
    for content in (None, b"", b"\x01\x00\x02\x10\x03\x00"):
        for command in COMMANDS:
            alpha, _ = PAIRS.fresh()
            os.remove(alpha.at("ledger")) if content is None else alpha.put("ledger", content)
            want(f"{command} over a ledger of {content!r}", alpha.run(command, options(command)), SITE_FAILED)


def nobody_listens(history):
    alpha, beta = PAIRS.fresh()
    for command in ("show", "abort", "resume", "recover"):
        for side in (alpha, beta):
            want(f"{command} of no session at {side.name}", side.run(command, options(command)), NO_SESSION)
    want("start without a peer", alpha.start(), WIRE_FAILED)
    want("show after it", alpha.on("show"), shown("alpha.1", "origin", "absent", "none", "open", CHAIN[:1]))
    want("resume without a peer", alpha.on("resume"), WIRE_FAILED)
    want("recover without a peer", alpha.on("recover"), WIRE_FAILED)
    want("what a rescue leaves", alpha.records()[-1], ("rescue", "alpha.1"))
    want("a second recover without a peer", alpha.on("recover"), WIRE_FAILED)
    want("whether it leaves another", len(alpha.records()), 3)
    with socket.create_server(("127.0.0.1", 0)) as taken:
        for listens in (f"127.0.0.1:{taken.getsockname()[1]}", "nowhere", "127.0.0.1:99999"):
            want(f"serve at {listens}", alpha.run("serve", options("serve", listens)), WIRE_FAILED)


def full_outputs(history):
    """What was done stands, and the output's status comes in place of 0 and 12."""
    failed = (11, None, b"satp: output failed\n")
    count = after(history, "beta", "made", "alpha.1", "commit-ready")
    with open("/dev/full", "wb") as full:
        for command, kinds in (("start", CHAIN), ("resume", CHAIN), ("recover", CHAIN)):
            alpha, beta = PAIRS.fresh() if command == "start" else cut(history, count, count)
            serving = beta.serve()
            found = alpha.start(stdout=full) if command == "start" else alpha.on(command, stdout=full)
            want(f"a full output of {command}", found, failed)
            serving.end()
            want("show after it", alpha.on("show"), shown("alpha.1", "origin", "burnt", "commit", "committed", kinds))
        want("a full output of show", alpha.on("show", stdout=full), failed)
        alpha, beta = cut(history, count, count)
        want("a full output of abort", alpha.on("abort", stdout=full), failed)
        want("what it did", [record[-1] for record in alpha.records()[-2:]], ["aborted", "release"])
        alpha, beta = PAIRS.fresh()
        want("a full output of start that is rolled back", driven_into(alpha, beta, full, amount=1001), failed)
        serve_into(full, failed)


def driven_into(alpha, beta, full, **further):
    serving = beta.serve()
    found = alpha.start(stdout=full, **further)
    serving.end()
    return found


def serve_into(full, failed):
    """`serve` that can't say that it listens serves all the same."""
    alpha, beta = PAIRS.fresh()
    found = []
    serving = threading.Thread(target=lambda: found.append(beta.run("serve", options("serve", beta.listens), stdout=full)))
    serving.start()
    answer = WIRE_FAILED
    for number in range(1, 2000):
        answer = alpha.start(number)
        if answer != WIRE_FAILED:
            break
    want("a transfer with what can't print", answer, committed(f"alpha.{number}", 11))
    serving.join(60)
    want("a full output of serve", found, [failed])


def full_gateway():
    """The 2,048th session is started, and no further one."""
    alpha, _ = PAIRS.fresh()
    records = alpha.payloads()
    for number in range(1, 2048):
        session = f"alpha.{number}"
        text = formats.transfer(session, "alpha", "beta", KEY, TERMS, CHAIN[:1]).texts[0]
        records.append(formats.began_record(session, "origin", TERMS, text))
    alpha.put("journal-a", formats.journal(records))
    want("the 2,048th start", alpha.start(5000), WIRE_FAILED)
    want("its record", alpha.records()[-1][:2], ("began", "alpha.5000"))
    want("a start of a full gateway", alpha.start(5001), refused(4, "full at 2048"))
    want("a start of a session that is there", alpha.start(7), refused(4, "session alpha.7 exists"))
    want("the records after them", len(alpha.payloads()), 2049)


def main():
    alpha, beta = whole()
    history = History(alpha, beta)
    replays(alpha, beta)
    once_more(alpha, beta)
    other_way()
    all_and_more()
    refused_mints()
    other_setups()
    burnt_and_not_noted(history)
    stops_in_a_gate(history)
    lost_and_aborted(history)
    aborted_at_beta(history)
    lost_proposal(history)
    lost_prepare(history)
    lost_answer()
    words()
    no_gateway()
    damaged_journals()
    no_way_in()
    no_ledger()
    nobody_listens(history)
    if os.path.exists("/dev/full"):
        full_outputs(history)
    full_gateway()
    print("transfer: passed")


main()
