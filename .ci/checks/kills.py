"""Stops two gateways anywhere in a transfer, by files that a stop leaves, by killing their programs and by calls of the system that fail, and
recovers from either side."""

import os
import random
import re
import shutil
import socket
import subprocess
import sys
import time

import formats
from gateways import BETA_GENESIS, History, Pairs, Running, committed, fail, port_of, read, refused, served, want

PAIRS = Pairs(sys.argv[1], sys.argv[2])
# How many stopped appends, killed programs and failing calls; without an argument as many as about a minute takes.
COUNT = int(sys.argv[3]) if len(sys.argv) > 3 else None
DRAW = random.Random(2026)
LOG = os.path.join(PAIRS.folder, "strace.log")
SITE_CALLS, WIRE_CALLS = ["fsync", "pwrite64"], ["sendto", "recvfrom"]
CAPPED = BETA_GENESIS.replace(b"1000000", b"500")
ENDS = {"committed": (750, 600), "rolled back": (1000, 350), "not begun": (1000, 350)}


# What has to stand once a session is recovered.


def amounts(alpha, beta):
    return alpha.ledger().free_sum("gold"), beta.ledger().free_sum("gold")


def places(gateway):
    """What `show` prints from the first place on, or none where no record names the session."""
    status, out, err = gateway.on("show")
    if status == 3:
        return None
    want(f"show at {gateway.name}", (status, err), (0, b""))
    lines = out.decode().split("\n")
    return [line for line in lines if re.match(r"\d|state ", line)]


def recover(driver, peer):
    """A recovery that nothing disturbs: its end and its messages, or none where the driver has no such session."""
    serving = peer.serve()
    status, out, err = driver.on("recover")
    if status == 3:
        serving.kill()
        return None
    found = re.fullmatch(r"alpha\.1 (committed|rolled back) in (\d+) messages\n", out.decode())
    if found is None or status != {"committed": 0, "rolled back": 12}[found[1]] or err:
        fail(f"a recovery at {driver.name} ends with {(status, out, err)!r}; files below {driver.directory}")
    want("what served it", serving.end()[::2], (0, b""))
    return found[1], int(found[2])


def end_due(records, mints):
    """How a session ends that its origin recovers from these records, where the recipient's ledger mints the amount or not."""
    kinds = [record[0] for record in records]
    if "began" not in kinds:
        return "not begun"
    prepared = ("made", "alpha.1", "commit-prepare") in [record[:3] for record in records]
    turned_back = any(record[0] == "chose" and record[2] != "commit" for record in records)
    return "committed" if prepared and mints and not turned_back else "rolled back"


def settle(what, driver, peer, mints=True):
    """Recovers from one side, or from the other where that alone has the session: both sides agree after that."""
    alpha, beta = (driver, peer) if driver.name == "alpha" else (peer, driver)
    due = end_due(alpha.records(), mints)
    end = recover(driver, peer) or recover(peer, driver)
    want(f"the end after {what}", end[0] if end else "not begun", due)
    if end is None:
        want(f"the amounts after {what}, which wasn't begun", amounts(alpha, beta), ENDS["not begun"])
        return due
    state, messages = end
    want(f"whether {messages} messages after {what} are at most 8", messages <= 8, True)
    shown = places(alpha), places(beta)
    want(f"what both sides show after {what}", shown[0], shown[1])
    want(f"the state after {what}", shown[0][-1], f"state {state}")
    want(f"the amounts after {what}", amounts(alpha, beta), ENDS[state])
    return state


# Stopped appends.


def histories():
    """Whole sessions: one that is committed, one whose lock is refused, and one whose mint is refused."""
    for genesis, amount in ((BETA_GENESIS, 250), (BETA_GENESIS, 1001), (CAPPED, 250)):
        alpha, beta = PAIRS.fresh(genesis)
        serving = beta.serve()
        alpha.start(amount=amount)
        serving.end()
        yield History(alpha, beta), genesis


def stopped(payload):
    """What a stop within an append may leave from the gate on."""
    piece = formats.piece(payload)
    part = DRAW.randrange(1, len(piece))
    return {
        "before it": b"\x00",
        "within its bytes": b"\x00" + piece[:part],
        "with other bytes": b"\x00" + DRAW.randbytes(part),
        "before its gate": b"\x00" + piece,
        "with a gate of 7": b"\x07" + piece,
        "after its gate": b"\x01" + piece,
    }


def stop(history, genesis, count, form, driver):
    """Both sides as they were after so many appends, and the next one stopped."""
    alpha, beta = sides = PAIRS.fresh(genesis)
    history.put(count, sides)
    name, file, payload = history.appends[count]
    side = alpha if name == "alpha" else beta
    side.put(file, read(side.at(file))[:-1] + stopped(payload)[form])
    what = f"a stop at append {count + 1} of {len(history.appends)}, {file} of {name}, {form}, and a recovery at {('alpha', 'beta')[driver]}"
    return settle(what, sides[driver], sides[1 - driver], mints=genesis != CAPPED)


def stops(limit, seconds):
    cases = [
        (history, genesis, count, form, driver)
        for history, genesis in histories()
        for count in range(len(history.appends))
        for form in stopped(history.appends[count][2])
        for driver in (0, 1)
    ]
    DRAW.shuffle(cases)
    return counted(lambda turn: stop(*cases[turn]), min(limit or len(cases), len(cases)), seconds)


def counted(run, limit, seconds):
    """How often each end came, of so many runs, as far as the time goes."""
    ends, begun = dict.fromkeys(ENDS, 0), time.monotonic()
    for turn in range(limit):
        ends[run(turn)] += 1
        if COUNT is None and time.monotonic() - begun > seconds:
            break
    return ends


# Killed programs.


def knock(port):
    try:
        socket.create_connection(("127.0.0.1", port), timeout=60).close()
    except ConnectionError:
        pass


def killed(driving, serving, port, seconds, which):
    """Kills one of two programs, or both, after so many seconds. The other one ends by itself."""
    time.sleep(seconds)
    if which != "serving":
        driving.kill()
    if which != "driving":
        serving.kill()
    else:
        # It may wait for a connection that the killed program never made.
        knock(port)
        want("what served a program that was killed", serving.end()[::2], (0, b""))
    if which == "serving":
        status, out, err = driving.end()
        want(f"whether {(status, out, err)!r} ends a command whose peer is killed", status in (0, 6, 7, 12), True)


def kill(seconds):
    """A transfer, and perhaps a recovery, each killed at a random moment; then one that is left alone."""
    alpha, beta = PAIRS.fresh()
    serving = beta.serve()
    driving = alpha.begin("start", **alpha.started())
    choose = lambda: DRAW.choice(["driving", "serving", "both"])
    killed(driving, serving, port_of(beta.listens), DRAW.random() * seconds, choose())
    while DRAW.random() < 0.4:
        driver, peer = DRAW.sample([alpha, beta], 2)
        serving = peer.serve()
        if driver.on("show")[0] == 3:
            serving.kill()
            break
        killed(driver.begin("recover", session="alpha.1"), serving, port_of(peer.listens), DRAW.random() * seconds, choose())
    driver, peer = DRAW.sample([alpha, beta], 2)
    return settle("a kill", driver, peer)


def kills(limit, seconds):
    alpha, beta = PAIRS.fresh()
    serving = beta.serve()
    begun = time.monotonic()
    alpha.start()
    took = time.monotonic() - begun
    want("what served a transfer", serving.end(), served(1, 6))
    return counted(lambda _: kill(took), limit, seconds)


# Calls of the system that fail.


def can_trace():
    return shutil.which("strace") is not None and subprocess.run(["strace", "-o", LOG, "true"], stderr=subprocess.DEVNULL).returncode == 0


def traced(call, count):
    return ["strace", "-o", LOG, "-e", f"inject={call}:error=EIO:when={count}"]


def was_injected():
    return b"INJECTED" in read(LOG)


def failing_start(alpha, beta, call, count):
    serving = beta.serve()
    started = Running(traced(call, count) + alpha.words("start", **alpha.started())).end()
    knock(port_of(beta.listens))
    want("what served it", serving.end()[::2], (0, b""))
    failed = refused(8, "site failed") if call in SITE_CALLS else refused(6, "wire failed")
    # A connection that can't be closed in order was closed all the same.
    fine = not was_injected() or call == "recvfrom"
    want(f"whether {started} ends a start whose {call} {count} fails", started == failed or fine and started == committed("alpha.1", 11), True)


def failing_serve(alpha, beta, call, count):
    serving = Running(traced(call, count) + beta.words("serve", listen=beta.listens, connections=1))
    serving.wait_for_line()
    if serving.out:
        started = alpha.start()
    ended = serving.end()
    if call in SITE_CALLS and was_injected():
        want(f"a serve whose {call} {count} fails", ended, (8, serving.out, b"satp: site failed\n"))
        if serving.out:
            want(f"a start whose peer's {call} {count} fails", started, refused(7, "answer status 503"))
    elif was_injected() and started != committed("alpha.1", 11):
        want(f"the status where {call} {count} of serve fails", ended[::2], (0, b""))
        want(f"whether {ended[1]} counts it", ended[1].endswith(b", 1 faults\n"), True)
        want(f"whether {started} ends a start whose peer's {call} {count} fails", started[0] in (6, 7), True)
    else:
        want(f"a transfer without a failing {call} {count}", started, committed("alpha.1", 11))


def failing(limit, seconds):
    cases = [(run, call, count) for run in (failing_start, failing_serve) for call in SITE_CALLS + WIRE_CALLS for count in range(1, 50 if call in SITE_CALLS else 9)]
    DRAW.shuffle(cases)

    def run(turn):
        alpha, beta = PAIRS.fresh()
        run, call, count = cases[turn]
        run(alpha, beta, call, count)
        return settle(f"{run.__name__} {call} {count}", *DRAW.sample([alpha, beta], 2))

    return counted(run, min(limit or len(cases), len(cases)), seconds)


def told(what, ends):
    return f"{sum(ends.values())} {what} (" + ", ".join(f"{count} {end}" for end, count in ends.items()) + ")"


def main():
    parts = [told("stopped appends", stops(COUNT, 25)), told("kills", kills(COUNT or 200, 25))]
    if can_trace():
        parts.append(told("failing calls", failing(COUNT, 20)))
    else:
        print("kills: failing calls are skipped, strace can't be used here")
    print(f"kills: passed; {', '.join(parts)}")


main()
