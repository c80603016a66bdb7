"""Measures calls of a gateway over a site in memory. bench/README.md says what is measured.

    gateway.py PROGRAM CALLS ROUNDS
    gateway.py yardstick CALL COUNT      makes so many steps of the yardstick
"""

import base64
import hashlib
import hmac
import json
import os
import re
import resource
import shutil
import sqlite3
import subprocess
import sys
import tempfile
import time

KEY = bytes(range(32))
HEADER = base64.urlsafe_b64encode(b'{"alg":"HS256"}').rstrip(b"=").decode()
SETUPS = [
    "brief",
    "a setup alpha beta own asset gold 1000000;hold gold ann 1000;",
    "b setup beta alpha own asset gold 1000000;hold gold bob 350;",
    "a open",
    "b open",
]
SESSIONS = [1, 100, 2000]

# Under valgrind a run with 2,000 sessions would take many minutes.
COUNTED_SESSIONS = [1, 100]


def encoded(data):
    return base64.urlsafe_b64encode(data).rstrip(b"=").decode()


def decoded(text):
    return base64.urlsafe_b64decode(text + "=" * (-len(text) % 4))


def canonical(message):
    return json.dumps(message, sort_keys=True, separators=(",", ":")).encode()


def mac(text):
    return hmac.new(KEY, text.encode(), hashlib.sha256).digest()


def signed(message):
    text = HEADER + "." + encoded(canonical(message))
    return text + "." + encoded(mac(text))


def proposal(number):
    return {
        "kind": "transfer-proposal",
        "previous": "A" * 43,
        "receiver": "beta",
        "sender": "alpha",
        "sequence": 1,
        "session": f"alpha.{number}",
        "terms": {"amount": 1, "asset": "gold", "beneficiary": "bob", "originator": "ann"},
        "version": 1,
    }


# ---- the yardstick: the same step in Python


def open_rows():
    base = sqlite3.connect(":memory:", isolation_level=None)
    base.execute("create table rows (number integer primary key, session text not null, payload text not null)")
    base.execute("create index sessions on rows (session)")
    return base


def store(base, session, text):
    base.execute("insert into rows (session, payload) values (?, ?)", (session, text))


def start_step(base, number):
    """Signs a proposal of a new session, and stores it."""
    message = proposal(number)
    if base.execute("select 1 from rows where session = ?", (message["session"],)).fetchone():
        raise ValueError
    text = signed(message)
    store(base, message["session"], text)
    return text


def handle_step(base, text):
    """Verifies and reads a proposal, stores it, and signs and stores the receipt."""
    header, payload, signature = text.split(".")
    if not hmac.compare_digest(mac(header + "." + payload), decoded(signature)) or header != HEADER:
        raise ValueError
    message = json.loads(decoded(payload))
    if canonical(message) != decoded(payload):
        raise ValueError
    session = message["session"]
    if base.execute("select 1 from rows where session = ?", (session,)).fetchone():
        raise ValueError
    store(base, session, text)
    reply = signed(
        {
            "kind": "proposal-receipt",
            "previous": encoded(hashlib.sha256(text.encode()).digest()),
            "receiver": message["sender"],
            "sender": message["receiver"],
            "sequence": 2,
            "session": session,
            "version": 1,
        }
    )
    store(base, session, reply)
    return reply


def yardstick(call, count):
    """The seconds of so many steps."""
    base = open_rows()
    if call == "start":
        step, given = start_step, list(range(1, count + 1))
    else:
        step, given = handle_step, [signed(proposal(number)) for number in range(1, count + 1)]
    begin = time.perf_counter()
    for one in given:
        step(base, one)
    return time.perf_counter() - begin


# ---- the gateway


def lines_of(call, count):
    if call == "start":
        lines = [f"a start alpha.{number} 1 gold ann bob" for number in range(1, count + 1)]
    else:
        lines = [f"b text {signed(proposal(number))}" for number in range(1, count + 1)]
    return "\n".join(SETUPS + lines) + "\n"


def seconds(program, text, count):
    """The seconds of the processor for a run of the program, each of whose calls has to be done."""
    with tempfile.TemporaryFile() as given, tempfile.TemporaryFile() as said:
        given.write(text.encode())
        given.seek(0)
        before = resource.getrusage(resource.RUSAGE_CHILDREN)
        subprocess.run([program], stdin=given, stdout=said, check=True)
        after = resource.getrusage(resource.RUSAGE_CHILDREN)
        said.seek(0)
        if said.read().count(b": done\n") != count + len(SETUPS):
            sys.exit("bench/gateway: a call was refused")
    return (after.ru_utime - before.ru_utime) + (after.ru_stime - before.ru_stime)


def measured(program, call, session, calls, rounds):
    """The seconds of a call at this session: what a run with so many calls more takes more."""
    short, long = lines_of(call, session - 1), lines_of(call, session - 1 + calls)
    least = min(seconds(program, short, session - 1) for _ in range(rounds))
    most = min(seconds(program, long, session - 1 + calls) for _ in range(rounds))
    return (most - least) / calls


def instructions(command, text):
    """The instructions of a run, counted by valgrind."""
    with tempfile.TemporaryDirectory() as folder:
        out = os.path.join(folder, "out")
        words = ["valgrind", "--tool=callgrind", f"--callgrind-out-file={out}"] + command
        done = subprocess.run(words, input=text, capture_output=True, text=True)
        if done.returncode != 0:
            sys.exit(f"bench/gateway: {done.stderr}")
        with open(out) as file:
            return int(re.search(r"^(?:summary|totals): (\d+)", file.read(), re.M).group(1))


def counted(program, call, session, calls):
    """The instructions of a call at this session."""
    least = instructions([program], lines_of(call, session - 1))
    most = instructions([program], lines_of(call, session - 1 + calls))
    return (most - least) / calls


def counted_yardstick(call, calls):
    command = [sys.executable, os.path.abspath(__file__), "yardstick", call]
    return (instructions(command + [str(calls + 1)], "") - instructions(command + ["1"], "")) / calls


def main(program, calls, rounds):
    print(f"seconds of the processor, the least of {rounds} runs, over {calls} calls; Python {sys.version.split()[0]}, SQLite {sqlite3.sqlite_version} in memory")
    for call in ("start", "handle"):
        theirs = min(yardstick(call, 2000) for _ in range(rounds)) / 2000
        for session in SESSIONS:
            ours = measured(program, call, session, calls, rounds)
            print(f"{call:6} session {session:4}: {1 / ours:8.0f} calls a second, Python {1 / theirs:8.0f}, ratio {theirs / ours:.2f}")
    if not shutil.which("valgrind"):
        print("instructions: skipped, there is no valgrind")
        return
    for call in ("start", "handle"):
        theirs = counted_yardstick(call, 100)
        for session in COUNTED_SESSIONS:
            ours = counted(program, call, session, 10)
            print(f"{call:6} session {session:4}: {ours:12.0f} instructions a call, Python {theirs:10.0f}, ratio {ours / theirs:.2f}")


if sys.argv[1] == "yardstick":
    yardstick(sys.argv[2], int(sys.argv[3]))
else:
    main(sys.argv[1], int(sys.argv[2]), int(sys.argv[3]))
