"""Sets gateways up by the built program, in folders of its own, and compares what it prints and leaves."""

import fcntl
import os
import random
import shutil
import subprocess
import sys
import time

import formats
from gateways import KEY, want

top = sys.argv[1]
program = os.path.join(top, "satp")
KEY_TEXT = formats.encoded(KEY)
GENESIS = b"asset gold 1000000\nasset tin 9007199254740991\nhold gold ann 1000\nhold gold bob 1\nhold tin ann 7\n"
NOBODY = 65534


# The bytes that the files have to hold.


SETUP = formats.journal([formats.setup_record("alpha", "beta", "127.0.0.1:7002", KEY)])


def ledger(kind):
    return formats.journal(
        [
            formats.ledger_record(kind),
            formats.asset_record("gold", 1000000),
            formats.asset_record("tin", 9007199254740991),
            formats.hold_record("gold", "ann", 1000),
            formats.hold_record("gold", "bob", 1),
            formats.hold_record("tin", "ann", 7),
        ]
    )


LEDGERS = {kind: ledger(kind) for kind in formats.LEDGERS}


# The program.


def words(folder, kind="accounts"):
    return [
        program,
        "init",
        f"--dir={folder}",
        "--name=alpha",
        "--peer=beta",
        "--at=127.0.0.1:7002",
        f"--key={KEY_TEXT}",
        f"--ledger={kind}",
    ]


def run(folder, genesis=GENESIS, kind="accounts", **given):
    done = subprocess.run(words(folder, kind), input=genesis, capture_output=True, timeout=60, **given)
    return done.returncode, done.stdout, done.stderr


READY = (0, b"alpha ready\n", b"")
THERE = (13, b"", b"satp: gateway is there\n")
FAILED = (8, b"", b"satp: site failed\n")


def at(*names):
    return os.path.join(top, *names)


def read(*names):
    with open(at(*names), "rb") as file:
        return file.read()


def want_files(name, kind="accounts"):
    want(f"the files of {name}", sorted(os.listdir(at(name))), ["journal-a", "ledger", "lock"])
    want(f"the journal of {name}", read(name, "journal-a"), SETUP)
    want(f"the ledger of {name}", read(name, "ledger"), LEDGERS[kind])


def bytes_of_the_files():
    for kind in LEDGERS:
        want(f"init with {kind}", run(at(kind), kind=kind), READY)
        want_files(kind, kind)
        want(f"init with {kind} once more", run(at(kind), kind=kind), THERE)
        want_files(kind, kind)
    want("init below missing folders", run(at("above", "below", "here")), READY)
    want("the journal below them", read("above", "below", "here", "journal-a"), SETUP)


def what_is_refused():
    want("a refused genesis", run(at("refused"), b"asset gold 0\n"), (5, b"", b"satp: genesis line 1 refused\n"))
    want("the journal after it", read("refused", "journal-a"), b"\x00")
    want("init after it", run(at("refused")), READY)
    os.mkdir(at("damaged"))
    with open(at("damaged", "journal-a"), "wb") as file:
        file.write(b"\x01\x00\x03ab")
    want("a damaged journal", run(at("damaged")), (9, b"", b"satp: journal damaged at 0\n"))
    want("the damaged journal after it", read("damaged", "journal-a"), b"\x01\x00\x03ab")
    want("a directory without a name", run(""), FAILED)
    want("a directory below a file", run(at("satp", "below")), FAILED)


def other_commands_touch_no_file():
    os.mkdir(at("bare"))
    done = subprocess.run([program, "answer", "beta"], input=b"", capture_output=True, timeout=60, cwd=at("bare"))
    want("answer without an input", done.returncode, 5)
    want("the files after it", os.listdir(at("bare")), [])


def one_program_at_a_time():
    first = subprocess.Popen(words(at("shared")), stdin=subprocess.PIPE, stdout=subprocess.PIPE)
    # The first program has the lock once the journal stands, and waits for the rest of its genesis.
    for _ in range(1000):
        if os.path.exists(at("shared", "journal-a")):
            break
        time.sleep(0.01)
    want("a second program at once", run(at("shared")), FAILED)
    out, _ = first.communicate(GENESIS)
    want("the first program", (first.returncode, out), (0, b"alpha ready\n"))
    want_files("shared")
    os.mkdir(at("locked"))
    with open(at("locked", "lock"), "wb") as lock:
        fcntl.flock(lock, fcntl.LOCK_EX | fcntl.LOCK_NB)
        want("a lock that another program holds", run(at("locked")), FAILED)
    want("the lock given back", run(at("locked")), READY)


def read_only_directory():
    given = {}
    os.mkdir(at("closed"))
    os.mkdir(at("plain"))
    if os.getuid() == 0:
        given = {"user": NOBODY, "group": NOBODY, "extra_groups": []}
        for name in ("closed", "plain"):
            os.chown(at(name), NOBODY, NOBODY)
    os.chmod(at("closed"), 0o555)
    try:
        found = run(at("plain"), **given)
    except PermissionError:
        print("init: the read-only directory is skipped, this user can't become another")
        return
    want("a directory of another user", found, READY)
    want("a read-only directory", run(at("closed"), **given), FAILED)
    want("the files of a read-only directory", os.listdir(at("closed")), [])


def failing_calls():
    """Each sync, write and lock of an init failing in turn, where strace can make it fail."""
    log = at("strace.log")
    if shutil.which("strace") is None or subprocess.run(["strace", "-o", log, "true"]).returncode != 0:
        print("init: failing calls are skipped, strace can't be used here")
        return
    for call in ("fsync", "pwrite64", "flock"):
        for count in range(1, 200):
            name = f"failing-{call}-{count}"
            os.mkdir(at(name))
            traced = ["strace", "-o", log, "-e", f"inject={call}:error=EIO:when={count}"]
            done = subprocess.run(traced + words(at(name)), input=GENESIS, capture_output=True, timeout=60)
            if "INJECTED" not in read("strace.log").decode(errors="replace"):
                want(f"init without a failing {call}", (done.returncode, done.stdout, done.stderr), READY)
                break
            want(f"a failing {call}, the {count}th", (done.returncode, done.stdout, done.stderr), FAILED)
            again = run(at(name))
            if again not in (READY, THERE):
                want(f"init after a failing {call}", again, READY)
            want_files(name)


def killed_at_random_moments(times):
    start = time.monotonic()
    want("a timed init", run(at("timed")), READY)
    whole = time.monotonic() - start
    draw = random.Random(2026)
    stood = 0
    for turn in range(times):
        name = f"killed-{turn}"
        started = subprocess.Popen(
            words(at(name)), stdin=subprocess.PIPE, stdout=subprocess.DEVNULL, stderr=subprocess.DEVNULL
        )
        started.stdin.write(GENESIS)
        started.stdin.close()
        time.sleep(draw.random() * whole)
        started.kill()
        started.wait()
        again = run(at(name))
        if again not in (READY, THERE):
            want(f"init after the kill in turn {turn}", again, READY)
        stood += again == THERE
        want_files(name)
    return stood


bytes_of_the_files()
what_is_refused()
other_commands_touch_no_file()
one_program_at_a_time()
read_only_directory()
failing_calls()
stood = killed_at_random_moments(100)
print(f"init: passed; of 100 killed programs {stood} had set their gateway up")
