"""Runs the built program on words, inputs, streams and memory of each kind, and compares status, output and error line."""

import os
import resource
import subprocess
import sys

PROGRAM = os.path.abspath(sys.argv[1])
FOLDER = sys.argv[2]
PROPOSAL = (
    b'{"kind":"transfer-proposal","previous":"AAAAAAAAAAAAAAAAAAAAAAAAAAAAAAAAAAAAAAAAAAA","receiver":"beta",'
    b'"sender":"alpha","sequence":1,"session":"alpha.1","terms":{"amount":250,"asset":"gold","beneficiary":"bob",'
    b'"originator":"ann"},"version":1}'
)
RECEIPT = (
    b'{"kind":"proposal-receipt","previous":"1-5oB4GRpk101kl5mqXRbSh9wlRDiJOFM66Fqtbj_fI","receiver":"alpha",'
    b'"sender":"beta","sequence":2,"session":"alpha.1","version":1}\n'
)
SIGNED = (
    b"eyJhbGciOiJIUzI1NiJ9.eyJraW5kIjoidHJhbnNmZXItcHJvcG9zYWwiLCJwcmV2aW91cyI6IkFBQUFBQUFBQUFBQUFBQUFBQUFBQUFBQUFBQUFBQUFBQUFB"
    b"QUFBQUFBQUEiLCJyZWNlaXZlciI6ImJldGEiLCJzZW5kZXIiOiJhbHBoYSIsInNlcXVlbmNlIjoxLCJzZXNzaW9uIjoiYWxwaGEuMSIsInRlcm1zIjp7ImFt"
    b"b3VudCI6MjUwLCJhc3NldCI6ImdvbGQiLCJiZW5lZmljaWFyeSI6ImJvYiIsIm9yaWdpbmF0b3IiOiJhbm4ifSwidmVyc2lvbiI6MX0.W-lyReP7A9ab2bM2"
    b"6JT9xgx6ZO0qsjJXWWHXhi4eB6c"
)
KEY = "AAECAwQFBgcICQoLDA0ODxAREhMUFRYXGBkaGxwdHh8"
GENESIS = b"asset gold 10\n"
REFUSED = (2, b"", b"satp: words refused\n")
NO_MEMORY = (10, b"", b"satp: no memory\n")
OPTIONS = [
    ("--name", "alpha"),
    ("--peer", "beta"),
    ("--at", "127.0.0.1:7002"),
    ("--key", KEY),
    ("--ledger", "accounts"),
]


def run(words, given=b"", **streams):
    if not streams.get("stdin"):
        streams["input"] = given
    streams = {"stdout": subprocess.PIPE, "stderr": subprocess.PIPE, **streams}
    done = subprocess.run([PROGRAM, *words], timeout=60, **streams)
    return done.returncode, done.stdout, done.stderr


def want(what, found, wanted):
    if found != wanted:
        print(f"statuses: {what}: {found!r}, and not {wanted!r}")
        sys.exit(1)


def folder(name):
    return os.path.join(FOLDER, name)


def joined(name):
    """`init` with each option and its value in one word: seven words."""
    return ["init", f"--dir={folder(name)}", *(f"{option}={value}" for option, value in OPTIONS)]


def apart(name):
    """`init` with each option and its value in two words: thirteen words."""
    return ["init", "--dir", folder(name), *(word for pair in OPTIONS for word in pair)]


def words():
    ready = (0, b"alpha ready\n", b"")
    want("no words", run([]), REFUSED)
    want("seven words", run(joined("seven"), GENESIS), ready)
    want("eight words", run([*joined("eight"), "--"], GENESIS), ready)
    want("a ninth word", run([*joined("nine"), "--", "more"], GENESIS), REFUSED)
    want("thirteen words", run(apart("thirteen"), GENESIS), ready)
    want("a fifteenth word", run([*apart("fifteen"), "--", "more"], GENESIS), REFUSED)
    want("a hundred words", run(["answer", "beta", *["--"] * 98], PROPOSAL), REFUSED)
    want("an empty word", run(["answer", "beta", ""], PROPOSAL), REFUSED)
    want("a word that is no UTF-8", run([b"answer", b"beta\xff"], PROPOSAL), REFUSED)
    want("a second word that is no UTF-8", run([b"answer", b"beta", b"\xff"], PROPOSAL), REFUSED)
    for name in ("nine", "fifteen"):
        want("the directory of refused words", os.path.exists(folder(name)), False)


def refused(line):
    """Status 5, and this line."""
    return 5, b"", b"satp: " + line + b"\n"


def lines():
    """The line of each command, and those of its refusals."""
    check = ["check", "--key", KEY]
    want("a text", run(["check"], PROPOSAL), (0, b"text transfer-proposal 242 bytes\n", b""))
    want("a signed text", run(check, SIGNED), (0, b"jws transfer-proposal 388 bytes\n", b""))
    want("a text that isn't signed", run(check, PROPOSAL), refused(b"input refused: jws parts 2"))
    want("a message that is no proposal", run(["answer", "alpha"], RECEIPT), refused(b"input refused: kind"))
    want("no text", run(["answer", "beta"]), refused(b"input refused: json"))
    want("a text without members", run(["check"], b'{"kind": "recover"}'), refused(b"input refused: member last"))
    want("no capital", run(joined("lines"), b"asset gold 0\n"), refused(b"genesis line 1 refused"))
    want("a long genesis", run(joined("lines"), b"x" * 65_537), refused(b"input too long"))


def streams():
    want("a receipt", run(["answer", "beta"], PROPOSAL), (0, RECEIPT, b""))
    want("another receiver", run(["answer", "gamma"], PROPOSAL), (4, b"", b"satp: not the receiver\n"))
    here = os.open(FOLDER, os.O_RDONLY)
    want("an input that can't be read", run(["answer", "beta"], stdin=here), (11, b"", b"satp: input failed\n"))
    os.close(here)
    try:
        full = os.open("/dev/full", os.O_WRONLY)
    except OSError:
        print("statuses: a full output is skipped, there is no /dev/full")
        return
    failed = (11, None, b"satp: output failed\n")
    want("a full output", run(["answer", "beta"], PROPOSAL, stdout=full), failed)
    want("a full output of init", run(joined("full"), GENESIS, stdout=full), failed)
    want("what init set up", run(joined("full"), GENESIS), (13, b"", b"satp: gateway is there\n"))
    want("a full output of errors", run([], stderr=full), (2, b"", None))
    os.close(full)


def memory():
    """Long words under a limit that rises until there is memory for them all."""
    long_words = ["x" * 120_000] * 15
    wants = 0
    for limit in range(2 << 20, 64 << 20, 128 << 10):
        try:
            found = run(long_words, preexec_fn=lambda: resource.setrlimit(resource.RLIMIT_AS, (limit, limit)))
        except OSError:
            # There was no room for the words themselves.
            continue
        if found == REFUSED:
            break
        # A program that the system couldn't start ends by a signal or with 127.
        if found[0] >= 0 and found[0] != 127:
            want(f"words in {limit} bytes of memory", found, NO_MEMORY)
            wants += 1
    else:
        print("statuses: there was never memory for the words")
        sys.exit(1)
    if wants == 0:
        print("statuses: there was never want of memory for the words")
        sys.exit(1)
    return wants


words()
lines()
streams()
wants = memory()
print(f"statuses: passed; {wants} limits left too little memory for the words")
