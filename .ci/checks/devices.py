"""Drives the real site in folders of its own, and `init` of the program, with strace where it can be used."""

import collections
import os
import re
import shutil
import subprocess
import sys

PROGRAM = os.path.abspath(sys.argv[1])
DRIVER = os.path.abspath(sys.argv[2])
# Paths are compared with those that strace shows.
FOLDER = os.path.realpath(sys.argv[3])
AREAS = ("journal-a", "journal-b", "ledger")
GENESIS = b"asset gold 10\nhold gold ann 7\n"
INIT = ["init", "--name=alpha", "--peer=beta", "--at=127.0.0.1:7002", "--ledger=accounts"]
KEY = "--key=AAECAwQFBgcICQoLDA0ODxAREhMUFRYXGBkaGxwdHh8"


def want(what, found, wanted):
    if found != wanted:
        print(f"devices: {what}: {found!r}, and not {wanted!r}")
        sys.exit(1)


def at(*names):
    return os.path.join(FOLDER, *names)


def put(content, *names):
    with open(at(*names), "wb") as file:
        file.write(content)


def read(*names):
    with open(at(*names), "rb") as file:
        return file.read()


def pattern(count):
    """What the driver writes: at each place its number modulo 251."""
    return bytes(place % 251 for place in range(count))


def drive(*lines, before=()):
    """The answers of the driver to these lines."""
    given = "".join(line + "\n" for line in lines).encode()
    done = subprocess.run([*before, DRIVER], input=given, capture_output=True, timeout=60)
    want(f"the status of the driver on {lines}", (done.returncode, done.stderr), (0, b""))
    return done.stdout.decode().split("\n")[:-1]


def want_answers(what, wanted, *lines, before=()):
    want(what, drive(*lines, before=before), wanted)


# The bytes.


def long_bytes():
    for area in AREAS:
        name = f"long-{area}"
        want_answers(
            f"5,000 bytes of {area}",
            ["done", "done", "5000 read, 5000 as written", "done", "7000 read, 7000 as written", "2500 read, 2500 as written", "7000"],
            f"enter {at(name)}",
            f"write {area} 0 5000",
            f"read {area} 0 5001",
            f"write {area} 3000 4000",
            f"read {area} 0 8000",
            f"read {area} 4500 9000",
            f"length {area}",
        )
        want(f"the bytes of {area}", read(name, area), pattern(7000))
        want_answers(
            f"the bytes of {area} once more",
            ["done", "7000 read, 7000 as written", "done", "4500", "done", "4500 read, 4500 as written"],
            f"enter {at(name)}",
            f"read {area} 0 7001",
            f"cut {area} 4500",
            f"length {area}",
            f"cut {area} 4501",
            f"read {area} 0 5000",
        )
        want(f"the bytes of {area} after a cut", read(name, area), pattern(4500))
        want_answers(f"a cut of {area} to nothing", ["done", "done", "0"], f"enter {at(name)}", f"cut {area} 0", f"length {area}")
        want(f"the bytes of {area} after that", read(name, area), b"")
        want(f"the files of {name}", sorted(os.listdir(at(name))), sorted([area, "lock"]))


# What the ledger's calls leave of the other files.


def journals(name, kind):
    """A folder with bytes in both journals and a ledger of a kind, with a lock in it."""
    os.mkdir(at(name))
    for area in ("journal-a", "journal-b"):
        put(pattern(5000), name, area)
    # The old ledger is longer than the new one.
    put(pattern(9000), name, "ledger")
    want_answers(f"a founding of {kind}", ["done", "done", "done"], f"enter {at(name)}", f"found {kind}", "lock")
    return read(name, "ledger")


def want_journals(what, name):
    for area in ("journal-a", "journal-b"):
        want(f"{area} after {what}", read(name, area) == pattern(5000), True)


def other_files_unchanged():
    for kind in ("accounts", "outputs"):
        name = f"raised-{kind}"
        ledger = journals(name, kind)
        want_journals(f"a founding of {kind}", name)
        want(f"whether a ledger of {kind} is a short one", len(ledger) < 200, True)
        want_answers(f"openings of {kind}", ["done", "done", "done", "done", "done"], f"enter {at(name)}", "raise", "look", "raise", "look")
        want_journals(f"openings of {kind}", name)
        want(f"the ledger after openings of {kind}", read(name, "ledger"), ledger)
        for content in (b"\x01\x00\x03ab", b"\x01\x00\x02\x10\x03\x00", b"\x01\x00\x02\x10\x02\x01"):
            put(content, name, "ledger")
            want_answers("an opening that fails", ["done", "failed", "failed"], f"enter {at(name)}", "raise", "look")
            want_journals("an opening that fails", name)
            want("the ledger after an opening that fails", read(name, "ledger"), content)


# The calls of the system.


def can_trace():
    log = at("strace.log")
    return shutil.which("strace") is not None and subprocess.run(["strace", "-o", log, "true"], stderr=subprocess.DEVNULL).returncode == 0


CALL = re.compile(r"^(\w+)\(\d+<([^>]*)>(.*)")


def calls_in(log, folder):
    """The calls on files by step: a step ends where a line is printed. A file is named within the folder, that itself as `.`."""
    steps = [[]]
    for line in read(log).decode(errors="replace").split("\n"):
        call = CALL.match(line)
        if call is None:
            continue
        if call[1] == "write" and line.startswith("write(1<"):
            if '\\n"' in line:
                steps.append([])
        else:
            steps[-1].append((call[1], os.path.relpath(call[2], folder), call[3]))
    return steps[:-1]


def syncs(step):
    return dict(collections.Counter(path for call, path, _ in step if call in ("fsync", "fdatasync")))


def traced(name, *further):
    return ["strace", "-y", "-s", "32", "-e", "trace=fsync,fdatasync,write,close,ftruncate", *further, "-o", at(name)]


def want_syncs(what, folder, lines, answers, wanted):
    want_answers(what, answers, *lines, before=traced("strace.log"))
    steps = calls_in("strace.log", folder)
    want(f"the syncs of {what}", [syncs(step) for step in steps], wanted)
    return steps


def run_init(name):
    words = [PROGRAM, *INIT, KEY, f"--dir={at(name)}"]
    done = subprocess.run([*traced("strace.log"), *words], input=GENESIS, capture_output=True, timeout=60)
    steps = calls_in("strace.log", at(name))
    return done.returncode, steps


def syncs_of_init():
    # Entering syncs the folder, and that above it once.
    entered = {"..": 1, ".": 1}
    # The journal: its closed gate, and the two syncs of an append. The new file's entry is one of the folder's.
    # The ledger: its closed gate, and two for each of its three records. The second disk and the new file are two of the folder's.
    os.mkdir(at("fresh"))
    status, steps = run_init("fresh")
    want("init in a folder", (status, [syncs(step) for step in steps]), (0, [{"..": 1, ".": 4, "journal-a": 3, "ledger": 7}]))
    ledger = read("fresh", "ledger")
    # A file that is there has no new entry, and a cut of it is synced.
    os.mkdir(at("again"))
    put(pattern(9000), "again", "ledger")
    put(b"\x00", "again", "journal-a")
    status, steps = run_init("again")
    want("init over files", (status, [syncs(step) for step in steps]), (0, [{"..": 1, ".": 2, "journal-a": 3, "ledger": 8}]))
    want("the cuts of init over files", [path for call, path, _ in steps[0] if call == "ftruncate"], ["ledger"])
    want("the ledger of init over files", read("again", "ledger"), ledger)
    for name in ("fresh", "again"):
        want(f"the files of {name}", sorted(os.listdir(at(name))), ["journal-a", "ledger", "lock"])
    return entered


def syncs_of_raises(entered):
    for kind, openings in (("accounts", 1), ("outputs", 2)):
        name = f"traced-{kind}"
        ledger = journals(name, kind)
        # The second disk syncs the folder, and each opening the ledger: the keeper of accounts looks first.
        raised = {".": 1, "ledger": openings}
        steps = want_syncs(
            f"openings of {kind}",
            at(name),
            [f"enter {at(name)}", "raise", "look", "raise", f"enter {at(name)}", "raise"],
            ["done"] * 6,
            [entered, raised, {}, raised, entered, raised],
        )
        closed = [path for call, path, _ in steps[4] if call == "close" and path in ("lock", "ledger")]
        want("what an entering lets go", closed, ["ledger", "lock"])
        want_journals(f"traced openings of {kind}", name)
        want(f"the ledger after traced openings of {kind}", read(name, "ledger"), ledger)


def syncs_of_areas(entered):
    for area in AREAS:
        name = f"synced-{area}"
        want_syncs(
            f"calls on {area}",
            at(name),
            [f"enter {at(name)}", f"sync {area}", f"write {area} 0 10", f"sync {area}", f"sync {area}", f"write {area} 0 5000", f"sync {area}", f"cut {area} 0", f"sync {area}"],
            ["done"] * 9,
            # The folder is new, so that its entry is synced as well as that above it.
            [{"..": 1, "../..": 1, ".": 1}, {}, {}, {".": 1, area: 1}, {area: 1}, {}, {area: 1}, {}, {area: 1}],
        )
        want_syncs(f"{area} once more", at(name), [f"enter {at(name)}", f"sync {area}"], ["done"] * 2, [entered, {area: 1}])


def failing_foundings():
    """Each write, cut and sync of a founding failing in turn: it fails, and the journals stay as they are."""
    for call in ("pwrite64", "fsync", "ftruncate"):
        for count in range(1, 100):
            name = f"failing-{call}-{count}"
            os.mkdir(at(name))
            for area in AREAS:
                put(pattern(5000), name, area)
            answers = drive(f"enter {at(name)}", "found accounts", "look", before=traced("strace.log", "-e", f"inject={call}:error=EIO:when={count}"))
            if "INJECTED" not in read("strace.log").decode(errors="replace"):
                want(f"a founding without a failing {call}", answers, ["done", "done", "done"])
                break
            want(f"whether a failing {call}, the {count}th, is told", "failed" in answers, True)
            want(f"the look after a failing {call}, the {count}th", answers[2], "failed")
            want_journals(f"a failing {call}, the {count}th", name)


long_bytes()
other_files_unchanged()
if can_trace():
    entered = syncs_of_init()
    syncs_of_raises(entered)
    syncs_of_areas(entered)
    failing_foundings()
    print("devices: passed")
else:
    print("devices: passed; syncs are skipped, strace can't be used here")
