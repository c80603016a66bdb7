#!/usr/bin/env python3
"""Measures what the gate costs: runs a command, `rt ci --anew` where none is given, and prints the processor minutes of its checks, crate by crate.

    bench/gate.py [COMMAND ..]

It looks at the processes of this machine every second. What is proved elsewhere meanwhile isn't counted, but makes all
of it slower. A check that is over within a second may be missed. The status is the command's.
"""

import os
import subprocess
import sys
import threading
import time

TICKS_A_MINUTE = os.sysconf("SC_CLK_TCK") * 60
PARTS = ["proof", "tests", "edits"]


def read(pid, name):
    with open(f"/proc/{pid}/{name}", "rb") as file:
        return file.read()


def check_of(pid, top):
    """The crate and the part of a process that checks a crate, and the processor minutes that it has taken; or none."""
    words = [word.decode(errors="replace") for word in read(pid, "cmdline").split(b"\0")]
    if os.path.basename(words[0]) != "rattle" or "--crate-name" not in words:
        return None
    crate = words[words.index("--crate-name") + 1]
    folder = os.readlink(f"/proc/{pid}/cwd")
    if folder.startswith(f"{top}/"):
        part = "tests" if "--test" in words else "proof"
    elif "/rt-edit" in folder:
        # A wrong body is tried on a copy of the crate.
        part = "edits"
    else:
        return None
    # the fields after the name, which may hold spaces: user and system time are the 12th and 13th, the start is the 20th
    fields = read(pid, "stat").rsplit(b")", 1)[1].split()
    return (pid, fields[19]), (crate, part, (int(fields[11]) + int(fields[12])) / TICKS_A_MINUTE)


def look(seen, top):
    for pid in filter(str.isdigit, os.listdir("/proc")):
        try:
            found = check_of(pid, top)
        except (OSError, ValueError, IndexError):
            continue
        if found:
            seen[found[0]] = found[1]


def table(seen):
    """A row a crate, the dearest first, and the sums."""
    rows = {}
    for crate, part, minutes in seen.values():
        rows.setdefault(crate, dict.fromkeys(PARTS, 0.0))[part] += minutes
    rows = sorted(rows.items(), key=lambda row: -sum(row[1].values()))
    rows.append(("all", {part: sum(row[part] for _, row in rows) for part in PARTS}))
    yield "| crate | " + " | ".join(PARTS) + " | all |"
    yield "|---|---|---|---|---|"
    for crate, row in rows:
        yield f"| {crate} | " + " | ".join(f"{row[part]:.1f}" for part in PARTS) + f" | {sum(row.values()):.1f} |"


def main():
    seen, done = {}, threading.Event()
    top = os.path.realpath(os.path.join(os.path.dirname(__file__), ".."))

    def watch():
        while not done.wait(1):
            look(seen, top)

    watcher = threading.Thread(target=watch)
    watcher.start()
    begun = time.monotonic()
    status = subprocess.call(sys.argv[1:] or ["rt", "ci", "--anew"], cwd=top)
    took = (time.monotonic() - begun) / 60
    done.set()
    watcher.join()
    print("\n".join(table(seen)))
    print(f"Processor minutes; {took:.0f} minutes of the clock on {os.cpu_count()} processors; status {status}")
    return status


sys.exit(main())
