"""Drills of the built program, and transfers of a plain pair in Python that stays in one process."""

import itertools
import resource
import sqlite3
import subprocess
import sys
import time

import drill_model
from counts import can_count, counted, counting
from gateways import done, fail, want
from plain import ROWS, Side

PROGRAM = sys.argv[1]
ROUNDS, FEW, MANY, COUNTED = map(int, sys.argv[2:])
SEED = 7


def drill(seed, text=b"", words=()):
    """The status of a drill and what it printed."""
    ended = subprocess.run([*words, PROGRAM, "drill", f"--seed={seed}"], input=text, capture_output=True)
    return ended.returncode, ended.stdout, ended.stderr


def transfers(count):
    """A schedule of so many transfers, by turns from A and from B."""
    lines = [f"start {'AB'[place % 2]} {place // 2 + 1} gold 1 {'ann bob' if place % 2 == 0 else 'bob ann'}\n" for place in range(count)]
    return "".join(lines).encode()


def committed(count):
    return done(drill_model.report_line(0, drill_model.Report(count, count, 0, 0, 20_000)))


def seconds(what, due, seed, text=b""):
    """The seconds of the processor that a drill takes."""
    before = resource.getrusage(resource.RUSAGE_CHILDREN)
    want(what, drill(seed, text), due)
    after = resource.getrusage(resource.RUSAGE_CHILDREN)
    return (after.ru_utime - before.ru_utime) + (after.ru_stime - before.ru_stime)


def of_seed():
    lines = drill_model.generated(SEED)
    due = done(drill_model.report_line(SEED, drill_model.drilled("".join(line + "\n" for line in lines).encode())))
    return min(seconds(f"the drill of the number {SEED}", due, SEED) for _ in range(ROUNDS)) / drill_model.ROUNDS


def of_transfers(count, rounds):
    return min(seconds(f"{count} transfers", committed(count), 0, transfers(count)) for _ in range(rounds)) / count


def of_plain_pair(count):
    """The seconds of the processor for a transfer of the plain pair."""
    bases = [sqlite3.connect(":memory:", isolation_level=None) for _ in range(2)]
    origin, recipient = map(Side, bases, ("origin", "recipient"))
    begun = time.process_time()
    for number in range(1, count + 1):
        text = origin.say(f"alpha.{number}")
        for side in itertools.cycle([recipient, origin]):
            session, more = side.take(text)
            if not more:
                break
            text = side.say(session)
    spent = time.process_time() - begun
    rows = [base.execute("select count(*) from rows").fetchone()[0] for base in bases]
    want("the commits of the plain pair", rows, [ROWS[role] * count for role in ("origin", "recipient")])
    return spent / count


def instructions(count):
    """Those of a session, or none where they can't be counted."""
    status, out, err = drill(0, transfers(count), counting([]))
    if (status, out) != committed(count)[:2]:
        fail(f"{count} counted transfers end with {status}, {out!r}")
    found = counted(err)
    return None if found is None else found / count


def tell(what, ours, theirs):
    print(f"{what}: {1 / ours:.1f} sessions a second, plain pair {1 / theirs:.1f}, ratio {theirs / ours:.3f}", flush=True)


def main():
    print(f"seconds of the processor, the least of {ROUNDS} rounds; Python {sys.version.split()[0]}, SQLite {sqlite3.sqlite_version} in memory")
    theirs = {count: min(of_plain_pair(count) for _ in range(ROUNDS)) for count in (FEW, MANY) if count}
    seed = of_seed()
    tell(f"drill --seed {SEED}, {seed * drill_model.ROUNDS:.2f} seconds", seed, theirs[FEW])
    few = of_transfers(FEW, ROUNDS)
    tell(f"{FEW} transfers", few, theirs[FEW])
    if MANY:
        many = of_transfers(MANY, 1)
        tell(f"{MANY} transfers, once", many, theirs[MANY])
        print(f"a session among {MANY} costs {many / few:.1f} times one among {FEW}; of the plain pair {theirs[MANY] / theirs[FEW]:.1f} times")
    counts = {count: instructions(count) for count in (COUNTED, FEW)} if can_count() else {COUNTED: None}
    if None in counts.values():
        print("instructions are skipped")
        return
    for count, found in counts.items():
        print(f"instructions of a session among {count}: {found / 1e6:.1f} million")


main()
