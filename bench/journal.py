"""Appends to a journal in a real file, and commits of rows of the same size to SQLite, in turns."""

import os
import re
import sqlite3
import statistics
import subprocess
import sys
import time

driver, folder = sys.argv[1:3]
records, size, rounds = map(int, sys.argv[3:])


def journal(place):
    line = subprocess.run(
        [driver, place, str(records), str(size)], check=True, capture_output=True, text=True
    ).stdout
    return records * 1e9 / int(re.search(r"(\d+) ns$", line).group(1))


def sqlite(place):
    os.mkdir(place)
    base = sqlite3.connect(os.path.join(place, "rows.db"), isolation_level=None)
    mode = base.execute("pragma journal_mode=wal").fetchone()[0]
    base.execute("pragma synchronous=full")
    if mode != "wal" or base.execute("pragma synchronous").fetchone()[0] != 2:
        sys.exit("bench/journal: SQLite refuses the settings")
    base.execute("create table rows (number integer primary key, payload blob not null)")
    payload = b"x" * size
    start = time.perf_counter()
    for _ in range(records):
        base.execute("insert into rows (payload) values (?)", (payload,))
    spent = time.perf_counter() - start
    assert base.execute("select count(*) from rows").fetchone()[0] == records
    base.close()
    return records / spent


pairs = []
for turn in range(rounds):
    pairs.append((journal(f"{folder}/journal-{turn}"), sqlite(f"{folder}/sqlite-{turn}")))

ours = statistics.median(pair[0] for pair in pairs)
theirs = statistics.median(pair[1] for pair in pairs)
ratio = statistics.median(pair[0] / pair[1] for pair in pairs)
print(f"{rounds} rounds of {records} records of {size} bytes")
print(f"journal: {ours:.0f} appends a second")
print(f"SQLite {sqlite3.sqlite_version}, WAL, synchronous=FULL: {theirs:.0f} commits a second")
print(f"ratio: {ratio:.2f}")
