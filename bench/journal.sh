#!/usr/bin/env bash
# Appends per second of a journal in a real file, beside the commits per second of SQLite in WAL mode with
# synchronous=FULL, rows of the same size, in turns in one run. Prints the median of each, and their ratio.
#
#     bench/journal.sh [records [bytes [rounds]]]
#
# Both work in a new folder under BENCH_FOLDER (/var/tmp where it isn't set), which is removed at the end.
. "$(dirname "${BASH_SOURCE[0]}")/../.ci/prepare.sh"
needs_sqlite
make_program satp_journal_driver
make_folder

python3 bench/journal.py crates/satp_journal_driver/out/satp_journal_driver "$folder" "${1:-1000}" "${2:-300}" "${3:-5}"
