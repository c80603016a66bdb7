#!/usr/bin/env bash
# Whole transfers per second between two gateways on loopback, beside a plain pair in Python that exchanges the same texts and commits as often to
# SQLite, and the instructions of each side. Prints the median of the rounds, and their ratio. bench/README.md says what is measured.
#
#     bench/transfer.sh [transfers [rounds]]
#
# All work in a new folder under BENCH_FOLDER (/var/tmp where it isn't set), which is removed at the end.
. "$(dirname "${BASH_SOURCE[0]}")/../.ci/prepare.sh"
needs_sqlite
make_program satp
make_folder

PYTHONPATH=.ci/checks python3 bench/transfer.py crates/satp/out/satp "$folder" "${1:-50}" "${2:-3}"
