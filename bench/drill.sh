#!/usr/bin/env bash
# Drills: sessions a second of `drill --seed 7`, and of schedules of transfers alone, few and many, beside a plain pair in Python that exchanges the same texts in one
# process and commits as often to SQLite in memory; and the instructions of a session. bench/README.md says what is measured.
#
#     bench/drill.sh [rounds [few [many [counted]]]]      3 rounds, 200 and 2,000 sessions, and 20 whose instructions are counted beside those of the few
. "$(dirname "${BASH_SOURCE[0]}")/../.ci/prepare.sh"
needs_sqlite
make_program satp

PYTHONPATH=.ci/checks python3 bench/drill.py crates/satp/out/satp "${1:-3}" "${2:-200}" "${3:-2000}" "${4:-20}"
