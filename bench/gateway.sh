#!/usr/bin/env bash
# Calls of a gateway over a site in memory: how many a second at the 1st, 100th and 2,000th session, and how many instructions each at the 1st and 100th, beside the same step in Python
# over SQLite in memory, in one run. bench/README.md says what is measured.
#
#     bench/gateway.sh [calls [rounds]]      at most 49 calls
. "$(dirname "${BASH_SOURCE[0]}")/../.ci/prepare.sh"
needs_sqlite
make_program satp_gateway_tests

python3 bench/gateway.py crates/satp_gateway_tests/out/satp_gateway_tests "${1:-40}" "${2:-5}"
