#!/usr/bin/env bash
# Gateways with as many sessions as may be: 2,048 of each role. The next one is refused, before and after an opening, and all else goes on.
. "$(dirname "${BASH_SOURCE[0]}")/../prepare.sh"
needs python3
has_program satp_gateway_tests

within 300 python3 .ci/checks/full.py crates/satp_gateway_tests/out/satp_gateway_tests
