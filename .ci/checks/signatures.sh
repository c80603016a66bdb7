#!/usr/bin/env bash
# Signs and verifies random payloads beside another implementation, both ways: Python's hmac, and joserfc where it is installed.
. "$(dirname "${BASH_SOURCE[0]}")/../prepare.sh"
needs python3
has_program satp_driver

python3 .ci/checks/signatures.py crates/satp_driver/out/satp_driver
