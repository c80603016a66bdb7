#!/usr/bin/env bash
# Runs the drivers and the built program over some thousand random values beside a plain reading of the formats: texts,
# signatures, chains, records, schedules.
. "$(dirname "${BASH_SOURCE[0]}")/../prepare.sh"
needs python3
has_program satp_driver satp

python3 .ci/checks/values.py crates/satp_driver/out/satp_driver crates/satp/out/satp
