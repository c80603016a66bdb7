#!/usr/bin/env bash
# The built program twice on loopback: whole transfers with what both sides print, show and keep, recoveries of sessions that were
# cut, and each status of each command but those of broken answers and of want of memory.
. "$(dirname "${BASH_SOURCE[0]}")/../prepare.sh"
needs python3
has_program satp
make_folder

within 300 python3 .ci/checks/transfer.py crates/satp/out/satp "$folder"
