#!/usr/bin/env bash
# Drills of the built program beside a plain model of them: the schedules of numbers, random short ones, stops and failing calls at each place of a
# transfer, and schedules that are refused.
#
#     .ci/checks/drill.sh                          a part of each, in half a minute
#     .ci/checks/drill.sh --many COUNT [FIRST]     so many random schedules, from that of the number FIRST on, which is else drawn and printed
#     .ci/checks/drill.sh --seeds FIRST LAST       the schedules of `drill --seed` with these numbers
. "$(dirname "${BASH_SOURCE[0]}")/../prepare.sh"
needs python3
has_program satp

seconds=300
[ $# -eq 0 ] || seconds=0 # no limit
within "$seconds" python3 .ci/checks/drill.py crates/satp/out/satp "$@"
