#!/usr/bin/env bash
# Programs that start, serve and recover, killed at random moments, files as a stop within an append leaves them, and failing calls: a recovery from either
# side settles each session. An argument says how many of each are tried, and lifts the limit of about a minute.
. "$(dirname "${BASH_SOURCE[0]}")/../prepare.sh"
needs python3
has_program satp
make_folder

within 3600 python3 .ci/checks/kills.py crates/satp/out/satp "$folder" "$@"
