#!/usr/bin/env bash
# The statuses of the built program that hang on its words, its streams and its memory.
. "$(dirname "${BASH_SOURCE[0]}")/../prepare.sh"
needs python3
has_program satp
make_folder

python3 .ci/checks/statuses.py crates/satp/out/satp "$folder"
