#!/usr/bin/env bash
# Requests per second that a gateway serves on loopback, beside Python's http.server in the same run, and the instructions of each. Prints the
# best of three rounds, and ratios. bench/README.md says what is measured.
#
#     bench/serve.sh [connections]
. "$(dirname "${BASH_SOURCE[0]}")/../.ci/prepare.sh"
needs python3
make_program satp
make_folder

PYTHONPATH=.ci/checks python3 bench/serve.py crates/satp/out/satp "$folder" "${1:-50}"
