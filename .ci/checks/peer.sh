#!/usr/bin/env bash
# Python's http.server as the peer of a gateway that starts: it verifies each text and answers with its own, and then with broken answers.
. "$(dirname "${BASH_SOURCE[0]}")/../prepare.sh"
needs python3
has_program satp
make_folder

within 300 python3 .ci/checks/peer.py crates/satp/out/satp "$folder"
