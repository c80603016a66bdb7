#!/usr/bin/env bash
# Requests of other clients to a gateway that serves: curl, Python's http.client and plain sockets.
. "$(dirname "${BASH_SOURCE[0]}")/../prepare.sh"
needs python3
has_program satp
make_folder

within 300 python3 .ci/checks/clients.py crates/satp/out/satp "$folder"
