#!/usr/bin/env bash
# Real sockets under the wire: peers that are slow or silent, that reset, that never read and that never close, in some seconds.
. "$(dirname "${BASH_SOURCE[0]}")/../prepare.sh"
needs python3
has_program satp_wire_driver
make_folder

within 120 python3 .ci/checks/wire.py crates/satp_wire_driver/out/satp_wire_driver "$folder"
