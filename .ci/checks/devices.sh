#!/usr/bin/env bash
# Real files under the built programs: the bytes that are written, read and cut, what a founding and an opening leave of the other files, and how often
# each file and folder is synced.
. "$(dirname "${BASH_SOURCE[0]}")/../prepare.sh"
needs python3
has_program satp satp_site_driver
make_folder

python3 .ci/checks/devices.py crates/satp/out/satp crates/satp_site_driver/out/satp_site_driver "$folder"
