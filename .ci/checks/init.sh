#!/usr/bin/env bash
# The built program sets gateways up in folders of its own: the bytes of their files, the lock, directories
# that can't be written to, each of their calls failing, and a hundred programs killed at random moments.
. "$(dirname "${BASH_SOURCE[0]}")/../prepare.sh"
needs python3
has_program satp
make_folder

# Another user has to reach the program and its folder.
chmod 755 "$folder"
install -m 755 crates/satp/out/satp "$folder/satp"
python3 .ci/checks/init.py "$folder"
