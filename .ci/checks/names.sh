#!/usr/bin/env bash
# Each file, law, function, definition and wrong body that docs/INDEX.md and docs/PROVED.md name is there, and in the index each in its file.
. "$(dirname "${BASH_SOURCE[0]}")/../prepare.sh"
needs python3

python3 .ci/checks/names.py
