#!/usr/bin/env python3
"""Plants the bugs of a crate, some at a time, and prints which of them its contracts let through.

    trial/try.py CRATE [FIRST [LAST]]

trial/CRATE.edits has them: after each line `== NAME` an edit as `crates/*/must-fail/*.edit` has it. They are tried by
`rt must-fail` on a copy of the repository, and those from number FIRST to LAST alone where these are given, from 1.
A bug that no longer applies or doesn't compile is printed as a BAD EDIT. It takes about half a minute a bug, and first
the proofs that this machine hasn't kept. The status is 1 if a bug isn't refused.
"""

import os
import re
import shutil
import subprocess
import sys
import tempfile

TOP = os.path.realpath(os.path.join(os.path.dirname(__file__), ".."))


def planted(crate):
    """The names and the texts of the crate's bugs."""
    with open(f"{TOP}/trial/{crate}.edits", encoding="utf-8") as file:
        parts = re.split(r"^== (\w+)\n", file.read(), flags=re.MULTILINE)[1:]
    return list(zip(parts[::2], parts[1::2]))


def main(crate, first=1, last=None):
    bugs = planted(crate)[int(first) - 1 : last and int(last)]
    with tempfile.TemporaryDirectory(prefix="trial-") as copy:
        subprocess.run(["git", "clone", "-q", TOP, copy], check=True)
        folder = f"{copy}/crates/{crate}/must-fail"
        shutil.rmtree(folder, ignore_errors=True)
        os.makedirs(folder)
        for name, text in bugs:
            with open(f"{folder}/{name}.edit", "w", encoding="utf-8") as file:
                file.write(text.strip("\n") + "\n")
        return subprocess.call(["rt", "must-fail", crate], cwd=copy)


if __name__ == "__main__":
    sys.exit(main(*sys.argv[1:]))
