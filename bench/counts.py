"""How many instructions a program executes, where valgrind is installed."""

import re
import shutil


def can_count():
    return shutil.which("valgrind") is not None


def counting(words):
    """The words of a command, so that its instructions are counted."""
    return ["valgrind", "--tool=callgrind", "--callgrind-out-file=/dev/null", *words]


def counted(err):
    """The count that stands on standard error, or none: valgrind can't read every program."""
    found = re.search(rb"Collected : (\d+)", err)
    return int(found[1]) if found else None
