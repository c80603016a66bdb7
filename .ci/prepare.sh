# What the scripts of .ci/checks and bench share. Each begins by reading this file, which goes to the top of the repository.
# They are called by hand too, from any directory.
# shellcheck shell=bash
set -eu

# The script as it names itself in what it prints: `full`, say, or `bench/journal`.
script=$(realpath "$0")
cd "$(dirname "${BASH_SOURCE[0]}")/.."
script=${script#"$(pwd -P)/"}
script=${script#.ci/checks/}
script=${script%.sh}

# Ends the script, with the reason why it can't be run here.
skip() {
    echo "$script: skipped, $1"
    exit 0
}

# Skips the script where one of these tools is missing.
needs() {
    local tool
    for tool in "$@"; do
        command -v "$tool" >/dev/null || skip "there is no $tool"
    done
}

needs_sqlite() {
    needs python3
    python3 -c 'import sqlite3' 2>/dev/null || skip "python3 has no sqlite3"
}

# Proves and builds the programs of these crates, crates/X/out/X. Each is run once by that, over words that are no command and without an input.
make_program() {
    local crate
    needs rt
    for crate in "$@"; do
        (cd "crates/$crate" && rt run -- nothing) >/dev/null 2>&1 </dev/null || true
        [ -x "crates/$crate/out/$crate" ] || {
            echo "$script: the program $crate isn't built"
            exit 1
        }
    done
}

# The same, where they aren't there: the gate makes them just before its checks.
has_program() {
    local crate
    for crate in "$@"; do
        [ -x "crates/$crate/out/$crate" ] || make_program "$crate"
    done
}

# Runs a command for so many seconds at most, and says so if they don't suffice.
within() {
    local status=0
    timeout "$@" || status=$?
    [ "$status" -ne 124 ] || echo "$script: it isn't over after $1 seconds"
    return "$status"
}

# Makes $folder, which is removed when the script ends. What is measured has to be on a real disk, and /tmp may be in memory.
make_folder() {
    local above=${TMPDIR:-/tmp}
    case $script in bench/*) above=${BENCH_FOLDER:-/var/tmp} ;; esac
    folder=$(mktemp -d "$above/satp.XXXXXX")
    trap 'chmod -R u+w "$folder"; rm -rf "$folder"' EXIT
}
