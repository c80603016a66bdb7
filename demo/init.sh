#!/usr/bin/env bash
# Builds the program, and sets the gateway alpha up in a fresh directory, with a ledger of accounts in which ann has 1,000 gold.
set -eu
cd "$(dirname "$0")/../crates/satp"

directory=$(mktemp -d)
trap 'rm -rf "$directory"' EXIT

printf 'asset gold 1000000\nhold gold ann 1000\n' | rt run -- init --dir "$directory/alpha" --name alpha --peer beta \
    --at 127.0.0.1:7002 --key AAECAwQFBgcICQoLDA0ODxAREhMUFRYXGBkaGxwdHh8 --ledger accounts
ls -l "$directory/alpha"
