#!/usr/bin/env bash
# Builds the program, sets two gateways up in fresh directories, serves one of them, moves 250 gold from ann at alpha to bob at beta, and
# shows both sides and, where there is python3, what both ledgers come to. An argument is another address for beta.
set -eu
cd "$(dirname "$0")/../crates/satp"

at=${1:-127.0.0.1:7002}
key=AAECAwQFBgcICQoLDA0ODxAREhMUFRYXGBkaGxwdHh8
directory=$(mktemp -d)
serving=
trap '[ -z "$serving" ] || kill "$serving" 2>/dev/null || true; rm -rf "$directory"' EXIT
alpha=$directory/alpha beta=$directory/beta

# The first run builds the program, and the others run it as it is.
program=(rt run --)
satp() {
    printf '$ satp %s\n' "$*"
    "${program[@]}" "$@"
}

printf 'asset gold 1000000\nhold gold ann 1000\n' |
    satp init --dir "$alpha" --name alpha --peer beta --at "$at" --key "$key" --ledger accounts
program=(out/satp)
printf 'asset gold 1000000\nhold gold bob 100\nhold gold bob 200\nhold gold bob 50\n' |
    satp init --dir "$beta" --name beta --peer alpha --at 127.0.0.1:7001 --key "$key" --ledger outputs

out/satp serve --dir "$beta" --listen "$at" --connections 1 >"$directory/served" &
serving=$!
until grep -q listening "$directory/served"; do
    kill -0 "$serving"
    sleep 0.05
done
satp start --dir "$alpha" --number 1 --amount 250 --asset gold --from ann --to bob
wait "$serving"
serving=
printf '$ satp serve --dir %s --listen %s --connections 1\n' "$beta" "$at"
cat "$directory/served"
satp show --dir "$alpha" --session alpha.1
satp show --dir "$beta" --session alpha.1

if command -v python3 >/dev/null; then
    PYTHONPATH=../../.ci/checks PYTHONDONTWRITEBYTECODE=1 python3 - "$alpha" "$beta" <<'PYTHON'
import sys

import formats

for directory in sys.argv[1:]:
    with open(f"{directory}/ledger", "rb") as file:
        ledger = formats.Ledger(formats.payloads(file.read()))
    print(f"the ledger of {ledger.kind} in {directory}:")
    for session, entry in ledger.entries.items():
        print(f"  {session} is {entry}")
    for (asset, owner), amount in ledger.free().items():
        print(f"  {owner} has {amount} {asset} free")
PYTHON
fi
