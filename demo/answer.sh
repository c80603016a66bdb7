#!/usr/bin/env bash
# Builds the program, and lets the gateway beta answer a transfer proposal: the receipt is printed.
set -eu
cd "$(dirname "$0")/../crates/satp"

proposal='{"kind":"transfer-proposal","previous":"AAAAAAAAAAAAAAAAAAAAAAAAAAAAAAAAAAAAAAAAAAA","receiver":"beta","sender":"alpha","sequence":1,"session":"alpha.1","terms":{"amount":250,"asset":"gold","beneficiary":"bob","originator":"ann"},"version":1}'

printf '%s\n' "$proposal" | rt run -- answer beta
