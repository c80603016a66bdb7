#!/usr/bin/env bash
# Requests taken per second from a long stream in pieces of 1, 64 and 4,096 bytes, beside node's HTTP parser in the same
# run. Each is the best of three runs in turn. bench/README.md says what is measured.
. "$(dirname "${BASH_SOURCE[0]}")/../.ci/prepare.sh"
needs node
make_program satp_driver
make_folder

driver=crates/satp_driver/out/satp_driver
stream=$folder/stream

# The seconds that the driver takes for the stream.
ours() {
    local begin=$EPOCHREALTIME count
    count=$("$driver" requests "$1" <"$stream")
    [ "$count" = "$2" ] || { echo "bench/http: $count of $2 requests taken" >&2; exit 1; }
    awk -v begin="$begin" -v end="$EPOCHREALTIME" 'BEGIN { print end - begin }'
}

# Those that the yardstick takes.
yardstick() {
    local count seconds
    read -r count seconds < <(node --no-warnings bench/http_yardstick.js parse "$1" <"$stream")
    [ "$count" = "$2" ] || { echo "bench/http: the yardstick took $count of $2 requests" >&2; exit 1; }
    echo "$seconds"
}

least() {
    printf '%s\n' "$@" | sort -g | head -n 1
}

measure() {
    local piece=$1 count=$2 a=() b=()
    node --no-warnings bench/http_yardstick.js stream "$count" >"$stream"
    for _ in 1 2 3; do
        a+=("$(ours "$piece" "$count")")
        b+=("$(yardstick "$piece" "$count")")
    done
    awk -v piece="$piece" -v count="$count" -v a="$(least "${a[@]}")" -v b="$(least "${b[@]}")" 'BEGIN {
        printf "pieces of %4d bytes: %9.0f requests a second, node %9.0f, ratio %.2f\n", piece, count / a, count / b, b / a
    }'
}

measure 1 "${1:-500}"
measure 64 "${2:-20000}"
measure 4096 "${3:-100000}"
