#!/usr/bin/env bash
# Instructions of one call on the cases that take less than a microsecond, where a clock tells little: callgrind's count of 3,000 calls
# less that of 1,000, by 2,000. After `rt lib` in crates/gate.
set -euo pipefail
cd "$(dirname "$0")"
cargo build --release --offline --quiet

# counted CALL CASE TIMES: the instructions of a whole run
counted() {
    valgrind --tool=callgrind --callgrind-out-file=/dev/null target/release/gate-bench "$1" "$2" "$3" 2>&1 |
        sed -n 's/.*Collected *: *//p'
}

# row CASE CALL...: the instructions of each call on that case
row() {
    local case=$1 call few many
    shift
    printf '%-20s' "$case"
    for call in "$@"; do
        few=$(counted "$call" "$case" 1000)
        many=$(counted "$call" "$case" 3000)
        printf ' %10d' $(((many - few) / 2000))
    done
    echo
}

printf '%-20s %10s %10s %10s\n' instructions check present reference
for case in 'small proof' 'early refusal'; do
    row "$case" check present reference
done
printf '%-20s %10s %10s\n' instructions write reference
for case in 'write a small claim' 'write a small proof'; do
    row "$case" write 'reference write'
done
