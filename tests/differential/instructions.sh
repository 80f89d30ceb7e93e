#!/usr/bin/env bash
# Counts the machine instructions of a step: tests/differential/instructions.sh [WORKLOAD..]. Each workload is run under callgrind
# by the proved engine, by the same in a pool and by the tuned interpreter, up to two numbers of steps each; what differs is divided by the steps between
# them, so that loading and beginning are left out. Without names all workloads are run. Needs the proved library and valgrind.
set -euo pipefail
cd "$(dirname "$0")/../.."

few=20000
many=70000
program=target/cargo/release/engine_steps
cargo build -q --release --offline --locked -p differential --bin engine_steps
log=$(mktemp)
trap 'rm -f "$log"' EXIT

# The machine instructions of a workload by an interpreter up to so many steps.
count() {
    valgrind --tool=callgrind --callgrind-out-file=/dev/null "$program" "$@" >"$log" 2>&1 || { cat "$log"; exit 1; }
    grep -q "^$3 steps$" "$log" || { echo "instructions: $1 has no $3 steps"; exit 1; }
    sed -n 's/^==.*Collected : \([0-9]*\)$/\1/p' "$log"
}

# The same of a step, in tenths.
of_a_step() {
    echo $((($(count "$1" "$2" "$many") - $(count "$1" "$2" "$few")) * 10 / (many - few)))
}

if [ $# -eq 0 ]; then mapfile -t names < <("$program"); else names=("$@"); fi
echo "machine instructions of a step"
for name in "${names[@]}"; do
    proved=$(of_a_step "$name" proved)
    pooled=$(of_a_step "$name" pooled)
    tuned=$(of_a_step "$name" tuned)
    echo "$name $proved $pooled $tuned" |
        awk '{
            p = $(NF - 2); o = $(NF - 1); t = $NF; NF -= 3
            printf "%-16s proved %7.1f   in a pool %7.1f   tuned %6.1f   proved/tuned %5.2f\n", $0, p / 10, o / 10, t / 10, p / t
        }'
done
