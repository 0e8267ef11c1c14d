#!/usr/bin/env bash
# Compares what locks cost in this checkout and in another one, both built: in turns, the best of nine.
#
#     scripts/compare_locks.sh OTHER
#
# First 20,000 transfers in five batches on one thread, in seconds of a processor; then 4,096 and 16,384 readers and writers of one
# resource, released from the front and in random order, in microseconds. The second line of these is to be at most five times
# the first. What is built is run: `rt ci` leaves the programs there, and so does `rt run` in crates/cli and crates/bench_queues.
set -euo pipefail
cd -- "$(dirname -- "$0")/.."
other=$(readlink -f -- "${1:?the other checkout}")

work=$(mktemp -d)
trap 'rm -rf -- "$work"' EXIT
scripts/workloads.sh "$work/workloads"

TIMEFORMAT='%U %S'
transfers() {
    { time "$1/crates/cli/out/cli" run --alone "$work/workloads/bank.json" < "$work/workloads/transfers.log" > "$work/report"; } 2>&1 |
        awk '{ print $1 + $2 }'
}

best() {
    sort -n "$1" | head -1
}

for _ in 1 2 3 4 5 6 7 8 9; do
    transfers "$other" >> "$work/other"
    transfers . >> "$work/this"
    for count in 4096 16384; do
        for tree in other this; do
            top=.
            [[ $tree == other ]] && top=$other
            read -r _ front random < <("$top/crates/bench_queues/out/bench_queues" locks "$count")
            echo "$front" >> "$work/$tree.$count.front"
            echo "$random" >> "$work/$tree.$count.random"
        done
    done
done

printf '%-34s %10s %10s\n' '' other this
printf '%-34s %10s %10s\n' '20,000 transfers, seconds' "$(best "$work/other")" "$(best "$work/this")"
for order in front random; do
    for count in 4096 16384; do
        printf '%-34s %10s %10s\n' "$count, $order, microseconds" "$(best "$work/other.$count.$order")" "$(best "$work/this.$count.$order")"
    done
done
