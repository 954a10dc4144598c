#!/bin/sh
# Times runs of the softirq over 16 devices, for 1, 8, 64 and 256 packets in the ring of each: the program of
# crates/benches, compared with the same runs in plain C++ (bench/softirq.cc, g++ -O2). Only the runs are timed, not the
# interrupts that fill the rings. Both have to count the same; nine rounds of both in turn, the best time of each is printed.
#
# usage: bench/softirq.sh [ROUNDS]     (2000 rounds by default)
set -eu

unset CDPATH
top=$(cd "$(dirname "$0")/.." && pwd)
. "$top/scripts/arguments.sh"
. "$top/bench/pinned.sh"
at_most 1 "$@"
rounds=${1:-2000}
is_count ROUNDS "$rounds"
is_tool g++
is_tool taskset
work=$(mktemp -d)
trap 'rm -rf "$work"' EXIT

"$top/scripts/build.sh" benches
g++ -std=c++17 -O2 -o "$work/by_hand" "$top/bench/softirq.cc"

for _ in 1 2 3 4 5 6 7 8 9; do
    pinned 1 "$top/crates/benches/out/benches" runs "$rounds" > "$work/counts" 2>> "$work/times"
    pinned 1 "$work/by_hand" "$rounds" > "$work/by_hand.counts" 2>> "$work/by_hand.times"
    if ! cmp -s "$work/counts" "$work/by_hand.counts"; then
        echo 'the runs are counted otherwise:' >&2
        cat "$work/by_hand.counts" "$work/counts" >&2
        exit 1
    fi
done

cat "$work/counts"
least() { awk -v name="$1" '$1 == name && (!least || $2 < least) { least = $2 } END { print least }' "$2"; }
while read -r name _ _ _ _ _ packets _; do
    awk -v name="$name" -v packets="$packets" -v ours="$(least "$name" "$work/times")" -v theirs="$(least "$name" "$work/by_hand.times")" \
        'BEGIN { printf "%-9s %5.2f ns a packet, by hand %5.2f: %4.2f\n", name, ours / packets, theirs / packets, ours / theirs }'
done < "$work/counts"
