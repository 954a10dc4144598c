#!/bin/sh
# Times packets on their way from one thread to another: through a shared instance, with a request for a poll after each packet,
# and through a bare ring of `rtrb`, which the second thread reads all the time (crates/benches); and through a queue with a
# mutex in C++ (bench/pair.cc, g++ -O2), where the second thread waits for a condition. All keep to two processors, and have to
# count the same; nine rounds of all in turn, the best time of each is printed.
#
# usage: bench/pair.sh [PACKETS]     (1000000 by default)
set -eu

unset CDPATH
top=$(cd "$(dirname "$0")/.." && pwd)
. "$top/scripts/arguments.sh"
. "$top/bench/pinned.sh"
at_most 1 "$@"
packets=${1:-1000000}
is_count PACKETS "$packets"
is_tool g++
is_tool taskset
work=$(mktemp -d)
trap 'rm -rf "$work"' EXIT

"$top/scripts/build.sh" benches
g++ -std=c++17 -O2 -pthread -o "$work/by_hand" "$top/bench/pair.cc"

for _ in 1 2 3 4 5 6 7 8 9; do
    pinned 2 "$top/crates/benches/out/benches" packets "$packets" > "$work/counts" 2>> "$work/times"
    pinned 2 "$work/by_hand" "$packets" >> "$work/counts" 2>> "$work/times"
    if [ "$(cut -d ' ' -f 2- "$work/counts" | uniq | wc -l)" != 1 ]; then
        echo 'the packets are counted otherwise:' >&2
        cat "$work/counts" >&2
        exit 1
    fi
done

head -n 1 "$work/counts" | cut -d ' ' -f 2-
for name in shared rtrb mutex; do
    awk -v name="$name" -v packets="$packets" '$1 == name && (!least || $2 < least) { least = $2 }
        END { printf "%-7s %6.1f ns a packet\n", name, least / packets }' "$work/times"
done
