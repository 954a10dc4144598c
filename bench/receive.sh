#!/bin/sh
# Times polls of a receive ring for the weights 1, 16 and 64, compared with a plain loop over the `pop` of `rtrb`: the program
# of crates/benches, nine runs. All four have to count the same packets; the best time of each is printed.
#
# usage: bench/receive.sh [ROUNDS]     (1000 rounds of 4096 packets by default)
set -eu

unset CDPATH
top=$(cd "$(dirname "$0")/.." && pwd)
. "$top/scripts/arguments.sh"
at_most 1 "$@"
rounds=${1:-1000}
is_count ROUNDS "$rounds"
work=$(mktemp -d)
trap 'rm -rf "$work"' EXIT

"$top/scripts/build.sh" benches

for _ in 1 2 3 4 5 6 7 8 9; do
    "$top/crates/benches/out/benches" polls "$rounds" > "$work/counts" 2>> "$work/times"
    if [ "$(cut -d ' ' -f 2- "$work/counts" | uniq | wc -l)" != 1 ]; then
        echo 'the packets are counted otherwise:' >&2
        cat "$work/counts" >&2
        exit 1
    fi
done

head -n 1 "$work/counts" | cut -d ' ' -f 2-
for name in pop weight-1 weight-16 weight-64; do
    awk -v name="$name" -v packets="$(awk '{ print $3; exit }' "$work/counts")" \
        '$1 == name && (!least || $2 < least) { least = $2 }
        END { printf "%-9s %5.2f ns a packet\n", name, least / packets }' "$work/times"
done
