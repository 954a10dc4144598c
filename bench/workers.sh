#!/usr/bin/env bash
# Runs packets through sixteen devices with 1, 2, 4 and 8 pollers, each in its own thread as are the devices' workers: the
# program of crates/benches, three runs each, or RUNS. None may be lost or doubled; the best time of each is printed. Then
# the processor time of a run in which all threads wait for a worker that its gate delays for a second: at most 50 ms.
#
# usage: bench/workers.sh [PACKETS [RUNS]]     (1000000 by default, at most 1048576)
#
# A billion packets go through by `bench/workers.sh 1000000 250`.
set -euo pipefail

unset CDPATH
top=$(cd "$(dirname "$0")/.." && pwd)
. "$top/scripts/arguments.sh"
at_most 2 "$@"
packets=${1:-1000000}
runs=${2:-3}
is_count PACKETS "$packets"
is_count RUNS "$runs"
[ "$packets" -le 1048576 ] || refuse "PACKETS is $packets, and has to be at most 1048576"
work=$(mktemp -d)
trap 'rm -rf "$work"' EXIT

"$top/scripts/build.sh" benches
program=$top/crates/benches/out/benches

# run DEVICES POLLERS PACKETS MILLISECONDS: makes one run, and checks that it counts each packet once.
run() {
    "$program" threads "$@" > "$work/counts" 2>> "$work/times"
    if [ "$(cat "$work/counts")" != "packets $3 lost 0 doubled 0" ]; then
        cat "$work/counts" >&2
        exit 1
    fi
}

for pollers in 1 2 4 8; do
    : > "$work/times"
    for _ in $(seq "$runs"); do run 16 "$pollers" "$packets" 0; done
    awk -v pollers="$pollers" -v packets="$packets" '!least || $1 < least { least = $1 }
        END { printf "%d pollers: %.0f ms, %.1f ns a packet\n", pollers, least / 1e6, least / packets }' "$work/times"
done

TIMEFORMAT='%3U %3S'
spent=$( { time run 4 2 4 1000; } 2>&1 | awk '{ printf "%d", ($1 + $2) * 1000 + 0.5 }')
echo "held at the gate for a second: $spent ms of processor time"
[ "$spent" -le 50 ]
