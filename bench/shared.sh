#!/usr/bin/env bash
# Whole runs in shared mode, including reading and writing, in turn with serial mode of the same program, on the traces of
# traces.sh with 100000 rows. Prints for each the shortest time of both modes and their ratio. The exit status is 1 if the bytes
# differ.
# [PROGRAM=PROGRAM] bench/shared.sh [TURNS]
set -euo pipefail
unset CDPATH
. "$(dirname "$0")/../scripts/best.sh"
at_most 1 "$@"
turns=${1:-15}
begin PROGRAM napi_replay
"$bench/traces.sh" "$scratch/traces"

differs=0
for name in bursts sends sixteen; do
    for _ in $(seq "$turns"); do
        for mode in serial shared; do
            "$scratch/measure" "$scratch/traces/$name.csv" "$scratch/$mode.out" "$program" --mode "$mode" >> "$scratch/$name.$mode"
        done
    done
    read -r serial _ status <<< "$(best "$scratch/$name.serial")"
    read -r shared _ shared_status <<< "$(best "$scratch/$name.shared")"
    same='the same bytes'
    if [ "$status $shared_status" != '0 0' ] || ! cmp -s "$scratch/serial.out" "$scratch/shared.out"; then
        same='OTHER BYTES'
        differs=1
    fi
    awk -v name="$name" -v serial="$serial" -v shared="$shared" -v same="$same" 'BEGIN {
        printf "%-8s shared %7.2f ms, serial %7.2f ms, ratio %4.2f, %s\n", name, shared / 1000, serial / 1000, shared / serial, same }'
done
exit "$differs"
