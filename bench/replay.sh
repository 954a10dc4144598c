#!/usr/bin/env bash
# Whole runs of the serial replay, including reading and writing, in turn with another program that reads the same traces
# (PEER), on one machine: on the traces of traces.sh, on each .csv file of the folder TRACES if one is named, and, to see the
# growth in rows, on the trace of sixteen devices with 10000, 30000 and 100000 rows. Prints for each the shortest time and the
# peak memory of both, the ratio of the times, and whether the bytes and the exit status agree. The exit status is 1 if they
# don't.
# [TRACES=FOLDER] [PROGRAM=PROGRAM] bench/replay.sh [PEER [TURNS]]
set -euo pipefail
unset CDPATH
. "$(dirname "$0")/../scripts/best.sh"
at_most 2 "$@"
peer=${1:-}
turns=${2:-15}
[ -z "$peer" ] || is_program PEER "$peer"
[ -z "${TRACES:-}" ] || [ -d "$TRACES" ] || refuse "TRACES is '$TRACES', which is no folder"
begin PROGRAM napi_serial
for rows in 10000 30000 100000; do
    "$bench/traces.sh" "$scratch/$rows" "$rows"
done

differs=0

# play NAME TRACE: prints a line for this trace.
play() {
    : > "$scratch/ours"
    : > "$scratch/theirs"
    for _ in $(seq "$turns"); do
        "$scratch/measure" "$2" "$scratch/ours.out" "$program" >> "$scratch/ours"
        [ -z "$peer" ] || "$scratch/measure" "$2" "$scratch/theirs.out" "$peer" >> "$scratch/theirs"
    done
    read -r time size status <<< "$(best "$scratch/ours")"
    line=$(awk -v name="$1" -v time="$time" -v size="$size" 'BEGIN { printf "%-14s %7.2f ms %5.1f MB", name, time / 1000, size / 1024 }')
    if [ -n "$peer" ]; then
        read -r peer_time peer_size peer_status <<< "$(best "$scratch/theirs")"
        line+=$(awk -v ours="$time" -v time="$peer_time" -v size="$peer_size" \
            'BEGIN { printf ", the peer %7.2f ms %5.1f MB, ratio %4.2f", time / 1000, size / 1024, ours / time }')
        if [ "$status" = "$peer_status" ] && cmp -s "$scratch/ours.out" "$scratch/theirs.out"; then
            line+=", the same bytes"
        else
            line+=", OTHER BYTES"
            differs=1
        fi
    elif [ "$status" != 0 ]; then
        line+=", status $status"
        differs=1
    fi
    echo "$line"
}

for name in bursts sends; do
    play "$name" "$scratch/100000/$name.csv"
done
if [ -n "${TRACES:-}" ]; then
    for trace in "$TRACES"/*.csv; do
        play "$(basename "$trace" .csv)" "$trace"
    done
fi
for rows in 10000 30000 100000; do
    play "sixteen $rows" "$scratch/$rows/sixteen.csv"
done
exit "$differs"
