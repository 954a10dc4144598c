#!/usr/bin/env bash
# Instructions of the serial replay per further row, counted by valgrind's callgrind, from 1000 to 10000 and from 10000 to 100000
# rows and for 1, 4 and 16 devices: bursts of 63 packets, each for one device, the devices in turn, and after each burst a run.
# All rows have the same length (moments of seven digits, devices of two, values of four), and each run polls one device: so the
# counts show what rows and devices cost that are merely there. What a run costs once, such as the buffer of a read that is
# cleared before it, isn't counted. Prints a row of the table for each number of devices, and by how much the counts differ. The
# exit status is 1 if that is over 3 %, or if a run fails.
# [PROGRAM=PROGRAM] bench/growth.sh
set -euo pipefail
unset CDPATH
bench=$(cd "$(dirname "$0")" && pwd)
. "$bench/../scripts/arguments.sh"
at_most 0 "$@"
program=${PROGRAM:-$bench/../crates/napi_serial/out/napi_serial}
is_tool valgrind
[ -n "${PROGRAM:-}" ] || "$bench/../scripts/build.sh" napi_serial
is_program PROGRAM "$program"
scratch=$(mktemp -d)
trap 'rm -rf "$scratch"' EXIT

# trace DEVICES ROWS: this many opens, and then this many rows.
trace() {
    awk -v devices="$1" -v rows="$2" 'BEGIN {
        print "moment,device,event,value"
        for (device = 1; device <= devices; device++) printf "1000000,%02d,open,4096\n", device
        for (row = 1; row <= rows; row++)
            if (row % 64 == 0) printf "%d,00,softirq,0000\n", 1000000 + row
            else printf "%d,%02d,rx,%d\n", 1000000 + row, 1 + int(row / 64) % devices, 1000 + row * 37 % 500
    }'
}

# count DEVICES ROWS: prints how many instructions a run takes.
count() {
    trace "$1" "$2" > "$scratch/trace"
    if ! valgrind --tool=callgrind --callgrind-out-file=/dev/null "$program" < "$scratch/trace" > "$scratch/out" 2> "$scratch/err"; then
        tail -n 1 "$scratch/err" >&2
        exit 1
    fi
    awk '/Collected *:/ { count = $NF } END { print count }' "$scratch/err"
}

echo "devices   1000 to 10000   10000 to 100000"
: > "$scratch/all"
for devices in 1 4 16; do
    line=$(printf '%7d' "$devices")
    before=$(count "$devices" $((1000 - devices)))
    for rows in 10000 100000; do
        all=$(count "$devices" $((rows - devices)))
        each=$(awk -v all="$all" -v before="$before" -v rows="$rows" 'BEGIN { printf "%.1f", (all - before) / (rows * 0.9) }')
        before=$all
        echo "$each" >> "$scratch/all"
        line+=$(printf '%16s' "$each")
    done
    echo "$line"
done
sort -n "$scratch/all" | awk '
    NR == 1 { least = $1 }
    { most = $1 }
    END {
        apart = 100 * (most / least - 1)
        printf "%.1f %% apart\n", apart
        exit !(apart <= 3)
    }'
