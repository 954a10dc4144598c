#!/usr/bin/env bash
# Whole runs in threads mode, including reading and writing, in turn with another program that has that mode (PEER), on one
# machine: 100000 rows on 1, 4 and 16 devices, each with 1, 2, 4 and 8 pollers. Prints for each the shortest time and the peak
# memory of both, the ratio of the times, and whether the bytes and the exit status agree. Then 200 random traces, or
# RANDOM_TRACES of them, each with 1, 2 and 8 pollers and twice: every run has to write the peer's bytes. The exit status is 1
# if bytes differ.
# [PROGRAM=PROGRAM] [RANDOM_TRACES=N] bench/threads.sh PEER [TURNS]
set -euo pipefail
unset CDPATH
. "$(dirname "$0")/../scripts/best.sh"
at_most 2 "$@"
peer=${1:-}
turns=${2:-9}
random=${RANDOM_TRACES:-200}
is_program PEER "$peer"
is_count RANDOM_TRACES "$random"
is_tool python3
begin PROGRAM napi_replay

# Rows over this many devices in turn: of five, three are packets that arrive, one is sent and one completed. Each ring has room
# for all packets, as threads mode requires.
spread() {
    awk -v devices="$1" -v rows=100000 'BEGIN {
        print "moment,device,event,value"
        for (device = 1; device <= devices; device++) print "0," device ",open," int(rows * 3 / 5 / devices) + 5
        for (row = devices + 1; row <= rows; row++) {
            device = 1 + row % devices
            turn = int(row / devices) % 5
            if (turn < 3) print row "," device ",rx," 60 + row * 37 % 1440
            else if (turn == 3) print row "," device ",tx," 60 + row * 53 % 1440
            else print row "," device ",done,1"
        }
    }'
}

differs=0

# play DEVICES POLLERS: prints a line of the table.
play() {
    local words=(--mode threads --pollers "$2")
    : > "$scratch/ours"
    : > "$scratch/theirs"
    for _ in $(seq "$turns"); do
        "$scratch/measure" "$scratch/$1.csv" "$scratch/ours.out" "$program" "${words[@]}" >> "$scratch/ours"
        "$scratch/measure" "$scratch/$1.csv" "$scratch/theirs.out" "$peer" "${words[@]}" >> "$scratch/theirs"
    done
    read -r time size status <<< "$(best "$scratch/ours")"
    read -r peer_time peer_size peer_status <<< "$(best "$scratch/theirs")"
    local same='the same bytes'
    if [ "$status" != "$peer_status" ] || ! cmp -s "$scratch/ours.out" "$scratch/theirs.out"; then
        same='OTHER BYTES'
        differs=1
    fi
    awk -v devices="$1" -v pollers="$2" -v time="$time" -v size="$size" -v peer_time="$peer_time" -v peer_size="$peer_size" -v same="$same" \
        'BEGIN { printf "%2d devices %d pollers %7.2f ms %5.1f MB, the peer %7.2f ms %5.1f MB, ratio %4.2f, %s\n",
            devices, pollers, time / 1000, size / 1024, peer_time / 1000, peer_size / 1024, time / peer_time, same }'
}

for devices in 1 4 16; do
    spread "$devices" > "$scratch/$devices.csv"
    for pollers in 1 2 4 8; do
        play "$devices" "$pollers"
    done
done

# agree SEED: checks that both programs print the same, with the same status, for this random trace.
agree() {
    python3 "$bench/random_trace.py" "$1" > "$scratch/random.csv"
    for pollers in 1 2 8; do
        local wanted=0
        "$peer" --mode threads --pollers "$pollers" < "$scratch/random.csv" > "$scratch/theirs.out" 2> "$scratch/theirs.err" || wanted=$?
        for _ in 1 2; do
            local status=0
            "$program" --mode threads --pollers "$pollers" < "$scratch/random.csv" > "$scratch/ours.out" 2> "$scratch/ours.err" || status=$?
            if [ "$status" != "$wanted" ] || ! cmp -s "$scratch/ours.out" "$scratch/theirs.out" || ! cmp -s "$scratch/ours.err" "$scratch/theirs.err"; then
                echo "the random trace $1 with $pollers pollers differs"
                differs=1
            fi
        done
    done
}

for seed in $(seq "$random"); do
    agree "$seed"
done
[ "$differs" != 0 ] || echo "$random random traces: the peer's bytes with 1, 2 and 8 pollers"
exit "$differs"
