#!/usr/bin/env bash
# Whole runs of napi_machine, including reading and writing, in turn with the plain program of machine.cc (g++ -O2), on arrivals
# of one processor: bursts at four devices. From 10000 to 10000000 packets with a budget of 64, and 10000000 with deferred
# interrupts, threads, coalescing, a backlog, queues, and the application on its own processor. Prints for each the shortest
# time and the peak memory of both, and the ratio of the times. The exit status is 1 if their reports differ.
# [MACHINE=PROGRAM] bench/machine.sh [TURNS]
set -euo pipefail
unset CDPATH
. "$(dirname "$0")/../scripts/best.sh"
at_most 1 "$@"
turns=${1:-3}
is_tool g++
begin MACHINE napi_machine
g++ -std=c++17 -O2 -o "$scratch/plain" "$bench/machine.cc"

# arrivals PACKETS [flow]: bursts of 100 packets 500 ns apart, each of one of four devices, which keep the processor busy half of the
# time. A burst is more than a poll's weight.
arrivals() {
    awk -v packets="$1" -v flow="${2:-}" 'BEGIN {
        print "ns,device,bytes" (flow == "" ? "" : ",flow")
        for (packet = 0; packet < packets; packet++) {
            row = sprintf("%.0f,%d,%d", int(packet / 100) * 625000 + packet % 100 * 500, 1 + int(packet / 100) % 4, 60 + packet * 37 % 1440)
            print row (flow == "" ? "" : "," packet * 7 % 1000)
        }
    }' > "$scratch/arrivals"
}

differs=0
# both NAME PACKETS OPTION ..: prints a line for these arrivals.
both() {
    local name=$1 packets=$2
    shift 2
    rm -f "$scratch/ours" "$scratch/theirs"
    for _ in $(seq "$turns"); do
        "$scratch/measure" "$scratch/arrivals" "$scratch/ours.out" "$program" "$@" >> "$scratch/ours"
        "$scratch/measure" "$scratch/arrivals" "$scratch/theirs.out" "$scratch/plain" "$@" >> "$scratch/theirs"
    done
    read -r time size status <<< "$(best "$scratch/ours")"
    read -r plain_time plain_size plain_status <<< "$(best "$scratch/theirs")"
    local compared='the same report'
    if [ "$status $plain_status" != '0 0' ] || ! cmp -s "$scratch/ours.out" "$scratch/theirs.out"; then
        compared='OTHER REPORTS'
        differs=1
    fi
    awk -v name="$name" -v packets="$packets" -v time="$time" -v size="$size" -v plain_time="$plain_time" -v plain_size="$plain_size" \
        -v compared="$compared" 'BEGIN {
        printf "%-26s %8d packets %8.1f ms %5.1f MB, plain %8.1f ms %5.1f MB, ratio %4.2f, %s\n", name, packets, time / 1000, size / 1024,
            plain_time / 1000, plain_size / 1024, time / plain_time, compared }'
}

most=10000000
for packets in 10000 100000 1000000 "$most"; do
    arrivals "$packets"
    both 'one processor' "$packets" --budget 64
done
deferral='--defer-hard-irqs 2 --gro-flush-timeout 20000'
# shellcheck disable=SC2086 # the options are several
{
    both 'deferral' "$most" $deferral
    both 'threads' "$most" --threaded 1
    both 'threads with deferral' "$most" --threaded 1 $deferral
    both 'coalescing' "$most" --rx-nsecs 20000 --rx-frames 32
    both 'backlog' "$most" --backlog 1
    both 'apart' "$most" --apart 1 --app-wake 3000
    arrivals "$most" flow
    both '64 queues' "$most" --queues 16
    both '64 queues with deferral' "$most" --queues 16 $deferral
}
exit "$differs"
