#!/bin/sh
# Times calls of the C library from C: pairs on a queue limit, compared with the plain C++ fold of bench/limits.cc, which is
# inlined and has to count the same; cycles of a shared instance by one thread (schedule, hand, take, complete), compared with
# the same cycles by the typed calls (crates/benches); packets that a driver (fq_driver_new) polls, one or 64 at each
# interrupt, reported and asked for in two calls or in one, or in one with the interrupt; and packets, put one by one and in bursts of 64, and polled 64 at a
# time, and put and polled in bursts of 1, 8, 32 and 64, by copies and without them (fq_ring_places), compared with DPDK's ring in the same
# loop, if DPDK is installed (Debian: libdpdk-dev). Three rounds of all in turn; the best time of each is printed, with C's ratio to the other. Then nine rounds of looks by two threads at once, with handles that are adjacent or 128 bytes apart: the
# best and the median time of each.
#
# usage: bench/c_library.sh [TIMES]     (10000000 by default; of the cycles and looks a tenth)
set -eu

unset CDPATH
bench=$(cd "$(dirname "$0")" && pwd)
. "$bench/../scripts/arguments.sh"
at_most 1 "$@"
times=${1:-10000000}
is_count TIMES "$times"
turns=$(((times + 9) / 10))
is_tool g++
is_tool gcc
work=$(mktemp -d)
trap 'rm -rf "$work"' EXIT

"$bench/../scripts/c_library.sh" "$work"
"$bench/../scripts/build.sh" benches
gcc -std=c11 -O2 -pthread -I "$bench/../include" "$bench/c_library.c" "$work/libfintaqush.a" -o "$work/c_library"
g++ -O2 -o "$work/fold" "$bench/limits.cc"
has_dpdk=
! pkg-config --exists libdpdk 2> /dev/null || has_dpdk=yes
# shellcheck disable=SC2046 # words
[ -z "$has_dpdk" ] || gcc -O2 -I "$bench/../include" $(pkg-config --cflags libdpdk) "$bench/dpdk_ring.c" $(pkg-config --libs libdpdk) -o "$work/dpdk_ring"

for _ in 1 2 3; do
    "$work/fold" "$times" > "$work/fold.line" 2> "$work/spent"
    cut -d ' ' -f 1 "$work/spent" >> "$work/fold.times"
    for what in limits turns driver driver64 step step64 turn turn64 packets bursts 1 8 32 64 places1 places8 places32 places64; do
        count=$times
        [ "$what" != turns ] || count=$turns
        "$work/c_library" "$what" "$count" > "$work/$what.line" 2> "$work/spent"
        cut -d ' ' -f 1 "$work/spent" >> "$work/$what.times"
    done
    for burst in ${has_dpdk:+1 8 32 64 places1 places8 places32 places64}; do
        "$work/dpdk_ring" "$burst" "$times" > "$work/dpdk.line" 2> "$work/spent"
        cut -d ' ' -f 1 "$work/spent" >> "$work/dpdk$burst.times"
    done
    "$bench/../crates/benches/out/benches" cycles "$turns" > "$work/typed.line" 2> "$work/spent"
    awk '$1 == "typed" { print $2 }' "$work/spent" >> "$work/typed.times"
    if ! cmp -s "$work/limits.line" "$work/fold.line"; then
        echo 'the library counts otherwise than the fold:' >&2
        cat "$work/fold.line" "$work/limits.line" >&2
        exit 1
    fi
done

# Two threads meet only while both run: if that is allowed, before all other work of the machine.
before=
! chrt -f 5 true 2> /dev/null || before='chrt -f 5'
for _ in 1 2 3 4 5 6 7 8 9; do
    for what in beside apart; do
        $before "$work/c_library" "$what" "$turns" > "$work/$what.line" 2> "$work/spent"
        cut -d ' ' -f 1 "$work/spent" >> "$work/$what.times"
    done
done

least() { sort -n "$work/$1.times" | head -n 1; }
# show NAME WHAT TIMES [BESIDE NAME]
show() {
    awk -v name="$1" -v spent="$(least "$2")" -v times="$3" -v beside="${4:+$(least "$4")}" -v other="${5:-}" 'BEGIN {
        printf "%-32s %6.2f ns", name, spent / times
        if (beside) printf ", %4.2f of %s", spent / beside, other
        print "" }'
}
show 'a pair on a limit by the fold' fold "$times"
show 'the same pair from C' limits "$times" fold 'the fold'
show 'a turn by the typed calls' typed "$turns"
show 'the same turn from C' turns "$turns" typed 'the typed calls'
show 'a packet of a driver' driver "$times"
show 'a packet of a driver, 64 at once' driver64 "$times"
show 'the same, one by one, in steps' step "$times"
show 'the same, 64 at once, in steps' step64 "$times"
show 'the same, one by one, in turns' turn "$times"
show 'the same, 64 at once, in turns' turn64 "$times"
show 'a packet from C, weight 64' packets "$times"
show 'a packet from C, in bursts' bursts "$times"
for burst in 1 8 32 64; do
    show "a packet put and polled, $burst at once" "$burst" "$times" ${has_dpdk:+"dpdk$burst" "DPDK's ring"}
done
for burst in 1 8 32 64; do
    show "the same without copies, $burst at once" "places$burst" "$times" ${has_dpdk:+"dpdkplaces$burst" "DPDK's"}
done
for what in beside apart; do
    sort -n "$work/$what.times" | awk -v name="a look of two threads, $what" -v times="$turns" 'NR == 1 { best = $1 } NR == 5 {
        printf "%-32s %6.2f ns, in the middle %.2f ns\n", name, best / times, $1 / times }'
done
