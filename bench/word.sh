#!/bin/sh
# Times cycles of an instance by its state word: the program of crates/benches, compared with the same cycles in plain C++
# (bench/word.cc, g++ -O2), with every step sequentially consistent, the same with the loops of compare-exchanges that the
# toolchain makes from each or and and, and with the kernel's memory orders; and with the context itself in the slot or a
# pointer to it. Once by one thread, once while a second thread schedules all the time. Then the cycles of one thread by the
# typed calls of crates/napi_calls, compared with the steps that they use, and cycles of busy polling (take, a held completion,
# stop, complete), compared with those of the same calls by the list. All keep to two processors. Nine rounds of all programs in
# turn; the best time of each is printed, with the ratio to the program's.
#
# usage: bench/word.sh [TURNS]     (1000000 by default)
set -eu

unset CDPATH
top=$(cd "$(dirname "$0")/.." && pwd)
. "$top/scripts/arguments.sh"
. "$top/bench/pinned.sh"
at_most 1 "$@"
turns=${1:-1000000}
is_count TURNS "$turns"
is_tool g++
is_tool taskset
work=$(mktemp -d)
trap 'rm -rf "$work"' EXIT

"$top/scripts/build.sh" benches
g++ -std=c++17 -O2 -pthread -o "$work/by_hand" "$top/bench/word.cc"

programs='napi_word seq_cst-value seq_cst-pointer loops-value kernel-value kernel-pointer'
run() {
    case $1 in
        napi_word) pinned 2 "$top/crates/benches/out/benches" cycles "$turns" > "$work/all.counts"
            grep -v '^typed\|^busy' "$work/all.counts" ;;
        *) pinned 2 "$work/by_hand" "${1%-*}" "${1#*-}" "$turns" ;;
    esac
}

for _ in 1 2 3 4 5 6 7 8 9; do
    for program in $programs; do
        run "$program" > "$work/$program.counts" 2>> "$work/$program.times"
        if ! cmp -s "$work/$program.counts" "$work/napi_word.counts"; then
            echo "$program counts otherwise than napi_word:" >&2
            cat "$work/napi_word.counts" "$work/$program.counts" >&2
            exit 1
        fi
    done
done

cat "$work/all.counts"
# The best time of a program for one thread, for the typed calls or busy polling, or for two threads: of the rounds in which the
# second thread took part, so that nine polls in ten were followed by another.
least() {
    awk -v threads="$2" '$1 == threads && ($1 != "two" || 10 * $7 >= 9 * $5) && (!least || $2 < least) { least = $2 }
        END { print least + 0 }' "$work/$1.times"
}
for threads in one two; do
    ours=$(least napi_word "$threads")
    for program in $programs; do
        awk -v name="$program" -v threads="$threads" -v turns="$turns" -v spent="$(least "$program" "$threads")" -v ours="$ours" \
            'BEGIN {
                if (spent && ours) printf "%s %-15s %6.1f ns a turn, napi_word %4.2f of it\n", threads, name, spent / turns, ours / spent
                else printf "%s %-15s no round in which both threads ran\n", threads, name
            }'
    done
done
awk -v turns="$turns" -v spent="$(least napi_word typed)" -v steps="$(least napi_word one)" \
    'BEGIN { printf "one typed calls     %6.1f ns a turn, %4.2f of the steps below them\n", spent / turns, spent / steps }'
awk -v turns="$turns" -v spent="$(least napi_word busy)" -v listed="$(least napi_word typed)" \
    'BEGIN { printf "one busy polling    %6.1f ns a turn, %4.2f of one by the list\n", spent / turns, spent / listed }'
# What the second thread did to the cycles, in the last round.
for program in $programs; do
    awk -v name="$program" '$1 == "two" { line = $0 } END { sub(/.* ns /, "", line); printf "two %-15s %s\n", name, line }' "$work/$program.times"
done
