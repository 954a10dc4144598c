#!/usr/bin/env bash
# Random traces of all events in serial and in shared mode, and by another program that reads the same traces (PEER): the bytes,
# the message of the error and the exit status have to be the same. 1000 traces, or TRACES of them, with the seeds from 1 on
# (random_trace.py), of VERSION 1 by default; budget, weight and window are in turn the defaults and others. Prints how many had
# a report, and how many which error. A trace on which they differ is printed with its seed and its options. The exit status is
# 1 if bytes differ.
# [PROGRAM=PROGRAM] bench/modes.sh PEER [TRACES [VERSION]]
set -euo pipefail
unset CDPATH
bench=$(cd "$(dirname "$0")" && pwd)
. "$bench/../scripts/arguments.sh"
at_most 3 "$@"
peer=${1:-}
traces=${2:-1000}
version=${3:-1}
program=${PROGRAM:-$bench/../crates/napi_replay/out/napi_replay}
is_program PEER "$peer"
is_count TRACES "$traces"
is_count VERSION "$version"
is_tool python3
[ -n "${PROGRAM:-}" ] || "$bench/../scripts/build.sh" napi_replay
is_program PROGRAM "$program"
scratch=$(mktemp -d)
trap 'rm -rf "$scratch"' EXIT

# The options of a run, by its seed.
budgets=('' --budget=1 --budget=64 --budget=65 --budget=7)
weights=('' '' --weight=1 --weight=63)
windows=('' '' --window=1 --window=5 '' --window=2 '')

# play NAME PROGRAM OPTION ..: the output of a program for the trace, with its status as the last line of the errors.
play() {
    local name=$1 status=0
    shift
    "$@" < "$scratch/trace" > "$scratch/$name.out" 2> "$scratch/$name.err" || status=$?
    echo "$status" >> "$scratch/$name.err"
}

differs=0
: > "$scratch/answers"
for seed in $(seq "$traces"); do
    python3 -B "$bench/random_trace.py" "$seed" "$version" > "$scratch/trace"
    words=()
    for word in "${budgets[seed % 5]}" "${weights[seed % 4]}" "${windows[seed % 7]}"; do
        [ -z "$word" ] || words+=("$word")
    done
    play theirs "$peer" "${words[@]}"
    sed 's/ row .*//; q' "$scratch/theirs.err" >> "$scratch/answers"
    for mode in serial shared; do
        play ours "$program" --mode "$mode" "${words[@]}"
        if ! cmp -s "$scratch/ours.out" "$scratch/theirs.out" || ! cmp -s "$scratch/ours.err" "$scratch/theirs.err"; then
            echo "seed $seed, --mode $mode ${words[*]}: OTHER BYTES"
            differs=1
        fi
    done
done

sort "$scratch/answers" | uniq -c | sed 's/^\( *[0-9]* \)0$/\1a report/'
[ "$differs" = 1 ] || echo "$traces traces: the same bytes in both modes"
exit "$differs"
