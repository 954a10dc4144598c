#!/usr/bin/env bash
# Whether threads mode always ends: RUNS runs of it (2000) on one processor with 8 pollers, with the normal, the idle and a
# real-time scheduling in turn, if chrt may set it; in turn without a failed call, and with the start of a thread or an
# allocation that fails, at random. Each has to end within LONGEST seconds (120), with its report or the message of what failed;
# one that doesn't is killed, and its options are printed. Prints how the runs ended. The exit status is 1 if one hung or ended
# otherwise.
#
# usage: [LONGEST=SECONDS] bench/endings.sh [PROGRAM [RUNS [SEED]]]
set -euo pipefail
unset CDPATH
top=$(cd "$(dirname "$0")/.." && pwd)
. "$top/scripts/arguments.sh"
at_most 3 "$@"
[ $# -gt 0 ] || "$top/scripts/build.sh" napi_replay
program=${1:-$top/crates/napi_replay/out/napi_replay}
runs=${2:-2000}
seed=${3:-1}
longest=${LONGEST:-120}
is_program PROGRAM "$program"
is_count RUNS "$runs"
is_count SEED "$seed"
is_count LONGEST "$longest"
for tool in cc taskset timeout chrt; do is_tool "$tool"; done
folder=$(mktemp -d)
trap 'rm -rf "$folder"' EXIT
cc -O1 -shared -fPIC -o "$folder/refuse.so" "$top/bench/refuse.c" -ldl

# Sixteen devices, half of them with their own thread: packets, disables and enables, and threaded settings.
awk 'BEGIN {
    print "moment,device,event,value"
    for (device = 1; device <= 16; device++) print "0," device ",open,256"
    for (device = 2; device <= 16; device += 2) print "0," device ",threaded,1"
    for (round = 1; round <= 12; round++)
        for (device = 1; device <= 16; device++) {
            for (packet = 0; packet < 8; packet++) print round "," device ",rx,100"
            if ((round + device) % 3 == 0) { print round "," device ",disable,0"; print round "," device ",enable,0" }
            if (device % 2 == 0) print round "," device ",threaded," (round + device / 2) % 2
        }
}' > "$folder/trace.csv"

words=(--mode threads --pollers 8)
"$program" "${words[@]}" < "$folder/trace.csv" > "$folder/report"

priority() { if [ "$1" = --fifo ]; then echo 1; else echo 0; fi; }
schedulings=(--other)
for one in --idle --fifo; do
    if chrt "$one" "$(priority "$one")" true 2> /dev/null; then
        schedulings+=("$one")
    else
        echo "passed over: chrt $one isn't allowed here"
    fi
done
processor=$(taskset -c -p $$ | sed 's/.*: //; s/[-,].*//')

# The number of the call that fails: drawn from those that a run makes at most.
RANDOM=$seed
drawn() { echo $((RANDOM % $1 + 1)); }

failed=0
: > "$folder/ends"
for ((run = 0; run < runs; run++)); do
    scheduling=${schedulings[run % ${#schedulings[@]}]}
    refusal=REFUSE_NONE=1
    case $((run / ${#schedulings[@]} % 3)) in
        1) refusal=REFUSE_THREAD=$(drawn 32) ;;
        2) refusal=REFUSE_MEMORY=$(drawn 260) ;;
    esac
    status=0
    timeout -s KILL "$longest" chrt "$scheduling" "$(priority "$scheduling")" taskset -c "$processor" env "$refusal" REFUSED="$folder/refused" \
        LD_PRELOAD="$folder/refuse.so" "$program" "${words[@]}" < "$folder/trace.csv" > "$folder/out" 2> "$folder/err" || status=$?
    line=$(cat "$folder/err")
    case $status,$line in
        0,) if cmp -s "$folder/out" "$folder/report"; then end='by the report'; else end='by ANOTHER report'; fi ;;
        4,'memory fault 11 OutOfMemory' | 4,'worker fault 16 SpawnFailed') if [ -s "$folder/out" ]; then end='by a fault AND a report'; else end="by $line"; fi ;;
        137,*) end='NOT AT ALL' ;;
        *) end="OTHERWISE, status $status, $line" ;;
    esac
    echo "$scheduling, ${refusal%=*}: ended $end" >> "$folder/ends"
    if [[ $end =~ [A-Z]{3} ]]; then
        failed=1
        echo "run $run, $scheduling $refusal: ended $end"
    fi
done
sort "$folder/ends" | uniq -c
[ "$failed" = 1 ] || echo "$runs runs ended within $longest seconds each"
exit "$failed"
