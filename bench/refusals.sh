#!/bin/sh
# Makes each allocation, each read, each write and each start of a thread of the replay program fail in turn, in each of its
# modes, or in those that are named. Each failure has to have its message, its exit status and no report. The modes `machine`
# and `queues` are for `napi_machine`, and `calls` for `memory_tests`, in which each call that failed has to succeed when it is
# repeated.
# bench/refusals.sh [PROGRAM [MODE ..]]
set -eu
unset CDPATH
top=$(cd "$(dirname "$0")/.." && pwd)
. "$top/scripts/arguments.sh"
at_most 4 "$@"
[ $# -gt 0 ] || "$top/scripts/build.sh" napi_replay
program=${1:-$top/crates/napi_replay/out/napi_replay}
is_program PROGRAM "$program"
[ $# = 0 ] || shift
[ $# -gt 0 ] || set -- serial shared threads
is_tool cc
folder=$(mktemp -d)
trap 'rm -rf "$folder"' EXIT

cc -O1 -shared -fPIC -o "$folder/refuse.so" "$top/bench/refuse.c" -ldl

# A trace for which the program allocates in every way: several devices, both kinds of polling, transmit lines, more than one
# read.
{
    echo 'moment,device,event,value'
    for device in 3 1 16; do echo "0,$device,open,65536"; done
    echo '0,16,threaded,1'
    for device in 3 1 16; do echo "1,$device,rx,100"; echo "1,$device,tx,100"; done
    echo '2,0,softirq,0'
    echo '3,16,kthread,0'
    awk 'BEGIN { for (row = 13; row < 20000; row++) print row (row % 100 ? ",1,done,0" : ",0,softirq,0") }'
} > "$folder/trace.csv"

# Arrivals for which it allocates for several devices on two processors, and more than one read.
awk 'BEGIN { print "ns,device,bytes"; for (row = 0; row < 20000; row++) print row * 900 "," row % 5 + 1 ",100" }' > "$folder/arrivals.csv"

# The same in three flows of each device.
awk 'BEGIN { print "ns,device,bytes,flow"; for (row = 0; row < 20000; row++) print row * 900 "," row % 5 + 1 ",100," row % 3 }' > "$folder/flows.csv"

# The input of a mode, its options, and what its errors name.
set_mode() {
    case $mode in
        machine) input=arrivals.csv words='--processors 2' told=arrivals ;;
        queues) input=flows.csv words='--processors 2 --queues 2 --threaded 1 --backlog 1 --apart 1' told=arrivals ;;
        *) input=trace.csv words="--mode $mode" told=trace ;;
    esac
}

fail() { echo "refusals: $*" >&2; exit 1; }

# One run in which the call with that number fails: refuse KIND NUMBER. Leaves its status in `status`; 124 is a run that hangs.
refuse() {
    status=0
    rm -f "$folder/refused"
    timeout 600 env "$1=$2" REFUSED="$folder/refused" LD_PRELOAD="$folder/refuse.so" \
        "$program" $words < "$folder/$input" > "$folder/out" 2> "$folder/err" || status=$?
}

# Whether the run was like one without a failed call.
is_whole() { [ "$status" = 0 ] && cmp -s "$folder/out" "$folder/report" && [ ! -s "$folder/err" ]; }

# refuse_each KIND STATUS LINE: until the program makes no call with that number. A failed call has to end it with that status
# and that message, and without a report; or, if it retries the allocation, to change nothing. Leaves the number of failed calls
# in `count`, and of those that changed nothing in `idle`.
refuse_each() {
    count=0
    idle=0
    rm -f "$folder/starts"
    export STARTS="$folder/starts"
    refuse "$1" 0
    unset STARTS
    while :; do
        refuse "$1" $((count + 1))
        [ -e "$folder/refused" ] || break
        count=$((count + 1))
        if [ "$1" = REFUSE_MEMORY ] && is_whole; then
            idle=$((idle + 1))
            continue
        fi
        [ "$status" = "$2" ] || fail "$mode $1=$count: status $status"
        [ ! -s "$folder/out" ] || fail "$mode $1=$count: a report was written"
        line=$(cat "$folder/err")
        # An allocation of the start of a thread: the thread couldn't be started.
        if [ "$1 $line" = 'REFUSE_MEMORY worker fault 16 SpawnFailed' ] && grep -qx "$count" "$folder/starts"; then line=$3; fi
        [ "$line" = "$3" ] || fail "$mode $1=$count: another line: $line"
    done
    is_whole || fail "$mode $1: nothing was refused, and another report was written"
}

# some_refused WHAT: checks that at least one failed call ended the program.
some_refused() { [ "$count" -gt "$idle" ] || fail "$mode: no $1 was refused"; }

# Devices 1, 3 and 16 have one poller, or three, of which one has no device: then two more threads are started.
each_poller_is_started() {
    words="--mode $mode --pollers 3"
    refuse_each REFUSE_MEMORY 4 'memory fault 11 OutOfMemory'
    refuse_each REFUSE_THREAD 4 'worker fault 16 SpawnFailed'
    set_mode
    [ $((count - threads)) = 2 ] || fail "$threads starts of threads with one poller, and $count with 3"
}

refuse_all() {
    "$program" $words < "$folder/$input" > "$folder/report"
    refuse_each REFUSE_MEMORY 4 'memory fault 11 OutOfMemory'
    some_refused allocation
    memory="$count allocations ($idle of them made up for)"
    refuse_each REFUSE_READ 2 "$told fault 10 ReadFailed"
    some_refused read
    reads=$count
    refuse_each REFUSE_WRITE 4 'output fault 15 OutputFailed'
    some_refused write
    writes=$count
    refuse_each REFUSE_THREAD 4 'worker fault 16 SpawnFailed'
    [ "$mode" != threads ] || some_refused thread
    threads=$count
    [ "$mode" != threads ] || each_poller_is_started
    echo "$mode: $memory, $reads reads, $writes writes and $threads starts of threads refused"
}

refuse_ends() {
    status=0
    "$program" $words < "$folder" > "$folder/out" 2> "$folder/err" || status=$?
    [ "$status" = 2 ] && [ ! -s "$folder/out" ] && [ "$(cat "$folder/err")" = "$told fault 10 ReadFailed" ] || fail "$mode: a folder is read"
    status=0
    "$program" $words < "$folder/$input" > /dev/full 2> "$folder/err" || status=$?
    [ "$status" = 4 ] && [ "$(cat "$folder/err")" = 'output fault 15 OutputFailed' ] || fail "$mode: a device that is full is written"
}

# refuse_until KIND: until the program makes no call with that number. The report has to be the same, except for the line of the
# library's call that failed, which says what failed: an allocation, or the start of a thread. Leaves the number of failed calls
# in `count`.
refuse_until() {
    count=0
    rm -f "$folder/starts"
    export STARTS="$folder/starts"
    refuse "$1" 0
    unset STARTS
    refuse "$1" 1
    while [ -e "$folder/refused" ]; do
        count=$((count + 1))
        what='refused once'
        # An allocation of the start of a thread: the thread couldn't be started.
        if [ "$1" = REFUSE_THREAD ] || grep -qx "$count" "$folder/starts"; then what='a start refused once'; fi
        [ "$status" = 0 ] && [ ! -s "$folder/err" ] && sed "s/, $what\$//" "$folder/out" | cmp -s - "$folder/report" || {
            cat "$folder/out" "$folder/err" >&2
            fail "$mode $1=$count: status $status, where its line is to end by: $what"
        }
        sed -n 's/, \(a start \)\{0,1\}refused once$/, refused once/p' "$folder/out" >> "$folder/once"
        refuse "$1" $((count + 1))
    done
    is_whole || fail "$mode $1: nothing was refused, and another report was written"
}

refuse_calls() {
    "$program" > "$folder/report"
    refuse_until REFUSE_MEMORY
    memory=$count
    sed 's/$/, refused once/' "$folder/report" | sort > "$folder/each"
    sort -u "$folder/once" | cmp -s - "$folder/each" || fail "$mode: not each call was refused"
    refuse_until REFUSE_THREAD
    echo "$mode: $memory allocations and $count starts of threads refused"
}

for mode in "$@"; do
    set_mode
    if [ "$mode" = calls ]; then
        refuse_calls
        continue
    fi
    refuse_all
    refuse_ends
done
