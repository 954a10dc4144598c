#!/bin/sh
# Replays the traces that were recorded from a running Linux, and compares with what the kernel did there: the work of each
# softirq and kthread row, the squeezes that it counted, the results of all requests, its queue limits. Each difference is
# printed. The exit status is 0 only if all agree.
# examples/compare.sh [PROGRAM [SERIES]]   other builds of napi_serial and napi_series
set -eu
unset CDPATH
examples=$(cd "$(dirname "$0")" && pwd)
. "$examples/../scripts/arguments.sh"
at_most 2 "$@"
[ $# -gt 0 ] || "$examples/../scripts/build.sh" napi_serial
program=${1:-$examples/../crates/napi_serial/out/napi_serial}
is_program PROGRAM "$program"
[ $# -gt 1 ] || "$examples/../scripts/build.sh" napi_series
series=${2:-$examples/../crates/napi_series/out/napi_series}
is_program SERIES "$series"
folder=$(mktemp -d)
trap 'rm -rf "$folder"' EXIT
differs=0

# compare NAME SQUEEZES [OPTION ..]: replays the trace with that name, with these options. Squeezes aren't compared if a `-` is
# given. If the recording has the kernel's results for each device, these, its word and what is left in its ring have to agree
# too, and the polls of each row.
compare() {
    name=$1
    squeezes=$2
    shift 2
    status=0
    "$program" "$@" < "$examples/$name.csv" > "$folder/report" 2> "$folder/fault" || status=$?
    if [ "$status" != 0 ]; then
        echo "$name: the replay ended with status $status: $(tail -n 1 "$folder/fault")"
        differs=1
        return
    fi
    awk -v name="$name" -v squeezes="$squeezes" '
        FNR == NR && $1 == "napi" { answers[$2] = $0; devices++; next }
        FNR == NR { polls[++recorded] = $2; kernel[recorded] = $4; next }
        $1 == "softirq" || $1 == "kthread" {
            polled++
            work = $1 == "softirq" ? $6 : $8
            packets += work
            if (polled > recorded) print name ": row " $2 ": work " work ", the kernel recorded no such row"
            else if (work != kernel[polled]) print name ": row " $2 ": work " work ", the kernel " kernel[polled]
            else if (devices && $4 != polls[polled]) print name ": row " $2 ": polls " $4 ", the kernel " polls[polled]
            if (polled > recorded || work != kernel[polled] || devices && $4 != polls[polled]) other++
        }
        $1 == "device" { left = $13 }
        $1 == "napi" && devices {
            told++
            if ($0 " left " left != answers[$2]) { print name ": " $0 " left " left ", the kernel: " answers[$2]; other++ }
        }
        $1 == "total" { squeezed = $NF }
        END {
            if (polled < recorded) { print name ": " polled + 0 " rows polled, the kernel " recorded; other++ }
            if (told < devices) { print name ": " told + 0 " devices told, the kernel " devices; other++ }
            if (squeezes != "-" && squeezed != squeezes) { print name ": squeezed " squeezed + 0 ", the kernel " squeezes; other++ }
            squeezes = squeezes == "-" ? "" : ", " squeezed " squeezes"
            told = devices ? ", all answers of " told " devices" : ""
            print name ": " polled + 0 " rows, " packets + 0 " packets" squeezes told (other ? ": other than the kernel" : ": as the kernel")
            exit other > 0
        }' "$examples/$name.work" "$folder/report" || differs=1
}

# compare_limits NAME: compares the series with the kernel's limit, its room and, if it is known, whether the queue was stopped
# before and after, at every completion.
compare_limits() {
    name=$1
    status=0
    "$series" < "$examples/$name.csv" > "$folder/series" 2> "$folder/fault" || status=$?
    if [ "$status" != 0 ]; then
        echo "$name: the series ended with status $status: $(tail -n 1 "$folder/fault")"
        differs=1
        return
    fi
    awk -v name="$name" '
        FNR == NR { before[$1] = $2; after[$1] = $3 " " $4 " " $5; recorded++; next }
        FNR == 1 { next }
        $1 in after {
            compared++
            told = $10 " " $11 " " (after[$1] ~ /-$/ ? "-" : $12)
            if (told != after[$1]) { print name ": row " $1 ": limit, avail, stopped " told ", the kernel " after[$1]; other++ }
            if (stopped != before[$1] && before[$1] != "-") { print name ": row " $1 ": stopped " stopped " before it, the kernel " before[$1]; other++ }
        }
        { stopped = $12 }
        END {
            if (compared < recorded || !recorded) { print name ": " compared + 0 " completions, the kernel " recorded + 0; other++ }
            print name ": " compared + 0 " completions" (other ? ": other than the kernel" : ": as the kernel")
            exit other > 0
        }' FS=' ' "$examples/$name.limits" FS=, "$folder/series" || differs=1
}

compare linux-veth-tcp -
compare linux-veth-bursts -
compare linux-veth-small-budget 55 --budget 64
compare linux-veth-threaded -
compare linux-napi-disable 267 --budget 64
compare_limits linux-virtio-limits
exit "$differs"
