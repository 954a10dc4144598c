#!/usr/bin/env bash
# tests/threads-here.sh [PREFIX [ROUNDS]]: the tests whose threads share an instance, and a replay with threads, so often, on this machine's own
# processor. It is for machines whose processor may reorder loads and stores, as arm64's does and QEMU doesn't: there it needs a C
# and a C++ compiler, and in PREFIX what scripts/install.sh --target arm64 put there on another machine, or /usr with the packages. Without PREFIX
# it installs for this machine, by the kit. The last line is `N passed, M failed, K skipped`; the line above it names the machine.
. "$(dirname "$(readlink -f "$0")")/../scripts/checks.sh"
. "$top/tests/c/checks.sh"
prefix=${1:-$scratch/prefix}
rounds=${2:-3}
unset FINTAQUSH_TARGET

# again COMMAND ..: it succeeds each time.
again() {
    local round
    for ((round = 1; round <= rounds; round++)); do "$@" || { echo "round $round of $rounds"; return 1; }; done
}
# counts_packets: napi_replay, with a thread for each device, counts the packets and bytes of the trace.
counts_packets() { "$prefix/lib/fintaqush/programs/napi_replay" --mode threads < "$scratch/many.csv" | grep ^device | diff - "$scratch/counted"; }

if [ "$(nproc)" = 1 ]; then
    skip 'threads on several processors' 2-processors
    sum_up
    exit
fi
[ $# != 0 ] || check 'it is installed' "$top/scripts/install.sh" "$prefix"
library=$(find "$prefix/lib" -name libfintaqush.a 2> /dev/null | head -n 1)
if [ -z "$library" ]; then
    check "there is no libfintaqush.a below $prefix/lib" false
    sum_up
    exit
fi
mapfile -t sources < <(grep -lE 'pthread_create|std::thread' "$top"/examples/c/*.c*)
for source in "${sources[@]}"; do
    name=${source##*/}
    check "$name compiles" compile "$(compiler_of "$source")" "$source" "$scratch/shares" -O2
    check "$name" again compared "${source%.*}.stdout" "$scratch/shares"
done
echo 'attempts fail, and each call repeats them' > "$scratch/line"
check 'repeats.c compiles' compile gcc "$top/tests/c/repeats.c" "$scratch/repeats" -O2
check 'repeats.c' again compared "$scratch/line" "$scratch/repeats"
awk 'BEGIN { print "moment,device,event,value"; for (i = 1; i < 5; i++) print "0," i ",open,32768"
    for (i = 0; i < 80000; i++) print i "," i % 4 + 1 ",rx," i % 1400 + 60 }' > "$scratch/many.csv"
awk -F , '$3 == "rx" { count[$2]++; sum[$2] += $4 } END { for (i = 1; i < 5; i++) print "device", i, "arrived", count[i], "bytes", sum[i] }' \
    "$scratch/many.csv" > "$scratch/counted"
check 'a replay with threads' again counts_packets
echo "threads-here: $(uname -m), $(nproc) processors, $(sed -n 's/^\(model name\|CPU part\)[^:]*: *//p' /proc/cpuinfo | head -n 1), Linux $(uname -r): $rounds rounds"
sum_up
