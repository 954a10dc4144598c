#!/usr/bin/env bash
# examples/tap/table.sh: the driver in five modes under the same loads, one after the other: for a flood of UDP the packets per
# second that it read and its processor time per packet; for pings of 64 bytes the median and the 99th percentile of the
# round-trip time in microseconds, at 100, 2000 and 20000 per second and with 32 always in flight. The last line shows how busy
# the machine was. Status 69 as in run.sh. BUILT=FOLDER: a folder in which build.sh has built it.
set -uo pipefail
unset CDPATH
here=$(dirname "$(readlink -f "${BASH_SOURCE[0]}")")
. "$here/device.sh"
make_device || exit 69
scratch=$(mktemp -d)
trap 'remove_device; rm -rf "$scratch"' EXIT
built=${BUILT:-$scratch}
[ -n "${BUILT:-}" ] || "$here/build.sh" "$built" || exit

load() { inside timeout 600 "$built/load" "$@"; }
failed() {
    echo "tap: the load failed: $*" >&2
    exit 1
}

# The processor time of the driver's threads, in ns.
spent() { cat "/proc/$driver/task/"*/schedstat | awk '{ sum += $1 } END { printf "%.0f\n", sum }'; }

# flood BYTES: prints packets per second and ns per packet, over one second
flood() {
    local packets time
    packets=$(counter tx_packets) time=$(spent)
    load udp 9 1 "$1" > "$scratch/flood" || failed "udp 9 1 $1"
    packets=$(($(counter tx_packets) - packets)) time=$(($(spent) - time))
    echo "$packets $((time / (packets + 1)))"
}

pinged() {
    load "$@" > "$scratch/pinged" || failed "$*"
    awk '{ for (i = 1; i < NF; i++) { if ($i == "p50_us") half = $(i + 1); if ($i == "p99_us") most = $(i + 1) } print half "/" most }' "$scratch/pinged"
}

row() {
    local name=$1
    shift
    ip netns exec "$space" "$built/tap" "$@" > "$scratch/out" 2> "$scratch/err" &
    driver=$!
    wait_for said on 1 || exit 1
    ip -n "$space" link set fq0 up
    load ping 100 64 4 > "$scratch/first" || failed 'ping 100 64 4'
    local floods times
    floods="$(flood 64) $(flood 1400)" && times="$(pinged rate 100 100 64) $(pinged rate 2000 2000 64)" &&
        times+=" $(pinged rate 20000 20000 64) $(pinged ping 20000 64 32)" || exit 1
    # shellcheck disable=SC2086
    printf '%-12s %8s %6s %8s %6s %15s %15s %15s %15s\n' "$name" $floods $times
    kill -INT "$driver"
    wait "$driver"
}

before=$(awk '/^cpu / { print $2 + $3 + $4 + $7 + $8, $2 + $3 + $4 + $5 + $6 + $7 + $8 }' /proc/stat)
printf '%-12s %15s %15s %15s %15s %15s %15s\n' '' '64 B: /s, ns' '1400 B: /s, ns' 'ping 100/s' '2000/s' '20000/s' '32 under way'
row plain --plain
row 'one thread' --one
row 'two threads'
row masked --mask
row direct --direct
# shellcheck disable=SC2086
awk -v processors="$(nproc)" 'NR == 1 { busy = $1; all = $2 } NR == 2 { printf "%d processors, busy for %.0f %% of the time; load average ",
    processors, 100 * ($1 - busy) / ($2 - all) } NR == 3 { print $1 }' <(echo $before) \
    <(awk '/^cpu / { print $2 + $3 + $4 + $7 + $8, $2 + $3 + $4 + $5 + $6 + $7 + $8 }' /proc/stat) /proc/loadavg
