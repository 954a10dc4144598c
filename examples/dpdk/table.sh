#!/usr/bin/env bash
# examples/dpdk/table.sh: the driver busy polling, with DPDK's power management, and with NAPI on one thread and on two, each
# under the same loads: processor time of all its threads in milliseconds per second, and the median and the 99th percentile of
# the pings' round-trip time in microseconds. The last line shows how busy the machine was. Status 69 as in run.sh.
# BUILT=FOLDER: a folder in which build.sh has built it.
set -uo pipefail
unset CDPATH
here=$(dirname "$(readlink -f "${BASH_SOURCE[0]}")")
. "$here/../driver/driver.sh"
. "$here/port.sh"
make_spaces dpdk "fqdpdk-$$"
[ -c /dev/net/tun ] || over /dev/net/tun
built=${BUILT:-$scratch}
[ -n "${BUILT:-}" ] || "$here/build.sh" "$built" || exit

# The processor time of the driver's threads, in ns.
spent() { cat "/proc/$driver/task/"*/schedstat | awk '{ sum += $1 } END { printf "%.0f\n", sum }'; }

# under COMMAND ..: prints the processor time under this load, and the times that the load prints
under() {
    local time clock
    time=$(spent) clock=$(date +%s%N)
    "$@" > "$scratch/load.out" || {
        echo "dpdk: the load failed: $*" >&2
        return 1
    }
    time=$(($(spent) - time)) clock=$(($(date +%s%N) - clock))
    awk -v time="$time" -v clock="$clock" '{ for (i = 1; i < NF; i++) { if ($i == "p50_us") half = " " $(i + 1); if ($i == "p99_us") most = "/" $(i + 1) } }
        END { printf "%.0f%s%s\n", time * 1000 / clock, half, most }' "$scratch/load.out"
}

row() {
    local mode=$1 each times
    start_port "$mode"
    load ping 100 64 4 > "$scratch/first" || exit 1
    printf '%-6s' "$mode"
    for each in 'sleep 2' 'load rate 100 200 64' 'load rate 2000 4000 64' 'load rate 20000 40000 64' 'load ping 40000 64 32'; do
        # shellcheck disable=SC2086
        times=$(under $each) || exit 1
        printf ' %21s' "$times"
    done
    echo
    kill -INT "$driver"
    wait "$driver"
}

busy() { awk '/^cpu / { print $2 + $3 + $4 + $7 + $8, $2 + $3 + $4 + $5 + $6 + $7 + $8 }' /proc/stat; }
before=$(busy)
printf '%-6s %21s %21s %21s %21s %21s\n' '' 'idle: ms/s' 'ping 100/s: ms/s, us' '2000/s' '20000/s' '32 under way'
for mode in busy power one napi; do row "$mode"; done
# shellcheck disable=SC2086
awk -v processors="$(nproc)" 'NR == 1 { busy = $1; all = $2 } NR == 2 { printf "%d processors, busy for %.0f %% of the time; load average ",
    processors, 100 * ($1 - busy) / ($2 - all) } NR == 3 { print $1 }' <(echo $before) <(busy) /proc/loadavg
