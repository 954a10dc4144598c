#!/usr/bin/env bash
# examples/ns3/run.sh [FOLDER [LOAD ..]]: builds the example and runs it over the offered loads, in packets a second, with interrupts
# without polling, with budgets of 16, 64 and 300, and with 300 and deferred interrupts. Prints a table, and leaves in the folder (out/ns3
# at the top) all columns as bottleneck.txt and, if Python has matplotlib, bottleneck.png. Status 69 if there is no ns-3.
set -euo pipefail
unset CDPATH
here=$(dirname "$(readlink -f "${BASH_SOURCE[0]}")")
to=${1:-$here/../../out/ns3}
mkdir -p "$to"
to=$(readlink -f "$to")
[ $# -gt 0 ] && shift
[ $# -gt 0 ] || set -- 25000 50000 75000 100000 125000 150000 175000 200000 225000 250000 275000 300000 325000 350000 375000 400000
"$here/build.sh" "$to"

# Each line is a budget, napi_defer_hard_irqs, and gro_flush_timeout in ns.
settings=('0 0 0' '16 0 0' '64 0 0' '300 0 0' '300 2 100000')
"$to/bottleneck" --head=1 > "$to/bottleneck.new"
for setting in "${settings[@]}"; do
    read -r budget defer flush <<< "$setting"
    for load in "$@"; do
        "$to/bottleneck" --budget="$budget" --defer="$defer" --flush="$flush" --load="$load"
    done
done >> "$to/bottleneck.new"
mv "$to/bottleneck.new" "$to/bottleneck.txt"

awk 'NR == 1 { for (i = 1; i <= NF; i++) at[$i] = i
        print "budget  deferral  packets/s  used/s  dropped%  p50 ms  p99 ms  interrupts%  polls%  application%  squeezed runs"; next }
    $at["load"] % 50000 == 0 { dropped = $at["disc_full"] + $at["ring_full"] + $at["socket_full"]
        printf "%6s %9s %10d %7d %9.1f %7.2f %7.2f %12.1f %7.1f %13.1f %14s\n", $at["budget"] == 0 ? "none" : $at["budget"],
            $at["defer"] == 0 ? "none" : $at["flush"] / 1000 " us", $at["load"], $at["used"] / $at["seconds"], 100 * dropped / $at["sent"],
            $at["p50_us"] / 1000, $at["p99_us"] / 1000, $at["interrupt%"], $at["poll%"], $at["use%"],
            $at["squeezed"] " of " $at["runs"] }' "$to/bottleneck.txt"

for python in python3 /usr/bin/python3; do
    "$python" -c 'import matplotlib' 2> /dev/null && break
done || { echo 'run: no matplotlib for Python, so no picture' >&2; exit 0; }
"$python" "$here/picture.py" "$to/bottleneck.txt" "$to/bottleneck.png"
