#!/usr/bin/env bash
# tests/ns3.sh: the simulation of examples/ns3. This library's queue limit has the numbers of ns-3's own, call by call; each
# packet is counted once; runs keep to their budget; the plain program of the bench and napi_machine (MACHINE=FILE: another
# build) report the same for the same arrivals. It is skipped without ns-3. The last line is `N passed, M failed, K skipped`.
. "$(dirname "$(readlink -f "$0")")/../scripts/checks.sh"

timeout 1h "$top/examples/ns3/run.sh" "$scratch" 100000 250000 400000 > "$scratch/table" 2> "$scratch/errors"
status=$?
if [ "$status" = 69 ]; then
    cat "$scratch/errors"
    skip 'the simulation' ns-3
    sum_up
    exit
fi
check 'the example is built and run' [ "$status" = 0 ]
if [ "$status" != 0 ]; then
    tail -n 20 "$scratch/errors"
    sum_up
    exit 1
fi

prints() {
    local wanted=$1
    shift
    timeout 1h "$@" > "$scratch/printed" && grep -x -E -q -e "$wanted" "$scratch/printed" || { cat "$scratch/printed"; false; }
}

refused() {
    local wanted=$1 status=0
    shift
    timeout 1h "$@" || status=$?
    [ "$status" = "$wanted" ]
}

# ---- the queue limits

check 'random calls answer as those on the limit of ns-3' prints \
    '100000 calls, the limit grew [1-9][0-9]* times and shrank [1-9][0-9]*, the same at each' "$scratch/limits" 100000 0
check 'with a minimum they differ' prints 'call [0-9]+ has them differ' "$scratch/limits" 100000 3000
check 'behind a reset they differ' prints 'call [0-9]+ has them differ' "$scratch/limits" 100000 0 reset

simulate() { timeout 1h "$scratch/bottleneck" --budget="$1" --load="$2" --limits="$3" --calls="$scratch/$3.calls" > "$scratch/$3.line"; }
both_limits() {
    simulate "$1" "$2" fintaqush && simulate "$1" "$2" ns3 && [ "$(wc -l < "$scratch/ns3.calls")" -gt "$((2 * $2 / 10))" ] &&
        cmp "$scratch/fintaqush.calls" "$scratch/ns3.calls" && cmp "$scratch/fintaqush.line" "$scratch/ns3.line"
}
for load in 100000 250000 400000; do
    check "at $load packets a second the simulation is the same with both limits" both_limits 64 "$load"
done

# ---- what was simulated, by the names of its columns

# rows CONDITION: there are fifteen rows, of five settings and three loads, and it holds for each.
rows() {
    awk "NR == 1 { for (i = 1; i <= NF; i++) at[\$i] = i; next } function of(name) { return \$at[name] } { n++; if (!($1)) { print; wrong = 1 } }
        END { exit wrong || n != 15 }" "$scratch/bottleneck.txt"
}
check 'what was sent came or was dropped by the queue disc' rows 'of("sent") > 0 && of("sent") == of("arrived") + of("disc_full")'
check 'what came was used or dropped once' rows 'of("used") > 0 && of("arrived") == of("ring_full") + of("socket_full") + of("used")'
check 'no run gave more than budget and weight' rows 'of("budget") == 0 ? of("most") == 0 : of("most") < of("budget") + 64'
check 'a squeezed run is a run' rows 'of("late") <= of("squeezed") && of("squeezed") <= of("runs") && of("runs") <= of("polls") && (of("budget") == 0) == (of("runs") == 0)'
check 'shares of the processor are at most all of it' rows 'of("interrupt%") + of("poll%") + of("use%") <= 100.2'
check 'the table has a row for each' [ "$(awk 'NR > 1 && /^ *(none|[0-9]+)  / && NF >= 13' "$scratch/table" | wc -l)" = 15 ]

# Sent, dropped, used, latency, shares and interrupts are columns 5 to 17.
check 'budgets of 16, 64 and 300 differ only in their runs' awk 'NR > 1 && $1 > 0 && $2 == 0 {
        row = ""; for (i = 5; i <= 17; i++) row = row " " $i
        if ($4 in before && before[$4] != row) { print; wrong = 1 }
        before[$4] = row; n++ }
    END { exit wrong || n != 9 }' "$scratch/bottleneck.txt"

# used BUDGET DEFER: at 400000 packets per second.
used() {
    awk -v budget="$1" -v defer="$2" 'NR == 1 { for (i = 1; i <= NF; i++) at[$i] = i; next }
        $1 == budget && $2 == defer && $at["load"] == 400000 { print $at["used"] }' "$scratch/bottleneck.txt"
}
check 'at 400000 packets a second deferred interrupts leave more to the application, and polling more than interrupts without it' \
    [ "$(used 300 2)" -gt "$((10 * $(used 300 0)))" -a "$(used 300 0)" -gt "$((4 * $(used 0 0)))" ]

# ---- the machine of napi_machine, on the same arrivals

# machine PROGRAM BUDGET DEFER LOAD: exactly its counts and waits, for what was simulated.
machine() {
    local options=(--defer-hard-irqs "$3" --gro-flush-timeout 50000)
    "$scratch/bottleneck" --budget="$2" --defer="$3" --flush=50000 --load="$4" --arrivals="$scratch/arrivals" --report="$scratch/report" \
        > "$scratch/again" &&
        timeout 1h "$1" --budget "$2" --window 65535 "${options[@]}" < "$scratch/arrivals" > "$scratch/machine.report" &&
        python3 -B "$top/tests/machine.py" simulated "$scratch/machine.report" "$scratch/report"
}
programs=("$scratch/plain")
check 'the plain program of the bench is compiled' g++ -std=c++17 -O2 "$top/bench/machine.cc" -o "$scratch/plain"
machine=${MACHINE:-$top/crates/napi_machine/out/napi_machine}
if [ -z "${MACHINE:-}" ]; then
    check 'napi_machine is built' "$top/scripts/build.sh" napi_machine
fi
programs+=("$machine")
for program in "${programs[@]}"; do
    for setting in '0 0' '16 0' '64 0' '300 0' '300 2' '16 1'; do
        read -r budget defer <<< "$setting"
        for load in 100000 250000 400000; do
            check "${program##*/} reports what was simulated, at a budget of $budget, $defer deferrals and $load packets a second" \
                machine "$program" "$budget" "$defer" "$load"
        done
    done
done

# ---- options and files

again() {
    "$scratch/bottleneck" --budget=16 --load=250000 > "$scratch/again" && grep -x -F -q -f "$scratch/again" "$scratch/bottleneck.txt"
}
check 'a second run prints the same' again
check 'other limits are refused' refused 64 "$scratch/bottleneck" --limits=other
check 'a budget that is too large is refused' refused 64 "$scratch/bottleneck" --budget=65536
check 'calls that can not be written are told' refused 74 "$scratch/bottleneck" --load=1000 --calls=/dev/full
check 'arrivals that can not be written are told' refused 74 "$scratch/bottleneck" --load=1000 --arrivals=/dev/full
check 'limits without words are refused' refused 64 "$scratch/limits"
if ! python3 -c 'import matplotlib' 2> /dev/null && ! /usr/bin/python3 -c 'import matplotlib' 2> /dev/null; then
    skip 'its picture' matplotlib
else
    check 'the picture is drawn' [ "$(head -c 4 "$scratch/bottleneck.png" | tail -c 3)" = PNG ]
fi

sum_up
