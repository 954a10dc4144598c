#!/usr/bin/env bash
# tests/machine.sh: the receiving machine. A plain program (bench/machine.cc) and napi_machine print the reports that were worked
# out by hand (machine_examples.txt), and the same bytes for random arrivals with random options. What the plain program does for
# 10,000 random inputs obeys the laws of machine_laws.cc; with each mistake of machine_mistakes.txt it breaks the law that is
# named there. Then napi_machine's errors and options, the mean of M/D/1, livelock, and its runs and squeezes compared with those
# of a running Linux. MACHINE=FILE names another build of napi_machine. The last line is `N passed, M failed, K skipped`.
. "$(dirname "$(readlink -f "$0")")/../scripts/checks.sh"

of_machine() { timeout 1h python3 -B "$top/tests/machine.py" "$@"; }

compiled() { g++ -std=c++17 -O2 -Wall -Wextra -Werror "$top/bench/machine.cc" -o "$@"; }
export PLAIN=$scratch/counted
check 'the plain program is compiled' compiled "$scratch/plain"
check 'it is compiled with counts of its rules' compiled "$PLAIN" -DCOUNTED
check 'it prints the reports worked out by hand' of_machine examples "$scratch/plain"
check 'its faults' of_machine faults "$scratch/plain"
check 'its options' of_machine options "$scratch/plain"

# of_laws FILE OPTION ..: compiles the laws of machine_laws.cc with a program in this file.
of_laws() { g++ -std=c++17 -Wall -Wextra -Werror "$top/tests/machine_laws.cc" -DMACHINE="\"$1\"" -o "$scratch/laws" "${@:2}"; }
obeys() { of_laws "$top/bench/machine.cc" -O2 && timeout 1h "$scratch/laws" 1 10000; }
# breaks LAW OLD NEW: with this text in place of that one, which stands once in the program, it breaks this law.
breaks() {
    local text before
    text=$(< "$top/bench/machine.cc")
    before=${text%%"$2"*}
    [ "$before$2${text#*"$2"}" = "$text" ] && [ "$before" = "${text%"$2"*}" ] || { echo "it isn't there once: $2"; return 1; }
    printf '%s\n' "$before$3${text#*"$2"}" > "$scratch/mistake.cc"
    of_laws "$scratch/mistake.cc" -O1 || return
    timeout 1h "$scratch/laws" 1 10000 > "$scratch/broken"
    head -n 1 "$scratch/broken"
    grep -q "^broken: $1; " "$scratch/broken"
}
check 'it obeys the laws' obeys
sed -n 's/.* times: //p' "$scratch/log" | sort > "$scratch/kept"
mistakes=$top/tests/machine_mistakes.txt
check 'each law has a mistake that breaks it' diff "$scratch/kept" <(sed -n 's/^law: //p' "$mistakes" | sort)
while IFS= read -r line; do
    case $line in
    'law: '*) law=${line#law: } ;;
    'old: '*) old=${line#old: } ;;
    'new: '*) check "a mistake breaks the law: $law" breaks "$law" "$old" "${line#new: }" ;;
    esac
done < "$mistakes"

program=${MACHINE:-$top/crates/napi_machine/out/napi_machine}
[ -n "${MACHINE:-}" ] || check 'napi_machine is built' "$top/scripts/build.sh" napi_machine
check 'napi_machine prints the reports worked out by hand' of_machine examples "$program"
check 'it prints the bytes of the plain program' of_machine random "$program" 2 1000
check 'with one queue no budget changes more than runs and squeezes' of_machine one_queue "$program"
check 'its faults' of_machine faults "$program"
check 'its texts' of_machine texts "$program"
check 'its options' of_machine options "$program"
check 'its help and its version' of_machine about "$program"
check 'its ends' of_machine ends "$program"
check 'the simulator of docs/GUIDE.md counts the same' of_machine simulator "$program"
check 'the mean of M/D/1' of_machine queue "$program"
check 'livelock by interrupts, and what coalescing leaves to the application' of_machine livelock "$program"
of_machine recorded "$program" > "$scratch/recorded" 2>&1
status=$?
cat "$scratch/recorded"
check 'runs and squeezes are near those of a running Linux' [ "$status" = 0 ]
sum_up
