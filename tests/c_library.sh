#!/usr/bin/env bash
# tests/c_library.sh [SEED]: the C library: its header against what the archive exports and against the numbers that are proved;
# the examples, and random calls compared with a model, compiled with warnings as errors by each compiler there is, run and
# compared, also under sanitizers and valgrind; and what compilers have to reject. What needs clang or valgrind is skipped
# without it. The last line is `N passed, M failed, K skipped`.
. "$(dirname "$(readlink -f "$0")")/../scripts/checks.sh"
. "$top/tests/c/checks.sh"
library=$scratch/libfintaqush.a
examples=$top/examples/c
header=$top/include/fintaqush.h

refused() {
    local why=$1
    shift
    ! "$@" > "$scratch/refusal" 2>&1 && grep -q -e "$why" "$scratch/refusal" || { cat "$scratch/refusal"; false; }
}

# ---- the archive and the header

exports() { nm -g --defined-only "$scratch/libfintaqush.a" | awk 'NF == 3 { print $3 }' | sort; }

same_calls() { diff <(header_calls) <(exports | grep '^fq_'); }

no_other_exports() { ! exports | grep -v '^fq_'; }

# Besides libc, it needs the division of 128-bit numbers (the machine's mean wait) of libgcc, which each compiler links.
asks_for_libc_alone() {
    ! nm -u "$scratch/libfintaqush.a" | awk 'NF == 2 { print $2 }' | grep -v -x -e memcpy -e memset -e memmove -e malloc \
        -e realloc -e free -e _GLOBAL_OFFSET_TABLE_ -e __udivti3 -e __umodti3
}

# `NAME NUMBER` of each status: in the header's enum, and as they are proved.
header_numbers() { python3 -EsSB "$top/scripts/abi.py" --statuses | sed 's/^FQ_//' | sort; }

proved_numbers() { awk '/^[A-Z_]+ = [0-9]+$/ { sub(/^FILES_/, "", $1); print $1, $3 }' "$top"/crates/{c_handles,files_c}/specs/Status.antt | sort; }

code_numbers() {
    sed -n 's/^pub\((crate)\)\{0,1\} const \([A-Z_]*\): u32 = \([0-9]*\);$/\2 \3/p' "$top"/crates/{c_handles,files_c}/src/status.rt | sort -u
}

each_number_once() { ! header_numbers | awk '{ print $2 }' | sort | uniq -d | grep .; }

# of the errors of a queue limit, only the header has the names, and dql_core the numbers
numbers_agree() { [ -s "$header" ] && [ -z "$(comm -13 <(header_numbers) <({ proved_numbers; code_numbers; } | sort -u))" ] &&
    diff <(header_numbers | awk '$2 == 0 || $2 > 15') <(code_numbers); }

if ! "$top/scripts/c_library.sh" "$scratch"; then
    echo 'c_library: the library is not built'
    echo '0 passed, 1 failed'
    exit 1
fi
# The statuses that the header names with fq_replay, which are the order that corners.c tries.
replay_names() { awk '/^\/\* Replays a trace/ { on = 1 } on { print } /\*\// { on = 0 }' "$header" | grep -oE 'FQ_[A-Z_]+' | awk '!told[$0]++' | xargs; }

order_of_a_replay() { [ "$(replay_names)" = 'FQ_BAD_SIZE FQ_BAD_WEIGHT FQ_BAD_BUDGET FQ_OUT_OF_MEMORY FQ_BAD_TRACE FQ_NO_ROOM FQ_OK' ]; }

# The page states the size of the archive, within a tenth.
told_size() {
    local told
    told=$(grep -oE 'libfintaqush\.a` \(some [0-9]+ KB' "$top/docs/C.md" | grep -oE '[0-9]+')
    awk -v told="$told" -v bytes="$(stat -c %s "$scratch/libfintaqush.a")" 'BEGIN { print told, bytes; exit !(bytes > told * 900 && bytes < told * 1100) }'
}

# The page names each function that the library needs.
told_needs() {
    local name
    for name in $(nm -u "$scratch/libfintaqush.a" | awk 'NF == 2 && $2 !~ /^_GLOBAL_OFFSET_TABLE_$|^fq_/ { print $2 }' | sort -u); do
        grep -q "^The library calls .*\`$name\`" "$top/docs/C.md" || { echo "docs/C.md doesn't name $name"; return 1; }
    done
}

check 'the header declares what is exported' same_calls
check 'it names the refusals of a replay in their order' order_of_a_replay
check "the archive's size, as the page tells it" told_size
check 'nothing else is exported' no_other_exports
check 'nothing is asked for but the C library and libgcc' asks_for_libc_alone
check 'the page names what is asked for' told_needs
check 'no number twice' each_number_once
check "the header's numbers are those that are proved" numbers_agree

# ---- the examples

# The driver and the simulator of the guide have as many lines as the pages say, at most 65 and 88.
as_short_as_the_pages_say() {
    local driver simulator
    driver=$(wc -l < "$examples/edge.c") simulator=$(wc -l < "$examples/simulator.cpp")
    [ "$driver" -le 65 ] && [ "$simulator" -le 88 ] && grep -q "edge.c. is a whole driver in $driver lines" "$top/docs/GUIDE.md" &&
        grep -q "edge.c. is such a driver in $driver lines" "$top/docs/C.md" && grep -q "The whole simulator has $simulator lines" "$top/docs/GUIDE.md" &&
        grep -q "a discrete-event simulator in $simulator lines" "$top/docs/C.md"
}
check 'the driver and the simulator are as short as the pages say' as_short_as_the_pages_say

compilers=(gcc g++)
for compiler in clang clang++; do
    ! has "$compiler" "the examples by $compiler" || compilers+=("$compiler")
done
for compiler in "${compilers[@]}"; do try_examples "$compiler"; done

# ---- the tests of tests/c

try_each
try_random 1000000 1
try_random 1000000 "${1:-4711}"

# bench/limits.cc computes the limit by the rules of docs/RULES.md, without the library.
as_the_fold() {
    compile gcc "$top/bench/c_library.c" "$scratch/counts" -O2 && g++ -O2 "$top/bench/limits.cc" -o "$scratch/fold" &&
        "$scratch/fold" 1000000 > "$scratch/folded" && compared "$scratch/folded" "$scratch/counts" limits 1000000
}
check 'a million pairs on a queue limit, as a plain fold counts them' as_the_fold

# ---- the replay, compared with the tool

serial=$top/crates/napi_serial/out/napi_serial
series=$top/crates/napi_series/out/napi_series

# as_the_tool PROGRAM TRACE BUDGET WEIGHT WINDOW [RESTARTS]: checks that report, message and status are those of napi_serial; with
# RESTARTS, that the trace with added runs is that of napi_series.
as_the_tool() {
    local program=$1 trace=$2 wanted=0 status=0 tool=("$serial")
    shift 2
    [ $# = 3 ] || tool=("$series" "--raise=$4" --rows)
    timeout 1h "${tool[@]}" --budget="$1" --weight="$2" --window="$3" < "$trace" > "$scratch/wanted" 2> "$scratch/wanted.line" || wanted=$?
    timeout 1h "$program" "$@" < "$trace" > "$scratch/printed" 2> "$scratch/line" || status=$?
    [ "$status" = "$wanted" ] && cmp "$scratch/printed" "$scratch/wanted" && diff "$scratch/line" "$scratch/wanted.line"
}

# the example's trace, cut after each byte
each_cut_as_the_tool() {
    local bytes
    for bytes in $(seq 0 "$(wc -c < "$top/examples/two-packets.csv")"); do
        head -c "$bytes" "$top/examples/two-packets.csv" > "$scratch/cut.csv"
        as_the_tool "$scratch/replay" "$scratch/cut.csv" 300 64 1024 || { echo "cut behind byte $bytes"; return 1; }
    done
}

# with these arguments the settings are rejected, each by its number
refuses_settings() {
    local budget weight window wanted
    while read -r budget weight window wanted; do
        "$scratch/replay" "$budget" "$weight" "$window" < "$top/examples/two-packets.csv" > "$scratch/printed" 2> "$scratch/line"
        [ $? = 1 ] && [ ! -s "$scratch/printed" ] && [ "$(cat "$scratch/line")" = "$wanted" ] || { echo "$budget $weight $window"; return 1; }
    done << 'END'
0 64 1024 FQ_BAD_BUDGET
65536 64 1024 FQ_BAD_BUDGET
300 64 0 FQ_BAD_BUDGET
300 64 65536 FQ_BAD_BUDGET
300 0 1024 FQ_BAD_WEIGHT
300 65 1024 FQ_BAD_WEIGHT
0 0 0 FQ_BAD_WEIGHT
END
}

# Without the added runs the kernel's disables are still pending at some enable row: fault 12. With them no run is missing.
reports_all_runs() {
    "$scratch/replay" "$2" 64 1024 < "$1" > "$scratch/printed" 2> "$scratch/line"
    [ $? = 2 ] && grep -q '^trace fault 12 Pending row' "$scratch/line" || { echo 'its own runs are enough'; return 1; }
    "$scratch/replay" "$2" 64 1024 99999 < "$1" > "$scratch/whole.csv" && "$scratch/replay" "$2" 64 1024 < "$scratch/whole.csv" | grep -q -x list
}

# the most rows that a trace has, and one more
awk 'BEGIN { print "moment,device,event,value"; for (i = 1; i < 17; i++) print "0," i ",open,64"
    for (i = 17; i <= 100000; i++) print int(i / 10) "," (i % 9 ? i % 16 + 1 ",rx," i % 1500 + 1 : "0,softirq,0") }' > "$scratch/long.csv"
{ cat "$scratch/long.csv"; echo '1,0,softirq,0'; } > "$scratch/longer.csv"
printf 'moment,device,event,value\n0,1,open,4\n1,1,rx,10\n1,1,disable,0\n1,1,enable,0\n' > "$scratch/pending.csv"
printf 'moment,device,event,value\n0,1,open,4\n0,1,open,4\n' > "$scratch/twice.csv"
{ cat "$top/examples/two-packets.csv" && head -c 70000000 /dev/zero | tr '\0' '\n'; } > "$scratch/blank.csv"
{ printf 'moment,device,event,value\n0,1,open,4\n1,1,rx,' && head -c 70000000 /dev/zero | tr '\0' 7; } > "$scratch/field.csv"
# With a packet per run, as many rows as a trace has, and more; an enable row that has to wait for added runs; each form of a record.
{ printf 'moment,device,event,value\n0,1,open,65536\n' && yes 0,1,rx,60 | head -n 49990 && echo 1,0,softirq,0; } > "$scratch/full.csv"
{ cat "$scratch/full.csv" && yes 1,1,rx,60 | head -n 20 && echo 2,0,softirq,0; } > "$scratch/fuller.csv"
printf 'moment,device,event,value\n0,1,open,8\n0,2,open,8\n0,1,rx,60\n0,2,rx,60\n1,2,disable,0\n2,0,softirq,0\n3,2,enable,0\n' > "$scratch/waits.csv"
printf '\357\273\277"moment","device",event,value\r\n\r\n"0",01,open,8\r1,1,rx,60\n\n1,1,rx,60\n"2",0,"softirq","0' > "$scratch/quoted.csv"
if "$top/scripts/build.sh" napi_serial napi_series > "$scratch/log" 2>&1; then
    check 'the replay compiles' compile gcc "$top/tests/c/replay.c" "$scratch/replay" -O2
    for trace in "$top"/examples/*.csv "$scratch"/{long,longer,pending,twice,blank,field}.csv; do
        check "the replay of $(basename "$trace")" as_the_tool "$scratch/replay" "$trace" 300 64 1024
        check "the replay of $(basename "$trace"), other settings" as_the_tool "$scratch/replay" "$trace" 7 3 5
    done
    check 'the replay of what is cut' each_cut_as_the_tool
    check 'the replay in C++ compiles' compile g++ "$top/tests/c/replay.cpp" "$scratch/replay_cpp" -O2
    for trace in "$top/examples/two-packets.csv" "$scratch"/{long,pending}.csv /dev/null; do
        check "the replay of $(basename "$trace") in C++" as_the_tool "$scratch/replay_cpp" "$trace" 300 64 1024
    done
    check 'settings out of range' refuses_settings
    for trace in "$top/examples/"{two-queues,busy-poll,linux-veth-bursts,linux-napi-disable}.csv "$scratch"/{fuller,waits,quoted,pending}.csv; do
        check "the raised $(basename "$trace")" as_the_tool "$scratch/replay" "$trace" 16 8 1024 99999
        check "the raised $(basename "$trace") with at most two more runs" as_the_tool "$scratch/replay" "$trace" 1 1 1024 2
    done
    for budget in 1 8 32; do
        check "with all runs the trace of disables has a report by a budget of $budget" reports_all_runs "$top/examples/linux-napi-disable.csv" "$budget"
    done
    for trace in "$top/examples/linux-veth-bursts.csv" "$scratch/pending.csv"; do
        check "the raised $(basename "$trace") in C++" as_the_tool "$scratch/replay_cpp" "$trace" 7 3 1024 99999
    done
else
    cp "$scratch/log" "$scratch/build.log"
    check 'napi_serial, which the replay is compared with' eval 'cat "$scratch/build.log"; false'
fi

# ---- the machine, compared with the tool

# as_napi_machine ARRIVALS NAME=VALUE ..: checks that report, message and status are those of napi_machine.
as_napi_machine() {
    local arrivals=$1 wanted=0 status=0
    shift
    timeout 1h "$top/crates/napi_machine/out/napi_machine" "${@/#/--}" < "$arrivals" > "$scratch/wanted" 2> "$scratch/wanted.line" || wanted=$?
    timeout 1h "$scratch/machine" "$@" < "$arrivals" > "$scratch/printed" 2> "$scratch/line" || status=$?
    [ "$status" = "$wanted" ] && cmp "$scratch/printed" "$scratch/wanted" && diff "$scratch/line" "$scratch/wanted.line"
}

each_cut_as_napi_machine() {
    local bytes
    for bytes in $(seq 0 "$(wc -c < "$top/crates/napi_machine/stdin")"); do
        head -c "$bytes" "$top/crates/napi_machine/stdin" > "$scratch/cut.csv"
        as_napi_machine "$scratch/cut.csv" || { echo "cut behind byte $bytes"; return 1; }
    done
}

# each setting has its number, and its range is that of napi_machine's option
refuses_machine_settings() {
    local name least most packet number=0
    while read -r name least most; do
        number=$((number + 1))
        for value in $((least - 1)) $((most + 1)); do
            [ "$value" != -1 ] || continue
            "$scratch/machine" "$name=$value" < "$top/crates/napi_machine/stdin" > "$scratch/printed" 2> "$scratch/line"
            [ "$? $(cat "$scratch/line")" = "1 FQ_BAD_SETTING $number" ] && [ ! -s "$scratch/printed" ] || { echo "$name=$value"; return 1; }
        done
        for value in "$least" "$most"; do
            [ "$name" = take ] && packet="packet=$value" || packet= # take is at most packet
            as_napi_machine "$top/crates/napi_machine/stdin" ${packet:+"$packet"} "$name=$value" || { echo "$name=$value"; return 1; }
        done
    done < <(python3 -c 'import sys; sys.path.insert(0, sys.argv[1]); from fintaqush_tools import machine
for name, (least, most, _) in machine.OPTIONS.items(): print(name, least, most)' "$top/tools")
    [ "$number" = 31 ]
}

{ echo 'ns,device,bytes' && awk 'BEGIN { for (i = 0; i < 20000; i++) print i * 900, i % 7 + 1, i % 1400 + 60 }' OFS=, ; } > "$scratch/arrivals.csv"
{ echo 'ns,device,bytes,flow' && awk 'BEGIN { for (i = 0; i < 5000; i++) print i * 700, 1, 60, i % 11 }' OFS=, ; } > "$scratch/flows.csv"
printf 'ns,device,bytes\n5,1,60\n4,1,60\n' > "$scratch/falls.csv"
printf 'ns,device,bytes\n5,65,60\n' > "$scratch/far.csv"
printf 'ns,device,bytes\n' > "$scratch/none.csv"
if "$top/scripts/build.sh" napi_machine > "$scratch/log" 2>&1; then
    check 'the machine compiles' compile gcc "$top/tests/c/machine.c" "$scratch/machine" -O2
    for arrivals in "$scratch"/{arrivals,falls,far,none}.csv "$top/crates/napi_machine/stdin" /dev/null; do
        check "the machine on $(basename "$arrivals")" as_napi_machine "$arrivals"
        check "the machine on $(basename "$arrivals"), other settings" as_napi_machine "$arrivals" processors=3 budget=7 weight=5 rx-nsecs=20000 rx-frames=9 \
            defer-hard-irqs=2 gro-flush-timeout=15000 apart=1 app-wake=2000 use=900 wake=700
    done
    check 'the machine with queues' as_napi_machine "$scratch/flows.csv" queues=4 processors=2 backlog=1
    check 'the machine with threads' as_napi_machine "$scratch/arrivals.csv" threaded=1 socket=3 ring=8
    check 'the machine on what is cut' each_cut_as_napi_machine
    check 'settings of the machine out of range' refuses_machine_settings
else
    cp "$scratch/log" "$scratch/build.log"
    check 'napi_machine, which the machine is compared with' eval 'cat "$scratch/build.log"; false'
fi

# code_of FLAG ..: prints the bytes of code of examples/c/limit.c, which uses only limits.
code_of() { compile gcc "$examples/limit.c" "$scratch/limit" -O2 "$@" && size "$scratch/limit" | awk 'NR == 2 { print $1 }'; }
is_cut() { [ "$(code_of -Wl,--gc-sections)" -lt 4000 ] && [ "$(code_of)" -gt 150000 ]; }
check 'calls that a program does not use can be left out' is_cut

# sanitized_examples NAME FLAG SOURCE ..: runs these examples under a sanitizer.
sanitized_examples() {
    local name=$1 flag=$2 source program compiler
    for source in "${@:3}"; do
        program=$(basename "$source")
        [ "${program##*.}" = c ] && compiler=gcc || compiler=g++
        check "$name: $program compiles" compile "$compiler" "$source" "$scratch/sanitized" -O1 -g "$flag" -fno-sanitize-recover=all
        check "$name: $program" compared "$examples/${program%.*}.stdout" "$scratch/sanitized"
    done
}

# sanitize SOURCE PROGRAM: compiles a test for addresses, leaks and undefined behaviour.
sanitize() {
    local compiler=gcc
    [ "${1##*.}" = c ] || compiler=g++
    check "sanitized: $1 compiles" compile "$compiler" "$top/tests/c/$1" "$2" -O1 -g -fsanitize=address,undefined -fno-sanitize-recover=all "${@:3}"
}

export ASAN_OPTIONS=detect_leaks=1
mapfile -t threaded < <(grep -lE 'pthread_create|std::thread' "$examples"/*.c "$examples"/*.cpp)
sanitized_examples 'addresses, leaks and undefined behaviour' -fsanitize=address,undefined "$examples"/*.c "$examples"/*.cpp
sanitized_examples threads -fsanitize=thread "${threaded[@]}" # the others have one thread, and no race
# two_threads PROGRAM: checks that two threads in one driver are reported, and that with a lock they aren't.
two_threads() {
    "$1" locked && ! "$1" > "$scratch/raced" 2>&1 && grep -q 'WARNING: ThreadSanitizer: data race' "$scratch/raced" && grep -q fq_private_used "$scratch/raced"
}
for compiler in gcc clang; do
    [[ " ${compilers[*]} " == *" $compiler "* ]] || continue
    check "$compiler: two_threads.c compiles" compile "$compiler" "$top/tests/c/two_threads.c" "$scratch/two_threads" -O1 -g -fsanitize=thread
    check "$compiler: two threads in one driver are reported" two_threads "$scratch/two_threads"
done
sanitize random.c "$scratch/sanitized" "$heap"
for kind in "${kinds[@]}"; do
    check "sanitized: random calls: $kind" answered 1000000 1 "$kind" "$scratch/sanitized"
done
sanitize refuse.c "$scratch/sanitized" "$heap"
check 'sanitized: each allocation refused in turn' compared "$scratch/refuse.line" "$scratch/sanitized"
sanitize boxes.c "$scratch/sanitized" "$heap"
check 'sanitized: no box is forgotten' ends_each_box "$scratch/sanitized"
sanitize driver.c "$scratch/sanitized"
check 'sanitized: random calls of drivers' compared "$scratch/driver.line" "$scratch/sanitized"
sanitize corners.c "$scratch/sanitized" "$heap"
check 'sanitized: answers at corners' compared "$scratch/corners.line" "$scratch/sanitized"
sanitize sizes.c "$scratch/sanitized"
check 'sanitized: structs of other sizes are rejected' compared "$scratch/sizes.line" "$scratch/sanitized"
sanitize types.cpp "$scratch/sanitized" "$heap"
check 'sanitized: the types of C++' compared "$scratch/types.line" "$scratch/sanitized"
sanitize orders.c "$scratch/sanitized"
check 'sanitized: a driver in random orders' compared "$scratch/orders.line" "$scratch/sanitized" 10000 1
sanitize machine.c "$scratch/machine"
check 'sanitized: the machine' as_napi_machine "$scratch/arrivals.csv"
check 'sanitized: the machine on a fault' as_napi_machine "$scratch/falls.csv"
sanitize replay.c "$scratch/sanitized"
check 'sanitized: the replay' as_the_tool "$scratch/sanitized" "$scratch/long.csv" 300 64 1024
check 'sanitized: the replay of a fault' as_the_tool "$scratch/sanitized" "$scratch/pending.csv" 300 64 1024
check 'sanitized: the raised replay' as_the_tool "$scratch/sanitized" "$scratch/waits.csv" 1 1 1024 99999
check 'sanitized: the raised replay of a fault' as_the_tool "$scratch/sanitized" "$scratch/fuller.csv" 1 1 1024 99999

watched=(valgrind -q --fair-sched=yes --leak-check=full --show-leak-kinds=all --error-exitcode=9)
if has valgrind 'the examples and random calls under valgrind'; then
    for source in "$examples"/*.c "$examples"/*.cpp; do
        name=$(basename "$source")
        [ "${name##*.}" = c ] && compiler=gcc || compiler=g++
        check "valgrind: $name" compared "$examples/${name%.*}.stdout" "${watched[@]}" "$scratch/$compiler-${name%.*}"
    done
    check 'valgrind: no box is forgotten' ends_each_box "${watched[@]}" "$scratch/boxes"
    for kind in "${kinds[@]}"; do
        check "valgrind: random calls: $kind" answered 100000 1 "$kind" "${watched[@]}" "$scratch/random"
    done
fi

# ---- what compilers accept, and what they reject

cat > "$scratch/tells.c" << 'END'
#include <fintaqush.h>
int main(void) {
    struct fq_caller caller = FQ_NONE;
    struct fq_list list = FQ_NONE;
    enum fq_next next;
    if (fq_caller_end(&caller, true, &next) == FQ_NOT_ALLOWED) return 1;
    return fq_run_polled(&list, 64, next) == FQ_BAD_HANDLE ? 0 : 2;
}
END
check 'how a poll ended is set, whatever the answer is' compile gcc "$scratch/tells.c" "$scratch/tells" -O2
check 'what it is then' "$scratch/tells"
cat > "$scratch/null.c" << 'END'
#include <fintaqush.h>
int main(void) { return (int)fq_free(NULL); }
END
cat > "$scratch/another.c" << 'END'
#include <fintaqush.h>
int main(void) { struct fq_ring ring = FQ_NONE; return (int)fq_list_push(&ring, 1); }
END
cp "$scratch/another.c" "$scratch/another.cpp"
cat > "$scratch/ignored.c" << 'END'
#include <fintaqush.h>
int main(void) { struct fq_napi napi = fq_napi_new(0); fq_napi_schedule(&napi, 1); return 0; }
END
cat > "$scratch/ignores.cpp" << 'END'
#include <fintaqush.hpp>
void poll(fintaqush::Polling &polling, fintaqush::Packets &out) { polling.poll(out); }
int main() {}
END
cat > "$scratch/polls.cpp" << 'END'
#include <fintaqush.hpp>
void poll(fintaqush::Caller &caller, fintaqush::Packets &out) { caller.poll(out); }
int main() {}
END
cat > "$scratch/weighs.cpp" << 'END'
#include <fintaqush.hpp>
std::size_t poll(fintaqush::Polling &polling, fintaqush::Packets &out) { return polling.poll(out, fintaqush::Weight::of<65>()); }
int main() {}
END
cat > "$scratch/copies.cpp" << 'END'
#include <fintaqush.hpp>
fintaqush::Caller twice(fintaqush::Caller &caller) { return caller; }
int main() {}
END
cat > "$scratch/enables.cpp" << 'END'
#include <fintaqush.hpp>
auto enable(fintaqush::Control<fintaqush::On> control) { return std::move(control).enable(false); }
int main() {}
END
cat > "$scratch/forgets.c" << 'END'
#include <fintaqush.h>
int main(void) {
    struct fq_driver driver = FQ_NONE;
    struct fq_todo todo = {0};
    if (fq_is_error(fq_driver_turn(&driver, 0, &todo))) return 1;
    switch (todo.what) {
    case FQ_TODO_MASK: case FQ_TODO_UNMASK: case FQ_TODO_FETCH: case FQ_TODO_TIMER: case FQ_TODO_ENDED: case FQ_TODO_SLEEP: case FQ_TODO_FAILED: break;
    }
}
END
cat > "$scratch/turns.c" << 'END'
#include <fintaqush.h>
int main(void) {
    struct fq_driver driver = FQ_NONE;
    struct fq_todo todo = FQ_TODO_INIT;
    while (fq_driver_turn(&driver, 0, &todo), todo.what != FQ_TODO_SLEEP) {}
}
END
sed 's/turn(&driver, 0, /step(\&driver, /' "$scratch/turns.c" > "$scratch/steps.c"
cat > "$scratch/begins.c" << 'END'
#include <fintaqush.h>
static struct fq_todo kept;
int main(void) {
    struct fq_todo todo = FQ_TODO_INIT, all[2] = {FQ_TODO_INIT, FQ_TODO_INIT};
    struct fq_device_settings settings = FQ_DEVICE_INIT;
    todo = FQ_TODO_INIT;
    kept = todo;
    settings.weight = 8;
    settings = FQ_DEVICE_INIT;
    return todo.what == FQ_TODO_SLEEP && sizeof todo == 40 && all[1].number == 0 && settings.weight == 64 ? 0 : 1;
}
END
cp "$scratch/begins.c" "$scratch/begins.cpp"
cat > "$scratch/ended.c" << 'END'
#include <fintaqush.h>
int main(void) {
    struct fq_napi napi = fq_napi_new(0);
    enum fq_next next;
    if (fq_napi_end(&napi, 1, true, &next) != FQ_NOT_ALLOWED) return 1;
    switch (next) {
    case FQ_NEXT_GONE: case FQ_NEXT_AGAIN: case FQ_NEXT_REPOLL: case FQ_NEXT_ABSENT: break;
    }
}
END
cat > "$scratch/shown.c" << 'END'
#include <fintaqush.h>
int main(void) {
    struct fq_driver driver = FQ_NONE;
    struct fq_device_shown shown;
    if (fq_driver_show(&driver, 0, &shown) != FQ_OK) return 1;
    switch (shown.state) {
    case FQ_DEVICE_CLOSED: case FQ_DEVICE_OPEN: break;
    }
}
END
# begins SOURCE: checks that each compiler takes FQ_TODO_INIT and FQ_DEVICE_INIT without a warning.
begins() {
    local compiler
    for compiler in "${compilers[@]}"; do
        case $1,$compiler in *.c,*++ | *.cpp,gcc | *.cpp,clang) continue ;; esac
        compile "$compiler" "$1" "$scratch/begins" -Wpedantic && "$scratch/begins" || { echo "$compiler"; return 1; }
    done
}
check 'a todo and settings begin with their macros' begins "$scratch/begins.c"
check 'and in C++' begins "$scratch/begins.cpp"
check 'enums of one byte are refused' refused fq_private_enums_have_4_bytes compile gcc "$scratch/begins.c" "$scratch/refused" -fshort-enums
check 'but not in C++, where each has four' compile g++ "$scratch/begins.cpp" "$scratch/begins" -fshort-enums
check 'a look that a switch forgets is refused' refused FQ_TODO_LOOK compile gcc "$scratch/forgets.c" "$scratch/refused"
check 'an end of a poll that a switch forgets is refused' refused FQ_NEXT_AGAIN_THREAD compile gcc "$scratch/ended.c" "$scratch/refused"
check 'a state of a device that a switch forgets is refused' refused FQ_DEVICE_STOPPING compile gcc "$scratch/shown.c" "$scratch/refused"
cat > "$scratch/interrupts.c" << 'END'
#include <fintaqush.h>
int main(void) { struct fq_driver driver = FQ_NONE; fq_driver_interrupt(&driver, 1); }
END
sed 's/interrupt/timer/' "$scratch/interrupts.c" > "$scratch/timers.c"
check 'an interrupt whose status nobody reads is refused' refused unused-result compile gcc "$scratch/interrupts.c" "$scratch/refused"
check 'a timer whose status nobody reads is refused' refused unused-result compile gcc "$scratch/timers.c" "$scratch/refused"
check 'a turn whose status nobody reads is refused' refused unused-result compile gcc "$scratch/turns.c" "$scratch/refused"
check 'a step whose status nobody reads is refused' refused unused-result compile gcc "$scratch/steps.c" "$scratch/refused"
check 'a null handle is refused' refused nonnull compile gcc "$scratch/null.c" "$scratch/refused"
check 'a ring in place of a list is refused' refused 'incompatible pointer type' compile gcc "$scratch/another.c" "$scratch/refused"
check 'a ring in place of a list is refused in C++' refused 'cannot convert' compile g++ "$scratch/another.cpp" "$scratch/refused"
check 'an answer that nobody reads is refused' refused unused-result compile gcc "$scratch/ignored.c" "$scratch/refused"
check 'a poll whose packets nobody counts is refused' refused unused-result compile g++ "$scratch/ignores.cpp" "$scratch/refused"
check 'a poll by a Caller is refused' refused "has no member named .poll" compile g++ "$scratch/polls.cpp" "$scratch/refused"
check 'a weight of 65 is refused' refused 'a weight is 1 to 64' compile g++ "$scratch/weighs.cpp" "$scratch/refused"
check 'a copy of a Caller is refused' refused 'deleted' compile g++ "$scratch/copies.cpp" "$scratch/refused"
check 'a second enable is refused' refused "has no member named .enable" compile g++ "$scratch/enables.cpp" "$scratch/refused"

sum_up
