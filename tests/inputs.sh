#!/usr/bin/env bash
# Tries the launcher, with the real program, on inputs that are never closed, that fail, or that have no end. The last line is
# `N passed, M failed`.
set -uo pipefail
unset CDPATH
# A signal that the caller of this script ignores can't be tried, and a shell can't stop ignoring it by itself.
if [ -z "${SIGNALS_AS_USUAL:-}" ]; then
    SIGNALS_AS_USUAL=yes exec env --default-signal=INT,TERM,HUP,PIPE bash "$0" "$@"
fi
top=$(dirname "$(dirname "$(readlink -f "$0")")")
scratch=$(mktemp -d)
trap 'rm -rf "$scratch"' EXIT
passed=0
failed=0

# check NAME CONDITION ..: counts the condition's status.
check() {
    local name=$1
    shift
    if "$@"; then
        passed=$((passed + 1))
    else
        failed=$((failed + 1))
        echo "inputs: $name"
        sed 's/^/    /' "$scratch/out" "$scratch/err"
    fi
}

# run COMMAND ..: leaves its output in out and err, its status in `status`.
run() {
    status=0
    "$@" > "$scratch/out" 2> "$scratch/err" || status=$?
}

is() { [ "$1" = "$2" ]; }

# comes COMMAND ..: waits for it, at most 5 minutes.
comes() {
    local turns=15000
    until "$@"; do
        turns=$((turns - 1))
        [ "$turns" != 0 ] || return 1
        sleep 0.02
    done
}

# still WRITER: a FIFO that this command writes to, after which it stays open for an hour.
still() {
    rm -f "$scratch/fifo" && mkfifo "$scratch/fifo"
    (eval "$1" && exec sleep 3600) > "$scratch/fifo" &
    writer=$!
}

# fails FAULT CAUSE: the real program on the FIFO, whose writer doesn't close it.
fails() {
    run timeout -s KILL 1h "${as[@]}" "$top/replay" "$scratch/fifo"
    kill "$writer" 2> /dev/null
    wait "$writer" 2> /dev/null
    check "a writer that goes on: $2" is "$status $(sed "s,$scratch/,,g" "$scratch/err")" "2 trace fault $1
replay: fifo line $2"
}

# begins LAUNCHER: it has started the program, whose number is then in `program`. Others may run the same program meanwhile.
begins() { program=$(pgrep -P "$1" -f "^$top/crates/napi_serial/out/napi_serial"); }
is_over() { [ -n "$program" ] && ! grep -q napi_serial "/proc/$program/cmdline" 2> /dev/null; }

# ends_by SIGNAL STATUS: to this process only, while a writer doesn't close its FIFO.
ends_by() {
    local program
    still "echo 'moment,device,event,value'"
    env --default-signal=INT "$top/replay" "$scratch/fifo" > "$scratch/out" 2> "$scratch/err" &
    comes begins $!
    kill -"$1" $!
    status=0
    wait $! || status=$?
    check "$1 ends a replay whose trace is still to come" is "$status $(cat "$scratch/err") $(comes is_over || echo "$program runs")" \
        "$2 replay: interrupted "
    kill "$writer"
    wait "$writer" 2> /dev/null
}

# Traces that are never closed, and reads that fail.
inputs() {
    local as=() writer rows="printf 'moment,device,event,value\n0,1,open,4\n'" semicolons="'moment;device': the fields have semicolons between them, and need commas"
    still "echo 'moment;device'"
    fails '1 BadHeader row 0' "1, $semicolons"
    # After the CR, an LF may still come.
    still "printf 'moment;device\r'"
    fails '1 BadHeader row 0' "1, $semicolons"
    still "$rows; yes 0,1,rx,9 | head -n 70000; printf '0,1,Rx,9\n0,1,rx'"
    fails '4 BadEvent row 70002' "70003, '0,1,Rx,9': the event is none of $(python3 -B "$top/tests/events.py"), in lower case and without spaces"
    still "$rows; yes 0,1,rx,9"
    fails '9 TooManyRows row 100001' "100002, '0,1,rx,9': a trace has at most 100000 rows: replay the first ones alone"
    as=(env --ignore-signal=TERM)
    still "$rows; echo 1,1"
    fails '2 BadFields row 2' "3, '1,1': a row has four fields, and this one has 2"
    ends_by INT 130
    ends_by TERM 143
    printf 'moment,device,event,value\n0,1' > "$scratch/bad.csv"
    for how in '< "$1"' '<(cat "$1")' '< <(cat "$1")' '"$1"'; do
        run bash -c "'$top/replay' $how" '' "$scratch/bad.csv"
        check "a last line without its end, $how" is "$status $(grep -c "line 2, '0,1': a row has four fields" "$scratch/err")" '2 1'
    done
    local lines='memory fault 11 OutOfMemory
replay: it: it takes more memory than the program may have'
    for how in '< /dev/zero' '/dev/zero' '< <(tr "\0" x < /dev/zero)'; do
        run timeout 1h "$BASH" -c "'$top/replay' $how"
        check "an input without end, $how" is "$status $(sed 's,^replay: [^:]*,replay: it,' "$scratch/err")" "4 $lines, 2048 MiB (REPLAY_MEMORY sets that)"
        # The launcher that explains it has a memory limit here too, because one that kept all would run out.
        run env REPLAY_MEMORY=200 bash -c "ulimit -v 1500000; '$top/replay' $how"
        check "an input without end in 200 MiB, $how" is "$status $(sed 's,^replay: [^:]*,replay: it,' "$scratch/err")" "4 $lines, 200 MiB (REPLAY_MEMORY sets that)"
    done
    for memory in 0 1k -1 ' ' 12345678; do
        run env REPLAY_MEMORY="$memory" "$top/replay" "$top/examples/two-packets.csv"
        check "memory $memory" is "$status $(wc -l < "$scratch/err") $(wc -c < "$scratch/out")" '64 1 0'
    done
    run env REPLAY_MEMORY=unlimited "$top/replay" "$top/examples/two-packets.csv"
    check 'memory without a bound' is "$status $(cmp "$scratch/out" <("$top/replay" "$top/examples/two-packets.csv"))" '0 '
    for how in '< "$1"' '<(cat "$1")' '"$1"'; do
        { cat "$top/examples/two-packets.csv" && head -c 70000000 /dev/zero | tr '\0' '\n'; } > "$scratch/blank.csv"
        run bash -c "'$top/replay' $how" '' "$scratch/blank.csv"
        check "70 MB of empty lines, $how" is "$status $(cmp "$scratch/out" <("$top/replay" "$top/examples/two-packets.csv"))" '0 '
        { printf 'moment,device,event,value\n0,1,open,4\n1,1,rx,' && head -c 70000000 /dev/zero | tr '\0' 7; } > "$scratch/field.csv"
        run bash -c "'$top/replay' $how" '' "$scratch/field.csv"
        check "a field of 70 MB, $how" is "$status $(head -n 1 "$scratch/err")" '2 trace fault 3 BadNumber row 2'
    done
    rm -f "$scratch/blank.csv" "$scratch/field.csv"
    command -v python3 > /dev/null || return 0
    for how in '' --rows; do
        run python3 "$top/tests/half_read.py" $how "$top/replay"
        check "half of a trace is no trace $how" is "$status $(cat "$scratch/out" "$scratch/err")" '66 replay: standard input: a read of it failed'
    done
}

run "$top/scripts/build.sh" napi_serial
check 'the real program stands, or is built' is "$status" 0
inputs
echo "$passed passed, $failed failed"
[ "$failed" = 0 ]
