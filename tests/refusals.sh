#!/usr/bin/env bash
# tests/refusals.sh: makes each allocation, read, write and start of a thread of the built programs fail in turn, and each
# allocation and start of a thread of calls of the library, by bench/refusals.sh; each mode is a test. The last line is `N
# passed, M failed`.
set -u
top=$(cd "$(dirname "$(readlink -f "$0")")/.." && pwd)
passed=0
failed=0

# try PROGRAM MODE
try() {
    if "$top/scripts/build.sh" "$1" && "$top/bench/refusals.sh" "$top/crates/$1/out/$1" "$2"; then
        passed=$((passed + 1))
    else
        failed=$((failed + 1))
        echo "$1, $2 mode: a refusal was answered otherwise"
    fi
}

for mode in serial shared threads; do
    try napi_replay "$mode"
done
try napi_serial serial
try napi_series serial
try napi_machine machine
try napi_machine queues
try memory_tests calls
echo "$passed passed, $failed failed"
[ "$failed" = 0 ]
