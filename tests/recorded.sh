#!/usr/bin/env bash
# tests/recorded.sh: replays the traffic that was recorded from a running Linux, by examples/compare.sh, which compares the work
# of each row with what the kernel did there; and each example in shared mode, which has to write serial mode's bytes. The last
# line is `N passed, M failed`.
set -u
examples=$(cd "$(dirname "$0")/../examples" && pwd)
log=$(mktemp)
trap 'rm -f "$log"' EXIT
"$examples/compare.sh" 2>&1 | tee "$log"
status=${PIPESTATUS[0]}
passed=$(grep -c ': as the kernel$' "$log")
failed=$(grep -c ': other than the kernel$\|: the replay ended with status' "$log")
# compare.sh decides: if it fails and no line says why, that is one failure.
if [ "$status" != 0 ] && [ "$failed" = 0 ]; then failed=1; fi
for trace in "$examples"/*.csv; do
    "$examples/../replay" "$trace" > "$log"
    if [ -s "$log" ] && "$examples/../replay" --mode shared "$trace" | cmp -s - "$log"; then
        passed=$((passed + 1))
    else
        failed=$((failed + 1))
        echo "$trace: other bytes in shared mode"
    fi
done
echo "$passed passed, $failed failed"
[ "$failed" = 0 ] && [ "$passed" != 0 ]
