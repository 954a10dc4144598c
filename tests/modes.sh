#!/usr/bin/env bash
# tests/modes.sh: compares the three modes of the built programs with one another, and measures that runs which wait don't spin
# (modes.py). The last line is `N passed, M failed`.
set -u
tests=$(cd "$(dirname "$(readlink -f "$0")")" && pwd)
crates=$tests/../crates
if ! "$tests/../scripts/build.sh" napi_serial napi_replay benches mode_tests || ! command -v python3 > /dev/null; then
    echo "0 passed, 1 failed"
    exit 1
fi
exec python3 -B "$tests/modes.py" "$crates/napi_replay/out/napi_replay" "$crates/napi_serial/out/napi_serial" "$crates/benches/out/benches" "$crates/mode_tests/out/mode_tests"
