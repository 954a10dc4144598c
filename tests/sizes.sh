#!/usr/bin/env bash
# tests/sizes.sh: the built programs on inputs of all sizes with all the memory that they need (sizes.py): none fails. The last
# line is `N passed, M failed`.
set -u
tests=$(cd "$(dirname "$(readlink -f "$0")")" && pwd)
if ! "$tests/../scripts/build.sh" napi_serial napi_replay napi_series napi_machine || ! command -v python3 > /dev/null; then
    echo "0 passed, 1 failed"
    exit 1
fi
exec python3 -B "$tests/sizes.py" "$tests/../crates"
