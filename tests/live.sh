#!/usr/bin/env bash
# tests/live.sh: compares what napi_machine predicts with what Linux does. First with the recording that tests/live/kept has, everywhere; then,
# as root and with tracing, with recordings that it makes itself on veth pairs, in some two minutes: it records one setting, predicts others
# from it, and records those. If the machine is too disturbed for that, this is skipped, and a line says why.
# MACHINE=FILE names another build of napi_machine. The last line is `N passed, M failed, K skipped`.
set -u
unset CDPATH
tests=$(cd "$(dirname "$(readlink -f "$0")")" && pwd)
program=${MACHINE:-}
if [ -z "$program" ]; then
    program=$tests/../crates/napi_machine/out/napi_machine
    if ! "$tests/../scripts/build.sh" napi_machine; then
        echo "0 passed, 1 failed"
        exit 1
    fi
fi
exec python3 -EsSB "$tests/live/live.py" test "$program"
