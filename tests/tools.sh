#!/usr/bin/env bash
# tests/tools.sh: tries the tools of tools/, and napi_series on whole runs, by tests/tools/test_*.py. What needs GNU
# parallel, tcpdump, node or a slurmd is skipped without it. PROGRAM=FILE, SERIES=FILE and MACHINE=FILE name
# other builds of napi_replay, napi_series and napi_machine. RAISED=N tries that many random traces with added runs (300).
# The last line is `N passed, M failed, K skipped`.
set -u
tests=$(cd "$(dirname "$(readlink -f "$0")")" && pwd)
if ! command -v python3 > /dev/null; then
    echo "there is no python3, which the tools are written in"
    echo "0 passed, 1 failed"
    exit 1
fi
for program in napi_replay napi_serial napi_series napi_machine; do
    case $program in
        napi_series) named=${SERIES:-} ;;
        napi_machine) named=${MACHINE:-} ;;
        *) named=${PROGRAM:-} ;;
    esac
    if [ -z "$named" ] && ! "$tests/../scripts/build.sh" "$program"; then
        echo "0 passed, 1 failed"
        exit 1
    fi
done
exec python3 -B "$tests/tools/run.py"
