#!/usr/bin/env bash
# What must not compile: with each edit of a crate's must-not-compile/ the check has to stop at the error that the edit's first line
# names, before any proof (scripts/gate.py). An edit has lines 'error: NAME', 'file: PATH', 'old: TEXT' (which occurs once in that
# file) and 'new: TEXT'. It uses the libraries that the gate or scripts/build.sh built. The last line is `N passed, M failed`.
set -uo pipefail
cd "$(dirname "$(readlink -f "$0")")/.." || exit 1
exec python3 -EsSB scripts/gate.py uncompiled
