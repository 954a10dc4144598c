#!/usr/bin/env bash
# scripts/house.sh [--check]: the crates in numbers, a line for each and one for all: lines of code, contracts, tests,
# definitions, proofs and edits, functions, the widest line of a clause, the longest function, and the ratio of the proofs to
# what they prove. With --check it prints instead each clause over 100 columns, each line of .antt over 140, each function of 40
# lines or more, each file over 800 lines, each function with several clauses of a kind, not all with names, and each public type
# and each definition of specs/ whose name another crate has; its last line is `N passed, M failed`, a crate each. Exit status: 0;
# 1 with --check if a crate exceeds a limit; 64 python3 is missing, or an argument is wrong.
set -u
unset CDPATH
. "$(dirname "$(readlink -f "${BASH_SOURCE[0]}")")/arguments.sh"
at_most 1 "$@"
[ "${1:---check}" = --check ] || refuse "there is no argument '${1//[^[:print:]]/?}'"
is_tool python3
cd "$(dirname "$(dirname "$(readlink -f "${BASH_SOURCE[0]}")")")" || exit 1
exec python3 -B scripts/house.py "$@"
