#!/bin/sh
# scripts/build.sh NAME ..: proves and builds these crates, and those below them, if that isn't done yet or a source has changed
# since. FINTAQUSH_TARGET=arm64 builds programs and archives for arm64, into out/arm64. Standard error shows the progress. It can be interrupted and started again: what was proved is kept. Exit status: 0
# they are built; 64 there is no such crate; 69 there is no `rt`; 70 the build failed; 73 the checkout can't be written to; 130
# or 143 interrupted.
. "$(dirname "$(readlink -f "$0")")/arguments.sh"
operands 1 999 "$@"
python=$(command -v python3) || { echo 'build.sh: there is no python3 on PATH' >&2; exit 69; }
block=$(env --block-signal=INT echo env --block-signal=INT 2> /dev/null) # while Python starts; then it unblocks it
# shellcheck disable=SC2086 # words
exec $block "$python" -ISB "$(dirname "$(readlink -f "$0")")/start.py" build "$@"
