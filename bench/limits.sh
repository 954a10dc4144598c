#!/bin/sh
# Times pairs of `queued` and `completed`: crates/benches, compared with a plain C++ fold over the same rules, built by g++
# -O2 and, if it is installed, by clang++ -O3. Each makes the same calls and prints the same counts, which are compared. Three
# rounds of all programs in turn; the best time of each is printed.
#
# usage: bench/limits.sh [PAIRS]     (100000000 by default)
set -eu

unset CDPATH
bench=$(cd "$(dirname "$0")" && pwd)
. "$bench/../scripts/arguments.sh"
at_most 1 "$@"
pairs=${1:-100000000}
is_count PAIRS "$pairs"
is_tool g++
work=$(mktemp -d)
trap 'rm -rf "$work"' EXIT

"$bench/../scripts/build.sh" benches
# of PROGRAM: makes the pairs with it.
of() {
    case $1 in
        dql_core) "$bench/../crates/benches/out/benches" pairs "$pairs" ;;
        *) "$work/$1" "$pairs" ;;
    esac
}
programs=dql_core
g++ -O2 -o "$work/gcc" "$bench/limits.cc"
programs="$programs gcc"
if command -v clang++ > /dev/null; then
    clang++ -O3 -o "$work/clang" "$bench/limits.cc"
    programs="$programs clang"
fi

for _ in 1 2 3; do
    for program in $programs; do
        of "$program" > "$work/$program.line" 2> "$work/spent"
        cut -d ' ' -f 1 "$work/spent" >> "$work/$program.times"
        if ! cmp -s "$work/$program.line" "$work/dql_core.line"; then
            echo "$program counts otherwise than dql_core:" >&2
            cat "$work/dql_core.line" "$work/$program.line" >&2
            exit 1
        fi
    done
done

cat "$work/dql_core.line"
least() { sort -n "$work/$1.times" | head -n 1; }
for program in $programs; do
    awk -v name="$program" -v spent="$(least "$program")" -v pairs="$pairs" -v ours="$(least dql_core)" \
        'BEGIN { printf "%-9s %5.2f ns a pair, %4.2f of dql_core\n", name, spent / pairs, spent / ours }'
done
