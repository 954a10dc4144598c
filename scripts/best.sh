# shellcheck shell=bash
# For scripts of bench/ to source that time runs by bench/measure.c: how they begin, and how they summarize the lines of their
# runs.
bench=$(cd "$(dirname "$0")" && pwd)
. "$bench/../scripts/arguments.sh"

# begin VARIABLE CRATE: sets `program` to the program that this variable names, otherwise to that of the crate, which is built
# first; `scratch` has measure, and is removed at the end.
begin() {
    # shellcheck disable=SC2154 # of its caller
    is_count TURNS "$turns"
    is_tool cc
    program=${!1:-}
    [ -n "$program" ] || { "$bench/../scripts/build.sh" "$2" && program=$bench/../crates/$2/out/$2; }
    is_program "$1" "$program"
    scratch=$(mktemp -d)
    trap 'rm -rf "$scratch"' EXIT
    cc -O2 -o "$scratch/measure" "$bench/measure.c"
}

# best: prints the least value of the first column, the greatest of the second one, and the last status
best() {
    awk 'NR == 1 || $1 < least { least = $1 } $2 > most { most = $2 } END { print least, most, $3 }' "$1"
}
