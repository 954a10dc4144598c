#!/usr/bin/env bash
# Times pairs of `queued` and `completed`, compared with Linux's own source: `lib/dynamic_queue_limits.c` with its header, taken
# by scripts/linux_source.sh from Debian's package linux-source-6.12, or from the folder LINUX of sources, and compiled by cc
# -O2 with kernel_limits.c, which replaces the kernel's headers. Nothing of it is kept. crates/benches makes the same
# calls; both print the same counts, which are compared. Three rounds in turn; the best time of each is printed. If there is
# neither the package nor a folder, it says so, with status 0: then nothing was compared.
#
# usage: [LINUX=FOLDER] bench/kernel_limits.sh [PAIRS]     (100000000 by default)
set -euo pipefail

unset CDPATH
bench=$(cd "$(dirname "$0")" && pwd)
. "$bench/../scripts/arguments.sh"
at_most 1 "$@"
pairs=${1:-100000000}
is_count PAIRS "$pairs"
is_tool cc
work=$(mktemp -d)
trap 'rm -rf "$work"' EXIT
files=(lib/dynamic_queue_limits.c include/linux/dynamic_queue_limits.h)

"$bench/../scripts/linux_source.sh" 6.12 "$work" "${files[@]}" || { [ $? = 69 ] && exit 0 || exit 64; }

"$bench/../scripts/build.sh" benches
# of PROGRAM: makes the pairs with it.
of() {
    case $1 in
        dql_core) "$bench/../crates/benches/out/benches" pairs "$pairs" ;;
        *) "$work/$1" "$pairs" ;;
    esac
}
# Every header that the two files name is kernel_limits.h, under that name.
sed -n 's/^#include <\(.*\)>.*/\1/p' "$work/${files[0]}" "$work/${files[1]}" | sort -u | while read -r header; do
    [ "$header" != linux/dynamic_queue_limits.h ] || continue
    mkdir -p "$work/stand_in/$(dirname "$header")"
    cp "$bench/kernel_limits.h" "$work/stand_in/$header"
done
cc -O2 -w -I "$work/stand_in" -I "$work/include" -include "$bench/kernel_limits.h" -o "$work/linux" \
    "$bench/kernel_limits.c" "$work/${files[0]}"

for _ in 1 2 3; do
    for program in dql_core linux; do
        of "$program" > "$work/$program.line" 2> "$work/spent"
        cut -d ' ' -f 1 "$work/spent" >> "$work/$program.times"
        if ! cmp -s "$work/$program.line" "$work/dql_core.line"; then
            echo 'Linux counts otherwise than dql_core:' >&2
            cat "$work/dql_core.line" "$work/linux.line" >&2
            exit 1
        fi
    done
done

cat "$work/dql_core.line"
least() { sort -n "$work/$1.times" | head -n 1; }
for program in dql_core linux; do
    awk -v name="$program" -v spent="$(least "$program")" -v pairs="$pairs" -v ours="$(least dql_core)" \
        'BEGIN { printf "%-9s %5.2f ns a pair, %4.2f of dql_core\n", name, spent / pairs, spent / ours }'
done
