#!/usr/bin/env bash
# tests/facades.sh: each public name of names.txt is exported by its facade, and the crate `uses_facades` imports it from there. And each
# fact of facts.txt is cited by the proof of the function that it names, and no other proof cites one. Each name and each fact is a test.
# The last line is `N passed, M failed, K skipped`.
. "$(dirname "$(readlink -f "$0")")/../scripts/checks.sh"
cd "$top" || exit 1

# imported PATTERN FILE ..: prints the names of the `use` statements that begin with the pattern.
imported() { cat "${@:2}" | tr '\n' ' ' | grep -oE "(^|[ ;])$1[^;]*;" | sed -E 's/\w+ as //g' | grep -oE '\w+'; }
# is_in FILE LINE
is_in() { grep -qxF -- "$2" "$1"; }
while read -r facade name; do
    [ -e "$scratch/$facade" ] || imported 'pub use ' "crates/$facade/src/lib.rt" > "$scratch/$facade"
    [ -e "$scratch/$facade.used" ] || imported "use $facade::" crates/uses_facades/src/*.rt > "$scratch/$facade.used"
    check "$facade exports $name" is_in "$scratch/$facade" "$name"
    check "uses_facades imports $name of $facade" is_in "$scratch/$facade.used" "$name"
done < <(grep -v '^#' tests/names.txt)

# facts FOLDER: prints each fact that the crates in the folder define, with each proof that cites it.
facts() {
    awk '/^ *unfolding / { getline; if ($NF == "tt") print $1 }' "$1"/*/specs/*.antt | sort | while read -r fact; do
        grep -rlw "$fact" "$1"/*/proofs | sed -E "s,^$1/(.*)/\w+.antt$,$fact \1,"
    done | sort
}
grep -v '^#' tests/facts.txt | sort > "$scratch/wanted"
facts crates > "$scratch/found"
while IFS= read -r line; do check "cited: $line" is_in "$scratch/found" "$line"; done < "$scratch/wanted"
check 'no other proof cites a fact' diff "$scratch/wanted" "$scratch/found"
mkdir -p "$scratch"/planted/{specs,proofs/f}
printf 'pub Saw : Type 0\nSaw = Unit {0}\n\npub saw_it : ℕ → Saw\nunfolding Saw\nsaw_it n = tt\n' > "$scratch/planted/specs/Saw.antt"
printf 'pub returns : goal.returns\nreturns c = saw_it 1\n' > "$scratch/planted/proofs/f/Answers.antt"
check 'a planted citation is seen' [ "$(cd "$scratch" && facts .)" = 'saw_it planted/proofs/f' ]
sum_up
