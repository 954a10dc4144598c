#!/usr/bin/env bash
# tests/house.sh: the measures of the house, by scripts/house.sh --check; each crate is a test, and so is a line of 140 columns that
# passes, one of 141 that fails, and names that another crate has or hasn't. And the places where the sources return out of memory,
# by tests/out_of_memory.py: each file that has one is a test, and so are planted ones. And by tests/plain_words.py: comments and
# pages use no word that only this repository knows. The last line is `N passed, M failed, K skipped`. Needs git and python3.
. "$(dirname "$(readlink -f "$0")")/../scripts/checks.sh"
mkdir -p "$scratch/scripts" "$scratch/crates/wide/specs"
cp "$top"/scripts/{arguments.sh,house.py,house.sh} "$scratch/scripts"
echo 'wide:' > "$scratch/crates.txt"
for columns in 140 141; do
    printf '%0*d\n' "$columns" 0 > "$scratch/crates/wide/specs/Wide.antt"
    told=$("$scratch/scripts/house.sh" --check)
    check "$columns columns: $told" [ "${told##*$'\n'}" = "$((141 - columns)) passed, $((columns - 140)) failed" ]
done
# one_name NUMBER TYPE DEFINITION: with this type and this definition in another crate, so many crates fail.
one_name() {
    echo "pub struct $2;" > "$scratch/crates/other/src/lib.rt"
    printf 'module _ {R : Type 0} where\n  abbrev pub %s : ℕ\n  %s = 1\n' "$3" "$3" > "$scratch/crates/other/specs/Other.antt"
    told=$("$scratch/scripts/house.sh" --check)
    [ "${told##*$'\n'}" = "$((2 - $1)) passed, $1 failed" ]
}
mkdir -p "$scratch"/crates/{wide/src,other/src,other/specs}
printf 'wide:\nother: wide\n' > "$scratch/crates.txt"
printf 'pub(crate) enum Ring {\n    Full,\n}\nstruct Own;\n' > "$scratch/crates/wide/src/lib.rt"
printf 'pub record Shows (d : ℕ) : Type 0 where\n  pub limit : ℕ\n\nabbrev pub count_of : ℕ → ℕ\ncount_of n = n\n' > "$scratch/crates/wide/specs/Wide.antt"
check 'names of their own pass, and so do a variant and a field' one_name 0 Full limit
check 'and a private type' one_name 0 Own ring
check "a public type's name that another crate has fails" one_name 1 Ring ring
check 'and a definition' one_name 1 Full count_of
check 'and a record' one_name 1 Full Shows
rm -r "$scratch/crates/other"
echo 'wide:' > "$scratch/crates.txt"
# planted NUMBER LINE: a file with this line returns out of memory in this many places.
planted() {
    printf '//! AllocError\nuse std::alloc::AllocError;\nfn f() -> Result<(), AllocError>\n    ensures { result ≡ OutOfMemory }\n{\n    %s\n}\n' \
        "$2" > "$scratch/crates/wide/src/lib.rt"
    git -C "$scratch" add crates
    python3 -B "$scratch/tests/out_of_memory.py" > "$scratch/told"
    grep -o 'crates/wide/src/lib.rt: [0-9]' "$scratch/told"
    [ "$(sed -n 's,^crates/wide/src/lib.rt: \([0-9]\) places .*,\1,p' "$scratch/told")" = "$1" ]
}
mkdir -p "$scratch/tests" "$scratch/crates/wide/src"
cp "$top"/tests/{judging,out_of_memory}.py "$scratch/tests"
git -C "$scratch" init -q
check 'an answer without an allocation is seen' planted 1 'if rows > 50000 { return Err(AllocError); }'
check 'so is one by another name' planted 1 'return Err(AllocError.into());'
check 'and a fault' planted 2 'made.map_err(|_| Fault::OutOfMemory).or(Err(Fault::Trace(TraceFault::OutOfMemory)))'
check 'and a status' planted 1 'status::OUT_OF_MEMORY'
check 'and a table that is refused' planted 1 'if seats == 9 { return Err(TableBack { ctx }); }'
check 'a pattern, a comparison and a text are none' planted '' \
    'match e { Err(AllocError) | Err(TableBack { ctx: _ }) => 1, Err(TableBack { ctx }) => 3, E::A(F::OutOfMemory) | E::OutOfMemory => 2, _ => e == F::OutOfMemory || told("F::OutOfMemory") }'
for script in out_of_memory plain_words; do
    python3 -B "$top/tests/$script.py" > "$scratch/told"
    sed '$d' "$scratch/told"
    read -r well _ wrong _ < <(tail -n 1 "$scratch/told")
    passed=$((passed + well)) failed=$((failed + wrong))
done
"$top/scripts/house.sh" --check > "$scratch/told"
sed '$d' "$scratch/told"
read -r well _ wrong _ < <(tail -n 1 "$scratch/told")
passed=$((passed + well)) failed=$((failed + wrong))
sum_up
