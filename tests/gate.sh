#!/usr/bin/env bash
# scripts/gate.py on a crate of two functions and four must-fail edits: one that is rejected, one that its contract accepts, one
# of the same function, and one that doesn't compile; on a crate with one of each and a misnamed one; on one whose edited function calls
# another that isn't proved; and on what stops `rt ci`: a crate that isn't listed, and a link. The last line is `N passed, M failed,
# K skipped`.
. "$(dirname "$(readlink -f "$0")")/../scripts/checks.sh"
export XDG_CACHE_HOME=$scratch/cache

mkdir -p "$scratch"/low/{scripts,crates/{low,one}/{src,must-fail}} "$scratch/room"
cp "$top"/scripts/{start,gate}.py "$scratch/low/scripts"
cp -r "$top/tools" "$scratch/low"
cp "$top/HANDLES" "$scratch/low"
printf '%s:\n' low one > "$scratch/low/crates.txt"
cat > "$scratch/low/crates/low/src/lib.rt" << 'END'
//! Numbers.
#![tactic(auto)]

ghost use Rattle.std.specs.Prelude.{◌≤◌};

/// The lesser one.
pub fn lesser(a: u32, b: u32) -> u32
    ensures { (result ≤ a) × (result ≤ b) }
{
    if a < b { a } else { b }
}

/// A half, as its contract doesn't say.
pub fn half(number: u32) -> u32
    ensures { result ≤ number }
{
    number / 2
}
END
head -n 11 "$scratch/low/crates/low/src/lib.rt" > "$scratch/low/crates/one/src/lib.rt"
edit() { printf 'file: src/lib.rt\nold: %s\nnew: %s\n' "$2" "$3" > "$scratch/low/crates/$1.edit"; }
edit low/must-fail/the-greater-one 'if a < b { a }' 'if a < b { b }'
edit low/must-fail/a-third 'number / 2' 'number / 3'
edit low/must-fail/the-second-one 'a < b' 'a > b'
edit low/must-fail/unknown-name '{ b }' '{ c }'
edit one/must-fail/the-second-one 'a < b' 'a > b'
edit one/must-fail/the-second-one.edit 'a < b' 'a > b'
mv "$scratch/low/crates/one/must-fail/the-second-one.edit.edit" "$scratch/low/crates/one/must-fail/misnamed"
status=0
gate() { python3 -EsSB "$scratch/low/scripts/gate.py" "$@" > "$scratch/out" 2>&1; }
is_refused() { gate "$@"; [ "$?" = 64 ] && grep -q -- '--help says more' "$scratch/out"; }
names() { [ "$(python3 -EsSB -c 'import sys; sys.path.insert(0, sys.argv[1]); import gate; print(gate.block_of(sys.argv[2]))' "$top/scripts" "$1")" = "$2" ]; }
check 'a block with a head of two lines has its name' names "impl Other {
}

impl<'t, R: Wait + Copy + Drop, D: Device + Drop> Task
    for Worker<'t, R, D> {
" WorkerTask
check 'a Drop has the name of its type' names "impl<R: Wait + Drop, T> Drop for DropBomb<R, T> {
" DropBomb
check 'a reference has a name' names "impl<G: Gate> Gate for &G {
" RefGate
# Functions of a type in another module than the type, of a trait, and with a closure; one with an edit, one with a proof of its own.
cat > "$scratch/stubs.py" << 'END'
import sys

sys.path.insert(0, sys.argv[1])
import gate

lib = """pub struct Pair(u32, u32);

impl Pair {
    pub fn sum(&self) -> u32
        ensures { result ≡ record {
            n = 1;
        } }
    {
        let all = self.0;
        all + self.1
    }

    fn kept(&self) -> u32 {
        self.0
    }
}

pub fn edited() -> u32 {
    1
}

const fn zero() -> u32 {
    0
}
"""
far = """impl Pair {
    pub fn any(&self) -> bool {
        [1, 2].iter().any(|it| it > self.0)
    }
}

impl fmt::Debug for Pair {
    fn fmt(&self);

    fn all(&self) {
        ()
    }
}
"""
texts = {"src/lib.rt": lib, "src/more/far.rt": far, "specs/Lib.antt": "", "proofs/Pair/kept/Proof.antt": ""}
texts |= {f"proofs/{it}.antt": "" for it in ("Pair/sum/Answers", "Pair/sum/Invariants", "fn/Pair/any/any/Answers", "edited/Answers")}
edited = gate.Function("src/lib.rt", lib, lib.index("    1"))
made = gate.stubbed(next(it for it in gate.all_crates() if it.name == "low"), texts, [edited])
loop = "        loop {}\n"
assert made["src/lib.rt"] == lib.replace("        let all = self.0;\n        all + self.1\n", f"{loop}\n"), made["src/lib.rt"]
assert made["src/more/far.rt"].count(loop) == 2 and made["src/more/far.rt"].count("\n") == far.count("\n"), made["src/more/far.rt"]
here = ["Pair/any/Proof", "Pair/kept/Proof", "Pair/sum/Proof", "edited/Answers", "more/far/PairDebug/all/Proof"]
assert sorted(it for it in made if it.startswith("proofs/")) == [f"proofs/{it}.antt" for it in here], sorted(made)
assert made["proofs/more/far/PairDebug/all/Proof.antt"].startswith("use Rattle.low.proofs.more.far.PairDebug.all.Statement as")
END
check 'stubs have loops and holes, by the names that the prover has' python3 -EsSB "$scratch/stubs.py" "$scratch/low/scripts"
gate --help
check 'its help is printed, and nothing is proved' grep -q '^scripts/gate.py proofs ROOM' "$scratch/out"
check 'it has to know what to do' is_refused
check 'and to know the word' is_refused --version
check 'and where' is_refused proofs
gate proofs "$scratch/room" low one || status=$?
check 'the crate is proved' grep -qE '^rt: low (proved$|is kept: )' "$scratch/out" # by an earlier run, with a kit that keeps it
check 'and the other, and they are counted' [ "$(tail -n 1 "$scratch/out") $status" = '2 passed, 0 failed 0' ]
check 'without its edits' [ ! -e "$scratch/room/crates/low/must-fail" ]
check 'the library is kept' [ -e "$(echo "$scratch"/cache/fintaqush/*/low.rlib/format)" ]
needs_no_build() {
    touch -d 2000-01-01 "$scratch"/cache/fintaqush/*/low.rlib/format && [ -z "$(python3 -EsSB "$scratch/low/scripts/start.py" build low 2>&1)" ]
}
check 'and stands for later builds, however old its files are' needs_no_build
gate edits low one || status=$?
check 'a wrong body is refused' grep -q '^must-fail low/the-greater-one: refused: note: src/lib.rt:7:' "$scratch/out"
check 'and a second one of its function' grep -q '^must-fail low/the-second-one: refused: note: src/lib.rt:7:' "$scratch/out"
check 'what the contract lets through is told' grep -q '^must-fail low/a-third: NOT REFUSED: ' "$scratch/out"
check 'and what does not compile' grep -q '^must-fail low/unknown-name: BAD EDIT.*error' "$scratch/out"
check 'the same words prove what is as it was' grep -qx 'must-fail one/a function as it is: proved' "$scratch/out"
check 'and a misnamed one' grep -q '^must-fail one/misnamed: BAD EDIT' "$scratch/out"
check 'they are counted' [ "$(tail -n 1 "$scratch/out") $status" = '4 passed, 3 failed 1' ]
# edits TEXT WORD ..: tries those of the crate `one`, and prints this of the one that was refused.
edits() {
    gate edits "${@:2}" one || true
    grep -q "^must-fail one/the-second-one: $1" "$scratch/out"
}
check 'what was refused is kept' edits 'kept, refused: note: src/lib.rt:7:'
check 'and counted' [ "$(tail -n 1 "$scratch/out")" = '1 passed, 1 failed' ]
check 'it is tried again if one asks for it' edits 'refused: note: src/lib.rt:7:' --again
echo 'fn' >> "$scratch/low/crates/one/src/lib.rt"
check 'and if its crate has changed, here to one that does not compile' edits 'BAD EDIT'
sed -i '$d' "$scratch/low/crates/one/src/lib.rt"
# Of `two`, the function without an edit isn't proved.
mkdir -p "$scratch/low/crates/two/"{src,must-fail}
{
    head -n 9 "$scratch/low/crates/one/src/lib.rt" && printf '%s\n' '    if a < b { b } else { a }' '}' '' '/// The least one.'
    printf '%s\n' 'pub fn least(a: u32, b: u32, c: u32) -> u32' '    ensures { result ≤ c }' '{' '    lesser(lesser(a, b), c)' '}'
} > "$scratch/low/crates/two/src/lib.rt"
edit two/must-fail/without-the-last 'lesser(lesser(a, b), c)' 'lesser(a, b)'
echo 'two:' >> "$scratch/low/crates.txt"
gate edits two
check 'an edit is refused whatever the bodies of other functions' grep -q '^must-fail two/without-the-last: refused: note: src/lib.rt:1[3-6]:' "$scratch/out"
check 'and so proved without it' grep -qx 'must-fail two/a function as it is: proved' "$scratch/out"
rm -rf "$scratch/low/crates/two" && sed -i '$d' "$scratch/low/crates.txt"
# in the copy, there is only what stops `rt ci`
stops() {
    rm -rf "$scratch/room" && mkdir "$scratch/room"
    gate proofs "$scratch/room"
    [ "$(tail -n 1 "$scratch/out")" = '0 passed, 1 failed' ] && grep -q "$1" "$scratch/out"
}
cp -r "$scratch/low/crates/one" "$scratch/low/crates/unlisted"
check 'a crate that is not listed' stops unlisted
rm -rf "$scratch/low/crates/unlisted"
ln -s ../../../HANDLES "$scratch/low/crates/one/src/link"
check 'a link' stops link
sum_up
