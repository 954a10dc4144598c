#!/usr/bin/env bash
# bindings/rust: that it builds without a network, its tests and examples, what the compiler has to reject, for the reason that its doc
# test names, and all of it under valgrind if that is installed. What needs cargo or valgrind is skipped without it. The last line is `N passed, M failed, K skipped`.
. "$(dirname "$(readlink -f "$0")")/../scripts/checks.sh"
crate=$top/bindings/rust

ends() {
    sum_up
    exit
}

# ---- the declarations

has_the_version() { grep -qx "version = \"$(sed -n 's/^#define FQ_VERSION "\(.*\)"$/\1/p' "$top/include/fintaqush.h")\"" "$crate/Cargo.toml"; }

# Each `unsafe` has a line above it that says why it is sound; only src/sys declares what isn't safe to call.
each_unsafe_has_its_reason() {
    awk '/^ *\/\// { if (/SAFETY: /) told = 1; next } /unsafe \{|unsafe impl/ && !told { print FILENAME ":" FNR ": " $0; bad = 1 }
        { told = 0 } END { exit bad }' "$crate"/src/*.rs
}

unsafe_calls_are_declared_in_sys_alone() { ! grep -rl 'unsafe fn\|extern "C"' "$crate"/src | grep -v '/sys/functions\.rs$'; }

check 'its version is the header'"'"'s' has_the_version
check 'each unsafe says why it is sound' each_unsafe_has_its_reason
check 'what is not safe is declared in sys alone' unsafe_calls_are_declared_in_sys_alone

if ! cargo --version > "$scratch/log" 2>&1; then
    skip 'the build and the tests of the crate' cargo
    ends
fi

# ---- the crate

if ! "$top/scripts/c_library.sh" "$scratch"; then
    echo 'rust: the C library is not built'
    failed=$((failed + 1))
    ends
fi
export CARGO_HOME=$scratch/home CARGO_TARGET_DIR=$scratch/target FINTAQUSH_LIB=$scratch CARGO_TERM_COLOR=never
files() { find "$crate" | sort; }
files > "$scratch/before"

# of CARGO-COMMAND ARGUMENT ..: without a network, and with the lock file as it is
of() {
    local command=$1
    shift
    (cd "$crate" && timeout 1h cargo "$command" --offline --locked --quiet "$@")
}

# compared COMMAND ..: checks that the command succeeds, and prints what the example of the same name in C prints.
compared() { timeout 1h "$@" > "$scratch/printed" && diff "$scratch/printed" "$top/examples/c/$(basename "$1").stdout"; }

nothing_is_left() { files | diff "$scratch/before" -; }

# Without the library the build says what to run.
asks_for_the_library() {
    ! FINTAQUSH_LIB=$1 CARGO_TARGET_DIR=$scratch/none of build > "$scratch/refusal" 2>&1 &&
        grep -q 'there is no .*libfintaqush.a: FINTAQUSH_LIB has to be the whole path' "$scratch/refusal" ||
        { cat "$scratch/refusal"; false; }
}

check 'its docs without the library' env DOCS_RS=1 FINTAQUSH_LIB=none CARGO_TARGET_DIR="$scratch/docs" cargo doc --offline --locked --quiet --no-deps --manifest-path "$crate/Cargo.toml"
check 'it builds' of build --all-targets
check 'without the library it says what is missing' asks_for_the_library "$scratch/elsewhere"
check 'the path of the library has to be whole' asks_for_the_library elsewhere
check 'its tests' of test --tests
check 'its doc tests' of test --doc
check 'its docs have no warnings' env RUSTDOCFLAGS=-Dwarnings cargo doc --offline --locked --quiet --no-deps --manifest-path "$crate/Cargo.toml"
check 'the example threads' compared "$scratch/target/debug/examples/threads"
check 'the example limit' compared "$scratch/target/debug/examples/limit"
check 'it builds as a release' of build --release --example threads
check 'the example threads as a release' compared "$scratch/target/release/examples/threads"

# ---- the raised replay, compared with the programs

# raised TRACE BUDGET WEIGHT: the report of the trace with the runs that napi_series adds.
raised() {
    "$top/crates/napi_series/out/napi_series" --raise --rows --budget="$2" --weight="$3" < "$1" > "$scratch/raised.csv" &&
        "$top/crates/napi_serial/out/napi_serial" --budget="$2" --weight="$3" < "$scratch/raised.csv" > "$scratch/wanted" &&
        timeout 1h "$scratch/target/debug/examples/raised" "$2" "$3" < "$1" | cmp - "$scratch/wanted"
}

if "$top/scripts/build.sh" napi_serial napi_series > "$scratch/build.log" 2>&1; then
    check 'the raised replay of recorded bursts' raised "$top/examples/linux-veth-bursts.csv" 16 8
    check 'raised runs of one packet' raised "$top/examples/busy-poll.csv" 1 1
else
    check 'napi_series, which the raised replay is compared with' eval 'cat "$scratch/build.log"; false'
fi

# ---- what the compiler rejects

# The doc tests show that these don't compile; here, that nothing but what they name is wrong with them.
awk -v to="$scratch" '/^\/\/\/ ```compile_fail,/ { split($0, w, ","); name = FILENAME; sub(/.*\//, "", name)
        file = to "/" sprintf("%02d", ++n) "." w[2] "." name; next }
    file && /^\/\/\/ ```/ { close(file); file = "" } file { sub(/^\/\/\/ ?/, ""); print > file }' "$crate"/src/*.rs

refused_for() {
    local why=$1 source=$2
    ! rustc --edition 2021 --crate-name refused --crate-type lib --emit metadata -o "$scratch/refused.rmeta" \
        --extern fintaqush="$scratch/target/debug/libfintaqush.rlib" "$source" > "$scratch/refusal" 2>&1 &&
        [ "$(grep -o '^error\[E[0-9]*\]' "$scratch/refusal")" = "error[$why]" ] || { cat "$source" "$scratch/refusal"; false; }
}

for source in "$scratch"/[0-9][0-9].E*.rs; do
    name=${source##*/}
    why=$(cut -d . -f 2 <<< "$name")
    check "refused for $why, of $(cut -d . -f 3 <<< "$name").rs" refused_for "$why" "$source"
done

# ---- under valgrind, which runs one thread at a time

if has valgrind 'its tests under valgrind'; then
    watched() {
        timeout 1h valgrind -q --fair-sched=yes --leak-check=full --errors-for-leak-kinds=definite --error-exitcode=9 "$@"
    }
    watched_tests() { watched "$(find "$scratch/target/debug/deps" -name 'calls-*' ! -name '*.*')" --test-threads=1; }
    watched_threads() { watched "$scratch/target/debug/examples/threads" 2000 | grep -x '2000 packets, each once and in order'; }
    check 'valgrind: its tests' watched_tests
    check 'valgrind: the example threads' watched_threads
fi
check 'nothing is left in the checkout' nothing_is_left
ends
