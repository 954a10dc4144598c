#!/usr/bin/env bash
# tests/arm64.sh [--fetch]: the library and the programs for arm64, under QEMU, which runs programs of arm64 on x86-64: the C tests and examples,
# the bindings to Python and Rust, each program on runs.txt and the examples, compared with the same program of x86-64, the packages, and which
# instructions touch words that threads share. QEMU reorders no loads and stores, so this doesn't show what a processor of arm64 may; for that
# tests/threads-here.sh is run on one. First the functions of glue/ are compared with the kit's. --fetch downloads Python and Rust's library of
# arm64, 40 MB, into ~/.cache/fintaqush, and does no more. The last line is `N passed, M failed, K skipped`.
. "$(dirname "$(readlink -f "$0")")/../scripts/checks.sh"
. "$top/tests/c/checks.sh"
fetched=~/.cache/fintaqush/arm64
[ "${1:-}" != --fetch ] || [ -d "$fetched" ] || exec "$top/tests/cards/fetch.sh" "$fetched" --arm64
[ "${1:-}" != --fetch ] || exit 0
unset PYTHONPATH FINTAQUSH_LIB FINTAQUSH_TARGET FINTAQUSH_CPU SOURCE_DATE_EPOCH
prefix=$scratch/prefix
version=$(sed -n 's/^#define FQ_VERSION "\(.*\)"$/\1/p' "$top/include/fintaqush.h")

# ---- the C functions that Rattle code calls, beside the kit's

# glued FILE ..: prints what glue.c does with these files.
glued() {
    "${cross}gcc" -std=c11 -Wall -Wextra -Wshadow -Werror -O2 "$top/tests/c/glue.c" "$@" -Wl,--wrap=malloc,--wrap=realloc -o "$scratch/glued" &&
        "${run[@]}" "$scratch/glued" one '' 'a longer one' $'\xff\xfe'
}
the_kits() { glued "$(dirname "$(rt doc)")"/c/lib{os,libc}_c.a > "$scratch/kits" && [ "$(wc -l < "$scratch/kits")" -gt 500 ]; }
as_the_kit() { glued "$top"/glue/*.c > "$scratch/own" && diff "$scratch/own" "$scratch/kits"; }
check "the kit's functions" the_kits
check "those of glue/ answer as the kit's" as_the_kit

# tells_what_it_lacks SCRIPT: checks its message without the cross compiler.
tells_what_it_lacks() {
    local status=0
    PATH=$scratch/few "$top/scripts/$1" --target arm64 "$scratch/none" > "$scratch/refusal" 2>&1 || status=$?
    [ "$status $(cat "$scratch/refusal")" = "69 $1: there is no aarch64-linux-gnu-gcc, which builds for arm64 (Debian: gcc-aarch64-linux-gnu)" ]
}
refuses_another() { ! "$top/scripts/$1" --target arm "$scratch/none" > "$scratch/refusal" 2>&1 && grep "no target 'arm', only arm64" "$scratch/refusal"; }
mkdir "$scratch/few"
for program in basename bash dirname env readlink; do ln -s "$(command -v "$program")" "$scratch/few"; done
for script in install package; do
    check "$script.sh refuses another target" refuses_another "$script.sh"
    check "$script.sh without the cross compiler" tells_what_it_lacks "$script.sh"
done

for program in aarch64-linux-gnu-gcc aarch64-linux-gnu-g++ qemu-aarch64; do
    has "$program" 'the library and the programs for arm64' || { sum_up; exit; }
done
cross=aarch64-linux-gnu-
run=(qemu-aarch64 -L /usr/aarch64-linux-gnu)
check 'they do so on arm64' as_the_kit

# ---- the installation

mapfile -t programs < <("$top/scripts/install.sh" --programs)
is_arm64() { ! readelf -h "$@" | grep Machine: | grep -v AArch64; }
needs_libc_alone() { ! readelf -d "$@" | grep NEEDED | grep -v -e 'libc\.so\.6' -e 'ld-linux-aarch64\.so\.1'; }
# told_needs: docs/C.md names each function that the library calls.
told_needs() {
    local name
    for name in $("${cross}nm" -u "$library" | awk 'NF == 2 && $2 !~ /^_GLOBAL_OFFSET_TABLE_$|^fq_/ { print $2 }' | sort -u); do
        grep -q "^The library calls .*\`$name\`" "$top/docs/C.md" || { echo "$name"; return 1; }
    done
}
same_calls() { diff <("${cross}nm" -D --defined-only "$prefix/lib/libfintaqush.so" | awk '$2 != "A" { sub(/@.*/, "", $3); print $3 }' | sort) <(header_calls); }
# by_pkg_config: with the shared library.
by_pkg_config() {
    # shellcheck disable=SC2046 # the flags of pkg-config
    "${cross}gcc" -pthread "$top/examples/c/limit.c" $(PKG_CONFIG_PATH=$prefix/lib/pkgconfig pkg-config --cflags --libs fintaqush) -o "$scratch/limit" &&
        "${run[@]}" -E LD_LIBRARY_PATH="$prefix/lib" "$scratch/limit" | diff - "$top/examples/c/limit.stdout"
}
by_cmake() {
    mkdir "$scratch/cmake" && cp "$top/examples/c/limit.c" "$scratch/cmake" && cat > "$scratch/cmake/CMakeLists.txt" << 'END' &&
cmake_minimum_required(VERSION 3.10)
project(limits C)
find_package(Fintaqush 3.0 REQUIRED)
add_executable(limit limit.c)
target_link_libraries(limit Fintaqush::static)
END
        cmake -S "$scratch/cmake" -B "$scratch/cmake/out" -DCMAKE_SYSTEM_NAME=Linux -DCMAKE_SYSTEM_PROCESSOR=aarch64 -DCMAKE_C_COMPILER="${cross}gcc" \
            -DFintaqush_DIR="$prefix/lib/cmake/Fintaqush" && cmake --build "$scratch/cmake/out" &&
        "${run[@]}" "$scratch/cmake/out/limit" | diff - "$top/examples/c/limit.stdout"
}

check 'it is installed' "$top/scripts/install.sh" --target arm64 --python "$prefix"
library=$prefix/lib/libfintaqush.a
[ -e "$library" ] || { sum_up; exit; }
check 'all of it is for arm64' is_arm64 "$library" "$prefix/lib/libfintaqush.so" "$prefix"/lib/fintaqush/programs/*
check 'it needs libc alone' needs_libc_alone "$prefix/lib/libfintaqush.so" "$prefix"/lib/fintaqush/programs/*
check 'the page names what is asked for' told_needs
check 'the shared library has the calls alone' same_calls
! has pkg-config 'a program for arm64 by pkg-config' || check 'a program by pkg-config' by_pkg_config
! has cmake 'a program for arm64 by CMake' || check 'a program by CMake' by_cmake

# ---- the C tests and examples

try_examples gcc
try_examples g++
try_each
try_random 20000 1

# ---- the programs, beside those of x86-64

# as_here PROGRAM INPUT OPTION ..: checks that the program for arm64 has the output, message and status of the one for x86-64.
as_here() {
    local program=$1 input=$2 status=0 wanted=0
    shift 2
    timeout 1h "$top/crates/$program/out/$program" "$@" < "$input" > "$scratch/wanted" 2> "$scratch/wanted.line" || wanted=$?
    timeout 1h "${run[@]}" "$prefix/lib/fintaqush/programs/$program" "$@" < "$input" > "$scratch/printed" 2> "$scratch/line" || status=$?
    [ "$status" = "$wanted" ] && cmp "$scratch/printed" "$scratch/wanted" && diff "$scratch/line" "$scratch/wanted.line" || { echo "$program $* < $input"; return 1; }
}
# each_run PROGRAM: runs the program on each input of runs.txt with its options.
each_run() {
    local at words
    for at in "$scratch"/runs/*.csv; do
        mapfile -d '' -t words < "${at%.csv}.words"
        as_here "$1" "$at" "${words[@]}" || return
    done
}
# each_trace PROGRAM OPTION ..: runs the program on each example trace, here and for arm64.
each_trace() { local trace; for trace in "$top"/examples/*.csv; do as_here "$1" "$trace" "${@:2}" || return; done; }
# own_example PROGRAM: compares its output with the example in its crate.
own_example() {
    local words=()
    [ ! -e "$top/crates/$1/args" ] || mapfile -t words < "$top/crates/$1/args"
    "${run[@]}" "$prefix/lib/fintaqush/programs/$1" "${words[@]}" < "$top/crates/$1/stdin" | diff - "$top/crates/$1/stdout"
}
# replays_as_serial TRACE: compares the library's replay with napi_serial's.
replays_as_serial() {
    "${run[@]}" "$scratch/replay" 300 64 1024 < "$1" > "$scratch/printed" && "$top/crates/napi_serial/out/napi_serial" < "$1" | cmp - "$scratch/printed"
}
same_again() {
    local made=$top/crates/napi_serial/out/arm64/napi_serial
    cp "$made" "$scratch/once" && rm "$made" && FINTAQUSH_TARGET=arm64 "$top/scripts/build.sh" napi_serial && cmp "$scratch/once" "$made"
}

check 'the programs of x86-64' "$top/scripts/build.sh" "${programs[@]}"
mkdir "$scratch/runs"
check 'the runs' python3 -BSc 'import sys
sys.path.insert(0, sys.argv[1])
from runs import runs
for name, words, text in runs():
    for end, made in ("csv", text), ("words", b"".join(it.encode(errors="surrogateescape") + b"\0" for it in words)):
        with open(f"{sys.argv[2]}/{name}.{end}", "wb") as file: file.write(made)' "$top/tests" "$scratch/runs"
{ echo 'ns,device,bytes' && awk 'BEGIN { for (i = 0; i < 5000; i++) print i * 900, i % 7 + 1, i % 1400 + 60 }' OFS=, ; } > "$scratch/arrivals.csv"
for program in "${programs[@]}"; do
    check "$program on its example" own_example "$program"
    check "$program on runs.txt" each_run "$program"
done
check 'napi_serial on the examples' each_trace napi_serial --budget 16 --weight 8
for mode in shared threads; do check "napi_replay on the examples, mode $mode" each_trace napi_replay --mode "$mode"; done
check 'napi_series on the examples' each_trace napi_series --every 10
check 'napi_series with added runs' each_trace napi_series --raise --rows --budget 16
check 'napi_machine on arrivals' as_here napi_machine "$scratch/arrivals.csv"
check 'napi_machine with other settings' as_here napi_machine "$scratch/arrivals.csv" --processors=3 --budget=7 --weight=5 --rx-nsecs=20000 --rx-frames=9 \
    --defer-hard-irqs=2 --gro-flush-timeout=15000 --app-wake=2000 --use=900 --wake=700
check 'the replay of the library compiles' compile gcc "$top/tests/c/replay.c" "$scratch/replay" -O2
for trace in "$top"/examples/{bursts,busy-poll,linux-veth-tcp,two-queues}.csv; do check "its replay of ${trace##*/}" replays_as_serial "$trace"; done
check 'the same sources give the same program' same_again

# ---- the words that threads share

# are_strong FILE: checks that it has atomics, and that all are sequentially consistent.
are_strong() {
    "${cross}objdump" -d --no-show-raw-insn "$1" | grep -oP '\t(ld|st|cas|swp)\w+(?=\t)' | sort | uniq -c > "$scratch/kinds"
    cat "$scratch/kinds" && grep -qw ldar "$scratch/kinds" && ! grep -wE '(ldapr|ldx[rp]|stx[rp]|(cas|swp|ldadd|ldset|ldclr|ldeor|stadd|stset|stclr|steor)[al]?)[bh]?' "$scratch/kinds"
}
for file in "$library" "$prefix/lib/fintaqush/programs/napi_replay"; do check "no atomic of ${file##*/} is weaker" are_strong "$file"; done
check 'random calls that are read by instruction' compile gcc "$top/tests/c/random.c" "$scratch/read" -O2 -no-pie "$heap"
check 'no plain instruction touches a shared word' python3 -BES "$top/tests/shared_words.py" "$scratch/read" shared 300 1

# ---- the bindings

# on_arm64 WORD ..: Python of arm64, with the package of this checkout and the installed library.
on_arm64() {
    FINTAQUSH_LIB=$prefix/lib PYTHONPATH=$top/bindings/python PYTHONDONTWRITEBYTECODE=1 "${run[@]}" \
        -E LD_LIBRARY_PATH="$fetched/usr/lib/aarch64-linux-gnu:$fetched/lib/aarch64-linux-gnu" "$fetched"/usr/bin/python3.* "$@"
}
python_limits() { on_arm64 "$top/bindings/python/examples/limit.py" | diff - "$top/examples/c/limit.stdout"; }
if [ -d "$fetched" ]; then
    check 'the tests of the package for Python' on_arm64 -W error "$top/bindings/python/tests/test_fintaqush.py"
    check 'its example' python_limits
else
    skip 'the package for Python on arm64' linux-arm64
fi

# of_rust COMMAND OPTION ..: runs cargo for arm64 in the crate.
of_rust() (
    export CARGO_HOME=$scratch/home CARGO_TARGET_DIR=$scratch/target FINTAQUSH_LIB=$prefix/lib RUSTC=$rustc CARGO_TERM_COLOR=never
    export CARGO_TARGET_AARCH64_UNKNOWN_LINUX_GNU_{LINKER="${cross}gcc",RUNNER="${run[*]}",RUSTFLAGS="$std"}
    cd "$top/bindings/rust" && timeout 1h "${rustc%rustc}cargo" "$1" --offline --locked --quiet --target "$rust" "${@:2}"
)
rust_example() { of_rust run --example "$1" > "$scratch/printed" && diff "$scratch/printed" "$top/examples/c/$1.stdout"; }
rust=aarch64-unknown-linux-gnu
rustc=rustc # the cargo beside it is taken
std=
if has cargo 'the Rust crate for arm64'; then
    if [ ! -d "$(rustc --print target-libdir --target "$rust")" ]; then # that of Debian has the version of the library that is fetched
        rustc=/usr/bin/rustc std="-L $fetched/usr/lib/rustlib/$rust/lib"
        grep -qsa "$("$rustc" --version 2> /dev/null | cut -d ' ' -f 1,2 || echo none)" "${std#-L }"/libcore-*.rlib || rustc=
    fi
    if [ -n "$rustc" ]; then
        check 'the tests of the Rust crate' of_rust test --tests
        for name in limit threads; do check "its example $name" rust_example "$name"; done
    else
        skip 'the Rust crate for arm64' linux-arm64
    fi
fi

# ---- the packages

# has_fields PACKAGE: checks its architecture, and that it depends on a version of libc.
has_fields() { [ "$(dpkg-deb -f "$scratch/debs/${1}_${version}_arm64.deb" Architecture)" = arm64 ] && dpkg-deb -f "$scratch/debs/${1}_${version}_arm64.deb" Depends | grep "$2"; }
same_packages() { "$top/scripts/package.sh" --target arm64 "$scratch/again" && diff -r "$scratch/debs" "$scratch/again"; }
# unpacked_runs: runs the unpacked packages, in the folders in which Debian installs them.
unpacked_runs() {
    local deb lib=$scratch/root/usr/lib/aarch64-linux-gnu
    for deb in "$scratch"/debs/*_arm64.deb; do dpkg-deb -x "$deb" "$scratch/root" || return; done
    "${run[@]}" "$scratch/root/usr/lib/fintaqush/programs/napi_serial" < "$top/crates/napi_serial/stdin" | diff - "$top/crates/napi_serial/stdout" &&
        "${cross}gcc" -I "$scratch/root/usr/include" "$top/examples/c/limit.c" "$lib/libfintaqush.so" -o "$scratch/limit" &&
        "${run[@]}" -E LD_LIBRARY_PATH="$lib" "$scratch/limit" | diff - "$top/examples/c/limit.stdout"
}
if has dpkg-deb 'the Debian packages for arm64'; then
    check 'packages' "$top/scripts/package.sh" --target arm64 "$scratch/debs"
    check 'the library needs its libc' has_fields "libfintaqush${version%%.*}" 'libc6 (>= 2\.[0-9]*)'
    check 'the programs need theirs' has_fields fintaqush 'libc6 (>= 2\.[0-9]*), python3'
    check 'the files for development' has_fields libfintaqush-dev "libfintaqush${version%%.*} (= $version)"
    check 'they are unpacked, and run' unpacked_runs
    check 'the same sources give the same packages' same_packages
    ! has lintian 'the packages for arm64 by the rules of Debian' ||
        check 'the packages by the rules of Debian' lintian --allow-root --fail-on error,warning "$scratch"/debs/*_arm64.deb
fi
sum_up
