#!/usr/bin/env bash
# scripts/web.sh [FOLDER]: makes web/fintaqush.wasm with the programs napi_serial, napi_series and napi_machine, and web/fintaqush.sum with the
# checksums of the sources that they were made from, and the page with it; or the first two in FOLDER. It takes some minutes, and needs `rt`
# and wasm-opt (Debian: binaryen).
#
# The kit compiles programs for Linux only. So each program is proved and built here by a toolchain whose clang keeps the LLVM module that the
# kit passes to it. The kit's clang compiles this module for WebAssembly with 64-bit addresses, and wasm-opt makes them 32-bit ones, which
# every browser has. The last two steps aren't the kit's, and web/fintaqush.js is in place of its C library; tests/web.sh compares the result
# with the native programs. Exit status: 0 done; 64 the arguments are wrong; 69 a tool is missing; 70 it couldn't be made.
set -euo pipefail
unset CDPATH
top=$(dirname "$(dirname "$(readlink -f "${BASH_SOURCE[0]}")")")
. "$top/scripts/arguments.sh"
programs=(napi_serial napi_series napi_machine)
[ $# -le 1 ] || stop 64 'usage: scripts/web.sh [FOLDER]'
to=$(realpath -s -- "${1:-$top/web}")
[ -d "$to" ] || stop 64 "$to: there is no such folder"
for tool in rt wasm-opt; do
    command -v "$tool" > /dev/null || stop 69 "there is no $tool on PATH"
done
kit=$(dirname "$(rt doc)")
clang=$kit/toolchain/bin/clang
scratch=$(mktemp -d)
trap 'rm -rf "$scratch"' EXIT

# of_builds CODE: runs Python code that has what tools/fintaqush_tools/builds.py defines.
of_builds() { python3 -ISBc "import sys; sys.path.insert(0, sys.argv[1]); from fintaqush_tools.builds import *; $1" "$top/tools" "${@:2}"; }

mapfile -t below < <(of_builds 'print(*{it.name: 0 for name in sys.argv[2:] for it in crates()[name].all[:-1]}, sep="\n")' "${programs[@]}")
"$top/scripts/build.sh" "${below[@]}" || stop 70 "what the programs stand on couldn't be built"

# module NAME: proves and builds a program, and keeps its LLVM module as NAME.bc.
module() {
    local tools=$scratch/$1.tools words
    mkdir -p "$tools/bin"
    ln -s "$kit/toolchain/lib" "$tools/lib"
    ln -s "$kit"/toolchain/bin/* "$tools/bin/"
    rm "$tools/bin/clang"

    printf '#!/bin/sh\nfor word; do case $word in module.bc) cp "$word" "%s" ;; esac; done\nexec "%s" "$@"\n' "$scratch/$1.bc" "$clang" > "$tools/bin/clang"
    chmod +x "$tools/bin/clang"
    mapfile -t words < <(of_builds 'print(*crates()[sys.argv[2]].words("build", 1), sep="\n")' "$1")
    (cd "$top/crates/$1" && "${words[@]}" --toolchain "$tools" --backend llvm -o "$scratch/$1.native") > "$scratch/$1.log" 2>&1
    [ -s "$scratch/$1.bc" ]
}

# compiled NAME: compiles NAME.bc for WebAssembly; the program's entry gets the program's name.
compiled() {
    "$clang" -S -emit-llvm -x ir "$scratch/$1.bc" -o - |
        sed -e 's/^target datalayout = .*/target datalayout = "e-m:e-p:64:64-p10:8:8-p20:8:8-i64:64-i128:128-n32:64-S128"/' \
            -e 's/^target triple = .*/target triple = "wasm64-unknown-unknown"/' \
            -e '/^attributes/s/"\(probe-stack\|stack-probe-size\|target-cpu\)"="[^"]*"//g' \
            -e 's/^define i32 @main()/define internal i32 @of_linux()/' \
            -e "s/^define internal \(.*\)@\"$1::main+start\"/define \1@\"$1::main+start\"/; s/@\"$1::main+start\"/@$1/" > "$scratch/$1.ll"
    "$clang" --target=wasm64-unknown-unknown -mcpu=lime1 --no-default-config -Os -ffunction-sections -fdata-sections \
        -x ir "$scratch/$1.ll" -c -o "$scratch/$1.o"
}

for name in "${programs[@]}"; do
    { module "$name" && compiled "$name" 2>> "$scratch/$name.log" || echo "$name" >> "$scratch/failed"; } &
done
wait
if [ -e "$scratch/failed" ]; then
    name=$(head -n 1 "$scratch/failed")
    tail -n 5 "$scratch/$name.log" >&2
    stop 70 "$name couldn't be compiled"
fi
ln -s "$clang" "$scratch/wasm-ld"
"$scratch/wasm-ld" -mwasm64 --no-entry --gc-sections --stack-first -z stack-size=1048576 --allow-undefined --export-memory --export=__heap_base \
    "${programs[@]/#/--export=}" -s -o "$scratch/wide.wasm" "$scratch"/napi_*.o 2> "$scratch/log" || stop 70 "it couldn't be linked: $(head -n 1 "$scratch/log")"
features=(--enable-memory64 --enable-bulk-memory --enable-sign-ext --enable-mutable-globals --enable-nontrapping-float-to-int --enable-multivalue)
wasm-opt --memory64-lowering -O3 "${features[@]}" "$scratch/wide.wasm" -o "$scratch/fintaqush.wasm" || stop 70 "wasm-opt couldn't change its addresses"
{
    of_builds 'print(*(f"{name} {sum_below(name)}" for name in sys.argv[2:]), sep="\n")' "${programs[@]}"
    echo "kit $(tr ' ' _ < "$kit/KIT-ID")"
    echo "wasm-opt $(wasm-opt --version | tr ' ' _)"
    sha256sum < "$scratch/fintaqush.wasm" | sed 's/ .*//; s/^/fintaqush.wasm /'
} > "$scratch/fintaqush.sum"
cp "$scratch/fintaqush.wasm" "$scratch/fintaqush.sum" "$to/"
[ "$to" != "$top/web" ] || "$top/scripts/page.py"
