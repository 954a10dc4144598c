#!/usr/bin/env bash
# scripts/c_library.sh FOLDER: proves and builds the C library, if that isn't done yet, and puts libfintaqush.a into the folder,
# which it makes if necessary: the exports of napi_c, the replay and the machine of files_c, and the kit's heap that
# they call. The archive needs only the C library, and exports only the calls. FINTAQUSH_CPU=x86-64 compiles it for all x86-64
# processors, in place of x86-64-v2; x86-64-v3 for newer ones. FINTAQUSH_TARGET=arm64 compiles it for arm64; the heap is then glue/heap.c, by
# Debian's cross compiler. Standard output stays empty.
set -euo pipefail
unset CDPATH
crates=$(dirname "$(dirname "$(readlink -f "${BASH_SOURCE[0]}")")")/crates
. "$crates/../scripts/arguments.sh"
operands 1 1 "$@"
for_target "${FINTAQUSH_TARGET:-}"
mkdir -p -- "$1"
to=$(readlink -f "$1")
command -v rt > /dev/null || { echo "c_library: there is no rt on PATH (the kit), which proves and builds it: see 'What it needs' in README.md" >&2; exit 69; }
"$crates/../scripts/build.sh" napi_c files_c
scratch=$(mktemp -d)
trap 'rm -rf "$scratch"' EXIT
cd "$scratch"
out=out${FINTAQUSH_TARGET:+/$FINTAQUSH_TARGET}${FINTAQUSH_CPU:+/$FINTAQUSH_CPU}
if [ -z "$FINTAQUSH_TARGET" ]; then
    ar x "$(dirname "$(rt doc)")/c/liblibc_c.a"
else
    "${cross}gcc" -O2 -fPIC -c "$crates/../glue/heap.c"
fi
for archive in "$crates"/{napi_c/"$out"/libnapi_c,files_c/"$out"/libfiles_c}.a; do "${cross}ar" x "$archive"; done
# On x86-64 the code is marked for shadow stacks (CET): no function changes its return address.
shadow_stacks=(-z shstk)
[ -z "$FINTAQUSH_TARGET" ] || shadow_stacks=()
"${cross}ld" -r "${shadow_stacks[@]}" -o fintaqush.o napi_c.o files_c.o heap*.o
"${cross}objcopy" --wildcard --keep-global-symbol='fq_*' fintaqush.o
rm -f "$to/libfintaqush.a"
"${cross}ar" rcs "$to/libfintaqush.a" fintaqush.o
