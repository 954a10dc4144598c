#!/usr/bin/env bash
# scripts/fresh_clone.sh ROOM: makes ROOM/fintaqush, a clone of this checkout with its uncommitted changes and its builds, and
# ROOM/home, an empty home folder: there tests run the commands of the pages as they are printed. Standard output stays empty.
set -euo pipefail
unset CDPATH
top=$(dirname "$(dirname "$(readlink -f "${BASH_SOURCE[0]}")")")
. "$top/scripts/arguments.sh"
operands 1 1 "$@"
room=$1
mkdir -p "$room/home"
clone=$room/fintaqush
if [ -e "$top/.git" ]; then git clone -q --shared "$top" "$clone"; else mkdir "$clone" && git -C "$clone" init -q; fi
cd "$top"
git ls-files -z --cached --others --exclude-standard | while IFS= read -r -d '' file; do [ ! -e "$file" ] || printf '%s\0' "$file"; done |
    xargs -0 cp -P --parents --preserve=mode,timestamps -t "$clone"
git ls-files -z --deleted | (cd "$clone" && xargs -0 rm -f)
# what is built, with the checksums of its sources
for built in crates/{napi_machine/out/napi_machine,napi_replay/out/napi_replay,napi_serial/out/napi_serial,napi_series/out/napi_series} \
    crates/{napi_c/out/libnapi_c,files_c/out/libfiles_c}.a; do
    [ ! -e "$built.sum" ] || cp --parents "$built"{,.sum} "$clone"
done
