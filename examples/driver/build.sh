#!/usr/bin/env bash
# examples/driver/build.sh DRIVER FOLDER [FLAG ..]: builds this driver of examples/, with these additional flags of the
# compiler, and its load into the folder, with the C library, which is proved and built first if the folder doesn't have it and
# that isn't done yet.
set -euo pipefail
unset CDPATH
examples=$(dirname "$(dirname "$(readlink -f "${BASH_SOURCE[0]}")")")
driver=$1
to=$(readlink -f "${2:?a folder}")
[ -e "$to/libfintaqush.a" ] || "$examples/../scripts/c_library.sh" "$to"
flags=(-std=c11 -O2 -Wall -Wextra -Wshadow -Werror -pthread "${@:3}")
cc "${flags[@]}" -I "$examples/../include" -I "$examples/driver" -I "$examples/tap" "$examples/$driver/$driver.c" "$to/libfintaqush.a" -o "$to/$driver"
cc -std=c11 -O2 -Wall -Wextra -Werror "$examples/tap/load.c" -o "$to/load"
