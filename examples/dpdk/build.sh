#!/usr/bin/env bash
# examples/dpdk/build.sh FOLDER [FLAG ..]: like examples/driver/build.sh; status 69 if DPDK isn't installed (Debian:
# libdpdk-dev).
set -euo pipefail
unset CDPATH
here=$(dirname "$(readlink -f "${BASH_SOURCE[0]}")")
to=$(readlink -f "${1:?a folder}")
pkg-config --exists libdpdk 2> /dev/null || { echo "dpdk: this needs libdpdk, of Debian's packages libdpdk-dev and pkg-config" >&2; exit 69; }
[ -e "$to/libfintaqush.a" ] || "$here/../../scripts/c_library.sh" "$to"
flags=(-std=gnu11 -O2 -Wall -Wextra -Wshadow -Werror -pthread "${@:2}")
# shellcheck disable=SC2046
cc "${flags[@]}" -I "$here/../../include" -I "$here/../driver" -I "$here/../tap" $(pkg-config --cflags libdpdk | sed 's/-I/-isystem /g') \
    "$here/dpdk.c" "$to/libfintaqush.a" $(pkg-config --libs libdpdk) -o "$to/dpdk"
cc -std=c11 -O2 -Wall -Wextra -Werror "$here/../tap/load.c" -o "$to/load"
