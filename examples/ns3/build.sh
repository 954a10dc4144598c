#!/usr/bin/env bash
# examples/ns3/build.sh FOLDER: builds limits and bottleneck into the folder, with Debian's libns3-dev and the C library, which
# is proved and built first if that isn't done yet. Status 69 if there is no ns-3, which is Debian's package libns3-dev.
set -euo pipefail
unset CDPATH
here=$(dirname "$(readlink -f "${BASH_SOURCE[0]}")")
top=$here/../..
to=$(readlink -f "${1:?a folder}")
if ! echo '#include <ns3/dynamic-queue-limits.h>' | g++ -std=c++17 -E -x c++ - > /dev/null 2>&1; then
    echo "build: this needs ns-3, of Debian's package libns3-dev" >&2
    exit 69
fi
"$top/scripts/c_library.sh" "$to"
for program in limits bottleneck; do
    # every library is kept: ns-3 finds types by their names
    g++ -std=c++17 -O1 -Wall -Wextra -Werror -I "$top/include" "$here/$program.cc" "$to/libfintaqush.a" -o "$to/$program" -Wl,--no-as-needed \
        -lns3-internet -lns3-traffic-control -lns3-point-to-point -lns3-network -lns3-core
done
