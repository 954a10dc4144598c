#!/usr/bin/env bash
# tests/dpdk.sh: like tests/xdp.sh, for the driver of examples/dpdk. It is skipped if there is no DPDK, no root, no `ip`, no
# /dev/net/tun or no right to make a namespace. The last line is `N passed, M failed, K skipped`.
. "$(dirname "$(readlink -f "$0")")/../scripts/checks.sh"
export RUNTIME_DIRECTORY=$scratch # where DPDK keeps what it makes
driver=dpdk
. "$top/scripts/drivers.sh"

if ! pkg-config --exists libdpdk 2> /dev/null; then
    skip 'the driver on a device' libdpdk
elif build plain; then
    for words in '' 'many' 'napi --two' 'napi --budget 0' 'napi --budget 65536' 'one --budget 16 --min x' 'busy power'; do
        refuses "--no-huge -m 64 --no-shconf --no-pci --no-telemetry --log-level 4 -- $words"
    done
    printed 'examples/dpdk/run.sh'
    printed_table 'examples/dpdk/table.sh' 4 '(busy|power|one|napi) +[0-9]+( +[0-9]+ [0-9.]+/[0-9.]+){4}'
    way plain one
    way plain napi --budget 16
    mistakes
    build addresses -g -fsanitize=address,undefined -fno-sanitize-recover=all && way addresses
    build threads -g -fsanitize=thread && way threads
fi

sum_up
