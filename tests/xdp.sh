#!/usr/bin/env bash
# tests/xdp.sh: the driver of examples/xdp on real packets by its run.sh, which compares the counts of driver, socket, card and other
# end: with two threads and with one, with a small budget, and under sanitizers; three planted mistakes are found. It is skipped if
# there is no root, no `ip`, no `ethtool`, no AF_XDP or no right to make a namespace. The last line is
# `N passed, M failed, K skipped`.
. "$(dirname "$(readlink -f "$0")")/../scripts/checks.sh"
driver=xdp
. "$top/scripts/drivers.sh"

if build plain; then
    for words in '' 'fq1 --two' 'fq1 --budget' 'fq1 --budget 0' 'fq1 --budget 65536' 'fq1 --one --budget x'; do refuses "$words"; done
    printed 'examples/xdp/run.sh'
    way plain --one
    way plain --budget 16
    mistakes
    build addresses -g -fsanitize=address,undefined -fno-sanitize-recover=all && way addresses
    build threads -g -fsanitize=thread && way threads
fi

sum_up
