#!/usr/bin/env bash
# tests/tap.sh: the driver of examples/tap on real packets, in each of its modes, by examples/tap/run.sh: the kernel's counts
# are the driver's counts, a disable and an enable under load, and a trace that replays to the same counts. The commands of
# docs/EXAMPLES.md run as they are printed, in a fresh clone. It is skipped if there is no root, no `ip`, no /dev/net/tun or no
# right to make a namespace. The last line is `N passed, M failed, K skipped`.
. "$(dirname "$(readlink -f "$0")")/../scripts/checks.sh"
driver=tap
. "$top/scripts/drivers.sh"

if build plain; then
    for words in '--ring 0' '--queues 17' '--budget 65536' '--rate x' '--plain --mask' "--trace $scratch/none --mask" 'more' '--dev a-name-that-is-too-long'; do
        refuses "$words"
    done
    printed 'examples/tap/run.sh'
    way plain --mask
    way plain --one
    way plain --plain
    way plain --direct
    way plain --mask --queues 2
    way plain --rate 100000000
    printed 'examples/tap/run.sh --mask --rate 50000000 --budget 16 --ring 64'
    printed_table 'examples/tap/table.sh' 5 '(plain|one thread|two threads|masked|direct) +[1-9][0-9]* +[0-9]+ +[1-9][0-9]* +[0-9]+( +[0-9.]+/[0-9.]+){4}'
    way plain --trace "$scratch/trace.csv"
    way plain --trace "$scratch/slow.csv" --rate 20000000
fi

sum_up
