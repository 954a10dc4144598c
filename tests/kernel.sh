#!/usr/bin/env bash
# tests/kernel.sh: Linux's own functions, compared with the program. They are taken by name from Debian's packages
# linux-source-6.12 and, for the queue limit, linux-source-6.1 (or all of them from the folder LINUX of sources) into a scratch
# folder, built there with tests/kernel/, and replay the same traces as napi_serial: each report has to be the same, byte by
# byte. Some traces are raised: napi_series adds the runs for which net_rx_action raises the softirq. A report that isn't the same is
# printed with its smallest trace. Then the same with the functions of linux-source-7.3, the newest
# that Debian has: docs/RULES.md says what differs. Each is skipped if its sources can't be had. Nothing of the kernel's is
# kept in the repository. The last line is `N passed, M failed, K skipped`. Needs python3 and a C compiler.
#
# usage: [LINUX=FOLDER] tests/kernel.sh [--fetch | [--traces N] [--small ROWS] [--seed N]]
# --fetch       only downloads the sources, with status 1 if they can't be had
# --traces N    random traces (5000)
# --small ROWS  all traces of up to this many rows after the first ones (4)
# --seed N      the first random trace (1)
# PROGRAM=FILE and SERIES=FILE name other builds of napi_serial and napi_series.
. "$(dirname "$(readlink -f "$0")")/../scripts/checks.sh"
kernel=$top/tests/kernel

# skip_all NEED: skips the whole test because this is missing, and ends it.
skip_all() {
    [ -z "${fetch:-}" ] || exit 1
    skip "the comparison with Linux's own functions" "$1"
    sum_up
    exit
}
[ "${1:-}" != --fetch ] || fetch=1
[ -n "${fetch:-}" ] || command -v cc > /dev/null || skip_all cc
limit=(lib/dynamic_queue_limits.c include/linux/dynamic_queue_limits.h)
"$top/scripts/linux_source.sh" 6.12 "$scratch/6.12" Makefile net/core/dev.c include/linux/{netdevice,list}.h "${limit[@]}" || {
    [ $? = 69 ] || { echo "0 passed, 1 failed"; exit 1; }
    skip_all linux-source
}
# Kernels after 6.6 detect stalls of a queue; this stays off here, so a later kernel's limit is used if 6.1's can't be had.
"$top/scripts/linux_source.sh" 6.1 "$scratch/6.1" Makefile "${limit[@]}" > /dev/null || {
    [ -z "${fetch:-}" ] || exit 1
    cp -r "$scratch/6.12" "$scratch/6.1"
}
# A kernel whose functions have other names, and some other parts.
newest=7.3
"$top/scripts/linux_source.sh" $newest "$scratch/$newest" Makefile net/core/dev.c include/linux/{netdevice,list}.h include/uapi/linux/netdev.h "${limit[@]}" > "$scratch/log" ||
    rm -rf "${scratch:?}/$newest"
[ -z "${fetch:-}" ] || exit 0

release() { sed -n 's/^\(VERSION\|PATCHLEVEL\|SUBLEVEL\) = //p' "$scratch/$1/Makefile" | paste -s -d .; }

# take NAME FUNCTION ..: what extract.py takes from the sources of $version, as $version.d/NAME.
take() { python3 -B "$kernel/extract.py" "$scratch/$version" "${@:2}" > "$scratch/$version.d/$1"; }

# extract VERSION: the functions that have the same name in both versions, and then polls.h, whose functions have other names in
# some.
extract() {
    version=$1
    mkdir -p "$scratch/$version.d"
    take lists.h include/linux/list.h: LIST_HEAD_INIT LIST_HEAD list_entry list_first_entry list_next_entry list_is_head list_entry_is_head \
        list_for_each_entry INIT_LIST_HEAD __list_add list_add_tail __list_del __list_del_entry list_empty list_del_init __list_splice \
        list_splice list_splice_tail list_splice_init list_splice_tail_init &&
        take instances.h include/linux/netdevice.h: NAPI_STATE_SCHED NAPIF_STATE_SCHED napi_disable_pending napi_prefer_busy_poll \
            napi_is_scheduled net/core/dev.c: ____napi_schedule __napi_schedule napi_schedule_prep napi_complete_done &&
        take queues.h include/linux/netdevice.h: __QUEUE_STATE_DRV_XOFF netdev_tx_sent_queue netdev_tx_completed_queue || return
    local polling=(__napi_poll napi_poll napi_thread_wait napi_threaded_poll_loop napi_threaded_poll net_rx_action)
    case $version in
    6.12) take polls.h include/linux/netdevice.h: napi_complete napi_schedule net/core/dev.c: NAPI_F_PREFER_BUSY_POLL __busy_poll_stop \
        busy_poll_stop __napi_busy_loop napi_busy_loop napi_kthread_create netif_napi_add_weight dev_set_threaded napi_disable \
        napi_enable "${polling[@]}" ;;
    *) take polls.h include/linux/netdevice.h: napi_complete napi_schedule include/uapi/linux/netdev.h: NETDEV_NAPI_THREADED_DISABLED \
        net/core/dev.c: NAPI_F_PREFER_BUSY_POLL busy_poll_stop __napi_busy_loop napi_busy_loop napi_kthread_create \
        netif_napi_add_weight_locked include/linux/netdevice.h: netif_napi_add_weight net/core/dev.c: napi_stop_kthread \
        napi_set_threaded_state napi_set_threaded netif_set_threaded napi_disable_locked napi_disable napi_enable_locked napi_enable \
        "${polling[@]}" ;;
    esac
}

# stand_in: what the queue limit uses from the headers is in stubs.h; the headers themselves are empty.
stand_in() {
    sed -n 's/^#include <\(.*\)>.*/\1/p' "$scratch"/{6.1,"$newest"}/{lib/*.c,include/linux/dynamic*.h} 2> /dev/null | sort -u | while read -r header; do
        [ "$header" != linux/dynamic_queue_limits.h ] || continue
        mkdir -p "$scratch/stand_in/$(dirname "$header")"
        : > "$scratch/stand_in/$header"
    done
}

# build NAME VERSION LIMIT [FLAG ..]: the functions of this version, with the queue limit of that one, as a program.
build() {
    cc -O1 -w -D_GNU_SOURCE "${@:4}" -I "$scratch/$2.d" -I "$scratch/stand_in" -I "$scratch/$3/include" -include "$kernel/stubs.h" \
        -o "$scratch/$1" "$kernel/devices.c" "$scratch/$3/lib/dynamic_queue_limits.c"
}

# differs NAME FILE FROM TO [WHAT]: the functions with one change, planted in FILE, have another report, or the difference
# reported is WHAT.
differs() {
    local name=$1 file=$scratch/$2 what=${5:-differs; its smallest trace}
    cp "$file" "$scratch/kept"
    [ "$(grep -c -F -- "$3" "$file")" = 1 ] && awk -v from="$3" -v to="$4" \
        '(at = index($0, from)) { $0 = substr($0, 1, at - 1) to substr($0, at + length(from)) } { print }' "$scratch/kept" > "$file" &&
        build "$name" 6.12 6.1 && ! compare "$scratch/$name" --small 3 --traces 200 --stop > "$scratch/$name.log" && grep -q "$what" "$scratch/$name.log"
    local status=$?
    cp "$scratch/kept" "$file"
    return "$status"
}

# compare KERNEL OPTION ..: napi_serial, compared with these functions.
compare() {
    python3 -B "$kernel/compare.py" "${PROGRAM:-$top/crates/napi_serial/out/napi_serial}" "${SERIES:-$top/crates/napi_series/out/napi_series}" "$@"
}

check 'each function is found by its name' extract 6.12
stand_in
check 'they are built over stubs' build linux 6.12 6.1
[ -n "${PROGRAM:-}" ] || check 'napi_serial stands' "$top/scripts/build.sh" napi_serial
[ -n "${SERIES:-}" ] || check 'napi_series stands' "$top/scripts/build.sh" napi_series
[ "$failed" = 0 ] || { sum_up; exit 1; }
echo "net/core/dev.c of Linux $(release 6.12), lib/dynamic_queue_limits.c of Linux $(release 6.1)"
check 'each report is the same' compare "$scratch/linux" "$@"
cat "$scratch/log"
if [ -d "$scratch/$newest" ]; then
    check "each function is found by its name in $newest" extract $newest
    check "they are built over stubs in $newest" build newest $newest $newest -DSTOPS_THREADS
    echo "net/core/dev.c and lib/dynamic_queue_limits.c of Linux $(release $newest)"
    check "each report is the same with $newest" compare "$scratch/newest" --small 3 --traces 1000
    cat "$scratch/log"
else
    skip 'the comparison with the newest kernel of Debian' linux-source-7.3
fi
version=6.12
check 'a name that is not there is told' eval '! take none.h net/core/dev.c: napi_schedule_prep napi_no_such_function'
check 'a request that is not missed is seen' differs request-not-missed 6.12.d/instances.h 'NAPIF_STATE_SCHED) / NAPIF_STATE_SCHED *' 'NAPIF_STATE_SCHED) / NAPIF_STATE_SCHED * 0 *'
check 'a repoll in front of what arrived is seen' differs repolls-before-arrivals 6.12.d/polls.h 'list_splice_tail(&repoll, &list)' 'list_splice(&repoll, &list)'
check 'a run that is not raised again is seen' differs run-not-raised 6.12.d/polls.h '__raise_softirq_irqoff(NET_RX_SOFTIRQ)' '(void)0' 'raised .* differs; its smallest trace'
check 'a slack of the new limit is seen' differs slack-from-new-limit 6.1/lib/dynamic_queue_limits.c 'slack = POSDIFF(limit + dql->prev_ovlimit,' 'slack = POSDIFF(limit,'
check 'a mistake that loops ends in a line' differs loops 6.12.d/polls.h 'while (!napi_thread_wait(napi))' 'while (!napi_thread_wait(napi) || true)' "the kernel's side loops: no report after 5 s"
sum_up
