#!/usr/bin/env bash
# tests/virtio.sh: the driver of examples/virtio on the card of a virtual machine by its run.sh, which compares the counts of driver, card,
# guest's kernel and other end, with disables and enables under load; the same under sanitizers; three planted mistakes are found. It
# is skipped if there is no root, no `ip`, no right to make a namespace, no TAP, no QEMU, static busybox, kmod or cpio, or no Debian
# kernel (scripts/test-packages.sh --fetch): it downloads nothing. The last line is `N passed, M failed, K skipped`.
. "$(dirname "$(readlink -f "$0")")/../scripts/checks.sh"
driver=virtio
. "$top/scripts/drivers.sh"

if build plain; then
    for words in '' '0000:00:05.0 --late'; do refuses "$words"; done
    printed 'examples/virtio/run.sh'
    printed_table 'examples/virtio/compare.sh' 10 '[a-z0-9, ]+ (driver|kernel) +[1-9][0-9]*( +[0-9]+){4}'
    # a wrong order of some nanoseconds is stretched to a millisecond, so that each run shows it
    mistake 'no look behind the unmask' 'nothing lies in the queues' virtio/virtio.c \
        'if (todo->packets == todo->most) return;' 'if (todo->packets == todo->most) return;
    usleep(1000);' \
        'todo->rearm = queue_back(side->queue) ? FQ_REARM_MORE : FQ_REARM_EMPTY;' 'todo->rearm = FQ_REARM_EMPTY;'
    mistake 'a mask that comes too late' 'nothing lies in the queues' virtio/virtio.c \
        'case FQ_TODO_UNMASK: queue_unmask(side->queue); break;' 'case FQ_TODO_UNMASK: queue_unmask(side->queue), queue_mask(side->queue); break;'
    mistake 'a completion told twice' 'no answer waits or is in flight' virtio/virtio.c \
        'must("done", ' 'must("once", fq_tx_done(&tx, count, now_ms()), FQ_OK);
    must("done", '
    export ROUNDS=1
    build addresses -g -fsanitize=address,undefined -fno-sanitize-recover=all && way addresses
    build threads -g -fsanitize=thread && way threads
fi

sum_up
