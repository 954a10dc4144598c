#!/usr/bin/env bash
# examples/virtio/compare.sh: the driver, and then the guest kernel's own virtio_net, under the same loads on the same card:
# packets received and sent, the interrupts for both, and polls. Settings and status are those of run.sh.
set -uo pipefail
unset CDPATH
. "$(dirname "$(readlink -f "${BASH_SOURCE[0]}")")/vm.sh"

# numbers WHAT: prints the interrupts of receive and transmit, and the polls, since the start
numbers() {
    case $1 in
    driver) counts | awk '/^[rt]x / { print $3; polls += $11 } END { print polls }' ;;
    kernel) guest 'grep -e virtio.*put /proc/interrupts; cat /sys/kernel/tracing/events/napi/napi_poll/hist' | awk '
        /virtio.*put/ { sum = 0; for (i = 2; $i ~ /^[0-9]+$/; i++) sum += $i; print sum }
        /^ *Hits:/ { print $2 }' ;;
    esac
}

# row WHAT NAME OPTION ..: prints the row of WHAT under the load NAME with these options
row() {
    local what=$1 name=$2 before after rx tx
    shift 2
    # shellcheck disable=SC2207
    before=($(numbers "$what")) rx=$(counter tx_packets) tx=$(counter rx_packets)
    load "$@" > "$scratch/load.out" || {
        echo "virtio: the load failed: $*" >&2
        exit 1
    }
    rx=$(($(counter tx_packets) - rx)) tx=$(($(counter rx_packets) - tx))
    # shellcheck disable=SC2207
    after=($(numbers "$what"))
    printf '%-20s %-7s %8d %8d %8d %8d %8d\n' "$name" "$what" "$rx" "$tx" $((after[0] - before[0])) $((after[1] - before[1])) \
        $((after[2] - before[2]))
}

rows() {
    row "$1" '1 ping under way' ping 300 64 1
    row "$1" '500 pings a second' rate 500 1500 64
    row "$1" '32 under way' ping 5000 64 32
    row "$1" '256 under way' ping 5000 64 256
    row "$1" 'flood, unanswered' udp 9 2 64
}

open_machine
start_driver
printf '%-20s %-7s %8s %8s %8s %8s %8s\n' '' '' came went 'rx irqs' 'tx irqs' polls
rows driver
guest 'kill -INT $!; wait $!; bind virtio-pci; ip addr add 10.99.0.2/24 dev eth0; ip link set eth0 up; sleep 1' > /dev/null
guest "echo 'hist:keys=work' > /sys/kernel/tracing/events/napi/napi_poll/trigger" || exit
ip -n "$space" neigh flush dev fq0
rows kernel
close_machine
