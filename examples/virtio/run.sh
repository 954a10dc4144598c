#!/usr/bin/env bash
# examples/virtio/run.sh: runs the driver on the virtio card of a virtual machine: 3000 pings of 1400 bytes, two seconds of UDP
# both ways, disables and enables under load (ROUNDS of them, 5), and SIGINT under load. Prints the driver's counts and those of
# the card, of the guest's kernel and of the other end, and a line `ok` or `WRONG` for each check. PATIENCE: how many seconds it
# waits for packets (300); the other settings are those of vm.sh. The status is 0 only if all checks pass, 69 if there is no
# root, no `ip`, no right to make a namespace, no TAP, or something that a virtual machine needs is missing.
set -uo pipefail
unset CDPATH
. "$(dirname "$(readlink -f "${BASH_SOURCE[0]}")")/vm.sh"

# check NAME COMMAND ..: prints a line for the command, and returns its status. After the first WRONG the driver keeps running,
# and the counts show where packets are.
wrong=0
check() {
    if "${@:2}"; then echo "ok: $1"; else
        echo "WRONG: $1"
        wrong=1
        return 1
    fi
}

start_load() {
    ip netns exec "$space" "$built/load" udp 7 0 600 > "$scratch/load.out" 2>&1 &
    load=$!
}
end_load() {
    kill -TERM "$load"
    wait "$load"
} 2> /dev/null

turn() {
    check "round $1: both ways under load" flows || return
    guest 'kill -HUP $!' > /dev/null
    check 'a disable under load ends' wait_for wrote 'virtio: off' "$1" || return
    guest 'kill -HUP $!' > /dev/null
    check 'an enable under load' wait_for wrote 'virtio: on' $(($1 + 1)) && check 'both ways behind it' flows
}

open_machine
start_driver
pings 3000 1400 16
ip -n "$space" neigh replace 10.99.0.2 lladdr 02:00:00:00:00:02 nud permanent dev fq0
[ "$wrong" = 1 ] || echo "two seconds of UDP: $(load udp 7 2 1400)"
for ((round = 1; round <= ${ROUNDS:-5}; round++)); do
    [ "$wrong" = 0 ] || break
    start_load
    turn "$round"
    end_load
done
[ "$wrong" = 1 ] || pings 100 64 4

for ((tries = 0; tries < 10; tries++)); do
    counts > "$scratch/before"
    counts > "$scratch/counts"
    ! cmp -s "$scratch/before" "$scratch/counts" || break
done
cat "$scratch/counts"
received=$(card 0) sent=$(card 1) tx=$(counter tx_packets) rx=$(counter rx_packets)
interrupts=$(guest 'grep vfio-msix /proc/interrupts' | awk '{ for (i = 2; $i ~ /^[0-9]+$/; i++) sum += $i } END { print sum + 0 }')
echo "the card: received $received and sent $sent, modulo 65536; the guest's kernel: interrupts $interrupts; the other end: TX $tx RX $rx"

# of LINE NAME: prints the number after this name in that line of the driver's output; -1 if it printed none
of() {
    awk -v line="$1" -v name="$2" '$1 == line { for (i = 1; i < NF; i++) if ($i == name) found = $(i + 1) }
        END { print found == "" ? -1 : found }' "$scratch/counts"
}
check 'the other end sent what was polled' [ "$tx" = "$(of rx packets)" ]
check 'the card received what was polled' [ "$received" = "$(($(of rx packets) % 65536))" ]
check 'the other end received what was told complete' [ "$rx" = "$(of tx packets)" ]
check 'the card sent what was told complete' [ "$sent" = "$(($(of tx packets) % 65536))" ]
check 'in the order in which it was given' [ "$(of all disorder)" = 0 ]
check 'no answer waits or is in flight' [ "$(of all waiting) $(of all in_flight)" = '0 0' ]
check 'nothing lies in the queues' [ "$(of rx left) $(of tx left)" = '0 0' ]
check 'each interrupt was taken' [ "$interrupts" = "$(($(of rx interrupts) + $(of tx interrupts)))" ]

if [ "$wrong" = 0 ]; then
    start_load
    check 'both ways before the end' flows
    guest 'kill -INT $!; wait $!' > /dev/null
    check 'SIGINT ends the driver' [ $? = 0 ]
    end_load
fi
[ "$wrong" = 0 ] || tr -d '\r' < "$scratch/console" | grep -v '^GUEST ' | tail -n 40
close_machine
end
exit "$wrong"
