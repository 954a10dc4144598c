#!/usr/bin/env bash
# examples/xdp/run.sh [OPTION ..]: runs the driver, with these arguments, on one end of a veth pair, each end in a namespace;
# the loads are those of examples/driver/driver.sh. Compares the counts of the other end, the card (ethtool), the socket
# (XDP_STATISTICS) and the driver. BUILT=FOLDER: a folder in which build.sh has built it. The status is 0 only if all checks
# pass, 69 if there is no root, no `ip`, no `ethtool`, no AF_XDP, or no right to make a namespace.
set -uo pipefail
unset CDPATH
here=$(dirname "$(readlink -f "${BASH_SOURCE[0]}")")
. "$here/../driver/driver.sh"
make_spaces xdp "fqxdp-$$" "fqxdpcard-$$"
far=${spaces[1]}
command -v ethtool > /dev/null || over ethtool "of Debian's package ethtool"
built=${BUILT:-$scratch}
[ -n "${BUILT:-}" ] || "$here/build.sh" "$built" || exit

ip -n "$space" link add fq0 numrxqueues 1 numtxqueues 1 type veth peer name fq1 netns "$far" numrxqueues 1 numtxqueues 1 || over veth 'and no pair can be made'
inside ethtool -K fq0 tx off > /dev/null 2>&1 # a checksum that the card would make is none in the frame
ip -n "$space" addr add 10.99.0.1/24 dev fq0
ip -n "$space" link set fq0 up
ip -n "$far" link set fq1 up
kernel=AF_XDP
start ip netns exec "$far" "$built/xdp" fq1 "$@"
drive

card() { ip netns exec "$far" ethtool -S fq1 | awk -v name="rx_queue_0_$1:" '$1 == name { print $2 }'; }
card_sent() { ip netns exec "$far" cat "/sys/class/net/fq1/statistics/$1"; }
passed=$(card xdp_redirect) dropped=$(card drops) sent=$(card_sent tx_packets) lost=$(card_sent tx_dropped)
echo "the card: passed on $passed dropped $dropped | sent $sent dropped $lost"
echo "the other end: sent $tx received $rx"
check 'what the other end sent the card passed on or dropped' [ "$tx" = $((passed + dropped)) ]
check 'what the card passed on was polled' [ "$passed" = $(($(is packets) + $(is left))) ]
check 'what it dropped the socket had no room for' [ "$dropped" = $(($(is dropped) + $(is ring_full))) ]
# shellcheck disable=SC1010 # the function done
check 'what was answered was sent, and told complete once' [ "$(is answered) $(is sent) $(is in_flight)" = "$(is done) $(is done) 0" ]
check 'what was sent the card sent or dropped' [ "$(is sent)" = $((sent + lost)) ]
check 'what the card sent the other end received' [ "$sent" = "$rx" ]
end
