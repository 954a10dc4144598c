#!/usr/bin/env bash
# examples/dpdk/run.sh [MODE [OPTION ..]]: runs the driver, as `napi` or with these arguments, on DPDK's port over a TAP device
# in a network namespace; the loads are those of examples/driver/driver.sh. Compares the counts of the other end (the kernel),
# the card (the port's statistics) and the driver. BUILT=FOLDER: a folder in which build.sh has built it. The status is 0 only
# if all checks pass, 69 if there is no root, no `ip`, no DPDK, no /dev/net/tun or no right to make a namespace.
set -uo pipefail
unset CDPATH
here=$(dirname "$(readlink -f "${BASH_SOURCE[0]}")")
. "$here/../driver/driver.sh"
. "$here/port.sh"
make_spaces dpdk "fqdpdk-$$"
[ -c /dev/net/tun ] || over /dev/net/tun
built=${BUILT:-$scratch}
[ -n "${BUILT:-}" ] || "$here/build.sh" "$built" || exit

start_port "${@:-napi}"
drive
echo "the other end: sent $tx received $rx"
check 'what the other end sent the card received' [ "$tx" = "$(is in)" ]
check 'what the card received was polled' [ "$(is in)" = "$(is packets)" ]
# shellcheck disable=SC1010 # the function done
check 'what was answered was sent, and told complete once' [ "$(is answered) $(is sent) $(is in_flight)" = "$(is done) $(is done) 0" ]
check 'what was sent the card sent' [ "$(is sent) 0" = "$(is out) $(is errors)" ]
check 'what the card sent the other end received' [ "$(is out)" = "$rx" ]
end
