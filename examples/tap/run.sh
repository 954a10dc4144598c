#!/usr/bin/env bash
# examples/tap/run.sh [OPTION ..]: runs the driver, with these arguments, on a TAP device in a network namespace: 3000 pings of
# 1400 bytes, a second of UDP both ways, a disable and an enable under load, and SIGINT under load. Prints the driver's counts
# and the kernel's, and a line `ok` or `WRONG` for each check. BUILT=FOLDER: a folder in which build.sh has built it. The status
# is 0 only if all checks pass, 69 if there is no root, no `ip`, no /dev/net/tun or no right to make a namespace.
set -uo pipefail
unset CDPATH
here=$(dirname "$(readlink -f "${BASH_SOURCE[0]}")")
. "$here/device.sh"
kinds=()
trace=
for ((i = 1; i < $#; i++)); do
    next=$((i + 1))
    case ${!i} in
    --queues) [ "${!next}" = 1 ] || kinds=(multi_queue) ;;
    --trace) trace=${!next} ;;
    esac
done
make_device "${kinds[@]}" || exit 69
scratch=$(mktemp -d)
trap 'remove_device; rm -rf "$scratch"' EXIT
built=${BUILT:-$scratch}
[ -n "${BUILT:-}" ] || "$here/build.sh" "$built" || exit
# A trace has at most 100000 rows, so with a trace the load is smaller.
under_load=(udp 7 0 600)
[ -z "$trace" ] || under_load=(rate 200 1000000 600)

ip netns exec "$space" "$built/tap" "$@" > "$scratch/out" 2> "$scratch/err" &
driver=$!
wait_for said on 1 || { cat "$scratch/err"; exit 1; }
ip -n "$space" link set fq0 up

pinged=$(inside timeout 600 "$built/load" ping 3000 1400 16)
echo "pings of 1400 bytes: $pinged"
check '3000 pings are answered' answered 3000 "$pinged"
[ -n "$trace" ] || echo "a second of UDP: $(inside timeout 600 "$built/load" udp 7 1 1400)"

start_load "${under_load[@]}"
check 'both ways under load' flows
kill -HUP "$driver"
check 'a disable under load ends' wait_for said off 1
kill -HUP "$driver"
check 'an enable under load' wait_for said on 2
check 'both ways behind it' flows
end_load
pinged=$(inside timeout 600 "$built/load" ping 100 64 4)
check '100 pings are answered behind it' answered 100 "$pinged"

start_load "${under_load[@]}"
check 'both ways before the end' flows
kill -INT "$driver"
wait_for has_ended "$driver" || kill -KILL "$driver"
wait "$driver"
status=$?
end_load
check 'SIGINT ends the driver' [ "$status" = 0 ]
cat "$scratch/out"
[ "$status" = 0 ] || cat "$scratch/err"
tx=$(counter tx_packets) rx=$(counter rx_packets)
echo "the kernel: TX $tx RX $rx"

# is NAME: prints the number after this name in the driver's lines
is() { awk -v name="$1" '{ for (i = 1; i < NF; i++) if ($i == name) print $(i + 1) }' "$scratch/out"; }
check "the kernel's TX is what was read" [ "$tx" = "$(is read)" ]
check "the kernel's RX is what was sent" [ "$rx" = "$(is sent)" ]
check 'read = full + packets + drained' [ "$(is read)" = "$(($(is full) + $(is packets) + $(is drained)))" ]
check 'answered = sent + failed + dropped' [ "$(is answered)" = "$(($(is sent) + $(is failed) + $(is dropped)))" ]
check 'nothing is in flight' [ "$(is in_flight)" = 0 ]
if [ -n "$trace" ]; then
    "$here/../../replay" "$trace" > "$scratch/report" || wrong=1
    # of NAME: the numbers after this name in the replay's line of the device, of its requests, of its sends, and in the last
    # line
    of() { awk -v name="$1" '$1 != "softirq" { for (i = 1; i < NF; i++) if ($i == name) found = $(i + 1) } END { print found }' <(grep -e "^$2 " "$scratch/report"); }
    same() {
        echo "the replay: $(of arrived device) $(of dropped device) $(of polled device) $(of left device) $(of polls device) $(of granted napi)" \
            "$(of missed napi) $(of disabled napi) $(of again napi) $(of sent tx) $(of held tx) $(of limit tx) $(of runs total) $(of squeezed total)"
        echo "the driver: $(is read) $(is full) $(is packets) $(is drained) $(is polls) $(is granted)" \
            "$(is missed) $(is disabled) $(is again) $(($(is sent) + $(is failed))) $(is held) $(is limit) $(is runs) $(is squeezed)"
    }
    same | tee "$scratch/both"
    check 'the trace replays to the same counts' [ "$(sed 's/^the [a-z]*: //' "$scratch/both" | uniq | wc -l)" = 1 ]
fi
remove_device
check 'nothing stays behind' [ -z "$(ip netns list | grep -w -e "$space")" ]
exit "$wrong"
