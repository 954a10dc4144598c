# shellcheck shell=bash disable=SC2154,SC2034 # what its caller sets, and what it sets for its caller
# examples/dpdk/port.sh, sourced: the driver on DPDK's port over a TAP device, which it makes in the namespace of the load.

# start_port MODE [OPTION ..]: starts the driver on a port whose device is fq0. DPDK's main thread may run on each processor
# that this script may use.
start_port() {
    local processors
    processors=$(awk '/^Cpus_allowed_list/ { print $2 }' /proc/self/status)
    kernel=/dev/net/tun
    RUNTIME_DIRECTORY=$scratch start ip netns exec "$space" "$built/dpdk" --no-huge -m 128 --no-shconf --no-pci --no-telemetry --log-level 4 \
        --lcores "0@($processors)" --vdev net_tap0,iface=fq0 -- "$@"
    inside sh -c 'echo 1 > /proc/sys/net/ipv6/conf/fq0/disable_ipv6' 2> /dev/null
    ip -n "$space" addr add 10.99.0.1/24 dev fq0
    ip -n "$space" link set fq0 up
}
