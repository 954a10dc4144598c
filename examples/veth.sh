#!/usr/bin/env bash
# examples/veth.sh: records packets without `fintaqush record`: makes two network namespaces with a veth pair, sends bursts of UDP packets
# for two seconds, records them by ftrace into recording.txt, with /proc/net/softnet_stat in before.txt and after.txt, and removes all else
# again. It needs root, tracefs, ip, ethtool and python3. Its exit status is that of the last command.
set -u
tracing=/sys/kernel/tracing
mountpoint -q $tracing || mount -t tracefs nodev $tracing
ip netns add sender && ip netns add receiver
ip link add va1 netns sender type veth peer name vb1 netns receiver
# IPv6 sends packets of its own, from other processors than that of the traffic.
for it in sender receiver; do ip netns exec $it sh -c '! cd /proc/sys/net/ipv6/conf || echo 1 | tee all/disable_ipv6 > default/disable_ipv6'; done
ip -n sender addr add 10.99.0.1/24 dev va1 && ip -n receiver addr add 10.99.0.2/24 dev vb1
ip -n sender link set va1 up && ip -n receiver link set vb1 up
# No packet of many segments goes over the pair; and packets go through NAPI.
ip netns exec sender ethtool -K va1 tso off tx-udp-segmentation off gro on
ip netns exec receiver ethtool -K vb1 tso off gro on
echo 0 > $tracing/tracing_on; echo nop > $tracing/current_tracer; echo > $tracing/trace
echo 65536 > $tracing/buffer_size_kb
for event in net/net_dev_xmit napi/napi_poll irq/softirq_entry; do echo 1 > $tracing/events/$event/enable; done
cat /proc/net/softnet_stat > before.txt
echo 1 > $tracing/tracing_on
ip netns exec sender taskset -c 1 python3 -c '
import socket, time
out = socket.socket(socket.AF_INET, socket.SOCK_DGRAM)
out.setsockopt(socket.IPPROTO_UDP, 103, 100)            # UDP_SEGMENT: a call sends up to 64 packets of 100 bytes
for burst in range(200):
    out.sendto(b"x" * 100 * (1 + burst % 64), ("10.99.0.2", 9))
    time.sleep(0.01)'
echo 0 > $tracing/tracing_on
cat $tracing/trace > recording.txt
cat /proc/net/softnet_stat > after.txt                  # the third column counts the squeezes of each processor
for event in net/net_dev_xmit napi/napi_poll irq/softirq_entry; do echo 0 > $tracing/events/$event/enable; done
echo > $tracing/trace; echo 1408 > $tracing/buffer_size_kb
ip netns del sender; ip netns del receiver
