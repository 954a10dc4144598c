# The functions of a job: `start` brings the devices up; `setting NAME KEY=VALUE ..` applies settings, records, and sends. The cards are eth0
# and those after it. The next device sends frame by frame, the one after that in bursts. Several cards get only the bursts, each card all
# of them; the other sender stays down, because it would get them too.
count=$(given cards)
cards=''
of_cards=''
for number in 0 1 2 3 4 5 6 7; do
    [ "$number" -lt "$count" ] || break
    cards="$cards eth$number"
    of_cards="$of_cards --device eth$number"
done

start() {
    ip link set lo up
    ip addr add 10.99.0.2/24 dev eth0
    for device in $cards "eth$((count + 1))"; do ip link set "$device" up; done
    [ "$count" -gt 1 ] || ip link set eth1 up
    sleep 4
}

try() { "$@" || echo "FAILED ($?): $*"; }

# apply: applies the settings that are in variables.
apply() {
    echo "$BUDGET" > /proc/sys/net/core/netdev_budget
    echo "$WEIGHT" > /proc/sys/net/core/dev_weight
    for card in $cards; do
        [ -z "$RING" ] || try ethtool -G "$card" rx "$RING"
        [ -z "$USECS" ] || try ethtool -C "$card" rx-usecs "$USECS"
        echo "$THREADED" > "/sys/class/net/$card/threaded"
        echo "$DEFER" > "/sys/class/net/$card/napi_defer_hard_irqs"
        echo "$FLUSH" > "/sys/class/net/$card/gro_flush_timeout"
    done
    sleep 4
    for card in $cards; do /rig/onto 1 -n "napi/$card"; done
}

# send: sends frame by frame, and then bursts.
send() {
    mac=ff:ff:ff:ff:ff:ff
    if [ "$count" = 1 ]; then
        mac=$(cat /sys/class/net/eth0/address)
        /rig/onto 2 /rig/sender "$mac" eth1 p "$STEADY" 10000 230 97 "$SHARE" 1
    fi
    /rig/onto 2 /rig/sender "$mac" "eth$((count + 1))" b "$BURSTS" "$EACH" "$BURST" 0 0 2
}

setting() {
    local name=$1
    shift
    RING='' USECS='' DEFER=0 FLUSH=0 THREADED=0 BUDGET=300 WEIGHT=64 SECONDS=3 STEADY=160 SHARE=150 BURSTS=30 EACH=10000 BURST=40
    for each in "$@"; do eval "${each%%=*}='${each#*=}'"; done
    echo "== $name $*"
    apply
    /rig/onto 1 /rig/receiver 9000 "$name.read" "$name.stamps" &
    receiver=$!
    sleep 1
    # shellcheck disable=SC2086 # words
    python3 -BES /fq/scripts/start.py fintaqush record "$SECONDS" $of_cards --program receiver --buffer 100 --out "$name.rec" 2> "$name.said" &
    recorder=$!
    until grep -q 'recording for' "$name.said"; do
        sleep 0.1
        kill -0 $recorder 2> /dev/null || break
    done
    send
    try wait $recorder
    wait $receiver
    cat "$name.said"
}
