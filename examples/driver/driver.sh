# shellcheck shell=bash disable=SC2154,SC2034 # what its caller sets, and what it sets for its caller
# examples/driver/driver.sh, sourced by a driver's run.sh: namespaces, which are removed with the script that made them; the
# loads; and the checks, a line `ok` or `WRONG` each; the first WRONG ends the script. PATIENCE: how many seconds it waits for
# each condition.
. "$(dirname "${BASH_SOURCE[0]}")/../tap/device.sh"
patience=${PATIENCE:-300}

# over NEED [WHY]: ends the script, because the driver can't run here without NEED
over() {
    echo "$name: this needs $1${2:+, $2}" >&2
    exit 69
}

# make_spaces NAME SPACE ..: makes network namespaces; the first one has the load, and its name is in `space`
make_spaces() {
    name=$1 spaces=("${@:2}") space=$2
    [ "$(id -u)" = 0 ] || over root
    command -v ip > /dev/null || over ip "of Debian's package iproute2"
    scratch=$(mktemp -d)
    trap remove_spaces EXIT
    for space in "${spaces[@]}"; do
        ip netns add "$space" 2> /dev/null || over namespaces 'and none can be made'
        inside sh -c 'for of in all default; do echo 1 > /proc/sys/net/ipv6/conf/$of/disable_ipv6; done' 2> /dev/null
    done
    space=$2
}

# the processes in the namespaces end first
remove_spaces() {
    local process each
    for each in "${spaces[@]}"; do
        for process in $(ip netns pids "$each" 2> /dev/null); do kill -KILL "$process" 2> /dev/null; done
    done
    wait
    for each in "${spaces[@]}"; do ip netns del "$each" 2> /dev/null; done
    rm -rf "$scratch"
}

wait_for() {
    local end=$((SECONDS + patience))
    until "$@"; do
        [ "$SECONDS" -lt "$end" ] || return 1
        sleep 0.05
    done
}
told() { [ "$(grep -c -x -e "$name: $1" "$scratch/err")" = "$2" ]; }
flows() {
    local tx rx
    tx=$(counter tx_packets) rx=$(counter rx_packets)
    wait_for counted tx_packets $((tx + 100)) && wait_for counted rx_packets $((rx + 100))
}

check() {
    local what=$1
    shift
    if "$@"; then
        echo "ok: $what"
        return
    fi
    echo "WRONG: $what"
    tail -n 3 "$scratch/out" "$scratch/err"
    exit 1
}

load() { inside timeout "$patience" "$built/load" "$@"; }
# answered COUNT LINE: returns whether at least this many packets came back, none of them changed
answered() { [[ $2 =~ \ back\ ([0-9]+)\ bad\ 0\  ]] && [ "${BASH_REMATCH[1]}" -ge "$1" ]; }
pings() {
    local said
    said=$(load ping "$@")
    echo "pings of $2 bytes: $said"
    check "$1 pings are answered" answered "$1" "$said"
}

# start COMMAND ..: starts the driver; skips the test if it ends with status 69, because the kernel lacks or denies what is in
# `kernel`
start() {
    : > "$scratch/err"
    "$@" > "$scratch/out" 2>> "$scratch/err" &
    driver=$!
    patience=300 wait_for has_begun && told on 1 && return
    kill -KILL "$driver" 2> /dev/null
    wait "$driver"
    [ $? != 69 ] || over "$kernel" "$(cat "$scratch/err")"
    check 'the driver begins' false
}
has_begun() { told on 1 || has_ended "$driver"; }

# drive: pings, a second of UDP both ways, ten disables and enables under load, pings, and SIGINT; `tx` and `rx` are the counts
# of the other end
drive() {
    local turn load
    pings 3000 1400 16
    echo "a second of UDP: $(load udp 7 1 1400)"
    ip netns exec "$space" "$built/load" udp 7 0 600 > "$scratch/load.out" 2>&1 &
    load=$!
    for turn in 1 2 3 4 5 6 7 8 9 10; do
        flows || check 'both ways under load' false
        kill -HUP "$driver"
        wait_for told off "$turn" || check 'a disable under load ends' false
        kill -HUP "$driver"
        wait_for told on $((turn + 1)) || check 'an enable under load ends' false
    done
    check 'ten disables and enables under load, and both ways behind them' flows
    kill -TERM "$load"
    wait "$load"
    pings 100 64 4
    ip -n "$space" link set fq0 down # so that nothing more comes
    tx=$(counter tx_packets) rx=$(counter rx_packets)
    kill -INT "$driver"
    wait_for has_ended "$driver" || kill -KILL "$driver"
    check 'SIGINT ends the driver' wait "$driver"
    cat "$scratch/out"
}

# is NAME: prints the number after this name in the driver's lines
is() { awk -v name="$1" '{ for (i = 1; i < NF; i++) if ($i == name) print $(i + 1) }' "$scratch/out"; }

end() {
    remove_spaces
    check 'nothing stays behind' [ -z "$(ip netns list | grep -e "-$$\b")" ]
}
