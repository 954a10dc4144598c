#!/bin/sh
# Writes the traces that replay.sh replays, the same at every call: bursts of one device, a transmit ring, and sixteen devices
# with every event.
# bench/traces.sh FOLDER [ROWS]     (100000 rows by default)
set -eu
. "$(dirname "$0")/../scripts/arguments.sh"
at_most 2 "$@"
folder=${1:-}
[ -n "$folder" ] || refuse "name a folder to write to: traces.sh FOLDER [ROWS]"
rows=${2:-100000}
is_count ROWS "$rows"
mkdir -p "$folder" || refuse "FOLDER is '$folder', which can't be made"

# Bursts of 63 packets, each followed by a run.
awk -v rows="$rows" 'BEGIN {
    print "moment,device,event,value"
    print "0,1,open,4096"
    for (row = 2; row <= rows; row++)
        if (row % 64 == 0) print row ",0,softirq,0"
        else print row ",1,rx," 60 + row * 37 % 1440
}' > "$folder/bursts.csv"

# Two packets are sent and completed, one by one or both at once.
awk -v rows="$rows" 'BEGIN {
    print "moment,device,event,value"
    print "0,1,open,256"
    for (row = 2; row <= rows; row++)
        if (row % 7 % 2 == 0) print row ",1,tx," 60 + row * 53 % 1440
        else print row ",1,done," row % 3
}' > "$folder/sends.csv"

# Rows of all kinds by a generator of random numbers (Lehmer, 16807). A device that is disabled is enabled again by a block of
# rows that first makes the poll list and its thread release it, so no enable meets a pending disable.
awk -v rows="$rows" '
    function number(below) { seed = seed * 16807 % 2147483647; return seed % below }
    function put(device, event, value) { if (row < rows) print ++row "," device "," event "," value }
    function burst(device, packets) {
        for (; packets > 0 && !is_off[device]; packets--) put(device, "rx", 60 + number(1440))
    }
    function let_go(device,    run) {
        put(device, "kthread", 0)
        for (run = 0; run < 20; run++) put(0, "softirq", 0)
        put(device, "kthread", 0)
    }
    BEGIN {
        seed = 1
        print "moment,device,event,value"
        for (device = 1; device <= 16; device++) put(device, "open", 256)
        while (row < rows) {
            kind = number(1000)
            device = 1 + number(16)
            if (kind < 2) for (device = 1; device <= 16; device++) burst(device, 80)
            else if (kind < 60) burst(device, 1 + number(20))
            else if (kind < 75) put(device, "rx", 60 + number(1440))
            else if (kind < 400) put(device, "tx", 60 + number(1440))
            else if (kind < 740) put(device, "done", number(3))
            else if (kind < 930) put(0, "softirq", 0)
            else if (kind < 980) put(device, "kthread", 0)
            else if (is_off[device]) { let_go(device); put(device, "enable", 0); is_off[device] = 0 }
            else if (kind < 995) put(device, "threaded", number(2))
            else { put(device, "disable", 0); is_off[device] = 1 }
        }
    }' > "$folder/sixteen.csv"
