#!/usr/bin/env bash
# Tries the launcher. Builds are tried in a small checkout, with a kit that proves nothing and makes a program of a few lines;
# errors are tried with the real program. The last line is `N passed, M failed, K skipped`.
# A signal that the caller of this script ignores can't be tried, and a shell can't stop ignoring it by itself.
[ -n "${SIGNALS_AS_USUAL:-}" ] || SIGNALS_AS_USUAL=yes exec env --default-signal=INT,TERM,HUP,PIPE bash "$0" "$@"
. "$(dirname "$(readlink -f "$0")")/../scripts/checks.sh"
set +o pipefail
chmod 755 "$scratch"
cd "$scratch" || exit
launcher=$top/replay small=$scratch/small
# is ACTUAL PATTERN
# shellcheck disable=SC2053
is() { echo "$1"; [[ $1 = $2 ]]; }
# tries: each row of its input, NAME % COMMAND % PATTERN, is a check of a bash command: of its status, and of all lines, those
# of standard error first, with | between them.
tries() {
    while IFS=% read -r -u 3 name command wanted; do
        status=0
        [ -n "$command" ] || continue # between the rows
        eval "$command" > out 2> err || status=$?
        check "$name" is "$status $(sed "s,$scratch/,,g; s/\r\$//" err out | paste -s -d '|')" "${wanted# }"
    done 3<&0 < /dev/null
}
replay() { timeout --foreground 1h "$launcher" "$@"; }
judged() { PYTHONPATH=$top/tools python3 -Bc 'import sys; from fintaqush_tools import settings; print(settings.judge(sys.argv[1:]))' "$@"; }
# shellcheck disable=SC2120 # called by eval
built() { replay trace.csv "$@" > made 2>&1; }
on_terminal() { python3 -c 'import os, pty, sys; sys.exit(os.waitstatus_to_exitcode(pty.spawn(sys.argv[1:])))' "$@" < /dev/null; }
as_nobody() { if [ "$(id -u)" = 0 ]; then setpriv --reuid=65534 --regid=65534 --clear-groups "$@"; else "$@"; fi; }
comes() { for _ in $(seq 30000); do "$@" > /dev/null && return; sleep 0.02; done; return 1; }
# began: the crates that were started since the last call.
began() { sed -n 's/^begin //p' rt.log | sort | paste -s -d ' '; : > rt.log; }
change() { echo >> "$small/crates/${1:-low}/src/lib.rt"; }
# signalled SIGNAL [HOW]: to the launcher only, while a build or a program is at work; and what goes on afterwards.
signalled() {
    : > said
    env --default-signal=INT "$launcher" ${2:-} trace.csv > made 2> said &
    comes eval 'pgrep -f "^$scratch/slow" || grep -w "^replay: crate .*: .*${at:-low}" said'
    kill -"$1" $!
    status=0
    wait $! || status=$?
    cat said >&2
    # The replacement for `rt` doesn't end what it started, as `rt` does.
    [ -z "${2:-}" ] || kill "$(pgrep -f "^$scratch/slow")"
    comes eval '! pgrep -f "$scratch/bin/rattle|^$scratch/slow"' || pgrep -af "$scratch/bin/rattle|^$scratch/slow"
    return "$status"
}

# small_checkout [ROW ..]: makes a checkout with crates of these rows of crates.txt. Without rows it has seven crates: only the program of
# all modes needs `wide`, and no program of the replay needs `apart`. Its `rattle` logs when each check begins and ends, and runs PROVES
# in between. The program runs DOES first. An unproved run runs LOOKS first, and has the arguments TRIES. A check counts as needing no
# memory, so that the free memory of this machine doesn't limit how many run at once.
small_checkout() {
    rm -rf "$small" bin
    mkdir -p "$small"/{.git,include} bin
    cp -r "$top/replay" "$top/scripts" "$top/tools" "$small/"
    sed -i 's/free \/\/ 2_500_000/free/' "$small/tools/fintaqush_tools/builds.py"
    cp "$top/include/fintaqush.h" "$small/include"
    [ $# != 0 ] || set -- low: side: 'high: low  # a note' wide:low apart:low 'napi_serial: high side csv' 'napi_replay: high side wide'
    printf '%s\n' "$@" > "$small/crates.txt"
    for row in "$@"; do
        mkdir -p "$small/crates/${row%%:*}/src"
        [[ $row = napi_* ]] && kind=main || kind=lib
        : > "$small/crates/${row%%:*}/src/$kind.rt"
    done
    printf '#!/bin/sh\neval "${DOES:-}"\necho "${NAME:-${0##*/}} $*"\ncat\n' > "$small/program"
    cat > bin/rt << END
#!/bin/sh
case \$1 in
    doc) echo "$scratch/FIRST.md" ;;
    version) echo stand-in ;;
    try) eval "\${LOOKS:-}"; shift 6; NAME=\$(basename "\$PWD") sh "$small/program" "\$@" \$TRIES; status=\$?
        printf 'races: not looked for\\nrt: a hint\\nrun=ended status=%s\\n' "\$status" >&2; exit \$status ;;
esac
END
    cat > bin/rattle << END
#!/bin/sh
name=\$3
$(declare -f comes)
echo "begin \$name" >> "$scratch/rt.log"
for word; do case \$word in *.new) new=\$word ;; *=*/built/*.rlib) [ -e "\${word#*=}/format" ] || exit 1 ;; esac; done
eval "\${PROVES:-sleep 0.05}"
echo "end \$name" >> "$scratch/rt.log"
case \$new in *.rlib.new) mkdir "\$new"; new=\$new/format ;; esac
echo > "\$new"
END
    printf '#!/bin/sh\ncp "%s" "$6"\n' "$small/program" > bin/rattle-link
    chmod +x bin/* "$small/program"; truncate -s 0 rt.log KIT-ID
}

# with_module: the small checkout has a program of a module, which was made from its sources, and a node that is new enough.
with_module() {
    mkdir -p "$small/web"
    cp "$small/program" "$small/web/napi_serial"
    PYTHONPATH=$small/tools python3 -Bc 'from fintaqush_tools.builds import sum_below; print("napi_serial", sum_below("napi_serial"))' > "$small/web/fintaqush.sum"
    printf '#!/bin/sh\necho "${NODE:-v18.0.0}"\n' > bin/node
    chmod +x bin/node
    rm -rf by_node && cp -r few by_node && cp bin/node by_node/
}

header=moment,device,event,value
echo "$header" > trace.csv
printf '%s\n0,1,Rx,9\n' "$header" | tee bad.csv > $'bad\e[31m\u202e.csv'
(umask 077 && cp trace.csv secret.csv && chmod 000 secret.csv)
python3 -c 'import socket; socket.socket(socket.AF_UNIX).bind("socket")'
# The tools that the launcher uses, and no `rt`.
mkdir few deep && cp "$(command -v sleep)" slow
for tool in env sh dirname readlink cat; do ln -s "$(command -v "$tool")" "few/$tool"; done
ln -s "$(as_nobody sh -c 'command -v python3')" few/python3
ln -s "$small/replay" deep/link && ln -s link deep/link-of-a-link
cat > reset.py << 'END'
import os, socket, subprocess, sys
listens = socket.create_server(("127.0.0.1", 0))
sends = socket.create_connection(listens.getsockname())
reads = listens.accept()[0]
sends.send(b"moment,device,event,value\n0,1")
sends.setsockopt(socket.SOL_SOCKET, socket.SO_LINGER, b"\1\0\0\0\0\0\0\0")
sends.close()
sys.exit(subprocess.run([sys.argv[1]], stdin=reads, check=False).returncode)
END
events="the event is none of $(python3 -B "$top/tests/events.py"), in lower case and without spaces"
number='moment, device and value are one to twenty digits, without sign, space or fraction'
empty='the empty lines above it are no rows' fields='a row has four fields, and this one has' h="$header\\n"
all='--mode --pollers --budget --weight --window --raise --fail-if --unproved --json --build --version --help'
two=$top/examples/two-packets.csv
version=$(sed -n 's/^#define FQ_VERSION "\(.*\)"$/\1/p' "$top/include/fintaqush.h")

# The real program, on files of these bytes: its error, and the launcher's message.
check 'the real program stands, or is built' "$top/scripts/build.sh" napi_serial
while IFS=% read -r rows wanted; do
    printf '%b' "$rows" > faulty.csv
    tries <<< "$rows % replay faulty.csv % 2 trace fault${wanted/|/|replay: faulty.csv}"
done << END
${h}0,1,open,4\n1,1,RX,100\n% 4 BadEvent row 2| line 3, '1,1,RX,100': $events
${h}0,1,open,4\n\n1,1\n% 2 BadFields row 2| line 4, '1,1': $fields 2; $empty
${h}0,1,open,4\r\n\r\n  \r\n% 2 BadFields row 2| line 4, '  ': a line of spaces is a row; an empty line is none; $empty
"moment",device,event,value\n0,1,open,4\n1,1,rx,"1\n\n00"\n% 3 BadNumber row 2| line 3, '1,1,rx,"1': $number
${h}"0",1,open,"4"\n1,2,r"x,1\n% 4 BadEvent row 2| line 3, '1,2,r"x,1': $events
${h}0,1,open,4\n1,1,"r""x\n,",1\n% 4 BadEvent row 2| line 3, '1,1,"r""x': $events
moment,device,event,"value"\n0,1,open,4\n1,1,rx,9\n1,2,rx,9\n% 6 UnknownDevice row 3| line 4, '1,2,rx,9': \
the device has to be opened by an open row before this one
moment;device;event;value\n% 1 BadHeader row 0| line 1, 'moment;device;event;value': \
the fields have semicolons between them, and need commas
\n0,1,open,4\n% 1 BadHeader row 0| line 2, '0,1,open,4': the first line has to be $header, in lower case and without spaces, \
or $header,2 for version 2; $empty
% 1 BadHeader row 0|: there is no line with text in it: the first one has to be $header
\0377\0376m\0o\0% 1 BadHeader row 0|: the file is in UTF-16: iconv -f UTF-16LE -t UTF-8 faulty.csv | ./replay
$(printf '%b' "$h" | gzip -cn | od -An -v -to1 | tr -d '\n' | sed 's/ /\\0/g')% 1 BadHeader row 0|: the file is packed by gzip: \
gunzip -c faulty.csv | ./replay
$header\r0,1,open,4\r1,1\r% 2 BadFields row 2| line 3, '1,1': $fields 2; its lines end by CR alone, and are counted so
${h}0,1,open,4\r1,1,rx,9\n1,1\n% 2 BadFields row 3
${h}0,1,open,4\n1,1,rx,"9\n1,1,rx,9\n% 3 BadNumber row 2| line 3, '1,1,rx,"9': \
a quote that it opens isn't closed, so all that follows is one field
${h}0,1,open,4\n1,1,busy,9\n% 4 BadEvent row 2| line 3, '1,1,busy,9': a busy row needs the header of version 2: $header,2
$header,2\n0,1,open,4\n1,1,busy,0\n% 5 OutOfRange row 2| line 3, '1,1,busy,0': \
busy has a device of 1..=16 and a value of 1..=65535 rounds
${h}0,1,open,4\n1,17,open,4\n% 5 OutOfRange row 2| line 3, '1,17,open,4': open has a device of 1..=16 and a value of 1..=65536, its places
${h}0,1,open,4\n1,1,enable,1\n% 5 OutOfRange row 2| line 3, '1,1,enable,1': it has a device of 1..=16 and the value 0
${h}0,1,open,4\n1,1,open,4\n% 7 OpenTwice row 2| line 3, '1,1,open,4': the device was opened by a row before this one
${h}0,1,open,4\n1,1,enable,0\n% 8 WrongState row 2| line 3, '1,1,enable,0': a disable follows an open or an enable of its device*
${h}0\t1\topen\t4\n% 2 BadFields row 1| line 2, '0?1?open?4': a row has four fields with commas between them, not tabs
${h}0,1,open,4\n1,1,rx,9\n1,1,disable,0\n1,1,enable,0\n% 12 Pending row 4| line 5, '1,1,enable,0': the disable is pending still: *
END
tries << END
words that the program refuses % replay --budget 0 $two % 64 usage fault 64|replay: --budget '0': its value is \
a whole number, 1..=65535 (see ./replay --help)
a closed output % $launcher $two >&- % 4 output fault 15 OutputFailed
a full one % $launcher --json $two 2>&1 > /dev/full | tail -n 1; (exit \${PIPESTATUS[0]}) % 4 replay: the report couldn't be written as JSON
a report as JSON % $launcher --json $two | head -n 1 % 0 {"version": 1, "tool": "replay", "line": "softirq", *
a limit % $launcher --fail-if 'polls>0' $two > /dev/null % 3 replay: --fail-if 'polls>0': polls is *
one that holds % $launcher --fail-if 'dropped>0' $two > /dev/null % 0 
a limit of nothing % $launcher --fail-if 'drop>0' $two % 64 replay: --fail-if: 'drop>0' isn't of a result; these are: *
runs that aren't a number % $launcher --raise=x $two % 64 replay: --raise='x': it is a number of runs, 0..=99999
the kernel's log ends in a line % replay /proc/kmsg % *@(trace fault 1 BadHeader row 0*|replay: /proc/kmsg: a read of it failed|\
replay: /proc/kmsg: it can't be read: operation not permitted)
END

# All else: how it is built, its arguments, and its environment.
launcher=$small/replay PATH=$scratch/bin:$PATH
fault="trace fault 4 BadEvent row 1|replay: bad.csv line 2, '0,1,Rx,9': $events"
answer="napi_serial |$header"
kept='; each crate that was proved is kept'
no_rt="69 *replay: there is no rt on PATH (the kit), which proves and builds the program; without it only an installed program runs, \
or one of web/fintaqush.wasm by node 18 or later: see 'What it needs' in README.md"
not_proved="replay: napi_serial isn't proved here, which takes the kit: this is"
module="web/fintaqush.wasm, compiled from the proved sources in a way that the kit doesn't offer"
first='replay: the program is to be proved and built: meanwhile the answer of an UNPROVED run, in up to a minute'
unproved='replay: this was an UNPROVED run; the proof goes on. Ctrl-C leaves what is proved by then, and the next call goes on from there'
# A proof that waits for the answer of the unproved run, for a second one, or for a second build.
export slow="comes grep 'UNPROVED run; the proof' $scratch/out" two_begin="comes awk 'END { exit NR < 2 }' $scratch/rt.log"
export is_waited_for="comes grep 'another build' $scratch/err"
two_processors=$(python3 -c 'import os; print(*sorted(os.sched_getaffinity(0))[:2], sep=",")')
high_fails='[ $name != high ] || { echo error: not proved; exit 1; }'
c_is_killed='[ $name != c ] || ! mkdir ../../killed || kill -9 $$'
export reports='cat > /dev/null; echo total devices 0; exit'
json='{"version": 1, "tool": "replay", "line": "total", "devices": 0}'
export fails='cat > /dev/null; echo trace fault 4 BadEvent row 1 >&2; exit 2'
small_checkout
tries << END
a first call by a symlink, from another folder, builds and replays; it says what it takes and where it is % \
cd deep; PROVES=\$two_begin CDPATH=.. ./link-of-a-link ../trace.csv --budget 7; cd .. % 0 replay: proving and building napi_serial and \
what they stand on, 4 crates: on 4 cores some 2 minutes|*|replay: crate 4 of 4, * s, about * s left: napi_serial|\
replay: napi_serial: proved and built, in *|napi_serial --budget 7|$header
libraries that need nothing begin side by side, one that needs another behind it, and the program last % head -n 2 rt.log | sort; \
grep -e 'end low' -e 'begin high' rt.log; tail -n 1 rt.log % 0 begin low|begin side|end low|begin high|end napi_serial
a second call builds nothing, nor where a crate changed that the program is not made of % change apart; replay trace.csv % 0 $answer
nor where a file has another time % touch $small/crates/low/src/lib.rt; replay trace.csv % 0 $answer
nor in a copied checkout, which takes its libraries too % : > rt.log; cp -r $small copied; copied/replay trace.csv; \
echo >> copied/crates/napi_serial/src/main.rt; copied/replay trace.csv > made 2>&1; began; rm -r copied % 0 $answer|napi_serial
a change of one that it is made of builds it, and those above it alone % : > rt.log; change; built; began % 0 high low napi_serial
so does a new file % : > $small/crates/high/src/more.rt; built; began % 0 high napi_serial
and one that is gone % rm $small/crates/high/src/more.rt; built; began % 0 high napi_serial
what was built of another text is not taken, nor a program that stands in its place % change; built; : > $small/crates/low/src/lib.rt; \
built; echo other > $small/crates/napi_serial/out/napi_serial; built; began % 0 high high low low napi_serial napi_serial napi_serial
what is written while it is built is built again % change high; PROVES='[ \$name != high ] || touch src/lib.rt' built; : > rt.log; \
built; began % 0 high napi_serial
and a library that is gone % rm -r $small/.git/built/low.rlib; change high; built; began % 0 high low napi_serial
one that another kit has built is built anew % echo other > KIT-ID; change high; built; began % 0 high low napi_serial side
what is built needs no rt, and no checkout to write to % chmod -R a-w $small; as_nobody env PATH=few $launcher trace.csv % 0 $answer
a crate at a time on each processor, the longest chain first % small_checkout a: b: c: d: one: 'two: one' 'napi_serial: a b c d two'; \
echo longest > $small/crates/two/src/lib.rt; PROVES="\$two_begin; sleep 1" taskset -c $two_processors $launcher trace.csv > made 2>&1; head -n 2 rt.log | grep one; \
awk '/^begin/ { now++ } /^end/ { now-- } now > most { most = now } END { print most }' rt.log % 0 begin one|2
one that is killed for memory is begun once more % change c; PROVES='$c_is_killed' built; grep -c 'begin c' rt.log % 0 3
an archive for another processor has a folder of its own % small_checkout low: 'arch staticlib:low'; FINTAQUSH_CPU=x86-64 PROVES='echo "\$*"' \
$small/scripts/build.sh arch 2> made; ls $small/crates/arch/out; grep -ohe '--cpu [^ ]*' $small/.git/built/{low,arch}.log; rm -r $small/crates/arch/out % \
0 x86-64|--cpu x86-64
one for arm64 too, and only what is no library is built for it % FINTAQUSH_TARGET=arm64 PROVES='echo "\$*"' $small/scripts/build.sh arch 2> made; \
ls $small/crates/arch/out; grep -ohe '--target [^ ]*' $small/.git/built/{low,arch}.log; rm -r $small/crates/arch/out % 0 arm64|--target aarch64-unknown-linux-gnu
there is no other target % FINTAQUSH_TARGET=arm $small/scripts/build.sh arch % 64 replay: there is no target 'arm', only arm64
what is no clone is built where caches are % small_checkout one: 'napi_serial: one'; built; rm -rf $small/.git; change one; XDG_CACHE_HOME=$scratch/cache built; tail -n 2 made; \
ls cache/fintaqush/*/one.rlib % 0 $answer|format
and not beside it % ls -d $small/.git % 2 *

no word for a mode builds what serial mode needs % small_checkout; replay trace.csv 2> made; began % 0 $answer|high low napi_serial side
the version, and which programs are built % replay --version % 0 replay of Fintaqush $version|it replays traces of version 1 and 2*|sources:*|\
program of serial mode: proved and built|program of every mode: not built here yet|kit: stand-in
--mode serial too % small_checkout; replay trace.csv --mode serial 2> made; began % 0 napi_serial --mode serial|*|high low napi_serial side
threads mode has another % small_checkout; built --mode threads; tail -n 2 made; began % 0 napi_replay *|*|high low napi_replay side wide
which is tried unproved % replay --unproved trace.csv --mode threads 2> made % 0 napi_replay --mode threads|*
so has shared mode % small_checkout; built --mode=shared; tail -n 2 made; began % 0 napi_replay *|*|high low napi_replay side wide
which is tried unproved too % replay --unproved trace.csv --mode=shared 2> made % 0 napi_replay --mode=shared|*
a build alone, of the programs of all modes % replay --build 2> made; began % 0 napi_serial
a build replays nothing % replay --build trace.csv % 64 replay: --build replays nothing, and stands alone (see ./replay --help)

without rt it says so at once % small_checkout; PATH=few $launcher trace.csv % $no_rt
for an unproved run too % PATH=few $launcher --unproved trace.csv % $no_rt
by node the module replays then, which is said % with_module; PATH=by_node $launcher trace.csv % 0 $not_proved $module|$answer
its error has an explanation % DOES=\$fails PATH=by_node $launcher bad.csv % 2 $not_proved $module|$fault
its words are judged by it % DOES='echo usage fault 64 >&2; exit 64' PATH=by_node $launcher -x trace.csv % 64 $not_proved *|usage fault 64|replay: '-x' is no option: *
it has serial mode alone % PATH=by_node $launcher --mode shared trace.csv % $no_rt
a node that is too old runs nothing % NODE=v16.20.2 PATH=by_node $launcher trace.csv % $no_rt
one that was made from other sources says so % change; PATH=by_node $launcher trace.csv % 0 $not_proved web/fintaqush.wasm, compiled from OTHER sources, *|$answer
an installed program is before it % cp -r by_node installed; sed 's/^cat/echo installed; &/' $small/program > installed/napi_serial; chmod +x installed/napi_serial; \
PATH=installed $launcher trace.csv % 0 $not_proved the installed installed/napi_serial|napi_serial |installed|$header
and the one that was proved here before both % built; PATH=installed $launcher trace.csv % 0 $answer
a checkout that is not built and cannot be written to % small_checkout; chmod -R a-w $small; as_nobody $launcher trace.csv; s=\$?; chmod -R u+w $small; \
(exit \$s) % 73 replay: the program is to be built, and small/* can't be written: build in a checkout of your own
a proof that fails ends the build, with what rt said and where the rest stands % built; change; PROVES='$high_fails' replay trace.csv % \
70 *|replay: high couldn't be built, status 1; small/.git/built/high.log has all that was said:|error: not proved
and leaves no old program % ls $small/crates/napi_serial/out % 0 
a full disk is told % change; (ulimit -f 0; $launcher trace.csv) 2>&1 | tail -n 1; (exit \${PIPESTATUS[0]}) % 70 *
a second build waits for the first one, and each crate is built once % : > rt.log; PROVES=\$is_waited_for built & comes grep 'begin low' rt.log; \
replay trace.csv; wait; wc -l < rt.log % 0 replay: another build is at work in this checkout: waiting for it|$answer|6
a crate that is not there % $small/scripts/build.sh nothing % 64 replay: there is no crate 'nothing' in crates.txt

Ctrl-C ends a build, and all that is at work % small_checkout; PROVES='sleep 60' signalled INT % 130 *|replay: interrupted$kept
TERM ends one % small_checkout; PROVES='sleep 60' signalled TERM % 143 *|replay: interrupted$kept
HUP ends one % small_checkout; PROVES='sleep 60' signalled HUP % 143 *|replay: interrupted$kept
the next call builds what is left % small_checkout; (PROVES='[ \$name != high ] || sleep 60' at=high signalled INT) 2> made; : > rt.log; \
built; began % 0 high napi_serial
TERM ends a run % DOES='exec $scratch/slow 60' signalled TERM % 143 replay: interrupted
and an unproved one % DOES='exec $scratch/slow 60' signalled TERM --unproved % 143 *|replay: interrupted

words that would be refused build nothing % small_checkout; replay --buget 7 trace.csv % 64 replay: '--buget' is no option: is --budget \
meant, a whole number, 1..=65535? (see ./replay --help)
the file first % built; replay trace.csv --weight 3 --budget=2 % 0 napi_serial --weight 3 --budget=2|$header
the file between words % replay --weight 3 trace.csv --budget 2 % 0 napi_serial --weight 3 --budget 2|$header
a pipe by its name % replay <(cat trace.csv) % 0 $answer
standard input by - % replay --window 3 - < trace.csv % 0 napi_serial --window 3|$header
words that the program is to refuse reach it % replay '' -x -- --pollers < trace.csv % 0 napi_serial  -x -- --pollers|$header
what it refuses is named % DOES='echo usage fault 64 >&2; exit 64' replay -x < trace.csv % 64 usage fault 64|replay: '-x' is no option: \
they are $all (see ./replay --help)
a bad value % judged --weight 65 % 0 --weight '65': its value is a whole number, 1..=64
a bad mode % judged --mode sreial % 0 --mode 'sreial': its value is serial, shared or threads; is serial meant?
a shortened word % judged --budget 1 --bud % 0 '--bud' is no option: is --budget meant, a whole number, 1..=65535?
a word without its value % judged --pollers % 0 --pollers has no value: a whole number, 1..=8
a word given twice % judged --budget 1 --budget 2 % 0 --budget is given twice
words that are well % judged --budget=00300 --mode shared --window 65535 % 0 
two files are refused % replay trace.csv bad.csv % 66 replay: two traces are named, trace.csv and bad.csv: replay one at a time
a file that is not there % replay none.csv % 66 replay: none.csv: there is no such file
a folder % replay deep % 66 replay: deep: this is a folder, not a trace
a folder as standard input % replay < . % 66 replay: standard input: this is a folder, not a trace
a file that cannot be read % as_nobody $launcher secret.csv % 66 replay: secret.csv: it can't be read: permission denied
a socket % replay socket % 66 replay: socket: this is a socket, not a trace
one as standard input, of which a read fails % python3 reset.py $launcher > made % 66 replay: standard input: a read of it failed
help has words, versions, an example and statuses % replay -h % 0 usage:*,2 for version 2, which has busy rows*--budget N*|example:*|  66 *
an unproved run replays and says so, without rt's lines % replay --unproved trace.csv --weight 9 % 0 replay: an unproved run: *|rt: a hint|\
replay: this was an UNPROVED run|napi_serial --weight 9|$header
a program that is killed has a line % DOES='kill -9 \$\$' replay trace.csv % 137 replay: napi_serial ended with status 137, and no line*
a full disk keeps no JSON back % (ulimit -S -f 0; DOES=\$reports exec $launcher --json trace.csv) | cat % 0 $json
what acts on a terminal reaches none % replay \$'none\e[31m' % 66 replay: \$'none?033[[]31m': there is no such file
in a fault's line % DOES=\$fails replay \$'bad\e[31m\u202e.csv' % 2 *|replay: \$'bad?033[[]31m?342?200?256.csv' line 2, *
where two traces are named % replay - \$'bad\e[31m.csv' % 66 replay: two traces are named, - and \$'bad?033[[]31m.csv': *
in a word % replay none.csv --bad\$'\e[31m' % 64 replay: '--bad?[[]31m' is no option: *
in its value % replay none.csv --pollers=\$'\e[31m' % 64 replay: --pollers '?[[]31m': its value is*

a closed standard input is no trace % $launcher <&- % 66 replay: standard input: this is closed
and none is needed for a file % $launcher trace.csv <&- % 0 $answer
nor a standard error % DOES=\$fails $launcher trace.csv 2>&- % 2 
nor any of the three % DOES=\$fails $launcher trace.csv <&- >&- 2>&- % 2 
a text that goes nowhere is told of % $launcher --help >&- % 4 replay: the text couldn't be written
a build needs no standard error % change; $launcher trace.csv 2>&- % 0 $answer
who has enough of a report ends it % $launcher trace.csv | head -n 1 % 0 napi_serial 

on a terminal without input: a usage text % on_terminal $launcher --budget 3 % 66 usage: *|replay: no trace: name a file*
where no terminal is, only proved bytes % change; replay trace.csv 2> made; ! grep -i unproved made % 0 $answer
on a terminal an unproved answer comes first, once, and the proof of it then; the build writes one line over and over \
% change; PROVES=\$slow on_terminal $launcher trace.csv --weight 4 % 0 $first|replay: proving and building *crate 1 of 3, * s: low*\
napi_serial --weight 4|$header|*rt: a hint|*$unproved|*crate 3 of 3*proved and built, in * s|replay: the proved program gives the same bytes
where the proof is sooner there, it alone counts % change; LOOKS='exec sleep 600' on_terminal $launcher trace.csv % 0 \
$first|*proved and built, in * s|$answer
the module of these sources answers in place of the unproved run % change; with_module; PROVES="comes grep 'offer; the proof' $scratch/out" \
on_terminal $launcher trace.csv --weight 4 % 0 replay: the program is to be proved and built: meanwhile the answer of $module|replay: proving and *\
napi_serial --weight 4|$header|replay: this was $module; the proof goes on*proved and built, in * s|replay: the proved program gives the same bytes
where its bytes are others they are told of % change; with_module; echo 'echo more' >> $small/web/napi_serial; PROVES="comes grep 'offer; the proof' $scratch/out" \
on_terminal $launcher trace.csv % 0 *$answer|more|*gives OTHER bytes, *|$answer
one of other sources doesn't % change; PROVES=\$slow on_terminal $launcher trace.csv % 0 *$answer|*UNPROVED run*gives the same bytes
the next call replays % rm $small/web/napi_serial; on_terminal $launcher trace.csv % 0 $answer
so it does for a trace through a pipe % change; PROVES=\$slow on_terminal bash -c '$launcher <(cat trace.csv)' % 0 *$answer|*gives the same bytes
one too long to be kept is replayed once % change; DOES='wc -c; exit' on_terminal bash -c 'head -c 70000000 /dev/zero | $launcher' % \
0 replay: proving and *proved and built, in * s|70000000
other bytes are told of, and printed % change; PROVES=\$slow TRIES=more on_terminal $launcher trace.csv % 0 *gives OTHER bytes, *|$answer
a fault is told first and proved then % change; PROVES=\$slow DOES=\$fails on_terminal $launcher bad.csv % 2 *${fault/|/|rt: a hint|*}|*the same bytes
where the build fails the answer stands, and the status is its % change; PROVES='$high_fails' on_terminal $launcher trace.csv % \
70 *$answer|*replay: high couldn't be built, status 1*
END
built
for how in '' --unproved; do
    tries << END
the report as JSON $how % DOES=\$reports replay --json $how trace.csv 2> made % 0 $json
to a file $how % DOES=\$reports replay --json=report.json $how trace.csv 2> made; cat report.json; rm report.json % 0 total devices 0|$json
but no fault $how % DOES=\$fails replay --json $how bad.csv 2> made % 2 
a cause for standard input $how % DOES=\$fails replay $how < bad.csv % 2 *replay: standard input line 2, '0,1,Rx,9': $events*
for a FIFO $how % DOES=\$fails replay $how <(cat bad.csv) % 2 *replay: /dev/fd/* line 2, '0,1,Rx,9': $events*
END
done
for how in bad.csv '< bad.csv' '<(cat bad.csv)'; do
    for set in TMPDIR=-t TMPDIR=/nowhere LC_ALL=C SHELLOPTS=noclobber PATH="$scratch/few"; do
        tries <<< "with $set a fault has its lines, $how % DOES=\$fails env $set $BASH -c 'exec $launcher $how' % 2 ${fault/bad.csv/*}"
    done
    tries <<< "with a full disk too, $how % (ulimit -S -f 0; DOES=\$fails exec $launcher $how) 2>&1 | cat % 0 ${fault/bad.csv/*}"
done
sum_up
