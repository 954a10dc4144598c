#!/usr/bin/env bash
# tests/models.sh: the models in Promela of models/ show that everything ends. First, each function that a line of theirs names,
# and each that these call, down to the toolchain's parker, queue and atomics, must have the code that it had when the model was
# last compared with it (models/stands_for.txt has the checksums); changes that are planted below are found. Then, if spin is
# installed, each model: no deadlock and no failed assertion, and the properties that hold under weak fairness; and each planted
# error violates the property that it should. These are skipped without spin. The last line is `N passed, M failed, K skipped`.
# Needs python3; spin needs a C compiler.
#
# usage: tests/models.sh            all of it
#        tests/models.sh --look     only prints the functions whose code has changed, with status 1 if there are any
#        tests/models.sh --write    writes the checksums of the present functions, after the models were compared with them
. "$(dirname "$(readlink -f "$0")")/../scripts/checks.sh"
models=$top/models
kit=$(dirname "$(rt doc 2> /dev/null)") # the folder of the toolchain

# checksums [TOP [KIT]]: a line for each function that the models name, and for each that these call (model_texts.py).
checksums() { python3 -B "$top/tests/model_texts.py" "${1:-$top}" "${2:-$kit}"; }

# of_kit: of these lines those of the toolchain's functions.
of_kit() { grep '^[^ ]* kit '; }

# is_read_kit: whether the toolchain is the kit with which the models were compared, which is the first line's, or has the same functions.
is_read_kit() {
    [ "$(head -n 1 "$models/stands_for.txt")" = "# $(rt version)" ] || cmp -s <(of_kit < "$models/stands_for.txt") <(checksums | of_kit)
}

# look [TOP [KIT]]: the functions whose code has changed, or that are missing; with another kit only those of this repository.
look() {
    [ -n "${functions:-}" ] || { is_read_kit && functions=. || functions='^[^ ]* [^ /]*/'; }
    checksums "$@" > "$scratch/all" || return
    grep -v '^#' "$models/stands_for.txt" | grep "$functions" > "$scratch/read"
    grep "$functions" "$scratch/all" > "$scratch/now"
    if cmp -s "$scratch/read" "$scratch/now"; then return 0; fi
    diff "$scratch/read" "$scratch/now" | sed -n 's/^[<>] [^ ]* \(.*\)/\1 has changed: read the models beside it, then tests\/models.sh --write/p' | sort -u
    return 1
}

case ${1:-} in
    --look) look; exit ;;
    --write) { echo "# $(rt version)" && checksums; } > "$scratch/now" && cp "$scratch/now" "$models/stands_for.txt"; exit ;;
    '') ;;
    *) sed -n 's/^# usage/usage/p' "$0"; exit 64 ;;
esac
# finds PLACE NAME FILE OLD NEW: in the copy of what the models stand for, `look` reports a change of FILE, in which OLD occurs.
finds() {
    local file=$scratch/copy/$3 status=0
    cp "$file" "$scratch/kept"
    sed -i "s/$4/$5/" "$file"
    ! cmp -s "$file" "$scratch/kept" || return 1
    look "$scratch/copy" "$scratch/copy" > "$scratch/told" && status=1
    cp "$scratch/kept" "$file"
    [ "$status" = 0 ] && grep -qx "$1 $2 has changed: .*" "$scratch/told"
}

if [ ! -d "$kit/rattle" ]; then
    skip 'what the models stand for' rt
else
    check 'what the models stand for is as it was' look
    check 'each function that they name is there' eval '! grep "^nothing" "$models/stands_for.txt"'
    mkdir -p "$scratch/copy/rattle" && cp -r "$top"/{crates,models} "$scratch/copy" && cp -r "$kit"/rattle/{crossbeam_utils,crossbeam_queue,atomic_table} "$scratch/copy/rattle"
    check 'a change in napi_word is found' finds napi_word/steps schedule_load crates/napi_word/src/steps.rt 'if seen.flags.disable' 'if seen.flags.sched'
    check 'a change in poll_runs is found' finds poll_runs/polling let_go crates/poll_runs/src/polling.rt 'if next == Next::Repoll' 'if next != Next::Repoll'
    if [ "$functions" = . ]; then
        check 'a change of the parker is found' finds 'kit crossbeam_utils/sync/parker/ruled' unpark_as rattle/crossbeam_utils/src/sync/parker/ruled.rt '== PARKED' '!= PARKED'
        check 'a change of the queue is found' finds 'kit crossbeam_queue/array_queue/steps' push_from rattle/crossbeam_queue/src/array_queue/steps.rt 'tail == stamp' 'tail != stamp'
        check 'a change of the atomics is found' finds 'kit atomic_table/steps' compare_exchange rattle/atomic_table/src/steps.rt 'old, new) }' 'new, old) }'
    else
        skip "what the models stand for in the toolchain, which they were read beside as $(sed -n '1s/# //p' "$models/stands_for.txt") and which" rt
    fi
    check 'a change of a comment or a contract is none' eval "sed -i 's/^    ensures .*/    ensures { true }/; s|^ */// .*|// |' '$scratch/copy/crates/napi_word/src/steps.rt' && look '$scratch/copy' '$scratch/copy'"
fi

if ! has spin 'the search of each model' || ! has cc 'the search of each model'; then
    sum_up
    exit
fi

# build NAME MODEL PROPERTIES -DWORD=N ..: the model's search, as up to two programs. Only the one without the claims finds
# deadlocks: with a claim, `search` looks for cycles that violate it, and an unexpected end is no error.
build() {
    local folder=$scratch/$1 flags=("${speed:--O1}" -w -DCOLLAPSE -DVECTORSZ=1024)
    mkdir -p "$folder" && cd "$folder" && spin -a "${@:4}" "$models/$2" || return
    [[ $3 = safe* && $3 != *' '* ]] || cc "${flags[@]}" -DNFAIR=3 -o search pan.c || return
    [[ $3 != *safe* ]] || cc "${flags[@]}" -DNOCLAIM -DSAFETY -o search_safe pan.c
}

# search NAME PROPERTY: prints `holds`, `broken`, or `unknown` if the search didn't end or failed in another way. `safe` means
# no deadlock and no failed assertion, and `safe=TEXT` is broken only by one with this text (`end.state` for a deadlock); any
# other property is broken only by a cycle that violates it, or by a state that does, which spin writes as an assertion of the
# property.
search() {
    # shellcheck disable=SC1007 # empty
    local property=${2%=*} text= words log=$scratch/$1/$2.log breaks='acceptance cycle|assertion violated  !\( !\('
    words=(./search -a -f -N "$property")
    [ "$property" = "$2" ] || text=${2#*=}
    [ "$property" != safe ] || words=(./search_safe) breaks='invalid end state|assertion violated'
    (cd "$scratch/$1" && timeout 1h "${words[@]}" -m1000000 > "$log" 2>&1)
    if grep -qE 'max search depth too small|out of memory' "$log"; then
        echo unknown
    elif grep -q 'errors: 0$' "$log" && ! grep -q 'Search not completed' "$log"; then
        echo holds
    elif grep -qE "errors: [1-9]" "$log" && grep -E "^pan:[0-9]+: ($breaks)" "$log" | grep -qe "$text"; then
        echo broken
    else
        echo unknown
    fi
}

# Each line: a name, a model, its options, and then what has to hold, or `refused` and a property that has to fail.
plan() {
    cat << 'PLAN'
four-acts wake.pml -DACTS=4 safe ends
three-acts wake.pml -DACTS=3 polled asked_is_polled
weight-two wake.pml -DACTS=3,-DWEIGHT=2 safe ends
two-workers wake.pml -DWORKERS=2,-DTHREADS=0,-DACTS=2,-DOTHER_ACTS=1 safe ends asked_is_polled
two-pollers wake.pml -DWORKERS=2,-DPOLLERS=2,-DTHREADS=0,-DACTS=2,-DOTHER_ACTS=1 safe
finite waiting.pml -DENDLESS=0,-DDISABLES=1,-DREPOLLS=1 safe ends taken
finite-requests waiting.pml -DENDLESS=0,-DDISABLES=1,-DREPOLLS=1,-DTRACKED=1 safe requests
endless waiting.pml -DENDLESS=1 safe taken
driver driver.pml -DPACKETS=4,-DSTOPS=2 safe ends
a-driver-without-a-look driver.pml -DFAULT=1 refused safe=taken
a-look-before-its-unmask driver.pml -DFAULT=2 refused safe=taken
a-bit-that-wakes-nobody driver.pml -DFAULT=3 refused safe=taken
a-wake-that-is-forgotten driver.pml -DFAULT=4 refused safe=taken
an-interrupt-that-isnt-reported driver.pml -DFAULT=5 refused safe=taken
a-mask-after-its-report driver.pml -DFAULT=6 refused safe=masked
bits-taken-by-load-and-store driver.pml -DFAULT=7 refused safe=taken
a-thread-that-isnt-woken wake.pml -DACTS=2,-DFAULT=1 refused polled
a-wake-before-its-push wake.pml -DACTS=2,-DFAULT=2 refused polled
a-thread-that-is-never-told wake.pml -DACTS=2,-DFAULT=3 refused ends
a-hand-on-without-a-wake wake.pml -DACTS=3,-DFAULT=4 refused polled
a-refused-start-not-seen wake.pml -DACTS=2,-DFAULT=5 refused ends
a-refused-poller-that-is-waited-for wake.pml -DACTS=2,-DFAULT=6 refused safe=end.state
a-completion-that-drops-missed wake.pml -DACTS=3,-DFAULT=7 refused safe=asked
an-enable-without-threaded wake.pml -DACTS=4,-DFAULT=8 refused safe=setting
a-thread-that-ends-before-the-disable wake.pml -DACTS=3,-DFAULT=9 refused polled
a-push-before-its-hand-over wake.pml -DACTS=2,-DFAULT=10 refused safe=mark
pollers-waited-for-before-their-close wake.pml -DACTS=2,-DFAULT=11 refused safe=end.state
a-schedule-that-ignores-disable waiting.pml -DENDLESS=1,-DFAULT=1 refused taken
a-repoll-that-ignores-disable waiting.pml -DENDLESS=1,-DFAULT=2 refused taken
a-completion-by-load-and-store waiting.pml -DENDLESS=0,-DFAULT=3 refused safe=word
missed-dropped-at-completion waiting.pml -DENDLESS=0,-DDISABLES=1,-DREPOLLS=1,-DTRACKED=1,-DFAULT=4 refused requests
a-schedule-that-gives-up waiting.pml -DENDLESS=0,-DDISABLES=1,-DREPOLLS=1,-DTRACKED=1,-DFAULT=5 refused requests
an-enable-by-load-and-store waiting.pml -DENDLESS=0,-DDISABLES=1,-DREPOLLS=1,-DTRACKED=1,-DFAULT=6 refused requests
PLAN
}

# try NAME MODEL OPTIONS [refused] PROPERTY ..: prints `+ CLAIM` or `- CLAIM` for each.
try() {
    local name=$1 model=$2 words property wanted=holds found speed=
    IFS=, read -r -a words <<< "$3"
    shift 3
    if [ "$1" = refused ]; then
        wanted=broken speed=-O0 # a search that soon ends
        shift
    fi
    build "$name" "$model" "$*" "${words[@]}" > "$scratch/$name.log" 2>&1 || { echo "- $name is built"; return; }
    for property in "$@"; do
        found=$(search "$name" "$property")
        if [ "$found" = "$wanted" ]; then echo "+ $name $property"; else
            echo "- $name $property"
            echo "$name, $property: $found, and not $wanted"
            tail -n 20 "$scratch/$name/$property.log"
        fi
        [ "$wanted" = broken ] || sed -n "s/^ *\([0-9.e+]*\) states, stored.*/$name, $property: \1 states/p" "$scratch/$name/$property.log"
    done
}
while read -r -a words; do
    try "${words[@]}" > "$scratch/${words[0]}.answers" &
    while [ "$(jobs -rp | wc -l)" -ge 4 ]; do wait -n; done
done < <(plan)
wait
while read -r -a words; do
    grep -v '^[+-] ' "$scratch/${words[0]}.answers"
    while read -r sign claim; do check "$claim" [ "$sign" = + ]; done < <(grep '^[+-] ' "$scratch/${words[0]}.answers")
done < <(plan)
sum_up
