#!/usr/bin/env bash
# scripts/gate-times.sh [COMMAND ..]: runs the gate, ./test by default, at the top of the repository, and prints for each crate
# after how many seconds its proof, its tests and its edits were done, and how much processor time each took; then the wall and
# processor time of all proofs, tests, edits and scripts of tests/. What a script proves counts as the script's. Every line of the
# gate is printed with the second at which it came. Lines and table also go to out/gate-times.log, or to the file LOG. Processor
# time is read from /proc every half second, so a process that ends between two reads lacks its last moments; the sum at the end
# is complete. The gate doesn't report when the edits of a crate are done: it is when the last one was seen. Exit status: the
# command's; 64 there is no such command; 73 the log can't be written; 130 or 143 interrupted.
set -uo pipefail
unset CDPATH
top=$(dirname "$(dirname "$(readlink -f "${BASH_SOURCE[0]}")")")
. "$top/scripts/arguments.sh"
log=${LOG:-$top/out/gate-times.log}
[ $# -gt 0 ] || set -- ./test

cd "$top" || exit 73
command -v -- "$1" > /dev/null || refuse "there is no command '${1//[^[:print:]]/?}'"
if ! { mkdir -p "$(dirname "$log")" && : > "$log"; } 2> /dev/null; then
    echo "gate-times.sh: the log can't be written: $log" >&2
    exit 73
fi

exec 4>> "$log"
hertz=$(getconf CLK_TCK)
begin=${EPOCHREALTIME/[.,]/}
order=()            # crates, as they are first named
sums=()             # the lines `N passed, M failed`, with their seconds
declare -A seen=()  # of `CRATE PART`, PART proof, tests or edits: when it stood, in ms
declare -A word=()  # what the gate says of it where that isn't `proved`
declare -A count=() # of a crate: how many edits it has
declare -A kind=()  # of a process, as `PID START`: the `CRATE PART` that it works for
declare -A spent=() # of such a process: its processor time in ticks, with that of what it began
declare -A known=() # the crates of `order`
declare -A from=()  # of a PART, or scripts: when a process was first seen at work for it, in ms
declare -A upto=()  # when the last one was
partial=
child=

# Sets `now` to the ms since the start.
look_at_clock() { now=$(((${EPOCHREALTIME/[.,]/} - begin) / 1000)); }

seconds() { printf '%d.%d' $(($1 / 1000)) $(($1 % 1000 / 100)); }

told() {
    [ -n "${known[$1]:-}" ] || order+=("$1")
    known[$1]=yes
}

# stamp LINE: prints the line with its second, and records which step it says is done.
stamp() {
    look_at_clock
    local text
    printf -v text '%6d.%d  %s' $((now / 1000)) $((now % 1000 / 100)) "$1"
    printf '%s\n' "$text"
    printf '%s\n' "$text" >&4
    if [[ $1 =~ ^rt:\ ([a-z0-9_]+)(: its tests are)?\ (proved|NOT PROVED) ]]; then
        local part=proof
        [ -z "${BASH_REMATCH[2]}" ] || part=tests
        told "${BASH_REMATCH[1]}"
        seen["${BASH_REMATCH[1]} $part"]=$now
        [ "${BASH_REMATCH[3]}" = proved ] || word["${BASH_REMATCH[1]} $part"]=failed
    elif [[ $1 =~ ^(rt:\ )?must-fail\ ([a-z0-9_]+)/ ]]; then
        count[${BASH_REMATCH[2]}]=$((${count[${BASH_REMATCH[2]}]:-0} + 1))
    elif [[ $1 =~ ^[0-9]+\ passed,\ [0-9]+\ failed(,\ [0-9]+\ skipped)?$ ]]; then
        sums+=("$(seconds "$now") $1")
    fi
}

# Prints the crate for which a process of the prover works, by its command line, or `- scripts` for a script of tests/; nothing for
# other processes.
work_of() {
    local words name='' is_test='' at
    mapfile -d '' -t words < "/proc/$1/cmdline" || return
    [[ ${words[0]:-} != *bash || ${words[1]:-} != tests/*.sh ]] || echo '- scripts'
    [[ ${words[0]:-} == */rattle ]] || return
    for ((at = 0; at < ${#words[@]}; at++)); do
        case ${words[at]} in
            --crate-name) name=${words[at + 1]:-} ;;
            --test) is_test=yes ;;
        esac
    done
    [ -n "$name" ] || return
    case $(readlink "/proc/$1/cwd") in
        */rt-edit-* | */must-fail-*) echo "$name edits" ;;
        *) if [ -n "$is_test" ]; then echo "$name tests"; else echo "$name proof"; fi ;;
    esac
}

# Reads every process below the gate, and counts its ticks for the topmost process above it that works for something. A process that
# has ended is in the ticks of its parent.
look() {
    local -A parent=() ticks=() start=() sum=()
    local file line fields pid up key part
    look_at_clock
    for file in /proc/[0-9]*/stat; do
        { IFS= read -r line < "$file"; } 2> /dev/null || continue
        # the name in brackets may contain anything
        read -ra fields <<< "${line##*) }"
        # a process that ends meanwhile leaves half a line, or none
        [ "${#fields[@]}" -gt 19 ] || continue
        pid=${line%% *}
        parent[$pid]=${fields[1]}
        ticks[$pid]=$((fields[11] + fields[12] + fields[13] + fields[14]))
        start[$pid]=${fields[19]}
    done
    for pid in "${!parent[@]}"; do
        is_below "$pid" || continue
        key="$pid ${start[$pid]}"
        if [ -z "${kind[$key]:-}" ]; then
            kind[$key]=$(work_of "$pid" 2> /dev/null) || true
            [ -n "${kind[$key]}" ] || unset "kind[$key]"
        fi
    done
    for pid in "${!parent[@]}"; do
        key=
        for ((up = pid; up > 1; up = ${parent[$up]:-0})); do
            [ -z "${kind["$up ${start[$up]:-}"]:-}" ] || key="$up ${start[$up]}"
        done
        [ -z "$key" ] || sum[$key]=$((${sum[$key]:-0} + ticks[$pid]))
    done
    for key in "${!sum[@]}"; do
        [ "${sum[$key]}" -le "${spent[$key]:-0}" ] || spent[$key]=${sum[$key]}
        [[ ${kind[$key]} != *' edits' ]] || seen[${kind[$key]}]=$now
        part=${kind[$key]##* }
        from[$part]=${from[$part]:-$now}
        upto[$part]=$now
    done
}

# is_below PID: returns whether the gate started the process, by the `parent` entries that were just read.
is_below() {
    local up=$1
    while [ "${up:-0}" -gt 1 ]; do
        [ "$up" != "$child" ] || return 0
        up=${parent[$up]:-0}
    done
    return 1
}

# Prints the whole processor time of the gate, which has ended, in ticks, as the system counted it.
whole() {
    local line fields
    IFS= read -r line < "/proc/$$/stat"
    read -ra fields <<< "${line##*) }"
    echo $((fields[13] + fields[14]))
}

# tenths TICKS: converts to seconds, with one decimal
tenths() { seconds $(($1 * 1000 / hertz)); }

# Prints the table, with the crates in the order in which they were done.
table() {
    local key crate part at line all=0
    local -A sum=() parts=()
    for key in "${!spent[@]}"; do
        part=${kind[$key]##* }
        sum[${kind[$key]}]=$((${sum[${kind[$key]}]:-0} + spent[$key]))
        parts[$part]=$((${parts[$part]:-0} + spent[$key]))
        all=$((all + spent[$key]))
    done
    printf '\n%-20s %27s %27s %27s\n' '' 'proof: stood, processor' 'tests: stood, processor' 'edits: stood, processor'
    for crate in ${order[@]+"${order[@]}"}; do
        line=$(printf '%-20s' "$crate")
        for part in proof tests edits; do
            at=${seen["$crate $part"]:-}
            if [ -n "${word["$crate $part"]:-}" ]; then at=failed; elif [ -n "$at" ]; then at="$(seconds "$at") s"; else at=-; fi
            [ "$part" != edits ] || [ -z "${count[$crate]:-}" ] || at="${count[$crate]}: $at"
            line+=$(printf ' %17s %7s s' "$at" "$(tenths "${sum["$crate $part"]:-0}")")
        done
        printf '%s\n' "$line"
    done
    printf '\n%-20s %17s %17s %17s\n' '' 'wall' 'from' 'processor'
    for part in proof tests edits scripts; do
        [ -z "${upto[$part]:-}" ] || printf '%-20s %15s s %15s s %15s s\n' "${part/%proof/proofs}" "$(seconds $((upto[$part] - from[$part])))" \
            "$(seconds "${from[$part]}")" "$(tenths "${parts[$part]}")"
    done
    look_at_clock
    echo
    printf '%s s: %s\n' "$(seconds "$now")" "the end; processor $(tenths "$1") s, of which $(tenths "$all") s in the lines above"
    for line in ${sums[@]+"${sums[@]}"}; do printf '%s s: %s\n' "${line%% *}" "${line#* }"; done
}

# Ctrl-C, or a signal to this process only: the gate restores what it set aside, and ends.
interrupted() {
    trap '' INT TERM HUP
    child=${!:-}
    kill -INT -- "-$child" 2> /dev/null
    while kill -0 "$child" 2> /dev/null; do wait "$child" 2> /dev/null; done
    table "$(whole)" | tee -a "$log"
    exit "$1"
}

pipe=$(mktemp -u) && mkfifo -m 600 "$pipe" || exit 73
trap 'interrupted 130' INT
trap 'interrupted 143' TERM HUP
# the command must not ignore Ctrl-C either
setsid env --default-signal=INT "$@" > "$pipe" 2>&1 < /dev/null 4>&- &
child=$!
exec 3< "$pipe"
rm -f "$pipe"
last=0
while true; do
    line=
    if IFS= read -r -t 0.5 -u 3 line; then
        stamp "$partial$line"
        partial=
    else
        [ $? -gt 128 ] || break
        partial+=$line
    fi
    look_at_clock
    if [ $((now - last)) -ge 500 ]; then
        last=$now
        look
    fi
done
[ -z "$partial$line" ] || stamp "$partial$line"
wait "$child"
status=$?
table "$(whole)" | tee -a "$log"
exit "$status"
