#!/usr/bin/env bash
# tests/words.sh: runs the built programs with the options and the inputs of runs.txt, and compares their output and exit
# status; then with real inputs and outputs that fail, and an argument or a program's name that isn't UTF-8. napi_serial has to behave like
# napi_replay, and rejects options that name another mode. ends.py tries the exit status of all four programs with outputs that
# are closed or full. Each run that differs is printed. The last line is `N passed, M failed`. It asks ./replay and
# scripts/build.sh for the programs, which build them only if neither the gate nor an earlier call did.
set -u
tests=$(cd "$(dirname "$0")" && pwd)
replay=$tests/../replay
crates=$tests/../crates
programs=(napi_replay napi_serial)
folder=$(mktemp -d)
trap 'rm -rf "$folder"' EXIT
passed=0
failed=0

# judge NAME: compares out, err and status of the folder with the expected ones.
judge() {
    if cmp -s "$folder/out" "$folder/wanted.out" && cmp -s "$folder/err" "$folder/wanted.err" && cmp -s "$folder/status" "$folder/wanted.status"; then
        passed=$((passed + 1))
        return
    fi
    failed=$((failed + 1))
    echo "$1: other than wanted (<: wanted)"
    for part in out err status; do
        diff "$folder/wanted.$part" "$folder/$part" | head -n 6
    done
}

# want STATUS LINE: no output, this status and this message on standard error.
want() {
    : > "$folder/wanted.out"
    echo "$2" > "$folder/wanted.err"
    echo "$1" > "$folder/wanted.status"
}

# answer NAME INPUT OUTPUT OPTION ..: runs each program with these options, with this input and output, and judges what it printed.
answer() {
    local name=$1 input=$2 output=$3 program
    shift 3
    for program in "${programs[@]}"; do
        : > "$folder/out"
        "$crates/$program/out/$program" "$@" < "$input" > "$output" 2> "$folder/err"
        echo $? > "$folder/status"
        judge "$name, $program"
    done
}

# play NAME: runs the programs on the options and the input of the folder.
play() {
    words=()
    while IFS= read -r word; do words+=("$word"); done < "$folder/words"
    case ${words[*]-} in *shared* | *threads*) programs=(napi_replay) ;; esac
    answer "$1" "$folder/in" "$folder/out" ${words[@]+"${words[@]}"}
    if [ "${#programs[@]}" = 1 ]; then
        programs=(napi_serial)
        want 64 'usage fault 64'
        answer "$1" "$folder/in" "$folder/out" "${words[@]}"
    fi
    programs=(napi_replay napi_serial)
}

begin() {
    for part in words in wanted.out wanted.err wanted.status; do : > "$folder/$part"; done
}

if ! { "$replay" --build && "$tests/../scripts/build.sh" napi_series napi_machine; } > "$folder/out" 2> "$folder/err"; then
    cat "$folder/err"
    echo "0 passed, 1 failed"
    exit 1
fi

name=
begin
while IFS= read -r line; do
    kind=${line%% *}
    text=${line#"$kind"}
    text=${text# }
    case $kind in
        run)
            [ -n "$name" ] && play "$name"
            name=$text
            begin
            ;;
        word) printf '%s\n' "$text" >> "$folder/words" ;;
        in) printf '%s\n' "$text" >> "$folder/in" ;;
        in\**) yes -- "$text" | head -n "${kind#in\*}" >> "$folder/in" ;;
        out) printf '%s\n' "$text" >> "$folder/wanted.out" ;;
        err) printf '%s\n' "$text" >> "$folder/wanted.err" ;;
        status) printf '%s\n' "$text" >> "$folder/wanted.status" ;;
        '' | '#') ;;
        *)
            echo "runs.txt: no such kind: $kind"
            failed=$((failed + 1))
            ;;
    esac
done < "$tests/runs.txt"
[ -n "$name" ] && play "$name"

# An argument that isn't UTF-8, an input that can't be read, and an output that is full.
printf 'moment,device,event,value\n' > "$folder/in"
want 64 'usage fault 64'
answer 'a word that is no text' "$folder/in" "$folder/out" $'--budget=\xff'
# A program's own name isn't an argument, and may have any bytes.
for program in napi_replay napi_serial napi_series napi_machine; do
    ln -sf "$(realpath "$crates/$program/out/$program")" "$folder/"$'\xe9'
    "$crates/$program/out/$program" < "$folder/in" > "$folder/wanted.out" 2> "$folder/wanted.err"
    echo $? > "$folder/wanted.status"
    "$folder/"$'\xe9' < "$folder/in" > "$folder/out" 2> "$folder/err"
    echo $? > "$folder/status"
    judge "a name that is no text, $program"
done
want 4 'output fault 15 OutputFailed'
answer 'a full output' "$folder/in" /dev/full

# broken NAME COMMAND ..: runs each program, in each of its modes, on an input that this command makes.
broken() {
    local name=$1 program mode
    shift
    for program in 'napi_replay serial' 'napi_replay shared' 'napi_replay threads' 'napi_serial serial'; do
        mode=${program#* }
        program=${program% *}
        "$@" "$crates/$program/out/$program" --mode "$mode" > "$folder/out" 2> "$folder/err"
        echo $? > "$folder/status"
        judge "$name, $program, mode $mode"
    done
}

from_folder() { "$@" < "$folder"; }
exec 9< "/proc/$$/mem"
from_memory() { "$@" <&9; }
# Memory is limited, because a record without end uses all of it.
from_zeros() { (ulimit -v 1500000 && exec "$@" < /dev/zero); }
from_line() { tr '\0' x < /dev/zero 2> /dev/null | (ulimit -v 1500000 && exec "$@"); }
from_row() { { printf 'moment,device,event,value\n' && tr '\0' 7 < /dev/zero; } 2> /dev/null | (ulimit -v 1500000 && exec "$@"); }
from_half() { python3 "$tests/half_read.py" "$@"; }
from_half_of_the_rows() { python3 "$tests/half_read.py" --rows "$@"; }
from_pipe() { printf 'moment,device,event,value\n0,1,open,4\n1,1,rx,100\n2,0,sof' | "$@"; }
from_short_pipe() { printf 'moment,dev' | "$@"; }

want 2 'trace fault 10 ReadFailed'
broken 'a folder as input' from_folder
broken 'memory that nobody may read' from_memory
broken 'a read that fails within a row' from_half
broken 'a read that fails behind a row' from_half_of_the_rows
want 4 'memory fault 11 OutOfMemory'
broken 'zeros without end' from_zeros
broken 'a line without end' from_line
broken 'a row without end' from_row
# A row that is cut off because a pipe is closed is a row with too few fields.
want 2 'trace fault 2 BadFields row 3'
broken 'a pipe that is closed in the middle of a row' from_pipe
want 2 'trace fault 1 BadHeader row 0'
broken 'a pipe that is closed in the middle of the header' from_short_pipe

python3 -B "$tests/ends.py" "$crates" > "$folder/ends"
sed '/^[0-9]* passed, [0-9]* failed, 0 skipped$/d' "$folder/ends"
if [[ $(tail -n 1 "$folder/ends") =~ ^([0-9]+)' passed, '([0-9]+)' failed, 0 skipped'$ ]]; then
    passed=$((passed + BASH_REMATCH[1]))
    failed=$((failed + BASH_REMATCH[2]))
else
    failed=$((failed + 1))
    echo "ends.py didn't end"
fi
echo "$passed passed, $failed failed"
[ "$failed" = 0 ]
