#!/usr/bin/env bash
# tests/cards.sh [--fetch]: the rules of cards. The plain program (bench/machine.cc) predicts what the real drivers e1000 and vmxnet3 did on emulated cards, from
# one recording of each, and napi_machine prints the model's bytes: first with the recordings that tests/cards/kept has, in seconds; then
# with recordings that this makes itself in some 3 minutes of processor time, in a guest under QEMU's interpreter, where other work on the
# machine changes hardly anything. The kept ones are also of several cards, fuller bursts and other versions of Linux: OTHERS in
# tests/cards/tried.py, which `cards.py keep` records. Then the table of drivers is compared with the sources of Linux. QEMU, Debian's kernel and the guest's
# programs aren't installed: --fetch downloads them once, 160 MB into ~/.cache/fintaqush, and does no more, with status 1 if it can't.
# Recordings are skipped without these packages, with less than 2 GB of free memory, and if other work lets a guest take over 27 minutes.
# MACHINE=FILE names another build of napi_machine. The last line is `N passed, M failed, K skipped`.
. "$(dirname "$(readlink -f "$0")")/../scripts/checks.sh"

cards() { timeout 2h python3 -EsSB "$top/tests/cards/cards.py" "$@"; }

[ "${1:-}" != --fetch ] || exec python3 -EsSB "$top/tests/cards/cards.py" fetch

# compared ARGUMENT ..: makes a comparison, prints its lines, and adds its counts to those of this test.
compared() {
    cards "$@" > "$scratch/compared" 2>&1
    sed '$d' "$scratch/compared"
    if [[ $(tail -n 1 "$scratch/compared") =~ ^([0-9]+)\ passed,\ ([0-9]+)\ failed,\ ([0-9]+)\ skipped$ ]]; then
        passed=$((passed + BASH_REMATCH[1]))
        failed=$((failed + BASH_REMATCH[2]))
        skipped=$((skipped + BASH_REMATCH[3]))
    else
        tail -n 1 "$scratch/compared"
        check "the comparison '$1' ends" false
    fi
}

program=${MACHINE:-$top/crates/napi_machine/out/napi_machine}
[ -n "${MACHINE:-}" ] || check 'napi_machine is built' "$top/scripts/build.sh" napi_machine
compared kept "$program"

if has cc 'recordings of emulated cards'; then
    if ! cards memory; then
        skip 'recordings of emulated cards' 2-GB-of-memory
    elif ! cards fetched; then
        skip 'recordings of emulated cards' linux-cards
    else
        compared here "$program"
    fi
fi

mapfile -t files < <(cards files)
if "$top/scripts/linux_source.sh" 6.12 "$scratch/linux" "${files[@]}" > "$scratch/log"; then
    check 'the lines of the table of drivers are those of Linux' cards sources "$scratch/linux"
else
    skip 'the table of drivers' linux-source
fi
sum_up
