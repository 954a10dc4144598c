#!/usr/bin/env bash
# Sourced by tests: names the repository `top`, makes a folder `scratch` that is removed at the end, counts checks and skipped tests, and
# prints their sums as the last line.
set -uo pipefail
unset CDPATH
top=$(dirname "$(dirname "$(readlink -f "${BASH_SOURCE[0]}")")")
scratch=$(mktemp -d)
# A browser's last process may still write there; and the sums stay the last line.
trap '{ rm -rf "$scratch" || { sleep 5 && rm -rf "$scratch"; }; } 2> /dev/null' EXIT
passed=0
failed=0
skipped=0

# check NAME COMMAND ..: counts the command by its status. Its output is printed if it fails.
check() {
    local name=$1
    shift
    if "$@" > "$scratch/log" 2>&1; then
        passed=$((passed + 1))
    else
        failed=$((failed + 1))
        echo "$(basename "$0" .sh): $name"
        tail -n 20 "$scratch/log" | sed 's/^/    /'
    fi
}

# skip WHAT NEED ..: counts a skipped test, and prints the programs that are missing, with the Debian packages that have them.
# Each of them is in tests/needs.txt.
skip() {
    local what=$1 need packages line
    shift
    line="skipped: $(basename "$0" .sh): $what needs"
    for need in "$@"; do
        if ! packages=$(awk -v need="$need" '$1 == need { sub(/ *#.*/, ""); $1 = ""; print substr($0, 2); found = 1 } END { exit !found }' "$top/tests/needs.txt"); then
            failed=$((failed + 1))
            echo "$(basename "$0" .sh): tests/needs.txt lacks $need, which $what needs"
            return
        fi
        line+=" $need"
        [ "$packages" = - ] || line+=" (Debian: $packages)"
    done
    skipped=$((skipped + 1))
    echo "$line"
}

# has PROGRAM WHAT: returns whether the program is installed; if not, the test WHAT, which needs it, is skipped.
has() {
    command -v "$1" > /dev/null && return
    skip "$2" "$1"
    return 1
}

# header_calls: prints the calls that the C header declares and the library exports, without the inline ones.
header_calls() { python3 -EsSB "$top/scripts/abi.py" --calls | sort; }

# sum_up: prints `N passed, M failed, K skipped`, and returns whether none failed.
sum_up() {
    echo "$passed passed, $failed failed, $skipped skipped"
    [ "$failed" = 0 ]
}
