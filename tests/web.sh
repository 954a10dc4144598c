#!/usr/bin/env bash
# tests/web.sh: web/fintaqush.wasm is made from these sources, byte for byte, and its programs give what the native ones give; and by it the
# command works with node alone. COUNT=N compares that many random inputs of each kind (400). The last line is `N passed, M failed, K skipped`.
. "$(dirname "$(readlink -f "$0")")/../scripts/checks.sh"
programs=(napi_serial napi_series napi_machine)
cd "$top" || exit

# is_of_these_sources: each program's checksum in web/fintaqush.sum is that of its sources now, and the last one is that of the module.
is_of_these_sources() {
    python3 -ISB - "$top" "${programs[@]}" << 'END' && sha256sum --check --quiet <<< "$(sed -n 's/^fintaqush.wasm //p' web/fintaqush.sum)  web/fintaqush.wasm"
import sys
top, *programs = sys.argv[1:]
sys.path.insert(0, f"{top}/tools")
from fintaqush_tools.builds import sum_below
rows = dict(line.split() for line in open(f"{top}/web/fintaqush.sum"))
other = [name for name in programs if rows.get(name) != sum_below(name)]
sys.exit(f"{' '.join(other)}: web/fintaqush.wasm was made from other sources. Run scripts/web.sh (it needs rt and wasm-opt), then commit web/" if other else 0)
END
}
check 'the module is made from these sources' is_of_these_sources

# made_again: scripts/web.sh makes the same bytes.
made_again() { scripts/web.sh "$scratch" && cmp web/fintaqush.wasm "$scratch/fintaqush.wasm" && cmp web/fintaqush.sum "$scratch/fintaqush.sum"; }
# is_made_by NAME VERSION: the module was made by this version of a tool.
is_made_by() { grep -qxF "$1 $2" web/fintaqush.sum; }
if ! command -v rt > /dev/null; then
    skip 'making the module again' rt
elif has wasm-opt 'making the module again'; then
    if is_made_by kit "$(tr ' ' _ < "$(dirname "$(rt doc)")/KIT-ID")" && is_made_by wasm-opt "$(wasm-opt --version | tr ' ' _)"; then
        check 'the module is made again, with the same bytes' made_again
    else
        skip 'making the module again' the-versions-of-fintaqush.sum
    fi
fi

# A copy of the checkout with nothing built, and a PATH without the kit.
copy=$scratch/copy few=$scratch/few
mkdir "$copy" "$few"
git ls-files -z | grep -zE '^(replay|fintaqush|crates.txt|(scripts|tools|web|crates|include|docs|examples)/)' | xargs -0 cp --parents -P -t "$copy"
for tool in env sh bash dirname readlink cat python3 parallel perl; do
    ! tool=$(PATH=/usr/bin:/bin command -v "$tool") || ln -s "$tool" "$few/"
done
# alone COMMAND ..: runs a command of the copy with these tools only.
alone() (cd "$copy" && PATH=$few exec "$@")
# says PATTERN COMMAND ..: it succeeds, prints something that matches, and says on standard error, once for each program, that the module printed it.
says() {
    alone "${@:2}" > "$scratch/out" 2> "$scratch/err" && grep -E "$1" "$scratch/out" &&
        grep "isn't proved here, which takes the kit: this is web/fintaqush.wasm, compiled from the proved sources" "$scratch/err" > "$scratch/told" &&
        [ -z "$(sort "$scratch/told" | uniq -d)" ] && return
    cat "$scratch/out" "$scratch/err"
    return 1
}
lacks_all() {
    ! alone "$@" > "$scratch/out" 2>&1 && grep 'no rt on PATH (the kit).* only an installed program runs, or one of web/fintaqush.wasm by node 18 or later' "$scratch/out"
}
check 'without the kit, a package and node, ./replay names all three' lacks_all ./replay examples/two-packets.csv
check 'and so does a tool' lacks_all ./fintaqush series examples/two-packets.csv
check 'costs needs only python3' eval 'alone ./fintaqush costs examples/veth-backlog.rec | grep -- "^--interrupt [1-9].* --use [1-9]"'
if has node 'the answers of the module'; then
    if "$top/scripts/build.sh" "${programs[@]}" > "$scratch/build.log" 2>&1; then
        PYTHONPATH=$top/tests python3 -B "$top/tests/web.py" "$top/crates" "${COUNT:-400}" > "$scratch/compared" 2>&1
        status=$?
        tail -n 1 "$scratch/compared"
        check 'the module gives what the native programs give' eval "cat $scratch/compared; [ $status = 0 ]"
    else
        skip 'comparing the module with the native programs' rt
    fi
    ln -s "$(PATH=/usr/bin:/bin command -v node)" "$few/"
    veth=examples/linux-veth-small-budget.csv
    check 'with node alone ./replay answers' says '^total devices 12 runs 544 polls 961 work 15647 squeezed 55$' ./replay "$veth" --budget 64
    check 'and fintaqush replay' says '^total devices 1 ' ./fintaqush replay examples/two-packets.csv
    check 'and series' says '^4,2,0,,' ./fintaqush series examples/two-packets.csv
    check 'and replay --raise' says '^total .* squeezed 318$' ./fintaqush replay "$veth" --budget 16 --raise
    check 'and compare' says '^total' ./fintaqush compare "$veth" --budget 16 -- --budget 300
    check 'and sweep' says ',16,64,1024,no,0,,,948,15647,318,' sh -c "./fintaqush sweep $veth --budget 16,300 --out rows.csv && cat rows.csv"
    printf 'ns,device,bytes\n0,1,60\n' > "$scratch/arrivals.csv"
    check 'and what-if' says 'budget' ./fintaqush what-if "$scratch/arrivals.csv" --budget 64,300
    check 'and try' says 'of which 312 are squeezed' ./fintaqush try --out page.html
    check 'and advise' says 'sysctl -w net.core.netdev_max_backlog=' ./fintaqush advise examples/veth-backlog.rec --goal drops
    # installed: a program that is installed comes before the module.
    installed() {
        cp -rP "$few" "$scratch/with"
        printf '#!/bin/sh\necho installed\n' > "$scratch/with/napi_series"
        chmod +x "$scratch/with/napi_series"
        (few=$scratch/with alone ./fintaqush series examples/two-packets.csv) > "$scratch/out" 2> "$scratch/err" &&
            grep -x installed "$scratch/out" && grep "napi_series isn't proved here, which takes the kit: this is the installed $scratch/with/napi_series" "$scratch/err"
    }
    check 'an installed program comes first' installed
    check 'a mode that the module lacks' lacks_all ./replay --mode threads examples/two-packets.csv
fi
check 'the page is made of its parts' scripts/page.py --check
# is_shown BROWSER: the page shows the report of docs/NAPI.md for its first example in another browser.
is_shown() {
    mkdir "$scratch/profile"
    timeout 1h node tests/served.cjs "$1" "$scratch/profile" > "$scratch/shown" 2>&1
    sed -n 's/^    \(softirq 4 polls .*\|device 1 on .*\|napi 1 .*\|list\|total devices 1 .*\)$/\1/p' docs/NAPI.md | diff - "$scratch/shown"
}
if has node 'the page in Firefox' && has firefox-esr 'the page in Firefox'; then
    check 'the page in Firefox' is_shown firefox-esr
fi
if has node 'the page in a browser' && has chromium 'the page in a browser'; then
    if [ -x crates/napi_machine/out/napi_machine ]; then
        timeout 1h node tests/page.cjs chromium "$top/crates" "$scratch" > "$scratch/page" 2>&1
        status=$?
        tail -n 1 "$scratch/page"
        check 'the page shows what the native programs print' eval "cat $scratch/page; [ $status = 0 ]"
    else
        skip 'comparing the page with the native programs' rt
    fi
fi
sum_up
