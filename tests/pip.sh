#!/usr/bin/env bash
# tests/pip.sh: what pip installs: the tools, without programs, and the package for Python, without the library. It needs pip, setuptools and
# wheel, and downloads nothing. The last line is `N passed, M failed, K skipped`.
. "$(dirname "$(readlink -f "$0")")/../scripts/checks.sh"

# pip_installs PYTHON: both, from a copy, which stays as it is.
pip_installs() {
    local before name
    mkdir "$scratch/source" && cp -r "$top"/{pyproject.toml,README.md,scripts,tools,include,fintaqush,bindings,web} "$scratch/source"
    before=$(cd "$scratch/source" && find . -name __pycache__ -prune -o -print | sort)
    for name in . bindings/python; do
        PIP_NO_INDEX=1 "$1" -B -m pip install -q --no-deps --no-build-isolation --target "$scratch/site" "$scratch/source/$name" || return
    done
    [ "$(cd "$scratch/source" && find . -name __pycache__ -prune -o -print | sort)" = "$before" ]
}
# replays PROGRAM: the launcher starts, and runs the program.
replays() { PYTHONPATH=$scratch/site PROGRAM=$1 "$scratch/site/bin/fintaqush" replay "$top/examples/bursts.csv"; }
# makes_page: with a program that finds no fault.
makes_page() {
    PYTHONPATH=$scratch/site SERIES=$scratch/program "$scratch/site/bin/fintaqush" steps "$top/examples/bursts.csv" --out "$scratch/steps.html" &&
        grep -q 'const OWN = {' "$scratch/steps.html"
}
lacks_library() { ! PYTHONPATH=$scratch/site python3 -BS -c 'import fintaqush' 2> "$scratch/out" && grep -q 'FINTAQUSH_LIB may name the folder of libfintaqush' "$scratch/out"; }
python=$(for it in python3 /usr/bin/python3; do ! "$it" -c 'import setuptools, wheel, pip' 2> /dev/null || echo "$it"; done | head -n 1)
if [ -z "$python" ]; then
    skip 'what pip installs' pip
else
    printf '#!/bin/sh\ncat > /dev/null\necho reported\n' > "$scratch/program" && chmod +x "$scratch/program"
    check 'pip installs the tools and the package for Python, and leaves nothing in the sources' pip_installs "$python"
    check 'their replay starts' [ "$(replays "$scratch/program")" = reported ]
    check 'steps makes its page' makes_page
    check 'and says what it lacks' eval '! replays "" 2> "$scratch/out" && grep -q "napi_serial: not a program; the variable PROGRAM names another one" "$scratch/out"'
    check 'the package says what it lacks' lacks_library
fi
sum_up
