#!/usr/bin/env bash
# tests/style.sh: the package of the tools, the scripts, tests and benches in Python by mypy --strict and pyflakes, the package and the scripts
# also by black, and the scripts for a shell by ShellCheck. pyproject.toml has the settings; `black tools scripts` makes the form. The last line
# is `N passed, M failed, K skipped`.
. "$(dirname "$(readlink -f "$0")")/../scripts/checks.sh"
cd "$top" || exit

# said COMMAND ..: it says nothing.
said() { [ -z "$("$@" 2>&1 | tee /dev/stderr)" ]; }
# types FOLDER WORD ..: with its own cache, because a checkout may be read-only.
modules=$top/tools:$top/scripts:$top/tests:$top/tests/tools:$top/tests/live:$top/bench
types() (cd "$1" && MYPYPATH=$modules mypy --cache-dir "$scratch/mypy" --config-file "$top/pyproject.toml" "${@:2}")
# is_refused COMMAND ..: a file with a mistake of its kind is refused.
is_refused() { ! "$@"; }

printf 'import os\n\n\ndef twice(number):\n  return "2" * number\n' > "$scratch/wrong.py"
printf '#!/bin/sh\ncd "$1"; read line; echo $((line[0]))\n' > "$scratch/wrong.sh"
if has mypy 'types of the tools, the scripts, the tests and the benches'; then
    check 'types of the tools' types tools -p fintaqush_tools
    for script in scripts/*.py; do
        check "types of $script" types scripts "${script#scripts/}"
    done
    mapfile -t tests < <(git ls-files 'tests/*.py' 'bench/*.py')
    check 'types of the tests and the benches' types . "${tests[@]}"
    check 'a function without types is refused' is_refused types "$scratch" wrong.py
fi
if has pyflakes3 'names that nothing uses, in Python'; then
    check 'no name that nothing uses' said pyflakes3 tools scripts tests/*.py tests/tools tests/live tests/cards bench
    check 'one is refused' is_refused pyflakes3 "$scratch/wrong.py"
fi
if has black 'the form of the tools and the scripts'; then
    check 'the form of the tools and the scripts' black --check --quiet tools scripts
    check 'another form is refused' is_refused black --check --quiet --config pyproject.toml "$scratch/wrong.py"
fi
if has shellcheck 'the shell scripts'; then
    check 'the shell scripts' shellcheck -x -P SCRIPTDIR -S warning test fintaqush replay scripts/*.sh tests/*.sh tests/cards/*.sh bench/*.sh examples/*.sh examples/*/*.sh
    check 'a wrong one is refused' is_refused shellcheck -S warning "$scratch/wrong.sh"
fi
sum_up
