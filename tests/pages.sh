#!/usr/bin/env bash
# tests/pages.sh [--static]: the repository's pages. The files that they name exist, each script is described, and each command
# of each page and manual page is run, and prints what the page says; or tests/commands.txt says which other test runs it, or
# why none does. Commands run in a fresh clone with an empty home folder. It needs the programs built, and builds the C library
# with them; with --static it runs no command, and needs none. What needs a program that isn't installed is skipped. The last
# line is `N passed, M failed, K skipped`.
set -u
cd "$(dirname "$(dirname "$(readlink -f "${BASH_SOURCE[0]}")")")" || exit 1
programs=(napi_machine napi_replay napi_series napi_serial)
stale=$(python3 -B -c 'import sys; sys.path.insert(0, "tools"); from fintaqush_tools import builds
print(*(it for it in sys.argv[1:] if not builds.crates()[it].is_built()))' "${programs[@]}") || stale=${programs[*]}
if [ "${1:-}" = --static ]; then
    echo 'left out by --static: the commands of the pages'
elif [ -n "$stale" ]; then
    echo "pages: these aren't built as they are: $stale. \`scripts/build.sh $stale\` builds them; --static leaves commands out"
    echo '0 passed, 1 failed'
    exit 1
elif ! scripts/build.sh napi_c files_c; then
    echo '0 passed, 1 failed'
    exit 1
fi
exec python3 -B tests/pages.py "$@"
