#!/usr/bin/env bash
# scripts/surface.sh FACADE: prints the public items of a facade crate from the sources, each with its `///`, signature and
# clauses: what the facade re-exports, including the methods of types that have another name there. Exit status: 0; 64 there is
# no such facade.
set -euo pipefail
unset CDPATH
top=$(dirname "$(dirname "$(readlink -f "${BASH_SOURCE[0]}")")")
. "$top/scripts/arguments.sh"
operands 1 1 "$@"
cd "$top"
[[ $1 =~ ^[a-z_0-9]+$ && -f crates/$1/src/lib.rt ]] || refuse "there is no facade '${1//[^[:print:]]/?}'"

exec python3 -EsSB scripts/surface.py "$1"
