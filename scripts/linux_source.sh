#!/usr/bin/env bash
# scripts/linux_source.sh VERSION FOLDER FILE ..: puts these files of Linux's sources into FOLDER: from the folder LINUX, if
# that is set, otherwise from Debian's package linux-source-VERSION by apt-get: of the release that apt is set up for, or of its
# newest backports, with its own settings of apt. What was taken from a package is kept in out/, which git ignores, so that it
# is downloaded once; nothing of it belongs to the repository. Exit status: 0; 64 LINUX has no such file; 69 there is no
# package, and LINUX isn't set.
set -euo pipefail
unset CDPATH
top=$(dirname "$(dirname "$(readlink -f "${BASH_SOURCE[0]}")")")
# shellcheck source=scripts/arguments.sh
. "$top/scripts/arguments.sh"
operands 3 999 "$@"
version=$1
folder=$2
shift 2
kept=$top/out/linux-$version

# download: downloads the package by apt, from its release or from the backports.
download() {
    local key=/usr/share/keyrings/debian-archive-keyring.gpg quick=(-o Acquire::http::Timeout=20) own
    timeout 900 apt-get "${quick[@]}" download "linux-source-$version" > fetch.log 2>&1 && return
    [ -f "$key" ] || return
    mkdir -p apt/{lists,cache/archives}/partial
    echo "deb [signed-by=$key] http://deb.debian.org/debian $backports main" > apt/sources
    own=(-o Dir::Etc::sourcelist="$PWD/apt/sources" -o Dir::Etc::sourceparts=/dev/null -o Dir::State::lists="$PWD/apt/lists" -o Dir::Cache="$PWD/apt/cache")
    timeout 300 apt-get "${quick[@]}" "${own[@]}" update >> fetch.log 2>&1 && timeout 900 apt-get "${quick[@]}" "${own[@]}" download "linux-source-$version" >> fetch.log 2>&1
}
backports=trixie-backports

# fetch FILE ..: extracts these files of Debian's package.
fetch() {
    command -v apt-get > /dev/null && command -v dpkg-deb > /dev/null || return 1
    work=$(mktemp -d)
    trap 'rm -rf "$work"' EXIT
    (cd "$work" && download) || return 1
    dpkg-deb --fsys-tarfile "$work"/linux-source-*.deb | tar -x -C "$work" "./usr/src/linux-source-$version.tar.xz"
    mkdir -p "$work/files"
    # if nothing can be kept, the files only go to FOLDER
    mkdir -p "$kept" 2> /dev/null && [ -w "$kept" ] || from=$folder
    tar -x -J -f "$work/usr/src/linux-source-$version.tar.xz" -C "$work/files" --strip-components=1 --occurrence "${@/#/linux-source-$version/}"
    cp -r "$work/files/." "$from"
}

from=${LINUX:-$kept}
missing=()
for file in "$@"; do [ -f "$from/$file" ] || missing+=("$file"); done
if [ "${#missing[@]}" != 0 ]; then
    [ -z "${LINUX:-}" ] || refuse "LINUX is '$LINUX', which has no ${missing[*]}"
    if ! fetch "$@"; then
        echo "linux-source-$version is not at hand, and LINUX names no sources: nothing was compared"
        exit 69
    fi
fi
[ "$from" != "$folder" ] || exit 0
for file in "$@"; do
    mkdir -p "$folder/$(dirname "$file")"
    cp "$from/$file" "$folder/$file"
done
