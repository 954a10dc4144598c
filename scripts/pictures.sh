#!/usr/bin/env bash
# scripts/pictures.sh [--check]: draws docs/pictures/*.dot again, as .svg in the same folder, by Graphviz's dot (Debian: apt
# install graphviz). Each picture contains the checksum of the text that it was drawn from, and the colours of a dark page (dark.css there).
# With --check nothing is drawn, and dot isn't needed: each picture that is missing, older than its text or without a text is printed, and
# the status is then 1.
set -euo pipefail
unset CDPATH
top=$(dirname "$(dirname "$(readlink -f "${BASH_SOURCE[0]}")")")
. "$top/scripts/arguments.sh"
cd "$top/docs/pictures"

mark_of() { echo "<!-- drawn from $1, sha256 $(cat "$1" dark.css | sha256sum | cut -d" " -f1) -->"; }

check() {
    local stale=0 file
    for file in *.dot; do
        if ! tail -n 1 "${file%.dot}.svg" 2> /dev/null | grep -qxF -e "$(mark_of "$file")"; then
            echo "docs/pictures/${file%.dot}.svg isn't drawn from $file as it is: scripts/pictures.sh draws it"
            stale=1
        fi
    done
    for file in *.svg; do
        if [ ! -e "${file%.svg}.dot" ]; then
            echo "docs/pictures/$file has no text that it is drawn from"
            stale=1
        fi
    done
    return "$stale"
}

case "$#${1:-}" in
    0) ;;
    1--check)
        check
        exit
        ;;
    *)
        echo "pictures.sh: the only word is --check" >&2
        exit 64
        ;;
esac
command -v dot > /dev/null || { echo "pictures.sh: there is no dot, which is Graphviz's" >&2; exit 69; }
for file in *.dot; do
    dot -Tsvg -Gbgcolor=transparent "$file" | sed "/^<g id=\"graph0\"/{
        i <style>
        r dark.css
        a </style>
        N
    }" > "${file%.dot}.svg.new"
    mark_of "$file" >> "${file%.dot}.svg.new"
    mv "${file%.dot}.svg.new" "${file%.dot}.svg"
done
