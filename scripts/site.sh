#!/usr/bin/env bash
# scripts/site.sh FOLDER: makes all pages as one HTML site for reading offline: the pages of this repository, with the pictures and the
# files to which they link; the manual pages; and the references of all calls: C and C++ by doxygen, Rust by cargo, Rattle with its
# definitions by scripts/reference.py. It needs pandoc; without doxygen or cargo it says which reference is left out. FOLDER/index.html
# is README.md. FOLDER isn't there yet, or is empty. It is made next to its place and renamed at the end.
# Exit status: 0 done; 64 no folder, or more arguments; 69 there is no pandoc; 70 a page couldn't be made; 73 it can't be written there.
set -euo pipefail
unset CDPATH
top=$(dirname "$(dirname "$(readlink -f "${BASH_SOURCE[0]}")")")
. "$top/scripts/arguments.sh"

operands 1 1 "$@"
command -v pandoc > /dev/null || stop 69 "there is no pandoc, which makes HTML of the pages"
site=$(realpath -m -- "$1")
[ ! -e "$site" ] || [ -d "$site" ] || stop 73 "$site is no folder"
[ ! -d "$site" ] || [ -z "$(ls -A -- "$site")" ] || stop 73 "$site isn't empty"
mkdir -p -- "$(dirname -- "$site")" 2> /dev/null || stop 73 "$(dirname -- "$site") can't be made"
new=$(mktemp -d -- "$site.XXXXXX" 2> /dev/null) || stop 73 "nothing can be written next to $site"
scratch=$(mktemp -d)
trap 'rm -rf -- "$new" "$scratch"' EXIT
trap 'exit 130' INT
trap 'exit 143' TERM
cd "$top"

# The folder `made` has what is generated from the sources; each page there has the place that it has in the site.
made=$scratch/made

make_manuals() {
    python3 -EsSB scripts/manual.py "$scratch/calls" || return
    mkdir -p "$made/docs/man"
    mv "$scratch"/calls/fintaqush_*.3 "$made/docs/man"
    ./fintaqush --manual "$made/docs/man"
}

make_c() {
    cat > "$scratch/Doxyfile" << END
PROJECT_NAME = "Fintaqush: C and C++"
INPUT = include/fintaqush.h include/fintaqush.hpp
INPUT_FILTER = "python3 -EsSB scripts/manual.py --doxygen"
STRIP_FROM_INC_PATH = include
OUTPUT_DIRECTORY = "$new/reference/c"
HTML_OUTPUT = .
HTML_EXTRA_STYLESHEET = "$scratch/narrow_and_dark.css"
MACRO_EXPANSION = YES
EXPAND_ONLY_PREDEF = YES
PREDEFINED = FQ_CHECKED= "FQ_CHECKED_AT(...)=" FQ_NONNULL= FQ_RESTRICT= FQ_NUMBER= __GNUC__
EXCLUDE_SYMBOLS = fintaqush::detail private_*
JAVADOC_AUTOBRIEF = YES
EXTRACT_ALL = YES
EXTRACT_STATIC = YES
QUIET = YES
$(printf '%s = NO\n' GENERATE_LATEX MARKDOWN_SUPPORT HTML_DYNAMIC_MENUS SEARCHENGINE VERBATIM_HEADERS HAVE_DOT CLASS_GRAPH WARNINGS WARN_IF_DOC_ERROR)
END
    # Doxygen has only light colours.
    cat > "$scratch/narrow_and_dark.css" << 'END'
.memproto, .memname { overflow-x: auto; }
p.up { margin: 0.5rem; }
@media (max-width: 40rem) { div.contents { margin: 0 0.5rem; } .memproto { font-size: 0.8rem; } td.memItemLeft { white-space: normal; } }
@media (prefers-color-scheme: dark) { html { filter: invert(0.9) hue-rotate(180deg); background: #fff; } }
END
    mkdir -p "$new/reference/c"
    doxygen "$scratch/Doxyfile" || return
    sed -i 's|^<body>|&<p class="up"><a href="../../index.html">All pages of Fintaqush</a></p>|' "$new"/reference/c/*.html
}

make_rust() {
    DOCS_RS=1 CARGO_TARGET_DIR=$scratch/rust cargo doc --quiet --offline --no-deps --manifest-path bindings/rust/Cargo.toml || return
    mkdir -p "$new/reference"
    mv "$scratch/rust/doc" "$new/reference/rust"
}

# links_to FOLDER END FILE ..: prints links to the pages of these files in a folder, by name; END is the ending of the pages'
# names.
links_to() {
    local folder=$1 end=$2 separator=
    shift 2
    printf '%s\n' "${@##*/}" | LC_ALL=C sort | while IFS= read -r page; do
        printf '%s[%s](%s/%s.html)' "$separator" "${page%"$end"}" "$folder" "${page%.md}"
        separator=' · '
    done
}

# reference_page: prints the page that links to all references.
reference_page() {
    local page
    echo '# All calls'
    echo
    echo 'The references that are made of the sources, for people who program with the library.'
    echo
    [ ! -d "$new/reference/c" ] ||
        echo '- [C and C++](c/index.html): the calls of `fintaqush.h` by [group](c/modules.html), the [classes](c/annotated.html) of `fintaqush.hpp`'
    [ ! -d "$new/reference/rust" ] || echo '- [Rust](rust/fintaqush/index.html): the crate `fintaqush`'
    echo "- Rattle, each facade crate with the clauses of its calls: $(links_to rattle .md "$made"/reference/rattle/*)"
    echo "- What is proved, claim by claim, with the clauses that carry it: $(links_to claims .md "$made"/reference/claims/*)"
    echo "- Rattle, the definitions that clauses cite, by crate: $(links_to definitions .md "$made"/reference/definitions/*)"
    echo "- Manual pages: $(links_to ../docs/man '' docs/man/* "$made"/docs/man/*)"
}

make_manuals || stop 70 "the manual pages couldn't be made"
python3 -EsSB scripts/reference.py "$made/reference" || stop 70 "the reference of the Rattle crates couldn't be made"
if ! command -v doxygen > /dev/null; then
    echo "site.sh: there is no doxygen, so the site has no reference of C and C++" >&2
else
    make_c || stop 70 "the reference of C and C++ couldn't be made"
fi
if ! command -v cargo > /dev/null; then
    echo "site.sh: there is no cargo, so the site has no reference of Rust" >&2
else
    make_rust || stop 70 "the reference of Rust couldn't be made"
fi
reference_page > "$made/reference/README.md"

mapfile -t kept < <(git ls-files -- '*.md' 'docs/man/*')
mapfile -t pages < <({ printf '%s\n' "${kept[@]}"; (cd "$made" && find . -type f -printf '%P\n'); } | LC_ALL=C sort)

# text_of PAGE: prints where the text of a page is.
text_of() { [ -e "$made/$1" ] && echo "$made/$1" || echo "$1"; }

# place_of PAGE: prints where the page is in the site.
place_of() {
    case $1 in
        *README.md) echo "${1%README.md}index.html" ;;
        *.md) echo "${1%.md}.html" ;;
        *) echo "$1.html" ;;
    esac
}

# way_up PLACE: prints the path from a page's folder to the top of the site.
way_up() { printf '%s' "${1//[^\/]/}" | sed 's|/|../|g'; }

# title_of PAGE: prints its first heading; for a crate's page and a manual page, its name.
title_of() {
    case $1 in
        docs/man/*) basename "$1" ;;
        crates/*) basename "$(dirname "$1")" ;;
        *) sed -n 's/^# //p;T;q' "$(text_of "$1")" ;;
    esac
}

# group_of PAGE: prints the menu that lists it; nothing for pages to which reference/README.md links.
group_of() {
    case $1 in
        reference/*/*) ;;
        docs/man/*) ;;
        docs/OPERATORS.md | docs/NAPI.md | docs/GUIDE.md | docs/LIMITS.md | docs/EXAMPLES.md) echo Guides ;;
        docs/FAQ.md | docs/GLOSSARY.md | docs/COMPARISON.md) echo Guides ;;
        docs/TOOLS.md | docs/FORMATS.md | docs/TIMING.md | docs/RULES.md) echo References ;;
        docs/C.md | docs/SPEED.md | bindings/* | examples/*) echo References ;;
        crates/*) echo Crates ;;
        README.md | reference/README.md) ;;
        *) echo Project ;;
    esac
}

# menus: prints the menus, once; @UP@ stands for the way to the top of the site.
menus() {
    local group page
    echo '<nav><a href="@UP@index.html">Fintaqush</a> <a href="@UP@reference/index.html">All calls</a>'
    for group in Guides References Crates Project; do
        echo "<details><summary>$group</summary>"
        for page in "${pages[@]}"; do
            [ "$(group_of "$page")" != "$group" ] || echo "<a href=\"@UP@$(place_of "$page")\">$(title_of "$page")</a>"
        done
        echo '</details>'
    done
    echo '</nav>'
}

cat > "$scratch/style.html" << 'END'
<meta name="color-scheme" content="light dark">
<style>
html { color: #222; background: #fff; -webkit-text-size-adjust: 100%; }
body { max-width: 60rem; margin: auto; padding: 1rem; font: 1rem/1.5 sans-serif; overflow-wrap: break-word; }
a { color: #0b57d0; }
nav { display: flex; flex-wrap: wrap; gap: 0.2rem 1.2rem; padding-bottom: 0.5rem; border-bottom: 1px solid #ccc; }
nav details[open] { flex-basis: 100%; }
nav details a { display: inline-block; margin: 0.1rem 1rem 0.1rem 0; }
summary { cursor: pointer; }
pre { background: #f4f4f4; padding: 0.7rem; overflow-x: auto; font-size: 0.85rem; line-height: 1.4; }
code { background: #f4f4f4; }
pre code { white-space: pre; }
table { border-collapse: collapse; display: block; overflow-x: auto; }
td, th { border: 1px solid #ccc; padding: 0.3rem 0.6rem; text-align: left; vertical-align: top; overflow-wrap: normal; }
img { max-width: 100%; height: auto; background: #fff; }
h4 code { background: none; }
h5 { font-size: 1rem; margin-bottom: 0; }
@media (max-width: 40rem) { body { padding: 0.7rem; } table { font-size: 0.9rem; } td, th { padding: 0.2rem 0.4rem; } h1 { font-size: 1.6rem; } }
@media (prefers-color-scheme: dark) {
    html { color: #ddd; background: #181818; }
    a { color: #8ab4f8; }
    pre, code { background: #2a2a2a; }
    td, th, nav { border-color: #555; }
}
</style>
END

# relink: turns a link to a page into a link to its page in the site; other links, and links into the network, stay the same.
relink() {
    sed -E -e 's/(href="[^":#]*)README\.md(["#])/\1index.html\2/g' -e 's/(href="[^":#]*)\.md(["#])/\1.html\2/g' \
        -e 's/(href="[^":#]*man\/[^":#]*\.[0-9])"/\1.html"/g'
}

# show PAGE
show() {
    local place claims form=gfm nav=$scratch/nav-$BASHPID.html
    place=$(place_of "$1")
    claims=$(way_up "$place")reference/claims # of a list of claims the site has a page
    # shellcheck disable=SC2209 # a word
    [ "${1##*.}" = md ] || form=man
    mkdir -p "$new/$(dirname "$place")"
    sed "s|@UP@|$(way_up "$place")|g" "$scratch/menus" > "$nav"
    pandoc --from "$form" --to html5 --standalone --metadata pagetitle="Fintaqush: $(title_of "$1")" --metadata document-css=false \
        --include-in-header "$scratch/style.html" --include-before-body "$nav" "$(text_of "$1")" | relink |
        sed -E -e "s|href=\"claims\.txt\"|href=\"$claims/$(basename "$(dirname "$1")").html\"|g" \
            -e "s|href=\"(\.\./)*crates/(\w+)/claims\.txt\"|href=\"$claims/\2.html\"|g" > "$new/$place"
}

# linked: prints the files and folders of the repository to which a page links, without anchors; for a folder all its files.
linked() {
    local name
    while IFS= read -r name; do
        name=$(realpath -m --relative-to . -- "$(dirname "$1")/$name")
        case $name in *.md | docs/man/* | ../*) ;; *) git ls-files -- "$name" ;; esac
    done < <(grep -oE '\]\([^):# ]+' "$1" | cut -c 3-)
}

menus > "$scratch/menus"
# several pages at once; of those that fail, one is named
failed=
begun=()
for page in "${pages[@]}" ''; do
    if [ -z "$page" ] || [ "${#begun[@]}" -ge 8 ]; then
        for job in "${begun[@]}"; do
            wait "${job%% *}" || failed=${job#* }
        done
        begun=()
    fi
    [ -z "$page" ] || { show "$page" & begun+=("$! $page"); }
done
[ -z "$failed" ] || stop 70 "$failed couldn't be made"
for page in "${kept[@]}"; do
    linked "$page"
done | sort -u | while IFS= read -r file; do
    install -D -m 644 -- "$file" "$new/$file" || stop 73 "$file can't be copied"
done
chmod -R u=rwX,go=rX "$new"
[ ! -d "$site" ] || rmdir -- "$site"
mv -- "$new" "$site" || stop 73 "$site can't be written"
