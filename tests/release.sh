#!/usr/bin/env bash
# scripts/release.sh: the files of a release; the packages and the tarball are installed in roots of their own, and each program
# there runs its example, with no rt on PATH; what a package says about itself, and has for its users; and that the same sources give the
# same bytes. The last line is `N passed, M failed, K skipped`.
. "$(dirname "$(readlink -f "$0")")/../scripts/checks.sh"
unset PROGRAM SERIES MACHINE PYTHONPATH SOURCE_DATE_EPOCH
has dpkg-deb 'a release' || { sum_up; exit; }
version=$(sed -n 's/^#define FQ_VERSION "\(.*\)"$/\1/p' "$top/include/fintaqush.h")
name=fintaqush-$version-$(uname -m)
release=$scratch/release
packages=(fintaqush libfintaqush-dev "libfintaqush${version%%.*}")
files=()
! has aarch64-linux-gnu-gcc 'a release for arm64' || files=("${packages[@]/%/_${version}_arm64.deb}" "fintaqush-$version-aarch64.tar.gz")
packages=("${packages[@]/%/_${version}_$(dpkg --print-architecture).deb}" "python3-fintaqush_${version}_all.deb")
files+=("${packages[@]}" "$name.tar.gz" CHANGES)

# without_kit COMMAND ..: without this shell's environment.
without_kit() { env -i PATH=/usr/bin:/bin LC_ALL=C.UTF-8 HOME="$scratch" "$@"; }

# program_runs BIN NAME: its example has the right output.
program_runs() {
    local words=()
    [ ! -e "$top/crates/$2/args" ] || mapfile -t words < "$top/crates/$2/args"
    without_kit "$1/$2" "${words[@]}" < "$top/crates/$2/stdin" | diff - "$top/crates/$2/stdout"
}

tool_starts() { [[ $(without_kit "$1/$2" --version) =~ ^("$2 of ")?Fintaqush\ $version$ ]]; }

links() { cc -pthread -I "$1/include" "$top/examples/c/limit.c" "$(find "$1/lib" -name libfintaqush.a)" -o "$scratch/limit" && "$scratch/limit" | diff - "$top/examples/c/limit.stdout"; }

status_of() {
    local wanted=$1 status=0
    shift
    "$@" > /dev/null 2>&1 || status=$?
    [ "$status" = "$wanted" ]
}

# again: the packages are made again without a network, by a user whose home they don't touch and whose files are private, with the same
# bytes.
# shellcheck disable=SC2086 # words, or none
again() {
    local without_network='' package
    ! unshare -rn true 2> /dev/null || without_network='unshare -rn'
    mkdir "$scratch/again" "$scratch/home"
    (umask 077 && HOME=$scratch/home $without_network "$top/scripts/package.sh" "$scratch/again") || return
    for package in "${packages[@]}"; do cmp "$release/$package" "$scratch/again/$package" || return; done
    [ "$(stat -c %a "$scratch/again/$package")" = 644 ] && [ -z "$(ls -A "$scratch/home")" ]
}

# of_one_time FILE: the files of a tarball have the time of the sources.
of_one_time() {
    local time
    time=$(TZ=UTC git -C "$top" log -1 --date=format-local:'%Y-%m-%d %H:%M:%S' --format=%cd)
    TZ=UTC tar --full-time -tvzf "$1" | awk -v time="$time" '$4 " " $5 != time || $2 != "0/0" { print; wrong = 1 } END { exit wrong }'
}

# is_of_root PACKAGE: its files belong to root, others only read them, and all are below /usr.
is_of_root() {
    dpkg-deb -c "$1" | awk '$2 != "root/root" || $1 !~ /^(-rw-r--r--|[-d]rwxr-xr-x|lrwxrwxrwx)$/ || $6 !~ /^\.\/(usr\/|$)/ { print; wrong = 1 } END { exit wrong }'
}

# has_records PACKAGE: it has a changelog, the changes and the copyright where Debian has them.
has_records() {
    local doc=$scratch/root/usr/share/doc/${1%%_*}
    zcat "$doc/changelog.gz" | head -n 1 | grep -q "^${1%%_*} ($version) " && zcat "$doc/NEWS.gz" | cmp - "$top/CHANGELOG.md" && grep -q '^Copyright ' "$doc/copyright"
}

# depends_on_what_it_needs PACKAGE FILE ..: the C library's version, as Debian's own tool finds it in these files.
depends_on_what_it_needs() {
    local package=$1
    shift
    (cd "$scratch/linked" && dpkg-shlibdeps -O "$@" 2> /dev/null) | sed 's/^[^=]*=//' > "$scratch/needed"
    [ "$(cat "$scratch/needed")" = "$(dpkg-deb -f "$release/$package" Depends | grep -o 'libc6 ([^)]*)')" ] || { cat "$scratch/needed"; return 1; }
}

# asks_for_what_it_calls: a program that calls what came with 3.0 depends on the library of that version or later.
asks_for_what_it_calls() {
    cc -I "$scratch/root/usr/include" "$top/examples/c/limit.c" "$(find "$scratch/root/usr/lib" -name 'libfintaqush.so.?')" -o "$scratch/linked/limit" &&
        (cd "$scratch/linked" && dpkg-shlibdeps -O limit 2> /dev/null) | grep -F "libfintaqush${version%%.*} (>= 3.0.0)"
}

# has_symbols: the package of the library lists each call.
has_symbols() {
    dpkg-deb -I "$release/${packages[2]}" symbols | sed -n 's/^ \(fq_[a-z_]*\)@FINTAQUSH_\([0-9.]*\) \2\.0$/\1/p' | LC_ALL=C sort | diff - <(header_calls | LC_ALL=C sort)
}

# completes FOLDER: each shell finds what `fintaqush completion` prints where it looks.
completes() {
    without_kit "$1/bin/fintaqush" completion bash | cmp - "$1/share/bash-completion/completions/fintaqush" &&
        without_kit "$1/bin/fintaqush" completion zsh | cmp - "$1/share/zsh/vendor-completions/_fintaqush" &&
        without_kit "$1/bin/fintaqush" completion fish | cmp - "$1/share/fish/vendor_completions.d/fintaqush.fish"
}

# names_what_is_there ROOT: the files below /usr/lib that pages, manual pages and --help name are there, and --help names no other examples.
names_what_is_there() {
    local path
    "$top/fintaqush" --names | xargs -I NAME env -i PATH=/usr/bin:/bin "$1/usr/bin/fintaqush" NAME --help | sed "s|$1||g" > "$scratch/help"
    { cat "$scratch/help" "$1"/usr/lib/fintaqush/docs/*.md; zcat "$1"/usr/share/man/man1/*.gz; } | tr -d '\134' |
        grep -oE '/usr/lib/fintaqush/[a-zA-Z0-9_./-]*[a-zA-Z0-9]' | sort -u > "$scratch/named"
    [ "$(wc -l < "$scratch/named")" -ge 10 ] && ! grep -E ' (docs|examples)/' "$scratch/help" || return
    while IFS= read -r path; do
        [ -e "$1$path" ] || { echo "$path is named, and isn't there"; return 1; }
    done < "$scratch/named"
}

# shows_commands FOLDER: the commands of its pages are those of an installation.
shows_commands() {
    ! grep -nE '^ {4}\./|^ {4}(scripts|examples)/|FOLDER/lib' "$1"/lib/fintaqush/docs/*.md "$1"/share/doc/libfintaqush-dev/{GUIDE,LIMITS}.md &&
        grep -qxF '    cc -pthread examples/c/edge.c $(pkg-config --cflags --libs fintaqush) -o edge' "$1/share/doc/libfintaqush-dev/GUIDE.md"
}

# python_limits ROOT: the example of the package for Python, with the library of its package.
python_limits() {
    without_kit PYTHONPATH="$1/usr/lib/python3/dist-packages" FINTAQUSH_LIB="$(dirname "$(find "$1/usr/lib" -name 'libfintaqush.so.?')")" \
        python3 "$1/usr/share/doc/python3-fintaqush/examples/limit.py" | diff - "$top/examples/c/limit.stdout"
}

# is_for_any_machine FOLDER: the tarball has no folder of one version of Python, and nothing beside what goes below a prefix.
is_for_any_machine() { [ "$(cd "$1" && echo * lib/python3/dist-packages/*)" = 'bin include lib share lib/python3/dist-packages/fintaqush' ]; }

# bare_runs BIN [NAME=VALUE]: subcommands run in a folder with spaces, in the C locale, for a user who owns only that folder.
bare_runs() {
    local user='' examples=$1/../lib/fintaqush/examples
    mkdir -p "$scratch/a folder" && chmod 755 "$scratch" && cd "$scratch/a folder" || return
    [ "$(id -u)" != 0 ] || { chown 65534 . && user='setpriv --reuid=65534 --regid=65534 --clear-groups'; }
    # shellcheck disable=SC2016,SC2086 # expanded by that shell; words, or none
    $user env -i PATH=/usr/sbin:/usr/bin:/sbin:/bin LC_ALL=C ${2:-A=b} sh -ec '
        "$1/fintaqush" replay --json "$2/bursts.csv" > "a report.json"
        "$1/fintaqush" steps "$2/busy-poll.csv" --out "a page.html"
        "$1/fintaqush" plot "$2/bursts.csv" --out "a picture.html"
        "$1/fintaqush" what-if --traffic "--kind poisson --rate 100000" --threaded 0,1 > "a table"' sh "$1" "$examples" > log 2>&1
    local status=$?
    cat log
    [ "$status" = 0 ] && [ "$(wc -l < 'a table')" = 3 ] && grep -q '"line": "total"' 'a report.json' && rm -- *
}

check 'no folder is refused' status_of 64 "$top/scripts/release.sh"
# shellcheck disable=SC2046 # words
check 'what it has is built' "$top/scripts/build.sh" napi_c files_c $("$top/scripts/install.sh" --programs)
# shellcheck disable=SC2046 # words
! command -v aarch64-linux-gnu-gcc > /dev/null ||
    check 'and for arm64' env FINTAQUSH_TARGET=arm64 "$top/scripts/build.sh" napi_c files_c $("$top/scripts/install.sh" --programs)
check 'a release is made' "$top/scripts/release.sh" "$release"
check 'without a warning' [ -z "$(grep -v '^[a-z]*\.sh: ' "$scratch/log")" ]
check 'a folder that is filled is refused' status_of 73 "$top/scripts/release.sh" "$release"
check 'it has these files' diff <(ls "$release") <(printf '%s\n' "${files[@]}" SHA256SUMS | LC_ALL=C sort)
check 'with their checksums' sh -c 'cd "$1" && sha256sum --quiet -c SHA256SUMS && [ "$(wc -l < SHA256SUMS)" = "$2" ]' sh "$release" "${#files[@]}"
check 'the changes are those of the version' grep -q "^## $version" "$release/CHANGES"
check 'the same sources give the same packages' again
for file in "$release"/*.tar.gz; do check "the files of ${file##*/} have the time of the sources" of_one_time "$file"; done
for package in "${packages[@]}"; do
    check "$package is unpacked" dpkg-deb -x "$release/$package" "$scratch/root"
    check "$package belongs to root" is_of_root "$release/$package"
    check "$package has its changes and copyright" has_records "$package"
done
check 'no link leads nowhere' [ -z "$(find "$scratch/root/usr" -xtype l)" ]
check 'the shells complete' completes "$scratch/root/usr"
check 'what pages, manual pages and --help name is there' names_what_is_there "$scratch/root"
check 'the pages have the commands of an installation' shows_commands "$scratch/root/usr"
for home in A=b HOME=/proc; do # without a home, and with one that can't be written to
    check "subcommands for a user with few rights, $home" bare_runs "$scratch/root/usr/bin" "$home"
done
check 'the symbols of the library' has_symbols
check 'an example of the package for Python' python_limits "$scratch/root"
if has dpkg-shlibdeps 'what the packages depend on'; then
    mkdir -p "$scratch/linked/debian"
    printf 'Source: linked\n\nPackage: linked\nArchitecture: any\n' > "$scratch/linked/debian/control"
    check 'the programs depend on their C library' depends_on_what_it_needs "${packages[0]}" "$scratch"/root/usr/lib/fintaqush/programs/*
    check 'the library depends on its C library' depends_on_what_it_needs "${packages[2]}" "$(find "$scratch/root/usr/lib" -name "libfintaqush.so.$version")"
    dpkg-deb -R "$release/${packages[2]}" "$scratch/linked/debian/${packages[2]%%_*}"
    check 'a program depends on the library that has its calls' asks_for_what_it_calls
fi
if has apt-get 'that apt installs the packages'; then
    check 'apt installs the packages' [ "$(LC_ALL=C apt-get --simulate install "${packages[@]/#/$release/}" 2> /dev/null | grep -c '^Inst [a-z0-9-]*fintaqush')" = 4 ]
fi
check 'the tarball is unpacked' tar -C "$scratch" -xzf "$release/$name.tar.gz"
check 'the tarball is for any machine' is_for_any_machine "$scratch/$name"
for home in "$scratch/root/usr" "$scratch/$name"; do
    for file in "$home"/bin/*; do
        each=${file##*/}
        check "${home##*/}: $each starts" tool_starts "$home/bin" "$each"
        case $each in napi_*) check "${home##*/}: $each" program_runs "$home/bin" "$each" ;; esac
    done
    check "${home##*/}: a program over the library" links "$home"
done
check 'the release has HTML pages if pandoc is there' [ "$(command -v pandoc > /dev/null && echo yes)" = "$([ -e "$scratch/$name/share/doc/fintaqush/html/index.html" ] && echo yes)" ]
sum_up
