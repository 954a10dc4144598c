#!/usr/bin/env bash
# scripts/install.sh [--library] [--python] [--target arm64] [--libdir=FOLDER] [--uninstall] PREFIX: installs the C library, static and shared,
# with its headers, its pkg-config and CMake files, its manual pages, its guide and its examples, and the command `fintaqush` and
# the proved programs with theirs, and completions for bash, zsh and fish. What only `fintaqush` runs goes to
# PREFIX/lib/fintaqush. What isn't built yet is proved and built first. --library leaves the command and the programs out, which
# take most of the time. --python puts bindings/python where python3 looks below PREFIX, else into lib/python3/dist-packages.
# With DESTDIR set, all goes below that folder, for PREFIX on any machine, so that --python always takes lib/python3/dist-packages.
# --target arm64 builds for that processor, by Debian's cross compiler, and is to be copied there or, with DESTDIR, packed.
# --libdir is where libraries go below PREFIX, such as lib/x86_64-linux-gnu; without it, lib. --uninstall removes what an install
# put there, and nothing else. --programs only prints the programs' names. Exit status: 0 done; 64 the arguments are wrong; 69 a
# program is missing; 70 something couldn't be built; 73 it can't be written there.
set -euo pipefail
unset CDPATH
umask 022 # what is made is for all users
top=$(dirname "$(dirname "$(readlink -f "${BASH_SOURCE[0]}")")")
. "$top/scripts/arguments.sh"
# each is a crate of that name; one without a manual page of its own has that of napi_replay
programs=(napi_replay napi_serial napi_series napi_machine)
prefix=
is_library=
is_python=
is_uninstall=
libdir=lib
target=${FINTAQUSH_TARGET:-}
usage='usage: scripts/install.sh [--library] [--python] [--target arm64] [--libdir=FOLDER] [--uninstall] PREFIX'

while [ $# -gt 0 ]; do
    word=$1
    shift
    case $word in
        --programs) printf '%s\n' "${programs[@]}"; exit 0 ;;
        --library) is_library=yes ;;
        --python) is_python=yes ;;
        --uninstall) is_uninstall=yes ;;
        --target=*) target=${word#--target=} ;;
        --target) [ $# -gt 0 ] || stop 64 "$usage"
            target=$1
            shift ;;
        --libdir=[!/]*) libdir=${word#--libdir=}
            libdir=${libdir%/} ;;
        /*) [ -z "$prefix" ] || stop 64 'one PREFIX only'
            prefix=${word%/} ;;
        *) stop 64 "$usage, which begins with /; --help says more" ;;
    esac
done
[ -n "$prefix" ] || stop 64 "$usage"
[ -n "$is_uninstall" ] || for_target "$target"
to=${DESTDIR:-}$prefix
version=$(sed -n 's/^#define FQ_VERSION "\([0-9.]*\)"$/\1/p' "$top/include/fintaqush.h")
major=${version%%.*}

guide=share/doc/fintaqush # the pages for users of the library, and the examples
pages=(C.md GUIDE.md LIMITS.md)
examples=("$top"/examples/c/* "$top"/examples/driver/driver.h)
library_files=("$libdir"/{libfintaqush.a,"libfintaqush.so.$version","libfintaqush.so.$major",libfintaqush.so,pkgconfig/fintaqush.pc}
    "$libdir"/cmake/Fintaqush/{FintaqushConfig,FintaqushConfigVersion}.cmake include/{fintaqush.h,fintaqush.hpp,fintaqush_tsan.h}
    share/man/man3/fintaqush.3 "${pages[@]/#/$guide/}" "${examples[@]/#"$top"/$guide}")
mapfile -t call_pages < <(python3 -EsSB "$top/scripts/manual.py" --names) # a page for each group of calls, and one for each call, which leads there
library_files+=("${call_pages[@]/#/share/man/man3/}")
home=lib/fintaqush # where what `fintaqush` runs lies, as in a checkout
tool_pages=(FORMATS.md OPERATORS.md TOOLS.md) # which --help names
parts=(fintaqush scripts/start.py web/index.html examples/{bursts,busy-poll,two-packets,two-queues,linux-virtio-limits}.csv
    examples/linux-veth-{bursts,small-budget,tcp}.csv examples/{veth-backlog.rec,veth.sh}) # what pages and `fintaqush try` show
package=tools/fintaqush_tools
for file in "$top/$package"/{,commands/}*.{py,html,json,txt,bash,zsh}; do
    [ ! -f "$file" ] || parts+=("${file#"$top/"}")
done
mapfile -t subcommands < <("$top/fintaqush" --names)
[ "$prefix" = /usr ] && zsh=vendor-completions || zsh=site-functions # where Debian's zsh looks
completions=(share/bash-completion/completions/fintaqush "share/zsh/$zsh/_fintaqush" share/fish/vendor_completions.d/fintaqush.fish)
python=("$top"/bindings/python/fintaqush/{*.py,py.typed})
python_guide=(README.md examples/{limit,simulation}.py)
command_files=("${programs[@]/#/bin/}" "${programs[@]/#/$home/programs/}" bin/fintaqush "${parts[@]/#/$home/}" "$home/version" "${tool_pages[@]/#/$home/docs/}" "${completions[@]}" \
    share/man/man1/fintaqush.1)
for name in "${programs[@]}" "${subcommands[@]/#/fintaqush-}"; do
    command_files+=("share/man/man1/$name.1")
done

if [ -n "$is_uninstall" ]; then
    for file in "${library_files[@]}" "${command_files[@]}" "${python_guide[@]/#/$guide/python/}"; do
        rm -f "$to/$file"
    done
    for package in "$to"/lib/python3*/*-packages/fintaqush; do
        for file in "${python[@]}"; do
            rm -f "$package/${file##*/}"
        done
        rm -rf "$package/__pycache__"
        rmdir "$package" 2> /dev/null || true
    done
    rm -rf "$to/$home/$package"/{commands/,}__pycache__ # Python's, of these files
    rmdir "$to/$libdir/cmake/Fintaqush" "$to/$guide"/{python/examples,python,examples/c,examples/driver,examples,} "$to/$home/$package"/{commands,} \
        "$to/$home"/{tools,scripts,web,programs,docs,examples} "$to/$home" 2> /dev/null || true
    # folders that an install made where there were none; those of the system stay, even if they are empty
    [[ $prefix != /usr && $prefix != /usr/local ]] || exit 0
    rmdir -- "$to"/lib/python3*/*-packages "$to"/lib/python3* 2> /dev/null || true
    for folder in "${library_files[@]}" "${command_files[@]}"; do
        while [[ $folder = */* ]]; do
            folder=${folder%/*}
            rmdir -- "$to/$folder" 2> /dev/null || true
        done
    done
    rmdir -- "$to" 2> /dev/null || true
    exit 0
fi

scratch=$(mktemp -d)
trap 'rm -rf "$scratch"' EXIT
[ -n "$cross" ] && cc=${cross}gcc || cc=${CC:-cc}
command -v "$cc" > /dev/null || stop 69 "there is no $cc, which makes the shared library"
[ -n "$is_library" ] && [ -z "$is_python" ] || command -v python3 > /dev/null ||
    stop 69 "there is no python3, which the command and the package are written in"
"$top/scripts/c_library.sh" "$scratch" || stop 70 "the C library couldn't be built"
# only the exports, each with the version that it came with; tables that the loader fills are read-only afterwards
[ -n "$target" ] || hardened=,-z,shstk # as scripts/c_library.sh marks the code
"$cc" -shared -s -Wl,-soname,"libfintaqush.so.$major" -Wl,--version-script="$top/scripts/exports.map" "-Wl,-z,relro,-z,now${hardened:-}" \
    -Wl,--whole-archive "$scratch/libfintaqush.a" -Wl,--no-whole-archive -o "$scratch/libfintaqush.so.$version" ||
    stop 70 "the shared library couldn't be made"
[ -n "$is_library" ] || "$top/scripts/build.sh" "${programs[@]}" || stop 70 "the programs couldn't be built"

# for_sed TEXT: prints the text as the replacement of a sed command
for_sed() { printf '%s' "$1" | sed 's/[&|#\\]/\\&/g'; }

# in quotes, because a prefix may have spaces
sed -e "s|@PREFIX@|$(for_sed "$prefix")|" -e "s|@LIBDIR@|$(for_sed "$libdir")|" -e "s|@VERSION@|$version|" > "$scratch/fintaqush.pc" << 'END'
prefix=@PREFIX@
libdir=${prefix}/@LIBDIR@
includedir=${prefix}/include

Name: fintaqush
Description: The packet polling core of Linux (NAPI) with byte queue limits, in user space
Version: @VERSION@
Libs: "-L${libdir}" -lfintaqush
Cflags: "-I${includedir}"
END

sed -e "s|@UP@|$(realpath -sm --relative-to="/$libdir/cmake/Fintaqush" /)|" -e "s|@LIBDIR@|$(for_sed "$libdir")|g" > "$scratch/FintaqushConfig.cmake" << 'END'
# Fintaqush::fintaqush, the shared library, and Fintaqush::static. Paths are relative to the folder of this file.
get_filename_component(fintaqush_prefix "${CMAKE_CURRENT_LIST_DIR}/@UP@" ABSOLUTE)
if(NOT TARGET Fintaqush::fintaqush)
  add_library(Fintaqush::fintaqush SHARED IMPORTED)
  set_target_properties(Fintaqush::fintaqush PROPERTIES
    IMPORTED_LOCATION "${fintaqush_prefix}/@LIBDIR@/libfintaqush.so"
    INTERFACE_INCLUDE_DIRECTORIES "${fintaqush_prefix}/include")
  add_library(Fintaqush::static STATIC IMPORTED)
  set_target_properties(Fintaqush::static PROPERTIES
    IMPORTED_LOCATION "${fintaqush_prefix}/@LIBDIR@/libfintaqush.a"
    INTERFACE_INCLUDE_DIRECTORIES "${fintaqush_prefix}/include")
endif()
unset(fintaqush_prefix)
END

sed -e "s|@VERSION@|$version|g" -e "s|@MAJOR@|$major|g" > "$scratch/FintaqushConfigVersion.cmake" << 'END'
set(PACKAGE_VERSION "@VERSION@")
if(PACKAGE_FIND_VERSION VERSION_GREATER PACKAGE_VERSION OR NOT PACKAGE_FIND_VERSION_MAJOR EQUAL @MAJOR@)
  set(PACKAGE_VERSION_COMPATIBLE FALSE)
else()
  set(PACKAGE_VERSION_COMPATIBLE TRUE)
  if(PACKAGE_FIND_VERSION VERSION_EQUAL PACKAGE_VERSION)
    set(PACKAGE_VERSION_EXACT TRUE)
  endif()
endif()
END

# The program itself rejects these arguments.
cat > "$scratch/program" << 'END'
#!/bin/sh
case "$# ${1:-}" in
    '1 -h' | '1 --help') echo 'usage: @NAME@ [OPTION ..] < @INPUT@; its options, @INPUT@ and each fault: man @NAME@' && exit ;;
    '1 --version') echo '@NAME@ of Fintaqush @VERSION@' && exit ;;
esac
exec "$(dirname "$(readlink -f "$0")")/../lib/fintaqush/programs/@NAME@" "$@"
END

# put MODE FILE PLACE
put() {
    install -D -m "$1" "$2" "$to/$3" || stop 73 "$to/$3 can't be written"
}

# as_installed FILE EXAMPLES: prints a text with the paths and the commands of an installation, whose examples are in that folder
as_installed() {
    sed -E -e "s#docs/([A-Z]+\\.md)#$(for_sed "$prefix/$home")/docs/\\1#g" -e "s#(^|[ \`])examples(/| --)#\\1$(for_sed "$2")\\2#g" \
        -e '/[Ii]n a checkout|Without an installation/!{
            s#\./fintaqush#fintaqush#g; s#\./replay#fintaqush replay#g; /^ *scripts\/c_library.sh FOLDER$/d
            s#-I include ([^ ]+) FOLDER/libfintaqush.a#\1 $(pkg-config --cflags --libs fintaqush)#
        }' "$1"
}

# page_of FILE PAGE ..: prints a page that is installed with these pages: a link to anything else becomes plain text
page_of() {
    awk -v pages=" ${*:2} " '{
        while (match($0, /\[[^][]*\]\([^)]*\)/)) {
            link = substr($0, RSTART, RLENGTH); split(link, part, /\]\(/)
            to = part[2]; sub(/\)$/, "", to); name = to; sub(/#.*/, "", name)
            stays = to ~ /^(#|https?:)/ || index(pages, " " name " ")
            printf "%s%s", substr($0, 1, RSTART - 1), stays ? link : substr(part[1], 2)
            $0 = substr($0, RSTART + RLENGTH)
        }
        print
    }' "$1"
}

put 644 "$scratch/libfintaqush.a" "$libdir/libfintaqush.a"
put 644 "$scratch/libfintaqush.so.$version" "$libdir/libfintaqush.so.$version"
ln -sf "libfintaqush.so.$version" "$to/$libdir/libfintaqush.so.$major"
ln -sf "libfintaqush.so.$major" "$to/$libdir/libfintaqush.so"
put 644 "$top/include/fintaqush.h" include/fintaqush.h
put 644 "$top/include/fintaqush.hpp" include/fintaqush.hpp
put 644 "$top/include/fintaqush_tsan.h" include/fintaqush_tsan.h
put 644 "$scratch/fintaqush.pc" "$libdir/pkgconfig/fintaqush.pc"
put 644 "$scratch/FintaqushConfig.cmake" "$libdir/cmake/Fintaqush/FintaqushConfig.cmake"
put 644 "$scratch/FintaqushConfigVersion.cmake" "$libdir/cmake/Fintaqush/FintaqushConfigVersion.cmake"
put 644 "$top/docs/man/fintaqush.3" share/man/man3/fintaqush.3
python3 -EsSB "$top/scripts/manual.py" "$scratch/calls" || stop 70 "the manual pages of the calls couldn't be made, by python3"
for name in "${call_pages[@]}"; do
    put 644 "$scratch/calls/$name" "share/man/man3/$name"
done
for name in "${pages[@]}"; do
    as_installed "$top/docs/$name" examples > "$scratch/$name"
    page_of "$scratch/$name" "${pages[@]}" > "$scratch/page"
    put 644 "$scratch/page" "$guide/$name"
done
for file in "${examples[@]}"; do
    put 644 "$file" "$guide${file#"$top"}"
done
if [ -z "$is_library" ]; then
    for name in "${programs[@]}"; do
        page=$scratch/page
        as_installed "$top/docs/man/$name.1" "$prefix/$home/examples" > "$page" 2> /dev/null || echo '.so man1/napi_replay.1' > "$page"
        put 755 "$top/crates/$name/out/${target:+$target/}$name" "$home/programs/$name"
        [ "$name" = napi_machine ] && input=ARRIVALS.csv || input=TRACE.csv
        sed -e "s|@NAME@|$name|g" -e "s|@INPUT@|$input|g" -e "s|@VERSION@|$version|" "$scratch/program" > "$scratch/named"
        put 755 "$scratch/named" "bin/$name"
        put 644 "$page" "share/man/man1/$name.1"
    done
    for file in "${parts[@]}"; do
        put "$(stat -c %a "$top/$file")" "$top/$file" "$home/$file"
    done
    for name in "${tool_pages[@]}"; do
        as_installed "$top/docs/$name" "$prefix/$home/examples" > "$scratch/$name"
        page_of "$scratch/$name" "${tool_pages[@]}" > "$scratch/page"
        put 644 "$scratch/page" "$home/docs/$name"
    done
    echo "$version" > "$scratch/version"
    put 644 "$scratch/version" "$home/version"
    ln -sf "../$home/fintaqush" "$to/bin/fintaqush"
    mkdir "$scratch/manual"
    "$top/fintaqush" --manual "$scratch/manual" || stop 70 "the manual pages of the command couldn't be made, by python3"
    for file in "$scratch"/manual/*; do
        as_installed "$file" "$prefix/$home/examples" > "$scratch/page"
        put 644 "$scratch/page" "share/man/man1/${file##*/}"
    done
    for file in "${completions[@]}"; do
        shell=${file#share/}
        "$top/fintaqush" completion "${shell%%[-/]*}" > "$scratch/completion" || stop 70 "the completion for ${shell%%[-/]*} couldn't be made"
        put 644 "$scratch/completion" "$file"
    done
fi
if [ -n "$is_python" ]; then
    packages=$prefix/lib/python3/dist-packages
    [ -n "${DESTDIR:-}" ] || packages=$(python3 -c 'import site, sys
print(next((home for home in site.getsitepackages() if home.startswith(sys.argv[1] + "/lib/")), sys.argv[2]))' "$prefix" "$packages")
    for file in "${python[@]}"; do
        put 644 "$file" "${packages#"$prefix/"}/fintaqush/${file##*/}"
    done
    for file in "${python_guide[@]}"; do
        put 644 "$top/bindings/python/$file" "$guide/python/$file"
    done
    page_of "$top/bindings/python/README.md" "${python_guide[@]}" > "$scratch/page"
    put 644 "$scratch/page" "$guide/python/README.md"
    [ -n "${DESTDIR:-}" ] || python3 -c 'import sys; sys.exit(sys.argv[1] not in sys.path)' "$packages" ||
        echo "install: python3 finds the package by PYTHONPATH=$packages"
fi
