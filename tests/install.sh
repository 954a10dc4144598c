#!/usr/bin/env bash
# scripts/install.sh: into a prefix, one with spaces, and below a DESTDIR; programs that find the library by pkg-config and by
# CMake; the guide, its examples and the manual pages; each program and subcommand as it is installed, from another folder, and
# the package for Python; and all of it removed again. The packages of scripts/package.sh likewise, in their own root, and by
# lintian. What needs a program that isn't installed is skipped. The last line is `N passed, M failed, K skipped`.
. "$(dirname "$(readlink -f "$0")")/../scripts/checks.sh"
prefix=$scratch/prefix

install() { "$top/scripts/install.sh" "$@"; }

ends_with() {
    local wanted=$1 status=0
    shift
    "$@" || status=$?
    [ "$status" = "$wanted" ]
}

# linked FLAG ..: the example, which finds the library by pkg-config only, prints what it has to.
linked() {
    # shellcheck disable=SC2046 # the flags of pkg-config
    cc -Wall -Wextra -Werror -pthread "$top/examples/c/threads.c" $(pkg-config --cflags --libs fintaqush) "$@" -o "$scratch/threads" &&
        LD_LIBRARY_PATH=$prefix/lib "$scratch/threads" | diff - "$top/examples/c/threads.stdout"
}

needs() { readelf -d "$1" | grep -q "NEEDED.*\[$2\]"; }

needs_libc_alone() { [ "$(readelf -d "$1" | grep -c NEEDED)" = 1 ] && needs "$1" libc.so.6; }

# shadow_stacks FILE: all of its code is marked for them (CET).
shadow_stacks() { readelf -n "$1" | grep -q 'x86 feature: .*SHSTK'; }

# a shared library exports what the header declares, each call with the version that it came with, none later than the header's
exports_calls_alone() {
    nm -D --defined-only "$1" | awk '$2 != "A" { print $3 }' > "$scratch/exported"
    sed 's/@.*//' "$scratch/exported" | sort | diff - <(header_calls) &&
        awk -F '@@FINTAQUSH_|[.]' -v version="$version" 'BEGIN { split(version, now, ".") }
            NF != 3 || $2 != now[1] || $3 + 0 > now[2] + 0 { print; wrong = 1 } END { exit wrong }' "$scratch/exported"
}

# What came with 3.0 stays there: a program that was linked then asks for it by that version.
stays_in_its_version() {
    [ "$(grep -c '@@FINTAQUSH_3\.0$' "$scratch/exported")" -ge 65 ] && grep -q '^fq_caller_poll@@FINTAQUSH_3\.0$' "$scratch/exported"
}

# by_a_prefix_with_spaces: pkg-config prints it so that a shell can read it.
by_a_prefix_with_spaces() {
    local spaced="$scratch/a prefix & more" words
    "$top/scripts/install.sh" --library --libdir=lib/here "$spaced" &&
        words=$(PKG_CONFIG_PATH=$spaced/lib/here/pkgconfig pkg-config --cflags --libs fintaqush) &&
        eval "cc '$spaced/share/doc/fintaqush/examples/c/limit.c' $words -o '$scratch/limit'" &&
        LD_LIBRARY_PATH=$spaced/lib/here "$scratch/limit" | diff - "$top/examples/c/limit.stdout" &&
        "$top/scripts/install.sh" --libdir=lib/here --uninstall "$spaced" && [ ! -e "$spaced" ]
}

# links_lead_somewhere FOLDER: the links of its pages are files there.
links_lead_somewhere() {
    local page link
    for page in "$1"/*.md; do
        grep -q '^# ' "$page" || return
        for link in $(grep -oE '\]\([^)#]+' "$page" | cut -c 3-); do
            case $link in http*) ;; *) [ -e "$1/$link" ] || { echo "$page: $link"; return 1; } ;; esac
        done
    done
}

# named_pages_are_there COMMAND: each page that --help of a subcommand names is installed.
named_pages_are_there() {
    local name page
    for name in $("$1" --names); do
        for page in $("$1" "$name" --help | grep -oE '[^ (]*docs/[A-Z]+\.md'); do
            case $page in /*) [ -e "$page" ] && continue ;; esac
            echo "$name: $page"
            return 1
        done
    done
}

# guide_programs_run FOLDER: the programs that the installed guide shows are beside it, and print what it says.
guide_programs_run() {
    local name
    for name in $(grep -oE '^ +\$ cat examples/c/\w+\.stdout' "$1/GUIDE.md" "$1/C.md" | sed 's|.*/c/||; s|\.stdout||' | sort -u); do
        # shellcheck disable=SC2046 # the words that pkg-config gives
        cc -pthread "$1/examples/c/$name.c" $(pkg-config --cflags --libs fintaqush) -o "$scratch/guided" &&
            LD_LIBRARY_PATH=$prefix/lib "$scratch/guided" | diff - "$1/examples/c/$name.stdout" || { echo "$name"; return 1; }
    done
    [ -n "$name" ]
}

page_of_the_driver() {
    local line
    for line in '        case FQ_TODO_MASK: mask(todo.device); break;' '.SH RETURN VALUE' '.BR FQ_NOT_DUE " (" 30 )' '.SH ERRORS' '.BR FQ_BAD_WORK " (" 119 )'; do
        grep -qxF -e "$line" "$1/share/man/man3/fintaqush_driver.3" || { echo "it has no line $line"; return 1; }
    done
}

# each_call_has_a_page FOLDER: also those that the header has inline. It is a short one, perhaps that of other calls with the same comment.
each_call_has_a_page() {
    local call page
    for call in $(grep -oE '\bfq_[a-z_]+\(' "$top/include/fintaqush.h" | tr -d '(' | grep -v '^fq_private_' | sort -u); do
        page=$(sed -n '1s,^\.so man3/,,p' "$1/share/man/man3/$call.3")
        page=$1/share/man/man3/${page:-$call.3}
        grep -q "\b$call(" "$page" && [ "$(wc -l < "$page")" -le 80 ] || { echo "$call has no short manual page"; return 1; }
    done
    grep -qxF '.BR FQ_BAD_WORK " (" 119 )' "$1/share/man/man3/fq_driver_step.3"
}

by_cmake() {
    mkdir "$scratch/cmake"
    cp "$top/examples/c/limit.c" "$top/examples/c/limit.cpp" "$scratch/cmake"
    cat > "$scratch/cmake/CMakeLists.txt" << 'END'
cmake_minimum_required(VERSION 3.10)
project(limits C CXX)
set(CMAKE_CXX_STANDARD 17)
find_package(Fintaqush 3.0 REQUIRED)
add_executable(limit limit.c)
target_link_libraries(limit Fintaqush::fintaqush)
add_executable(limit_static limit.cpp)
target_link_libraries(limit_static Fintaqush::static)
END
    cmake -S "$scratch/cmake" -B "$scratch/cmake/out" -DCMAKE_PREFIX_PATH="$prefix" && cmake --build "$scratch/cmake/out" &&
        "$scratch/cmake/out/limit" | diff - "$top/examples/c/limit.stdout" &&
        "$scratch/cmake/out/limit_static" | diff - "$top/examples/c/limit.stdout"
}

is_empty_of_files() { [ -z "$(find "$1" -type f -o -type l)" ]; }

version=$(sed -n 's/^#define FQ_VERSION "\(.*\)"$/\1/p' "$top/include/fintaqush.h")
unset PROGRAM SERIES MACHINE

# there COMMAND ..: in an unrelated folder.
there() {
    rm -rf "$scratch/there"
    mkdir "$scratch/there" && cd "$scratch/there" && "$@"
}

# program_runs BIN NAME: its example has the right output.
program_runs() {
    local words=()
    [ ! -e "$top/crates/$2/args" ] || mapfile -t words < "$top/crates/$2/args"
    "$1/$2" "${words[@]}" < "$top/crates/$2/stdin" | diff - "$top/crates/$2/stdout"
}

# program_starts BIN NAME: it prints its version, and what it reads.
program_starts() {
    local input=TRACE
    [ "$2" != napi_machine ] || input=ARRIVALS
    [ "$("$1/$2" --version)" = "$2 of Fintaqush $version" ] && "$1/$2" --help | grep -q "^usage: $2 .*< $input.csv;"
}

# subcommand_starts BIN NAME: it prints its usage by this name, and rejects an option that doesn't exist.
subcommand_starts() {
    "$1/fintaqush" "$2" --help | grep -q "^usage: fintaqush $2" || return
    case $2 in
        replay) ends_with 64 "$1/fintaqush" replay --no-such-option 2> err && grep '^fintaqush replay: .*is no option' err ;;
        *) [ "$("$1/fintaqush" "$2" --version)" = "fintaqush $2 of Fintaqush $version" ] &&
            ends_with 64 "$1/fintaqush" "$2" --no-such-option 2> err && grep "^fintaqush $2: error: " err ;;
    esac
}

# names_nothing_else FOLDER: the only commands are the programs and `fintaqush`, so that no other package has one of their
# names.
names_nothing_else() { [ "$(ls "$1/bin" | paste -s -d ' ')" = 'fintaqush napi_machine napi_replay napi_serial napi_series' ]; }

# subcommands_work BIN: what they do with the installed programs, and what they read.
# shellcheck disable=SC2046,SC2086,SC2128,SC2178 # words
subcommands_work() {
    local trace=$top/examples/linux-veth-bursts.csv words='--budget 16 --weight 8' f=$1/fintaqush
    "$f" series "$trace" --raise --rows $words > raised.csv && "$1/napi_serial" $words < raised.csv | grep '^total .* work 15245 ' &&
        "$f" compare "$trace" --raise $words -- --budget 300 > table && "$f" plot "$trace" --out plot.html &&
        "$f" steps "$top/examples/two-packets.csv" --out page.html && "$f" sweep "$top/examples/bursts.csv" --out rows.csv &&
        "$f" replay "$trace" --json > report.json && "$f" replay "$trace" --raise $words | grep '^total .* work 15245 ' &&
        "$f" from-ftrace "$top/tests/tools/soft-tcp.txt" made $(printf -- '--pair va%d:vb%d ' 1 1 2 2 3 3 4 4 5 5 6 6) &&
        diff made.csv "$top/tests/tools/soft-tcp.csv" && "$f" traffic | "$1/napi_serial" > report &&
        echo '1.000000 02:00:00:00:00:02 > 02:00:00:00:00:01, ethertype IPv4 (0x0800), length 60: UDP' | "$f" from-pcap - captured &&
        "$f" costs "$top/tests/tools/soft-gso-23.txt" --words > words && "$f" costs "$top/tests/tools/recorded-apart.rec" --json > json && "$f" traffic --arrivals > arrivals &&
        [ "$("$f" what-if arrivals --budget 16,64 | wc -l)" = 3 ] && { "$f" costs "$trace" --buget 3; [ "$?" = 64 ]; }
}

# programs_work BIN: subcommands that are programs print what these do, and replay explains an error, like the launcher of a
# checkout.
programs_work() {
    local f=$1/fintaqush bursts=$top/examples/bursts.csv
    cmp <("$f" replay "$bursts" --budget 64) <("$1/napi_serial" --budget 64 < "$bursts") &&
        cmp <("$f" replay --mode shared < "$bursts") <("$1/napi_replay" --mode shared < "$bursts") &&
        cmp <("$f" series "$bursts" --every 10) <("$1/napi_series" --every 10 < "$bursts") &&
        "$f" replay --json "$bursts" | grep -q '"line": "total"' && "$f" replay --build &&
        printf 'moment,device,event,value\n0,1,Rx,9\n' > bad.csv && ends_with 2 "$f" replay bad.csv 2> err &&
        grep "^fintaqush replay: bad.csv line 2, '0,1,Rx,9': the event is none of" err &&
        ends_with 64 "$f" replay --unproved "$bursts" && "$f" replay --version | grep "^replay of Fintaqush $version"
}

# tries BIN: the tour, with python3 and the programs only.
tries() {
    mkdir few
    for tool in sh env readlink dirname; do ln -s "$(command -v "$tool")" few/; done
    ln -s "$(python3 -c 'import sys; print(sys.executable)')" few/python3
    PATH=$PWD/few "$1/fintaqush" try > tour && grep -q '^ *total  squeezed  *312  *0 ' tour && grep -q 'of which 312 are squeezed' tour &&
        [ "$(ls)" = "$(printf '%s\n' few fintaqush-try.html tour)" ]
}

# python_replays FOLDER: checks that the Python package there, with the installed library, replays like napi_serial.
python_replays() {
    local program='import fintaqush, sys; print(end=fintaqush.replay(sys.stdin.buffer.read()).text)'
    PYTHONDONTWRITEBYTECODE='' PYTHONPATH=$1/lib/python3/dist-packages python3 -c "$program" < "$top/crates/napi_serial/stdin" |
        diff - "$top/crates/napi_serial/stdout"
}

# pages_are_whole FOLDER: each manual page is formatted without a warning, and each program and subcommand has one.
pages_are_whole() {
    local page name
    for name in "$1"/bin/* $("$top/fintaqush" --names | sed 's/^/fintaqush-/'); do
        [ -e "$1/share/man/man1/${name##*/}.1" ] || { echo "$name has no manual page"; return 1; }
    done
    for page in "$1"/share/man/man?/*; do
        [ -z "$(LC_ALL=C.UTF-8 MANPATH=$1/share/man MANWIDTH=80 man --warnings -l "$page" 2>&1 > "$scratch/page")" ] && [ -s "$scratch/page" ] ||
            { echo "$page"; return 1; }
    done
}

# has_version FILE: it contains the header's version, and no other.
has_version() { [ "$(grep -oE '(Fintaqush |^version = "|^## )[0-9]+\.[0-9]+\.[0-9]+' "$1" | sed 's/.*[ "]//' | head -n 1)" = "$version" ]; }

# shellcheck disable=SC2046 # words
check 'the programs are built' "$top/scripts/build.sh" $("$top/scripts/install.sh" --programs)
for file in CHANGELOG.md bindings/rust/Cargo.toml docs/man/*; do
    check "the version in $file" has_version "$top/$file"
done
check 'a relative prefix is refused' ends_with 64 install prefix
check 'no prefix is refused' ends_with 64 install --library
check 'installs' install --python "$prefix"
export PKG_CONFIG_PATH=$prefix/lib/pkgconfig
if has pkg-config 'programs by pkg-config'; then
    check 'a program by pkg-config' linked
    check 'its library is the shared one' needs "$scratch/threads" libfintaqush.so.3
    check 'a static program by pkg-config' linked -static
    check 'by a prefix with spaces' by_a_prefix_with_spaces
    check 'the programs of the guide' guide_programs_run "$prefix/share/doc/fintaqush"
    check 'the version' [ "$(pkg-config --modversion fintaqush)" = "$version" ]
fi
check 'the shared library needs libc alone' needs_libc_alone "$prefix/lib/libfintaqush.so"
check 'the shared library is marked for shadow stacks' shadow_stacks "$prefix/lib/libfintaqush.so"
check 'and so is the archive' shadow_stacks "$prefix/lib/libfintaqush.a"
check 'the shared library gives the calls alone, each of its version' exports_calls_alone "$prefix/lib/libfintaqush.so"
check 'a call stays in its version' stays_in_its_version
check 'links of the installed pages' links_lead_somewhere "$prefix/share/doc/fintaqush"
check "links of Python's page" links_lead_somewhere "$prefix/share/doc/fintaqush/python"
check "links of the tools' pages" links_lead_somewhere "$prefix/lib/fintaqush/docs"
check 'the pages that --help names' named_pages_are_there "$prefix/bin/fintaqush"
check 'each call has a manual page' each_call_has_a_page "$prefix"
check 'a manual page keeps the lines of code, and has results and errors' page_of_the_driver "$prefix"
if has cmake 'programs by CMake'; then
    check 'programs by CMake' by_cmake
fi
check 'the commands are the programs and fintaqush' names_nothing_else "$prefix"
for name in $("$top/scripts/install.sh" --programs); do
    check "$name prints its version and its usage" there program_starts "$prefix/bin" "$name"
    check "$name" there program_runs "$prefix/bin" "$name"
done
for name in $("$top/fintaqush" --names); do
    check "fintaqush $name" there subcommand_starts "$prefix/bin" "$name"
done
check 'the subcommands work' there subcommands_work "$prefix/bin"
check 'the subcommands that are programs' there programs_work "$prefix/bin"
check 'the tour' there tries "$prefix/bin"
ln -s "$prefix/bin/fintaqush" "$scratch/linked"
check 'by a symbolic link' there [ "$("$scratch/linked" --version)" = "Fintaqush $version" ]
check 'the package for Python' there python_replays "$prefix"
! has man 'manual pages' || check 'manual pages' pages_are_whole "$prefix"
touch "$prefix/lib/another"
check 'uninstalls' install --uninstall "$prefix"
check 'what others put there stays' [ -e "$prefix/lib/another" ]
rm -f "$prefix/lib/another"
check 'nothing of it is left' is_empty_of_files "$prefix"
check 'installs below DESTDIR' env DESTDIR="$scratch/stage" "$top/scripts/install.sh" --library /usr
check 'with paths of the prefix' grep -q '^prefix=/usr$' "$scratch/stage/usr/lib/pkgconfig/fintaqush.pc"
check 'uninstalls below DESTDIR' env DESTDIR="$scratch/stage" "$top/scripts/install.sh" --uninstall /usr
check 'nothing is left there' is_empty_of_files "$scratch/stage"

# by_dpkg ARGUMENT ..: in its own root, which has none of the dependencies.
by_dpkg() { dpkg --root="$scratch/root" --force-not-root --force-depends --force-script-chrootless --log=/dev/null "$@"; }

# has_files PACKAGE PATTERN ..: a package has a file of each pattern.
has_files() {
    local package=$1 pattern
    shift
    dpkg-deb -c "$scratch/${package}_${version}_$(dpkg --print-architecture).deb" > "$scratch/files" || return
    for pattern in "$@"; do
        grep -q "/$pattern$" "$scratch/files" || { echo "$package has no $pattern"; return 1; }
    done
}

# alone PACKAGE: unpacks a package into a root of its own, with those of ours that it depends on and nothing else, and prints the root.
alone() {
    local package
    mkdir -p "$scratch/alone/$1"
    for package in "$1" $(dpkg-deb -f "$scratch/$1"_*.deb Depends | grep -o 'libfintaqush[^ ,]*'); do
        dpkg-deb -x "$scratch/$package"_*.deb "$scratch/alone/$1" || return
    done
    echo "$scratch/alone/$1"
}

# linked_alone: an example is built and runs with the files of libfintaqush-dev and of what it depends on.
linked_alone() (
    root=$(alone libfintaqush-dev)
    libraries=$(dirname "$(find "$root" -name libfintaqush.so)")
    export PKG_CONFIG_SYSROOT_DIR=$root PKG_CONFIG_LIBDIR=$libraries/pkgconfig
    # shellcheck disable=SC2046 # the flags of pkg-config
    cc -pthread "$root/usr/share/doc/libfintaqush-dev/examples/c/threads.c" $(pkg-config --cflags --libs fintaqush) -o threads &&
        LD_LIBRARY_PATH=$libraries ./threads | diff - "$top/examples/c/threads.stdout"
)

if has dpkg-deb 'the Debian packages'; then
    architecture=$(dpkg --print-architecture)
    major=${version%%.*}
    packages=("$scratch"/{"libfintaqush$major","libfintaqush-dev",fintaqush}_"${version}_$architecture.deb" "$scratch/python3-fintaqush_${version}_all.deb")
    mkdir -p "$scratch/root/var/lib/dpkg"/{info,updates}
    : > "$scratch/root/var/lib/dpkg/status"
    check 'a folder that cannot be made is refused' ends_with 73 "$top/scripts/package.sh" /dev/null/none
    check 'packages' "$top/scripts/package.sh" "$scratch"
    check 'the library by itself' has_files "libfintaqush$major" "usr/lib/[^/]*-linux-gnu/libfintaqush.so.$version"
    check 'what programs are built with' has_files libfintaqush-dev 'usr/include/fintaqush.h' 'usr/lib/[^/]*-linux-gnu/libfintaqush.a' \
        'usr/lib/[^/]*-linux-gnu/pkgconfig/fintaqush.pc' 'usr/share/man/man3/fq_caller_end.3.gz' 'usr/share/doc/libfintaqush-dev/GUIDE.md' \
        'usr/share/doc/libfintaqush-dev/examples/c/edge.c' 'usr/share/man/man3/fq_machine.3.gz' 'usr/share/man/man3/fq_driver_next.3.gz'
    if has lintian 'the packages by the rules of Debian'; then
        check 'the packages by the rules of Debian' lintian --allow-root --fail-on error,warning "${packages[@]}"
    fi
    check 'they are installed' by_dpkg -i "${packages[@]}"
    for name in $("$top/scripts/install.sh" --programs); do
        check "$name of the package" there program_runs "$scratch/root/usr/bin" "$name"
    done
    check 'the commands of the package are the programs and fintaqush' names_nothing_else "$scratch/root/usr"
    check 'it conflicts with no package' [ -z "$(dpkg-deb -f "$scratch/fintaqush_${version}_$architecture.deb" Conflicts)" ]
    check 'the subcommands of the package' there subcommands_work "$scratch/root/usr/bin"
    check 'its subcommands that are programs' there programs_work "$scratch/root/usr/bin"
    FINTAQUSH_LIB=$(dirname "$(find "$scratch/root/usr/lib" -name "libfintaqush.so.$major")") check 'the package for Python of it' there python_replays "$scratch/root/usr"
    root=$(alone fintaqush)
    for name in $("$top/fintaqush" --names); do
        check "fintaqush $name of the package alone" there subcommand_starts "$root/usr/bin" "$name"
    done
    check 'the version of the package alone' [ "$("$root/usr/bin/fintaqush" --version)" = "Fintaqush $version" ]
    check 'the subcommands of the package alone' there subcommands_work "$root/usr/bin"
    check 'its subcommands that are programs, alone' there programs_work "$root/usr/bin"
    root=$(alone python3-fintaqush)
    FINTAQUSH_LIB=$(dirname "$(find "$root/usr/lib" -name "libfintaqush.so.$major")") check 'the package for Python alone' there python_replays "$root/usr"
    if has pkg-config 'programs by the package libfintaqush-dev alone'; then
        check 'programs by the package libfintaqush-dev alone' there linked_alone
    fi
    check 'they are upgraded' by_dpkg -i "${packages[@]}"
    check 'their files are whole' sh -c '[ -z "$(dpkg --root="$1" --verify)" ]' sh "$scratch/root"
    check 'they are removed' by_dpkg -r fintaqush python3-fintaqush libfintaqush-dev "libfintaqush$major"
    check 'nothing of them is left' is_empty_of_files "$scratch/root/usr"
    check 'nor anything to purge' [ -z "$(by_dpkg --get-selections 2> /dev/null)" ]
fi

sum_up
