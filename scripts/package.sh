#!/usr/bin/env bash
# scripts/package.sh [--target arm64] FOLDER: makes the Debian packages of what scripts/install.sh installs, for machines without the kit, by
# dpkg-deb:
#   libfintaqush3_VERSION_ARCHITECTURE.deb     the shared library
#   libfintaqush-dev_VERSION_ARCHITECTURE.deb  headers, static library, files for pkg-config and CMake, manual pages, guide, examples
#   python3-fintaqush_VERSION_all.deb          the package for Python
#   fintaqush_VERSION_ARCHITECTURE.deb         the command, the programs and the tools
# libfintaqush-dev and python3-fintaqush depend on libfintaqush3. The folder is made if necessary.
# DEBFULLNAME and DEBEMAIL name the maintainer; the date is SOURCE_DATE_EPOCH, else that of the last commit. What isn't built yet
# is proved and built first. Exit status: 0 done; 64 the arguments are wrong; 69 a program is missing; 70 something couldn't be
# built; 73 it can't be written there.
set -euo pipefail
unset CDPATH
umask 022 # what is made is for all users
top=$(dirname "$(dirname "$(readlink -f "${BASH_SOURCE[0]}")")")
. "$top/scripts/arguments.sh"

target=${FINTAQUSH_TARGET:-}
case ${1:-} in
    --target=*) target=${1#--target=}
        shift ;;
    --target) [ $# -gt 1 ] || refuse '--target needs a name: --help says how it is called'
        target=$2
        shift 2 ;;
esac
operands 1 1 "$@"
for_target "$target"
mkdir -p -- "$1" 2> /dev/null && [ -w "$1" ] || stop 73 "$1: no folder that can be written to"
folder=$(cd -- "$1" && pwd)
for program in dpkg-deb strip; do
    command -v "$program" > /dev/null || stop 69 "there is no $program, which the packages are made by"
done
scratch=$(mktemp -d)
trap 'rm -rf "$scratch" "$folder"/.new-$$-*.deb' EXIT
trap 'exit 130' INT
trap 'exit 143' TERM
architecture=${target:-$(dpkg --print-architecture)}
libdir=lib/$(dpkg-architecture -a"$architecture" -qDEB_HOST_MULTIARCH 2> /dev/null || "${cross}gcc" -print-multiarch 2> /dev/null || echo "$(uname -m)-linux-gnu")
version=$(sed -n 's/^#define FQ_VERSION "\([0-9.]*\)"$/\1/p' "$top/include/fintaqush.h")
major=${version%%.*}
maintainer="${DEBFULLNAME:-Fintaqush} <${DEBEMAIL:-fintaqush@fintaqush.invalid}>"
date=$(date -R -u -d "@${SOURCE_DATE_EPOCH:-$(git -C "$top" log -1 --format=%ct 2> /dev/null || date +%s)}")
year=$(date -u -d "$date" +%Y)
stage=$scratch/stage
DESTDIR=$stage "$top/scripts/install.sh" --python --libdir="$libdir" /usr
chmod -R u=rwX,go=rX "$stage"
find "$stage/usr/share/man" -type f -exec gzip -9n {} +
"${cross}strip" --strip-unneeded --remove-section=.comment "$stage"/usr/lib/fintaqush/programs/* "$stage/usr/$libdir/libfintaqush.so.$version"

# move PACKAGE PATH ..: moves these files to a package, to the same paths.
move() {
    local to=$scratch/$1 path
    shift
    for path in "$@"; do
        mkdir -p "$to/usr/$(dirname "$path")"
        mv "$stage/usr/$path" "$to/usr/$path"
    done
}

move "libfintaqush$major" "$libdir/libfintaqush.so.$version" "$libdir/libfintaqush.so.$major"
move libfintaqush-dev include "$libdir"/libfintaqush.{a,so} "$libdir"/{pkgconfig,cmake} share/man/man3
mkdir -p "$scratch"/{libfintaqush-dev,python3-fintaqush}/usr/share/doc
mv "$stage/usr/share/doc/fintaqush/python" "$scratch/python3-fintaqush/usr/share/doc/python3-fintaqush"
mv "$stage/usr/share/doc/fintaqush" "$scratch/libfintaqush-dev/usr/share/doc/libfintaqush-dev"
move python3-fintaqush lib/python3
mkdir "$scratch/fintaqush"
mv "$stage/usr" "$scratch/fintaqush/usr"
rmdir "$scratch/fintaqush/usr/$libdir" 2> /dev/null || true
# a machine that unpacks no /usr/share/doc keeps what --help names
mkdir "$scratch/fintaqush/usr/share/doc/fintaqush"
ln -s ../../../lib/fintaqush/{docs/{FORMATS,OPERATORS,TOOLS}.md,examples} "$scratch/fintaqush/usr/share/doc/fintaqush"

# glibc_of FOLDER: prints the newest version of the C library that one of its programs and libraries needs.
glibc_of() {
    find "$1/usr" -type f \( -perm -100 -o -name '*.so.*' \) -exec readelf -V {} + 2> /dev/null |
        grep -o 'GLIBC_[0-9.]*[0-9]' | sort -uV | tail -n 1 | sed 's/GLIBC_//'
}

# about PACKAGE: writes the changelog and the copyright, which Debian requires in each package, and the checksums.
about() {
    local root=$scratch/$1 doc=$scratch/$1/usr/share/doc/$1
    mkdir -p "$doc"
    printf '%s (%s) unstable; urgency=medium\n\n  * %s\n\n -- %s  %s\n' "$1" "$version" \
        "Version $version; NEWS.gz has its changes." "$maintainer" "$date" | gzip -9n > "$doc/changelog.gz"
    gzip -9n < "$top/CHANGELOG.md" > "$doc/NEWS.gz"
    printf '%s\n\n' 'Fintaqush: packet polling (NAPI) and byte queue limits of Linux in user space' "Copyright $year The authors of Fintaqush" \
        'No licence is chosen yet, so there is no permission to reuse the code.' > "$doc/copyright"
    find "$root" -exec touch -h -d "$date" {} +
    (cd "$root" && find usr -type f -exec md5sum {} + | LC_ALL=C sort -k 2 > DEBIAN/md5sums)
}

# package PACKAGE ARCHITECTURE SECTION: makes it, with the rest of its control file from standard input.
package() {
    local root=$scratch/$1 rest
    rest=$(cat)
    mkdir -p "$root/DEBIAN" && chmod 755 "$root/DEBIAN"
    cat > "$root/DEBIAN/control" << END
Package: $1
Source: fintaqush
Version: $version
Architecture: $2
Maintainer: $maintainer
Section: $3
Priority: optional
Installed-Size: $(du -sk --apparent-size "$root/usr" | cut -f 1)
$rest
END
    about "$1"
    SOURCE_DATE_EPOCH=$(date -d "$date" +%s) dpkg-deb --root-owner-group --build "$root" "$folder/.new-$$-$1.deb" > "$scratch/log" 2>&1 ||
        stop 73 "$folder: the package $1 couldn't be written: $(tail -n 1 "$scratch/log")"
    mv -- "$folder/.new-$$-$1.deb" "$folder/${1}_${version}_$2.deb" || stop 73 "$folder can't be written to"
}

# symbols PACKAGE LIBRARY: prints the calls, each with the version that brought it: a program that is linked with the library depends on
# no later one than it needs.
symbols() {
    echo "libfintaqush.so.$major $1 #MINVER#"
    echo '* Build-Depends-Package: libfintaqush-dev'
    "${cross}nm" -D --defined-only "$2" | LC_ALL=C sort -k 3 | awk '{
        split($3, part, "@@"); node = part[2] ? part[2] : part[1]; since = node; sub(/.*_/, "", since)
        print " " part[1] "@" node " " since ".0" }'
}

mkdir -m 755 "$scratch/libfintaqush$major/DEBIAN" "$scratch/python3-fintaqush/DEBIAN"
echo "libfintaqush $major libfintaqush$major (>= $version)" > "$scratch/libfintaqush$major/DEBIAN/shlibs"
symbols "libfintaqush$major" "$scratch/libfintaqush$major/usr/$libdir/libfintaqush.so.$version" > "$scratch/libfintaqush$major/DEBIAN/symbols"
echo 'activate-noawait ldconfig' > "$scratch/libfintaqush$major/DEBIAN/triggers"
package "libfintaqush$major" "$architecture" libs << END
Multi-Arch: same
Depends: libc6 (>= $(glibc_of "$scratch/libfintaqush$major"))
Description: packet polling core of Linux (NAPI) with byte queue limits, proved
 The rules of NAPI and of byte queue limits of Linux 6.6 as a library for
 drivers and simulators in user space. What its calls compute is proved.
 .
 This is the shared library.
END
package libfintaqush-dev "$architecture" libdevel << END
Multi-Arch: same
Depends: libfintaqush$major (= $version)
Suggests: pkg-config
Description: packet polling core of Linux (NAPI), files to build with it
 The rules of NAPI and of byte queue limits of Linux 6.6 as a library for
 drivers and simulators in user space. What its calls compute is proved.
 .
 These are the headers for C and C++, the static library, manual pages, a
 guide to drivers and simulators, and the programs of that guide.
END
cat > "$scratch/python3-fintaqush/DEBIAN/prerm" << 'END'
#!/bin/sh
set -e
rm -rf "$DPKG_ROOT/usr/lib/python3/dist-packages/fintaqush/__pycache__"
END
chmod 755 "$scratch/python3-fintaqush/DEBIAN/prerm"
package python3-fintaqush all python << END
Depends: python3 (>= 3.9), libfintaqush$major (>= $version)
Description: packet polling core of Linux (NAPI) for Python
 The rules of NAPI and of byte queue limits of Linux 6.6 as objects for
 simulations in Python, over the library that computes them.
END
package fintaqush "$architecture" net << END
Depends: libc6 (>= $(glibc_of "$scratch/fintaqush")), python3 (>= 3.9)
Recommends: ethtool, iproute2, procps
Suggests: tcpdump, parallel
Description: replay and prediction of what a receiving Linux machine does
 Programs that replay traces of network devices by the rules of NAPI and byte
 queue limits of Linux 6.6, and tools that record a running machine, predict
 other settings and advise. What the programs compute is proved.
END
