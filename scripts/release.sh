#!/usr/bin/env bash
# scripts/release.sh FOLDER: makes the files of a release: the Debian packages; a tarball with libraries, headers, programs,
# tools, manual pages and, if pandoc is installed, the HTML pages; both also for arm64, if Debian's cross compiler is installed; the
# changelog's part; checksums of all of them. What isn't built yet is proved and built first. The folder must be new or empty. It
# is made under another name and renamed at the end. Exit status: 0 done; 64 no folder, or more arguments; 69 a program is missing; 70 a
# part couldn't be built; 73 it can't be written.
set -euo pipefail
unset CDPATH
umask 022 # what is made is for all users
top=$(dirname "$(dirname "$(readlink -f "${BASH_SOURCE[0]}")")")
. "$top/scripts/arguments.sh"

operands 1 1 "$@"
command -v dpkg-deb > /dev/null || stop 69 "there is no dpkg-deb, which makes the packages"
folder=$(realpath -m -- "$1")
[ ! -e "$folder" ] || [ -d "$folder" ] || stop 73 "$folder is no folder"
[ ! -d "$folder" ] || [ -z "$(ls -A -- "$folder")" ] || stop 73 "$folder isn't empty"
mkdir -p -- "$(dirname -- "$folder")" 2> /dev/null || stop 73 "$(dirname -- "$folder") can't be made"
new=$(mktemp -d -- "$folder.XXXXXX" 2> /dev/null) || stop 73 "nothing can be written beside $folder"
scratch=$(mktemp -d)
trap 'rm -rf -- "$new" "$scratch"' EXIT
trap 'exit 130' INT
trap 'exit 143' TERM

version=$(sed -n 's/^#define FQ_VERSION "\([0-9.]*\)"$/\1/p' "$top/include/fintaqush.h")
# the same sources give the same bytes
date=${SOURCE_DATE_EPOCH:-$(git -C "$top" log -1 --format=%ct 2> /dev/null || date +%s)}
if command -v pandoc > /dev/null; then
    "$top/scripts/site.sh" "$scratch/html" || stop 70 "the HTML pages couldn't be made"
else
    echo 'release.sh: there is no pandoc, so the tarballs have no HTML pages' >&2
fi

# made MACHINE [TARGET]: the packages and the tarball for machines of this name. The tarball has the same files below one folder, for
# /usr/local. Programs and tools find each other wherever it is unpacked.
made() {
    local name=fintaqush-$version-$1 target=("${@:2}") docs
    "$top/scripts/package.sh" "${target[@]/#/--target=}" "$new" || stop 70 "the packages for $1 couldn't be made"
    DESTDIR=$scratch/$1 "$top/scripts/install.sh" "${target[@]/#/--target=}" --python /usr/local > /dev/null ||
        stop 70 "the files of the tarball for $1 couldn't be made"
    mv "$scratch/$1/usr/local" "$scratch/$name"
    docs=$scratch/$name/share/doc/fintaqush
    [ ! -d "$scratch/html" ] || cp -r "$scratch/html" "$docs"
    install -D -m 644 "$top/CHANGELOG.md" "$docs/CHANGELOG.md"
    chmod -R u=rwX,go=rX "$scratch/$name"
    tar -C "$scratch" --owner=0 --group=0 --numeric-owner --sort=name --mtime="@$date" -czf "$new/$name.tar.gz" "$name" ||
        stop 73 "$name.tar.gz can't be written"
    echo "release.sh: the packages and the tarball for $1 are made" >&2
}

made "$(uname -m)"
if command -v aarch64-linux-gnu-gcc > /dev/null; then
    made aarch64 arm64
else
    echo 'release.sh: there is no aarch64-linux-gnu-gcc, so nothing is made for arm64' >&2
fi

awk -v version="$version" '/^## / { on = index($2, version) == 1 } on' "$top/CHANGELOG.md" > "$new/CHANGES"
[ -s "$new/CHANGES" ] || stop 70 "CHANGELOG.md has no part for $version"
(cd "$new" && sha256sum -- * > "$scratch/sums" && mv "$scratch/sums" SHA256SUMS)
chmod 755 "$new"
[ ! -d "$folder" ] || rmdir -- "$folder"
mv -- "$new" "$folder" || stop 73 "$folder can't be written"
