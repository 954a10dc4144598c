#!/usr/bin/env bash
# tests/cards/fetch.sh FOLDER [--kernel | --arm64]: downloads QEMU, a Debian kernel and the guest's programs of tests/cards.sh by apt-get, and
# unpacks them into FOLDER/root; with --kernel only a kernel, into FOLDER; with --arm64 Python and Rust's library for tests/arm64.sh, of this
# machine's release of Debian, into FOLDER. It installs nothing: apt has its own settings and state in a scratch folder. 160 MB are downloaded,
# 300 MB unpacked; with --arm64 40 and 200 MB. The packages are those of the rows `linux-cards` and `linux-arm64` in tests/needs.txt, of
# Debian's release SUITE. Exit status: 0, or that of what failed.
set -euo pipefail
unset CDPATH
top=$(dirname "$(dirname "$(dirname "$(readlink -f "$0")")")")
folder=$1
what=${2:-}
suite=${SUITE:-trixie}
[ "$what" != --arm64 ] || suite=$(. /etc/os-release && echo "${VERSION_CODENAME:-$suite}")
key=/usr/share/keyrings/debian-archive-keyring.gpg
[ -f "$key" ] || { echo "fetch.sh: there is no $key: this downloads packages of Debian" >&2; exit 1; }
mkdir -p "$(dirname "$folder")"
work=$(mktemp -d "$folder.XXXXXX")
trap 'rm -rf "$work"' EXIT
mkdir -p "$work"/{lists,cache/archives}/partial "$work"/{state,root}
echo "deb [signed-by=$key] http://deb.debian.org/debian $suite main" > "$work/sources"
: > "$work/status"
own=(-q -o Dir::Etc::sourcelist="$work/sources" -o Dir::Etc::sourceparts=/dev/null -o Dir::State="$work/state"
     -o Dir::State::lists="$work/lists" -o Dir::State::status="$work/status" -o Dir::Cache="$work/cache" -o Acquire::Languages=none
     -o Debug::NoLocking=1 -o Acquire::http::Timeout=20 -o APT::Sandbox::User=root)
[ "$what" != --arm64 ] || own+=(-o APT::Architecture=arm64 -o APT::Architectures::=arm64)
# needed PACKAGE PATTERN: prints those dependencies of the package whose names match the pattern.
needed() { apt-cache "${own[@]}" depends "$1" | sed -n "s/.*Depends: \($2\)\$/\1/p"; }
apt-get "${own[@]}" update
if [ "$what" = --arm64 ]; then
    # without the packages that they depend on, but for the libraries that Python needs
    minimal=$(needed python3-minimal 'python3\.[0-9]*-minimal')
    stdlib=lib${minimal%-minimal}-stdlib
    mapfile -t names < <(printf '%s\n' "$minimal" "lib$minimal" "$stdlib" libexpat1 zlib1g libstd-rust-dev; needed "$stdlib" 'libffi[0-9]*')
else
    # the kernel without the packages that it depends on, but for those that it is split into
    image=$(needed linux-image-amd64 'linux-image-[^ ]*' | head -n 1)
    mapfile -t names < <(echo "$image"; needed "$image" 'linux-binary-[^ ]*'; needed "$image" 'linux-modules-[^ ]*')
fi
if [ -z "$what" ]; then
    read -ra packages < <(awk '$1 == "linux-cards" { sub(/ *#.*/, ""); sub(/linux-image-amd64/, ""); $1 = ""; print }' "$top/tests/needs.txt")
    apt-get -y -d --no-install-recommends "${own[@]}" install "${packages[@]}"
fi
(cd "$work/cache/archives" && apt-get "${own[@]}" download "${names[@]}")
for deb in "$work"/cache/archives/*.deb; do
    dpkg-deb --fsys-tarfile "$deb" | tar -x -C "$work/root" --exclude='./usr/share/doc*' --exclude='./usr/share/man*' --exclude='./usr/share/locale*'
done
rm -rf "$folder"
if [ -n "$what" ]; then
    mv "$work/root" "$folder"
else
    mkdir "$folder"
    mv "$work/root" "$folder/root"
fi
