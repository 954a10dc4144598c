#!/usr/bin/env bash
# scripts/test-packages.sh [--list | --gives | --fetch]: installs on Debian all packages that a test of this repository needs
# (tests/needs.txt), and downloads what tests read without installing it, into out/ and ~/.cache/fintaqush: the kernel sources, the
# kernel image, and the guests of emulated cards. Then ./test skips only what needs no package. --list only prints the packages to
# install, --gives also what each gives to tests, --fetch only downloads, which needs no root. Exit status: 0; 64 other arguments; 69 no
# root, or no apt-get; 70 a package couldn't be installed or downloaded.
set -euo pipefail
unset CDPATH
top=$(dirname "$(dirname "$(readlink -f "${BASH_SOURCE[0]}")")")
. "$top/scripts/arguments.sh"
at_most 1 "$@"

stop() {
    echo "test-packages.sh: $2" >&2
    exit "$1"
}

# names of packages that are only downloaded begin with linux-
packages() { awk '{ sub(/#.*/, "") } NF && $2 != "-" && $1 !~ /^linux-/ { for (i = 2; i <= NF; i++) print $i }' "$top/tests/needs.txt" | sort -u; }

fetch() {
    "$top/tests/kernel.sh" --fetch || stop 70 'the sources of Linux could not be fetched'
    fetch_image
    "$top/tests/cards.sh" --fetch || stop 70 'the packages of tests/cards.sh could not be fetched'
    "$top/tests/arm64.sh" --fetch || stop 70 'the packages of tests/arm64.sh could not be fetched'
}

# depends PACKAGE: prints the packages of Debian's kernel on which it depends.
depends() { apt-cache depends "$1" 2> /dev/null | grep -o 'linux-\(base\|binary\|image\|modules\)-[0-9][^ ]*cloud-amd64$'; }

# fetch_image: unpacks Debian's newest kernel for machines in a cloud: the package linux-image-VERSION and, if it has them, the
# packages with the image and the modules on which it depends.
fetch_image() {
    local image=~/.cache/fintaqush/linux-image room name names
    [ ! -d "$image" ] || return 0
    room=$(mktemp -d)
    # shellcheck disable=SC2064 # the folder of now
    trap "rm -rf '$room'" EXIT
    name=$(depends linux-image-cloud-amd64 | grep '^linux-image-') || stop 70 'there is no package linux-image-cloud-amd64'
    mapfile -t names < <({ echo "$name"; depends "$name"; } | sort -u)
    (cd "$room" && apt-get download "${names[@]}") || stop 70 "${names[*]} could not be fetched"
    mkdir -p "$room/image" "${image%/*}"
    for name in "$room"/*.deb; do dpkg-deb -x "$name" "$room/image" || stop 70 "$name could not be unpacked"; done
    mv "$room/image" "$image"
}

# gives: prints each package, and what it provides for tests; of those that are only downloaded the kernels.
gives() {
    awk -F ' # ' '!/^#/ && NF == 2 { n = split($1, it, " "); for (i = 2; i <= n; i++) if ($1 !~ /^linux-/ || it[i] ~ /^linux-/) { more = (it[i] in what) ? what[it[i]] "; " : ""; what[it[i]] = more $2 } }
        END { for (name in what) print name ": " what[name] }' "$top/tests/needs.txt" | sort
}

case ${1-all} in
--list) packages ;;
--gives) gives ;;
--fetch) fetch ;;
all)
    command -v apt-get > /dev/null || stop 69 'there is no apt-get: this installs packages of Debian'
    [ "$(id -u)" = 0 ] || stop 69 'only root may install packages: run it with sudo'
    # shellcheck disable=SC2046 # names of packages
    apt-get update && DEBIAN_FRONTEND=noninteractive apt-get install -y --no-install-recommends $(packages) ||
        stop 70 'apt-get could not install them all; its messages are above'
    # downloads belong to the user who runs the tests
    if [ -n "${SUDO_USER:-}" ]; then sudo -H -u "$SUDO_USER" "$0" --fetch; else fetch; fi
    echo 'All packages are there: ./test skips only what needs no package.'
    ;;
*) refuse "it takes no '${1//[^[:print:]]/?}'" ;;
esac
