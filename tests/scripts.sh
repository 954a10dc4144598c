#!/usr/bin/env bash
# What scripts of bench/, examples/ and scripts/ reject; how ./test counts and names what its scripts skip, and that
# tests/needs.txt has all that they need; and scripts/gate-times.sh on a gate that proves nothing. The last line is `N passed, M
# failed, K skipped`.
. "$(dirname "$(readlink -f "$0")")/../scripts/checks.sh"

# refuses SCRIPT ARGUMENT ..: a line, status 64, and nothing is made.
refuses() {
    local status=0
    "$top/$1" "${@:2}" > "$scratch/out" 2>&1 || status=$?
    check "$* is refused" [ "$status $(wc -l < "$scratch/out") $(grep -c "^$(basename "$1"): " "$scratch/out")" = '64 1 1' ]
}

refuses scripts/gate-times.sh "$scratch/no-gate"
refuses bench/limits.sh many
refuses bench/limits.sh 1 2
refuses bench/machine.sh many
refuses bench/receive.sh 0
refuses bench/refusals.sh "$top/README.md"
refuses bench/replay.sh "$scratch/none"
refuses bench/replay.sh /bin/cat -3
TRACES=$scratch/none refuses bench/replay.sh
refuses bench/traces.sh
refuses bench/traces.sh "$scratch/traces" 1e5
refuses examples/compare.sh "$scratch/none"
refuses scripts/test-packages.sh more
refuses scripts/test-packages.sh --list more
refuses scripts/site.sh
refuses scripts/site.sh a b
refuses scripts/site.sh ''
refuses scripts/release.sh
refuses scripts/release.sh a b
check 'a refused script makes nothing' [ ! -e "$scratch/traces" ]

# Each script that can be called says how, makes nothing, and rejects an option that it doesn't have.
# helps SCRIPT: prints its head, which begins with how it is called, and succeeds.
helps() {
    (cd "$scratch/empty" && timeout 1h "$top/$1" --help) > "$scratch/out" 2> "$scratch/err" && [ ! -s "$scratch/err" ] &&
        [ -z "$(ls -A "$scratch/empty")" ] && [[ $(head -n 1 "$scratch/out") =~ ^(scripts|\.)/${1##*/}[\ :] ]]
}
# knows_its_options SCRIPT: an unknown one ends with a line and status 64.
knows_its_options() {
    local status=0
    (cd "$scratch/empty" && timeout 1h "$top/$1" --no-such-option) > "$scratch/out" 2>&1 || status=$?
    [ "$status $(wc -l < "$scratch/out") $(ls -A "$scratch/empty")" = '64 1 ' ]
}
mkdir "$scratch/empty"
for script in test $(cd "$top" && find scripts -type f -perm -u+x | sort); do
    check "$script --help" helps "$script"
    check "$script --no-such-option" knows_its_options "$script"
done

# ./test on a repository of five scripts: three skip something, and two of these say so in a form that doesn't count.
mkdir -p "$scratch/low/scripts" "$scratch/low/tests"
cp "$top/test" "$scratch/low"
cp "$top"/scripts/{arguments,checks}.sh "$scratch/low/scripts"
printf '%s\n' '# needs' 'spin spin' 'root -' 'cc gcc libc6-dev' > "$scratch/low/tests/needs.txt"
# script NAME LINE ..: a script that counts two checks, with these lines between them.
script() {
    { printf '%s\n' '#!/bin/bash' 'top=$(dirname "$(dirname "$(readlink -f "$0")")") scratch=$(mktemp -d)' '. "$top/scripts/checks.sh"' \
        'check one true' "${@:2}" 'check two true' 'sum_up'; } > "$scratch/low/tests/$1.sh"
    chmod +x "$scratch/low/tests/$1.sh"
}
script whole
script part "skip 'the search' spin cc" "skip 'the card' root"
script unknown "skip 'the search' none"
script uncounted "echo 'skipped: the search needs spin'"
script broken 'check three false'
script building "scripts/build.sh napi_serial || check three false"
# sums STATUS LINE NAME ..: ./test on these scripts ends like this.
sums() {
    local status=0
    "$scratch/low/test" "${@:3}" > "$scratch/out" 2>&1 || status=$?
    check "./test ${*:3}" [ "$status $(tail -n 1 "$scratch/out")" = "$1 $2" ]
}
sums 0 '2 passed, 0 failed, 0 skipped' whole
sums 0 '4 passed, 0 failed, 2 skipped' whole part
check 'it names what was skipped, with the packages' grep -qxF '    part: the search needs spin (Debian: spin) cc (Debian: gcc libc6-dev)' "$scratch/out"
check 'and what no package gives' grep -qxF '    part: the card needs root' "$scratch/out"
check 'and how to install them' grep -q 'scripts/test-packages.sh installs the packages' "$scratch/out"
sums 1 '2 passed, 1 failed, 0 skipped' unknown
sums 1 '2 passed, 1 failed, 0 skipped' uncounted
sums 1 '4 passed, 1 failed, 2 skipped' part broken
# without_rt: a folder with what is on PATH, but for rt
without_rt() {
    local folder
    mkdir "$scratch/bin"
    for folder in ${PATH//:/ }; do ln -s "$folder"/* "$scratch/bin" 2> /dev/null; done
    rm -f "$scratch/bin/rt"
    ! PATH=$scratch/bin command -v rt
}
check 'a PATH without rt' without_rt
PATH=$scratch/bin sums 0 '2 passed, 0 failed, 1 skipped' whole building
check 'what builds is skipped without rt, by its name' grep -qxF '    building: all of it needs rt' "$scratch/out"
check 'tests/needs.txt has what tests need, and nothing else' python3 -B "$top/tests/needs.py"
check 'scripts/test-packages.sh lists the packages' grep -qx python3-matplotlib <("$top/scripts/test-packages.sh" --list)
check 'and what each gives' grep -qx 'spin: the search of the models' <("$top/scripts/test-packages.sh" --gives)
check 'for all that it lists, and those that are only fetched' eval '[ "$("$top/scripts/test-packages.sh" --gives | grep -vc "^linux-")" = "$("$top/scripts/test-packages.sh" --list | wc -l)" ]'
# without_root: in a copy that every user may read.
without_root() {
    local status=0 as=()
    mkdir -p "$scratch/free/scripts" "$scratch/free/tests" && cp "$top"/scripts/{test-packages,arguments}.sh "$scratch/free/scripts"
    chmod -R a+rX "$scratch"
    [ "$(id -u)" != 0 ] || as=(setpriv --reuid=65534 --regid=65534 --clear-groups)
    "${as[@]}" "$scratch/free/scripts/test-packages.sh" > "$scratch/out" 2>&1 || status=$?
    [ "$status $(cat "$scratch/out")" = '69 test-packages.sh: only root may install packages: run it with sudo' ]
}
! command -v apt-get > /dev/null || check 'and asks for root in a line' without_root

# `scripts/test-packages.sh --fetch`, and where the driver in a guest finds the kernel: with Debian's packages as they were, and
# as they are since the image has its own package. The replacements for apt-get and apt-cache pack folders. deb NAME FILE ..: a
# package of empty files.
deb() {
    local file
    rm -rf "$scratch/deb"
    mkdir -p "$scratch/deb/DEBIAN"
    printf '%s\n' "Package: $1" 'Version: 1' 'Architecture: all' 'Maintainer: none <none@none>' 'Description: none' > "$scratch/deb/DEBIAN/control"
    for file in "${@:2}"; do
        mkdir -p "$scratch/deb/${file%/*}"
        : > "$scratch/deb/$file"
    done
    dpkg-deb -b "$scratch/deb" "$scratch/debs/$1.deb" > "$scratch/out"
}
# fetches IMAGE MODULES: into a fresh home; the second time nothing is downloaded.
fetches() {
    local home=$scratch/fetched/home wanted=.cache/fintaqush/linux-image name
    rm -rf "$scratch/fetched"
    mkdir -p "$home" "$scratch/fetched"/{scripts,tests} "$scratch/debs"
    cp "$top"/scripts/{test-packages,arguments}.sh "$scratch/fetched/scripts"
    for name in kernel cards arm64; do printf '#!/bin/sh\n' > "$scratch/fetched/tests/$name.sh"; done
    chmod +x "$scratch/fetched/tests"/*.sh
    PATH=$scratch/apt:$PATH HOME=$home "$scratch/fetched/scripts/test-packages.sh" --fetch &&
        PATH=/none:/bin:/usr/bin HOME=$home "$scratch/fetched/scripts/test-packages.sh" --fetch &&
        [ "$(HOME=$home bash -c '. "$1/examples/virtio/vm.sh"; find_kernel; echo "$image $modules $version"' '' "$top")" = \
            "$home/$wanted/$1 $home/$wanted/$2 ${2##*/}" ]
}
if has dpkg-deb 'the fetched kernel'; then
    mkdir -p "$scratch/apt" "$scratch/debs"
    printf '#!/bin/sh\nfor it in "$@"; do [ "$it" = download ] || cp "%s/$it.deb" .; done\n' "$scratch/debs" > "$scratch/apt/apt-get"
    printf '#!/bin/sh\ncat "%s/$2"\n' "$scratch/debs" > "$scratch/apt/apt-cache"
    chmod +x "$scratch/apt"/*
    deb linux-image-6.1.0-53-cloud-amd64 boot/vmlinuz-6.1.0-53-cloud-amd64 lib/modules/6.1.0-53-cloud-amd64/kernel/drivers/vfio/vfio.ko
    echo '  Depends: linux-image-6.1.0-53-cloud-amd64' > "$scratch/debs/linux-image-cloud-amd64"
    printf '%s\n' linux-image-6.1.0-53-cloud-amd64 '  Depends: kmod' > "$scratch/debs/linux-image-6.1.0-53-cloud-amd64"
    check 'the kernel is fetched, and found' fetches boot/vmlinuz-6.1.0-53-cloud-amd64 lib/modules/6.1.0-53-cloud-amd64
    new=7.3.4+deb13-cloud-amd64
    deb "linux-image-$new" usr/share/doc/none
    deb "linux-base-$new" "usr/lib/modules/$new/modules.order"
    deb "linux-binary-$new" "usr/lib/modules/$new/vmlinuz"
    deb "linux-modules-$new" "usr/lib/modules/$new/kernel/drivers/vfio/vfio.ko.xz"
    printf '  Depends: %s\n' linux-base-cloud-amd64 "linux-image-$new" linux-modules-cloud-amd64 > "$scratch/debs/linux-image-cloud-amd64"
    printf '  Depends: %s\n' linux-base "linux-base-$new" "linux-binary-$new" "linux-modules-$new" > "$scratch/debs/linux-image-$new"
    check 'and one whose image has a package of its own' fetches "usr/lib/modules/$new/vmlinuz" "usr/lib/modules/$new"
fi

# A tool that has to build first says so at once: the replacement for the toolchain never ends.
mkdir -p "$scratch/kit/bin" "$scratch/kit/rattle"
printf '#!/bin/sh\necho "%s/kit/rattle"\n' "$scratch" > "$scratch/kit/bin/rt"
printf '#!/bin/sh\nexec sleep 600\n' > "$scratch/kit/bin/rattle"
: > "$scratch/kit/KIT-ID"
chmod +x "$scratch/kit/bin"/*
# comes COMMAND ..: repeats the command until it succeeds; fails after some minutes.
comes() { for _ in $(seq 30000); do "$@" > /dev/null 2>&1 && return; sleep 0.05; done; return 1; }
says_that_it_builds() {
    "$top/scripts/fresh_clone.sh" "$scratch/clone" && rm -f "$scratch"/clone/fintaqush/{crates/*/out/*,web/napi_*}
    (cd "$scratch/clone/fintaqush" && cp tests/tools/soft-tcp.csv mine.csv &&
        exec env -i PATH="$scratch/kit/bin:$PATH" HOME="$scratch/clone/home" ./fintaqush compare mine.csv --budget 300 --) > "$scratch/out" 2>&1 &
    comes grep 'proving and building napi_serial' "$scratch/out"
    local status=$?
    kill $!
    wait $!
    return "$status"
}
check 'compare without a built program says that it builds' says_that_it_builds

# The launcher with too few descriptors doesn't say that python3 is missing; interrupted, or out of memory, while it starts it
# ends with a message: csv.py is imported then.
tells_no_untruth() {
    local most
    for most in 10 11 12 13 14; do
        ! (ulimit -n "$most"; "$top/replay" --version) 2>&1 | grep 'no python3' || return 1
    done
}
ends_in_a_line() {
    mkdir -p "$scratch/begins" && cp -r "$top/replay" "$top/scripts" "$top/tools" "$scratch/begins"
    echo "$1" > "$scratch/begins/tools/csv.py"
    ! "$scratch/begins/replay" --version 2> "$scratch/out" && [ "$(cat "$scratch/out")" = "replay: $2" ]
}
check 'too few descriptors are no missing python3' tells_no_untruth
check 'the launcher is interrupted as it begins' ends_in_a_line 'import os; os.kill(os.getpid(), 2)' interrupted
check 'it is out of memory as it begins' ends_in_a_line 'raise MemoryError' "there isn't enough memory"

# A gate of one crate, whose prover is a shell with the prover's name. It ends after the processes were read again: that is before a line
# that follows two lines over half a second apart.
mkdir -p "$scratch/rt-edit-x/tests"
echo 'eval "$work"' > "$scratch/rt-edit-x/tests/one.sh"
cat > "$scratch/gate" << 'END'
#!/usr/bin/env bash
export work='for ((i = 0; i < 300000; i++)); do :; done
    for pause in 0 0.7 0; do sleep "$pause"; echo "$$ $((++lines))"; until grep "  $$ $lines\$" "$LOG"; do sleep 0.05; done > /dev/null; done'
prove() { bash -c 'exec -a /x/rattle bash -c "$work" "$@"' '' "$@"; }
prove check --crate-name low && echo 'rt: low proved'
prove check --crate-name low --test && echo 'rt: low: its tests are proved'
cd "$1" && prove check --crate-name low
bash tests/one.sh
bash tests/one.sh
printf 'must-fail low/%s: refused\n' one two
echo '3 passed, 1 failed'
exit 1
END
chmod +x "$scratch/gate"
status=0
LOG=$scratch/gate.log "$top/scripts/gate-times.sh" "$scratch/gate" "$scratch/rt-edit-x" > "$scratch/out" 2>&1 || status=$?
check "the gate's status is the script's" [ "$status" = 1 ]
check 'its lines have their seconds' grep -q '^ *[0-9]*\.[0-9]  rt: low proved$' "$scratch/out"
check 'a crate has its row' grep -q '^low  *[0-9.]* s  *[0-9.]* s  *[0-9.]* s  *[0-9.]* s  *2: [0-9.]* s  *[0-9.]* s$' "$scratch/out"
check 'with processor time in each place' [ "$(awk '/^low/ { print ($4 > 0), ($8 > 0), ($13 > 0) }' "$scratch/out")" = '1 1 1' ]
parts() { awk '/^(proofs|tests|edits|scripts) / { print $1, ($6 > 0), ($2 > 0.5 || $1 != "scripts") }' "$scratch/out" | xargs; }
check 'each part has its wall and processor time' [ "$(parts)" = 'proofs 1 1 tests 1 1 edits 1 1 scripts 1 1' ]
check 'and all that is in the log' cmp "$scratch/out" "$scratch/gate.log"
status=0
LOG=/proc/none/log "$top/scripts/gate-times.sh" true 2> "$scratch/out" || status=$?
check 'a log that cannot be written' [ "$status" = 73 ]
cp "$(command -v sleep)" "$scratch/slow"
status=0
LOG=$scratch/gate.log env --default-signal=INT "$top/scripts/gate-times.sh" "$scratch/slow" 600 > "$scratch/out" 2>&1 &
comes pgrep -f "^$scratch/slow"
kill -INT $!
wait $! || status=$?
check 'it can be interrupted, and ends the gate' [ "$status $(pgrep -f "^$scratch/slow")" = '130 ' ]
sum_up
