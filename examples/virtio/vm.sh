# shellcheck shell=bash disable=SC2154,SC2034 # what its caller sets, and what it sets for its caller
# examples/virtio/vm.sh, sourced: a virtual machine with a virtio card, whose other end is a TAP device in a namespace.
# Settings: BUILT, a folder in which build.sh has built; CPUS, the number of processors (2); KERNEL, a folder into which
# Debian's kernel packages were unpacked (~/.cache/fintaqush/linux-image, or what is installed). The image is
# boot/vmlinuz-VERSION or, in Debian's newest packages, usr/lib/modules/VERSION/vmlinuz.
export PATH=$PATH:/sbin:/usr/sbin
here=$(dirname "$(readlink -f "${BASH_SOURCE[0]}")")
. "$here/../driver/driver.sh"
name=virtio
address=0000:00:05.0 # the card's, in the machine

# find_kernel: sets `image`, `version` and `modules`.
find_kernel() {
    local kernel kernels=(~/.cache/fintaqush/linux-image '')
    [ -z "${KERNEL:-}" ] || kernels=("$KERNEL")
    for kernel in "${kernels[@]}"; do
        for modules in $(find "$kernel"{,/usr}/lib/modules -mindepth 1 -maxdepth 1 -name '*-amd64' 2> /dev/null | sort -V -r); do
            version=${modules##*/}
            for image in "$kernel/boot/vmlinuz-$version" "$modules/vmlinuz"; do
                [ ! -f "$image" ] || [ ! -d "$modules/kernel/drivers/vfio" ] || return 0
            done
        done
    done
    over linux-image "a Debian kernel with vfio (scripts/test-packages.sh --fetch)"
}

# make_initramfs PROGRAM ..: busybox, `init`, these programs in /bin with their libraries, and the modules for virtio and vfio, in the order
# in which they load.
make_initramfs() {
    local root=$scratch/root all=$scratch/all module library
    mkdir -p "$root"/{bin,dev,modules,proc,sys} "$all/lib/modules/$version"
    cp "$(command -v busybox)" "$@" "$root/bin"
    cp "$here/init" "$root"
    ldd "$@" | grep -o '/[^ :]* (' | while read -r library _; do
        mkdir -p "$root${library%/*}"
        cp "$library" "$root$library"
    done
    ln -s "$modules"/{kernel,modules.{order,builtin,builtin.modinfo}} "$all/lib/modules/$version"
    depmod -b "$all" "$version"
    for module in virtio_pci virtio_net vfio-pci vfio_iommu_type1; do
        modprobe -d "$all" -S "$version" --show-depends "$module"
    done | awk '$1 == "insmod" && !had[$2]++ { print $2 }' | while read -r module; do
        case $module in
        *.xz) xz -dc "$module" ;;
        *) cat "$module" ;;
        esac > "$root/modules/$(printf '%02d' "$(find "$root/modules" -type f | wc -l)")-$(basename "${module%.xz}")"
    done
    (cd "$root" && find . | cpio -o -H newc --quiet) > "$scratch/initramfs"
}

# boot PROGRAM ..: boots the machine with these programs in /bin. What it writes goes to $scratch/console.
boot() {
    local words='console=ttyS0 quiet loglevel=3 panic=-1 no_timer_check intel_iommu=on iommu=pt'
    make_initramfs "$@"
    mkfifo "$scratch"/{commands,monitor.in,monitor.out}
    touch "$scratch/console"
    inside cat "$scratch/monitor.out" > "$scratch/monitor" &
    ip netns exec "$space" timeout -k 10 3000 qemu-system-x86_64 -M q35 -cpu max -accel tcg -smp "${CPUS:-2}" -m 256 -no-reboot -nodefaults \
        -display none -kernel "$image" -initrd "$scratch/initramfs" -append "$words" -device intel-iommu,intremap=on \
        -netdev tap,id=far,ifname=fq0,script=no,downscript=no,vhost=off \
        -device virtio-net-pci,id=card,netdev=far,addr=5,disable-legacy=on,iommu_platform=on,event_idx=off,mac=02:00:00:00:00:02 \
        -chardev "pipe,id=monitor,path=$scratch/monitor" -mon chardev=monitor -serial stdio < "$scratch/commands" > "$scratch/console" 2>&1 &
    machine=$!
    exec 8<> "$scratch/commands" 9<> "$scratch/monitor.in"
    patience=300 wait_for has_booted && wrote 'GUEST ready' 1
}
has_booted() { wrote 'GUEST ready' 1 || has_ended "$machine"; }

# open_machine: builds the driver, and boots a machine in which the card is bound to vfio-pci; status 69 if something that it
# needs is missing.
open_machine() {
    local program
    for program in qemu-system-x86_64 busybox kmod cpio; do
        command -v "$program" > /dev/null || over "$program"
    done
    ! ldd "$(command -v busybox)" > /dev/null 2>&1 || over busybox "the static one of Debian's package busybox-static"
    find_kernel
    make_spaces virtio "fqvirtio-$$"
    ip -n "$space" tuntap add dev fq0 mode tap 2> /dev/null || over /dev/net/tun 'and no TAP device can be made'
    ip -n "$space" addr add 10.99.0.1/24 dev fq0
    built=${BUILT:-$scratch}
    [ -n "${BUILT:-}" ] || "$here/build.sh" "$built" || exit
    boot "$built/virtio" && [ "$(guest bind vfio-pci)" = vfio-pci ] && return
    cat "$scratch/console"
    exit 1
}

# wrote PATTERN COUNT: returns whether at least this many lines of the console match it
wrote() { [ "$(tr -d '\r' < "$scratch/console" | grep -c -x -e "$1")" -ge "$2" ]; }

# guest COMMAND: runs the command in the machine, prints what it wrote, and returns its status
guest() {
    local lines commands
    lines=$(wc -l < "$scratch/console") commands=$(grep -c '^GUEST ' "$scratch/console")
    echo "$*" >&8
    patience=300 wait_for wrote 'GUEST .*' $((commands + 1)) || return 1
    tail -n +$((lines + 1)) "$scratch/console" | tr -d '\r' | awk '/^GUEST / { status = $2; exit } { print } END { exit status }'
}

# start_driver: starts the driver; its link is up afterwards
start_driver() {
    guest "virtio $address > /out &"
    patience=300 wait_for wrote 'virtio: on' 1 || { cat "$scratch/console"; exit 1; }
    ip -n "$space" link set fq0 up
}

# counts: prints the driver's counts
counts() { guest 'had=$(wc -l < /out); kill -USR1 $! && for i in $(seq 99); do [ $(wc -l < /out) = $had ] || break; sleep 1; done; tail -n 3 /out'; }

# card QUEUE: prints how many descriptors the card returned, modulo 2^16, as the host's side sees it (QEMU's monitor)
card() {
    local answers
    answers=$(grep -c used_idx: "$scratch/monitor")
    echo "info virtio-queue-status /machine/peripheral/card/virtio-backend $1" >&9
    patience=300 wait_for has_told $((answers + 1)) && tr -d '\r' < "$scratch/monitor" | awk '$1 == "used_idx:" { last = $2 } END { print last }'
}
has_told() { [ "$(grep -c used_idx: "$scratch/monitor")" -ge "$1" ]; }

close_machine() {
    echo 'poweroff -f' >&8
    patience=60 wait_for has_ended "$machine" || kill -KILL "$machine"
    wait "$machine" 2> /dev/null
    exec 8>&- 9>&-
}
