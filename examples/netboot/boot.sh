#!/usr/bin/env bash
# Boots a machine in QEMU from tftpd, and has it fetch and send a file: boot.sh uefi|bios
# UEFI: the firmware (EDK2) fetches GRUB, which fetches a kernel and an initrd. BIOS: iPXE fetches pxelinux, which does.
# The machine is emulated, and its network is a tap in a network namespace of its own: nothing of this host is reached.
# TFTPD is the server (bin/tftpd), KERNEL a kernel of Debian's, MODULES its folder of modules, LIMIT the seconds that a
# boot may take, LOG a file for the server's log, and CAPTURE one for a capture of all UDP, by tcpdump (none).
# Needs root, and the packages that are named where they are missing.
set -euo pipefail
here=$(cd "$(dirname "$0")" && pwd)
firmware=${1:-}
TFTPD=${TFTPD:-$here/../../bin/tftpd}
KERNEL=${KERNEL:-$(find /boot -name 'vmlinuz-*' | sort -V | tail -n 1)}
MODULES=${MODULES:-/lib/modules/${KERNEL##*/vmlinuz-}}
LIMIT=${LIMIT:-240}
CAPTURE=${CAPTURE:-}
server=192.168.77.1 machine=192.168.77.2

case $firmware in uefi | bios) ;; *) echo "usage: boot.sh uefi|bios" >&2 && exit 2 ;; esac

# names what is not there
missing=
need() { test -e "$1" || missing="$missing$1 ($2)"$'\n'; }
command_of() { command -v "$1" || echo "$1"; }
need "$TFTPD" "make tftpd"
need "${KERNEL:-a kernel in /boot}" "linux-image-cloud-amd64, or KERNEL= and MODULES="
need "$MODULES" "the modules of the kernel"
need "$(command_of qemu-system-x86_64)" qemu-system-x86
need "$(command_of dnsmasq)" dnsmasq-base
need "$(command_of ip)" iproute2
need "$(command_of cpio)" cpio
need /bin/busybox busybox-static
test -z "$CAPTURE" || need "$(command_of tcpdump)" tcpdump
if test "$firmware" = uefi; then
    need /usr/share/ovmf/OVMF.fd ovmf
    need "$(command_of grub-mkimage)" grub-common
    need /usr/lib/grub/x86_64-efi grub-efi-amd64-bin
else
    need /usr/lib/ipxe/qemu/pxe-virtio.rom ipxe-qemu
    need /usr/lib/PXELINUX/pxelinux.0 pxelinux
    need /usr/lib/syslinux/modules/bios/ldlinux.c32 syslinux-common
fi
test -z "$missing" || { printf 'missing:\n%s' "$missing" >&2 && exit 3; }
test "$(id -u)" = 0 || { echo "needs root, for a network namespace" >&2 && exit 3; }

work=$(mktemp -d) space=netboot$$ pids=()
clear_up() {
    for pid in "${pids[@]}"; do kill "$pid" 2> /dev/null || true; done
    wait
    ip netns delete "$space" 2> /dev/null || true
    rm -rf "$work"
}
trap clear_up EXIT
trap 'exit 1' INT TERM
inside=(ip netns exec "$space") # no function: what it begins in the background is to be ended by its number

# the machine's files: an initrd of busybox, the modules of its network card, and what it runs
initrd() {
    local root=$work/initrd
    mkdir -p "$root"/{bin,proc,modules}
    cp /bin/busybox "$root/bin/busybox"
    for name in virtio_ring virtio virtio_pci_legacy_dev virtio_pci_modern_dev virtio_pci failover net_failover virtio_net; do
        found=$(find "$MODULES" -name "$name.ko" -print -quit)
        test -z "$found" || cp "$found" "$root/modules/$name.ko"
    done
    cat > "$root/init" << END
#!/bin/busybox sh
busybox mount -t proc proc /proc
for name in virtio_ring virtio virtio_pci_legacy_dev virtio_pci_modern_dev virtio_pci failover net_failover virtio_net; do
    test ! -e /modules/\$name.ko || busybox insmod /modules/\$name.ko
done
busybox ip link set eth0 up
busybox ip address add $machine/24 dev eth0
busybox tftp -g -b 1428 -r blob -l /blob $server && busybox tftp -p -b 1428 -l /blob -r sent $server
busybox sha256sum /blob && echo "machine: fetched and sent" || { busybox dmesg | busybox tail -n 20; busybox ip address; }
busybox poweroff -f
END
    chmod +x "$root/init"
    (cd "$root" && find . | cpio --quiet -o -H newc | gzip -1) > "$1"
}

root=$work/root
mkdir -p "$root/grub" "$root/pxelinux.cfg"
cp "$KERNEL" "$root/vmlinuz"
initrd "$root/initrd.gz"
head -c 3000000 /dev/urandom > "$root/blob"
if test "$firmware" = uefi; then
    file=boot.efi
    grub-mkimage -O x86_64-efi -o "$root/$file" -p '(tftp)/grub' efinet tftp normal linux echo
    printf 'linux /vmlinuz console=ttyS0 panic=-1\ninitrd /initrd.gz\nboot\n' > "$root/grub/grub.cfg"
    machine_words=(-bios /usr/share/ovmf/OVMF.fd) rom=,romfile= # the firmware's own PXE, and not the card's
else
    file=pxelinux.0
    cp /usr/lib/PXELINUX/pxelinux.0 /usr/lib/syslinux/modules/bios/ldlinux.c32 "$root"
    printf 'default linux\nlabel linux\nkernel vmlinuz\nappend initrd=initrd.gz console=ttyS0 panic=-1\n' \
        > "$root/pxelinux.cfg/default"
    machine_words=() rom=
fi

# the network: one namespace with a tap, a server of addresses, and tftpd at port 69
ip netns add "$space"
"${inside[@]}" ip link set lo up
"${inside[@]}" ip tuntap add tap0 mode tap
"${inside[@]}" ip address add "$server/24" dev tap0
"${inside[@]}" ip link set tap0 up
if test -n "$CAPTURE"; then
    "${inside[@]}" timeout "$LIMIT" tcpdump -i tap0 -Z root -B 16384 -w "$CAPTURE" udp 2> "$work/tcpdump.log" &
    pids+=($!)
fi
"${inside[@]}" timeout -s KILL "$LIMIT" dnsmasq --no-daemon --conf-file=/dev/null --port=0 --interface=tap0 \
    --bind-interfaces --dhcp-range="$machine,$machine,1h" --dhcp-boot="$file,,$server" --dhcp-leasefile="$work/leases" \
    > "$work/dnsmasq.log" 2>&1 &
pids+=($!)
"${inside[@]}" timeout -s KILL "$LIMIT" "$TFTPD" "$root" --listen "$server:69" --cap 64 --forever --log \
    > "$work/closed" 2> "${LOG:-$work/log}" &
pids+=($!)

began=$SECONDS
"${inside[@]}" timeout -s KILL "$LIMIT" qemu-system-x86_64 "${machine_words[@]}" -machine q35 -m 768 -boot n \
    -nographic -monitor none -serial stdio -no-reboot -netdev tap,id=net0,ifname=tap0,script=no,downscript=no \
    -device "virtio-net-pci,netdev=net0$rom" < /dev/null > "$work/console" 2>&1 || true
seconds=$((SECONDS - began))
sleep 3 # a server closes a put two timeouts after its last block

grep -aq '^machine:' "$work/console" || { tail -n 20 "$work/console" "$work/dnsmasq.log" && exit 1; }
echo "$firmware: from power on to power off in $seconds s; $(wc -l < "$work/closed") lines of closed transfers"
sort "${LOG:-$work/log}" | sed -n 's/^\(opened\|refused\) [0-9. :]* \(RRQ\|WRQ\)/\1 \2/p' | sort | uniq -c
cmp "$root/blob" "$root/sent" || exit 1
echo "the file that the machine fetched and sent is equal"
