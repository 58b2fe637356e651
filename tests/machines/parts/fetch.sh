#!/usr/bin/env bash
# Fetches what a whole ARM64 machine is made of, from Debian's archive: fetch.sh FOLDER
# The kernel with the modules of a virtio network card, a busybox, and gnu-efi, all for arm64, into a folder: vmlinuz,
# modules/ (in the order in which they are loaded), busybox, and usr/ of gnu-efi. It changes nothing of this host's packages:
# apt has lists of its own there. It needs apt and the network.
set -eu
to=${1:?usage: fetch.sh FOLDER}
mkdir -p "$to"
to=$(realpath "$to")
room=$(mktemp -d)
trap 'rm -rf "$room"' EXIT
trap 'exit 130' HUP INT TERM
cd "$room"
mkdir -p lists/partial cache/archives/partial
mirror=$(sed -n 's/^URIs: *//p; s/^deb \(\[[^]]*\] \)\?\(http[^ ]*\) .*/\2/p' /etc/apt/sources.list /etc/apt/sources.list.d/*.sources \
    /etc/apt/sources.list.d/*.list 2> /dev/null | head -n 1)
release=$(. /etc/os-release && echo "$VERSION_CODENAME")
echo "deb [arch=arm64 signed-by=/usr/share/keyrings/debian-archive-keyring.gpg] ${mirror:-http://deb.debian.org/debian} $release main" > sources
own=(-q -o Dir::Etc::SourceList="$room/sources" -o Dir::Etc::SourceParts=/dev/null -o Dir::State::Lists="$room/lists"
    -o Dir::Cache="$room/cache" -o APT::Architecture=arm64 -o APT::Architectures=arm64 -o APT::Sandbox::User=root
    -o Acquire::http::Timeout=20 -o Acquire::Retries=2)
apt-get "${own[@]}" update > /dev/null
kernel=$(apt-cache "${own[@]}" depends linux-image-arm64 | sed -n 's/^ *Depends: \(linux-image-[0-9].*\)$/\1/p' | head -n 1)
apt-get "${own[@]}" download "$kernel" busybox-static gnu-efi > /dev/null
for package in ./*.deb; do dpkg-deb -x "$package" root; done

rm -rf "${to:?}/modules" "${to:?}/usr"
mkdir "$to/modules"
cp root/boot/vmlinuz-* "$to/vmlinuz"
cp root/bin/busybox "$to/busybox"
mkdir -p "$to/usr/include" "$to/usr/lib"
cp -r root/usr/include/efi "$to/usr/include"
find root/usr/lib \( -name '*efi*.o' -o -name '*efi*.lds' -o -name 'lib*efi.a' \) -exec cp {} "$to/usr/lib" \;
tree=$(echo root/lib/modules/*)
# a module and those that it needs, each after its own needs
needed() {
    local path needs need
    path=$(find "$tree" -name "$1.ko*" | head -n 1)
    test -n "$path" || return 0
    needs=$(tr '\0' '\n' < "$path" | sed -n 's/^depends=//p' | tr ',' ' ')
    for need in $needs; do needed "$need"; done
    grep -qxF "$path" order || echo "$path" >> order
}
: > order
for module in virtio_pci virtio_mmio virtio_net; do needed "$module"; done
number=10
while read -r path; do
    cp "$path" "$to/modules/$number-${path##*/}"
    number=$((number + 1))
done < order
