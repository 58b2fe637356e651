#!/bin/sh
# Packs the programs and the library with what is installed of them: archive.sh dist|assembly VERSION
# `dist` packs those of bin/, for hosts of this kind; `assembly` packs them as assembly, with what a C compiler builds them by,
# of what tools/modules.py left in out/modules. It proves nothing, and needs gzip, or git and xz. The same files of the same
# commit give the same bytes. Prints the path of the archive.
set -eu
umask 022
cd "$(dirname "$0")/.."
usage='usage: archive.sh dist|assembly VERSION'
kind=${1:?$usage} version=${2:?$usage} programs='tftp tftpd tftp-show tftp-play'
room=$(mktemp -d)
trap 'rm -rf "$room"' EXIT
trap 'exit 130' HUP INT TERM

# put SOURCE PLACE [MODE]
put() {
    mkdir -p "$(dirname "$room/$name/$2")"
    install -m "${3:-644}" "$1" "$room/$name/$2"
}

case $kind in
dist)
    name=fanjuvery-$version-$(uname -m) packed=tar.gz pack='gzip -n'
    for program in $programs; do put "bin/$program" "bin/$program" 755; done
    for library in bin/libtftp.a bin/libtftp.so.1; do test ! -e "$library" || put "$library" "$library" 755; done
    ;;
assembly)
    name=fanjuvery-$version-assembly packed=tar.xz pack='xz -9 --threads=1'
    {
        echo "commit $(git rev-parse HEAD)$(git diff --quiet HEAD 2> /dev/null || echo ' with changes')"
        sed -n 's/^pub const VERSION: &str = "\(.*\) (\(logic .*\))";$/version \1\n\2/p' crates/tftp_arguments/src/arguments.rt
        for arch in amd64 arm64; do
            for part in $programs libtftp; do echo "$arch/$part.s $(cat "out/modules/$arch/$part/verdict")"; done
        done
    } > "$room/BUILT-FROM"
    put "$room/BUILT-FROM" BUILT-FROM
    for arch in amd64 arm64; do
        for part in $programs libtftp libtftp-bare; do put "out/modules/$arch/$part/$part.s" "$arch/$part.s"; done
    done
    for file in os heap malloc; do put "ports/$file.c" "c/$file.c"; done
    for file in examples/efi/* examples/lossy.script; do put "$file" "$file"; done
    put ports/assembly/Makefile Makefile
    sed "s/@VERSION@/$version/" ports/assembly/README > "$room/README"
    put "$room/README" README
    ;;
*)
    echo "$usage" >&2
    exit 2
    ;;
esac
for file in completions/* man/*.[1-8] packaging/* include/* examples/c/* LICENSE SECURITY.md docs/OPERATING.md \
    examples/monitoring/tftpd.rules.yml examples/monitoring/dashboard.json examples/packets.hex; do
    put "$file" "$file"
done
put examples/loopback.sh examples/loopback.sh 755
put tools/install.sh install.sh 755

mkdir -p out
# in order of names, with the owner, the group and the time of the commit
time=$(git log -1 --format=%ct 2> /dev/null || echo 0)
(cd "$room" && find "$name" -type f | LC_ALL=C sort) > "$room/names"
tar -C "$room" -T "$room/names" -c -f - --format=ustar --mtime="@$time" --owner=0 --group=0 --numeric-owner |
    $pack > "$room/archive"
mv "$room/archive" "out/$name.$packed"
echo "out/$name.$packed"
