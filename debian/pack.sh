#!/bin/sh
# Packs what `make install` installs into packages for Debian: pack.sh VERSION [ARCH]. The library for C, if it is built, is
# in two of its own: libtftp1, which programs need at run time, and libtftp-dev. It needs dpkg-deb, and builds nothing. ARCH
# is the processor, if it is another than this host's; BIN is the folder of what is packed, if it is not bin/.
set -eu
umask 022
cd "$(dirname "$0")/.."
version=$1
if ! command -v dpkg-deb > /dev/null; then
    echo "pack.sh: dpkg-deb is not installed" >&2
    exit 2
fi
room=$(mktemp -d)
trap 'rm -rf "$room"' EXIT
trap 'exit 130' HUP INT TERM
root=$room/root
doc=$root/usr/share/doc/fanjuvery
architecture=${2:-$(dpkg --print-architecture)}
case $architecture in
amd64) machine=x86_64 ;;
arm64) machine=aarch64 ;;
*) machine=$(uname -m) ;;
esac
libdir=/usr/lib/$machine-linux-gnu
strip='strip'
test "$machine" = "$(uname -m)" || strip=$machine-linux-gnu-strip
tools/install.sh install DESTDIR="$root" PREFIX=/usr UNITDIR=/lib/systemd/system LIBDIR="$libdir" > /dev/null

# the newest version of the C library that these files ask for
libc_of() {
    grep -aoh 'GLIBC_[0-9][0-9.]*' "$@" | sed 's/^GLIBC_//' | sort -uV | tail -n 1
}

# a package of the library, PACKAGE at FOLDER: its documents and its control files
library_package() {
    docs=$2/usr/share/doc/$1
    mkdir -p "$docs" "$2/DEBIAN"
    cp debian/copyright "$docs/copyright"
    gzip -9nc debian/changelog > "$docs/changelog.gz"
    find "$2/usr" -type d -exec chmod 755 {} +
    sed "s/@VERSION@/$version/
        s/@ARCHITECTURE@/$architecture/
        s/@LIBC@/$3/
        s/@SIZE@/$(du -sk --exclude=DEBIAN "$2" | cut -f 1)/" "debian/control.$1" > "$2/DEBIAN/control"
    (cd "$2" && find usr -type f -print0 | LC_ALL=C sort -z | xargs -0 md5sum) > "$2/DEBIAN/md5sums"
}

# the library is apart: what a program needs at run time, and what its build needs
lib=$room/libtftp1 dev=$room/libtftp-dev
if test -e "$root$libdir/libtftp.so.1"; then
    mkdir -p "$lib$libdir" "$lib/DEBIAN"
    mv "$root$libdir/libtftp.so.1" "$lib$libdir/libtftp.so.1"
    ! command -v "$strip" > /dev/null || "$strip" --strip-unneeded --remove-section=.comment --remove-section=.note \
        "$lib$libdir/libtftp.so.1"
    echo "libtftp 1 libtftp1 (>= 0.1.0)" > "$lib/DEBIAN/shlibs"
    {
        echo "libtftp.so.1 libtftp1 #MINVER#"
        echo " LIBTFTP_1@LIBTFTP_1 0.1.0"
        sed -n 's/^ *\(tftp_[a-z_]*\);$/ \1@LIBTFTP_1 0.1.0/p' packaging/libtftp.map
    } > "$lib/DEBIAN/symbols"
    echo "activate-noawait ldconfig" > "$lib/DEBIAN/triggers"
    library_package libtftp1 "$lib" "$(libc_of "$lib$libdir/libtftp.so.1")"
fi
if test -e "$root$libdir/libtftp.a"; then
    examples=$dev/usr/share/doc/libtftp-dev/examples
    mkdir -p "$dev/usr/share/man" "$dev/usr/lib" "$examples"
    mv "$root/usr/include" "$dev/usr/include"
    mv "$root$libdir" "$dev/usr/lib/"
    rmdir "$root/usr/lib"
    mv "$root/usr/share/man/man3" "$dev/usr/share/man/"
    gzip -9n "$dev"/usr/share/man/man3/*
    ! command -v "$strip" > /dev/null || "$strip" --strip-debug --enable-deterministic-archives "$dev$libdir/libtftp.a"
    for language in c cpp rust go python; do
        (cd examples && git ls-files "$language" 2> /dev/null | grep . || find "$language" -type f) |
            while read -r file; do
                mkdir -p "$examples/$(dirname "$file")"
                install -m 644 "examples/$file" "$examples/$file"
            done
    done
    library_package libtftp-dev "$dev" ''
fi

# where Debian has them; what an operator changes in the settings stays at an upgrade
mkdir -p "$root/etc/default"
mv "$doc/tftpd.default" "$root/etc/default/fanjuvery-tftpd"
mkdir -p "$root/usr/share/zsh/vendor-completions"
mv "$root"/usr/share/zsh/site-functions/* "$root/usr/share/zsh/vendor-completions"
rmdir "$root/usr/share/zsh/site-functions"
# what other packages have, too, has a name of its own: postinst gives it that one where it is free
mv "$root/usr/bin/tftp" "$root/usr/bin/fanjuvery-tftp"
mv "$root/usr/share/man/man1/tftp.1" "$root/usr/share/man/man1/fanjuvery-tftp.1"
mv "$root/usr/share/man/man8/tftpd.8" "$root/usr/share/man/man8/fanjuvery-tftpd.8"
mv "$root/usr/share/bash-completion/completions/tftp" "$root/usr/share/bash-completion/completions/fanjuvery-tftp"
gzip -9n "$root"/usr/share/man/man*/*
mkdir -p "$root/usr/share/lintian/overrides"
{
    echo "# it is fanjuvery-tftpd.8: other servers have a manual of the name tftpd.8"
    echo "fanjuvery: no-manual-page [usr/bin/tftpd]"
} > "$root/usr/share/lintian/overrides/fanjuvery"
rm "$doc/LICENSE"
cp debian/copyright "$doc/copyright"
gzip -9nc debian/changelog > "$doc/changelog.gz"
chmod 644 "$doc"/*

if command -v "$strip" > /dev/null; then
    "$strip" --strip-unneeded "$root"/usr/bin/*
else
    echo "pack.sh: $strip is not installed: the programs keep their symbols" >&2
fi
libc=$(libc_of "$root"/usr/bin/*)
mkdir "$root/DEBIAN"
# (a program that has the C library in itself asks for none)
sed "$(test -n "$libc" || echo '/@LIBC@/d')
    s/@VERSION@/$version/
    s/@ARCHITECTURE@/$architecture/
    s/@LIBC@/$libc/
    s/@SIZE@/$(du -sk --exclude=DEBIAN "$root" | cut -f 1)/" debian/control > "$root/DEBIAN/control"
echo /etc/default/fanjuvery-tftpd > "$root/DEBIAN/conffiles"
for script in postinst prerm postrm; do
    install -m 755 "debian/$script" "$root/DEBIAN/$script"
done
(cd "$root" && find usr lib -type f -print0 | LC_ALL=C sort -z | xargs -0 md5sum) > "$root/DEBIAN/md5sums"

mkdir -p out
# the time of the commit, or else that of the changelog
SOURCE_DATE_EPOCH=$(git log -1 --format=%ct 2> /dev/null ||
    date -d "$(sed -n 's/^ -- .*>  //p' debian/changelog | head -n 1)" +%s)
export SOURCE_DATE_EPOCH
package=out/fanjuvery_${version}_$architecture.deb
dpkg-deb --root-owner-group --build "$root" "$room/package.deb" > /dev/null
mv "$room/package.deb" "$package"
for library in libtftp1 libtftp-dev; do
    test -d "$room/$library" || continue
    dpkg-deb --root-owner-group --build "$room/$library" "$room/library.deb" > /dev/null
    mv "$room/library.deb" "out/${library}_${version}_$architecture.deb"
done
echo "$package"
