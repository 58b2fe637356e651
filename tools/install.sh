#!/bin/sh
# Installs the programs and the library of bin/ with their manuals, completions, units and documents, or removes them; or
# checks that the programs run on this host. It builds nothing.
# Usage: install.sh install|uninstall [NAME=VALUE..], or install.sh check
# NAME is DESTDIR, PREFIX (/usr/local), PROGRAM_PREFIX (put before each program's name), MANDIR (PREFIX/share/man),
# UNITDIR (PREFIX/lib/systemd/system) or LIBDIR (PREFIX/lib). Without bin/libtftp.a no library is installed. Nothing is
# written or removed but the files below; one that is the same already stays as it is. No ldconfig is run. BIN in the
# environment is the folder of the programs and the library, if it is not bin/; EMULATOR runs the programs of another
# processor for `check`.
set -eu
umask 022
cd "$(dirname "$0")"
# in the archive it stands at the top
test -d man || cd ..
BIN=${BIN:-bin} programs='tftp tftpd tftp-show tftp-play'
fail() {
    echo "install.sh: $1" >&2
    exit 2
}
verb=${1-}
case $verb:$# in
install:* | uninstall:* | check:1) shift ;;
*) fail 'usage: install.sh install|uninstall [NAME=VALUE..], or install.sh check' ;;
esac
DESTDIR='' PREFIX=/usr/local PROGRAM_PREFIX='' MANDIR='' UNITDIR='' LIBDIR=''
for word; do
    case $word in
    DESTDIR=* | PREFIX=* | PROGRAM_PREFIX=* | MANDIR=* | UNITDIR=* | LIBDIR=*) export "${word?}" ;;
    *) fail "no NAME=VALUE that is known: $word" ;;
    esac
done
MANDIR=${MANDIR:-$PREFIX/share/man} UNITDIR=${UNITDIR:-$PREFIX/lib/systemd/system} LIBDIR=${LIBDIR:-$PREFIX/lib}
DOCDIR=$PREFIX/share/doc/fanjuvery
for path in "$PREFIX" "$MANDIR" "$UNITDIR" "$LIBDIR"; do
    test "${path#/}" != "$path" || fail "no absolute path: $path"
done
case $PROGRAM_PREFIX in
*[!A-Za-z0-9._-]*) fail "a PROGRAM_PREFIX is of letters, digits, dots, underscores and dashes: $PROGRAM_PREFIX" ;;
esac

room=$(mktemp -d)
trap 'rm -rf "$room"' EXIT
trap 'exit 130' HUP INT TERM

# a text as the replacement of sed, of which `|` is no end
replacement() { printf '%s' "$1" | sed 's/[&\\|]/\\&/g'; }

# one of the room's files: the source, with the names, the path and the folders of what is installed
named() {
    case $1 in
    packaging/*.service | packaging/*.socket | packaging/*.default)
        # as a word in double quotes of a unit
        path=$(replacement "$(printf '%s' "$PREFIX/bin/$PROGRAM_PREFIX" | sed 's/[\\"]/\\&/g; s/%/%%/g')")
        sed "s|/usr/local/bin/tftpd|@path@|g; s|tftpd\.nft|@nft@|g
            s|tftpd|${PROGRAM_PREFIX}tftpd|g
            s|@path@|${path}tftpd|g; s|@nft@|tftpd.nft|g" "$1"
        ;;
    packaging/*)
        sed "s|@\(tftp[a-z-]*\)@|$PROGRAM_PREFIX\1|g
            s|@PREFIX@|$(replacement "$PREFIX")|; s|@LIBDIR@|$(replacement "$LIBDIR")|" "$1"
        ;;
    *)
        sed "s|^complete -F \(_[a-z_]*\) |&$PROGRAM_PREFIX|
            s|^complete -c |&$PROGRAM_PREFIX|
            s|^#compdef |&$PROGRAM_PREFIX|" "$1"
        ;;
    esac > "$room/${1##*/}"
    echo "$room/${1##*/}"
}

# what is installed, a file a line: its mode, its place and where it is taken from
files() {
    # users start tftpd, too, and have no sbin/ on their PATH: it needs no root
    for program in $programs; do
        name=$PROGRAM_PREFIX$program
        echo "755 $PREFIX/bin/$name $BIN/$program"
        echo "644 $PREFIX/share/bash-completion/completions/$name $(named "completions/$program.bash")"
        echo "644 $PREFIX/share/zsh/site-functions/_$name $(named "completions/$program.zsh")"
        echo "644 $PREFIX/share/fish/vendor_completions.d/$name.fish $(named "completions/$program.fish")"
    done
    for manual in man/*.[124-8]; do
        echo "644 $MANDIR/man${manual##*.}/$PROGRAM_PREFIX${manual#man/} $manual"
    done
    for unit in tftpd.service tftpd@.service tftpd.socket tftpd-socket.service; do
        echo "644 $UNITDIR/$PROGRAM_PREFIX$unit $(named "packaging/$unit")"
    done
    for document in LICENSE SECURITY.md docs/OPERATING.md examples/monitoring/tftpd.rules.yml packaging/tftpd.nft \
        examples/monitoring/dashboard.json "$(named packaging/README.md)" "$(named packaging/tftpd.default)"; do
        echo "644 $DOCDIR/${document##*/} $document"
    done
    # the library, if it is built: the linker finds libtftp.so.1 by libtftp.so, a link
    test -e "$BIN/libtftp.a" -o "$verb" = uninstall || return 0
    echo "644 $LIBDIR/libtftp.a $BIN/libtftp.a"
    if test -e "$BIN/libtftp.so.1" -o "$verb" = uninstall; then
        echo "644 $LIBDIR/libtftp.so.1 $BIN/libtftp.so.1"
        echo "link $LIBDIR/libtftp.so libtftp.so.1"
    fi
    for header in tftp.h tftp.hpp; do echo "644 $PREFIX/include/$header include/$header"; done
    echo "644 $LIBDIR/pkgconfig/tftp.pc $(named packaging/tftp.pc)"
    for file in tftp-config.cmake tftp-config-version.cmake; do
        echo "644 $LIBDIR/cmake/tftp/$file $(named "packaging/$file")"
    done
    echo "644 $MANDIR/man3/tftp.3 man/tftp.3"
}

case $verb in
install)
    for program in $programs; do
        test -x "$BIN/$program" || fail "there is no $BIN/$program: make builds it"
    done
    files > "$room/files"
    # a line is two words without spaces and a path, or paths with spaces, told apart by their ends
    while IFS=' ' read -r mode rest; do
        source=${rest##* } place=${rest% *}
        mkdir -p "$DESTDIR${place%/*}"
        if test "$mode" = link; then
            ln -sf "$source" "$DESTDIR$place"
        else
            install -C -m "$mode" "$source" "$DESTDIR$place"
        fi
    done < "$room/files"
    echo "installed below $DESTDIR$PREFIX"
    test ! -e "$BIN/libtftp.so.1" || echo "this ran no ldconfig, which finds a new library in $LIBDIR"
    ;;
uninstall)
    files | while IFS=' ' read -r _ rest; do rm -f "$DESTDIR${rest% *}"; done
    test ! -d "$DESTDIR$DOCDIR" || rmdir --ignore-fail-on-non-empty "$DESTDIR$DOCDIR"
    ;;
check)
    # shellcheck disable=SC2086 # an emulator may have words
    for program in $programs; do ${EMULATOR:-} "bin/$program" --version; done
    examples/loopback.sh bin/tftpd bin/tftp
    echo "the programs run here: a get and a put over the loopback address, compared byte for byte"
    ;;
esac
