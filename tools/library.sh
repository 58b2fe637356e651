#!/bin/sh
# Makes libtftp.a and libtftp.so.1: library.sh FOLDER [ARCHIVE]
# Of the archive that `rt lib` builds of tftp_c, or another, and of the heap in ports/. It proves nothing. CC is the compiler,
# `cc` if none is named; without one there is no library for C, and a line says so.
set -eu
cd "$(dirname "$0")/.."
folder=${1:?usage: library.sh FOLDER [ARCHIVE]} built=${2:-crates/tftp_c/out/libtftp_c.a} cc=${CC:-cc}
test -f "$built" || {
    echo "library.sh: there is no $built: make libtftp builds it" >&2
    exit 2
}
command -v "${cc%% *}" > /dev/null || {
    echo "library.sh: no $cc: no library for C" >&2
    exit 0
}
ar=$($cc -print-prog-name=ar) ld=$($cc -print-prog-name=ld) objcopy=$($cc -print-prog-name=objcopy)
mkdir -p "$folder"
room=$(mktemp -d)
trap 'rm -rf "$room"' EXIT
trap 'exit 130' HUP INT TERM
mkdir "$room/joined"
built=$(realpath "$built")
# a program with a heap of its own is linked without malloc.o
$cc -O2 -fPIC -fno-stack-protector -I include -c ports/heap.c -o "$room/joined/heap.o"
$cc -O2 -fPIC -fno-stack-protector -I include -c ports/malloc.c -o "$room/malloc.o"
(
    cd "$room"
    (cd joined && "$ar" x "$built")
    # the names by which the library asks for its heap are its own, and none of the archive's: one object has both
    "$ld" -r -o libtftp.o joined/*.o
    "$objcopy" --wildcard --localize-symbol='rattle_*' libtftp.o
    # the same bytes from the same objects
    "$ar" rcsD libtftp.a libtftp.o malloc.o
)
# only the calls of tftp.h are seen from outside
$cc -shared -Wl,-soname,libtftp.so.1 -Wl,--version-script=packaging/libtftp.map -Wl,--gc-sections -Wl,-z,defs \
    -Wl,-z,relro,-z,now,-z,noexecstack -o "$room/libtftp.so.1" "$room/libtftp.o" "$room/malloc.o"
# a program of the system only maps it
chmod 644 "$room/libtftp.so.1"
mv "$room/libtftp.a" "$room/libtftp.so.1" "$folder"
ln -sf libtftp.so.1 "$folder/libtftp.so"
