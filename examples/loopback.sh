#!/bin/sh
# Serves a folder to one client over the loopback address, a get and then a put: loopback.sh TFTPD TFTP
# The server ends within ten minutes, and with this script, however that ends. EMULATOR in the environment runs programs of
# another processor, as `EMULATOR=qemu-aarch64`.
# shellcheck disable=SC2086 # it may have words
set -eu
here=$(dirname "$0")
room=$(mktemp -d)
server=
clear_up() {
    test -z "$server" || kill "$server" 2> /dev/null || true
    rm -rf "$room"
}
trap clear_up EXIT
trap 'exit 130' HUP INT TERM
mkdir "$room/served"
cp "$here/packets.hex" "$room/served"
${EMULATOR:-} "$1" "$room/served" --listen 127.0.0.1:0 --transfers 2 --rounds 600 --retries 10 > "$room/lines" &
server=$!
waits=0
until grep -q listening "$room/lines"; do
    waits=$((waits + 1))
    if test "$waits" -gt 1200; then
        echo "loopback.sh: $1 does not listen two minutes after its start" >&2
        exit 1
    fi
    sleep 0.1
done
address=$(sed -n 's/^listening //p' "$room/lines")
${EMULATOR:-} "$2" get "$address" packets.hex "$room/packets.hex" --retries 10
${EMULATOR:-} "$2" put "$address" "$room/packets.hex" copy.hex --blksize 1428 --tsize --retries 10
wait "$server"
server=
tail -n 2 "$room/lines"
cmp "$here/packets.hex" "$room/packets.hex"
cmp "$here/packets.hex" "$room/served/copy.hex"
