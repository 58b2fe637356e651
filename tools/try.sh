#!/usr/bin/env bash
# Runs the four programs from source, before any proof: `rt try` compiles each one and runs it with its checks on.
# tftp-show and tftp-play run on samples of examples/. tftpd serves a folder to tftp, a get and then a put, and the
# files are compared byte for byte. What the compiler says of a program is in out/try/PROGRAM.log.
set -u
cd "$(dirname "$0")/.." || exit 2
command -v rt > /dev/null || {
    echo 'make run: rt, the command of the Rattle kit, is not on the PATH' >&2
    exit 2
}
room=$(mktemp -d) || exit 2
# (what timeout runs ends with it, and rt ends what it began)
trap 'kill $(jobs -p) 2> /dev/null; wait; rm -rf "$room"' EXIT
trap 'exit 130' HUP INT TERM
declare -A pids

# begin PROGRAM INPUT WORD..: `rt try` with these words in the program's crate, beside the others
begin() {
    (cd "crates/${1//-/_}_main" && TMPDIR=$room exec timeout 900 rt try "${@:3}") < "$2" > "out/try/$1.out" 2> "out/try/$1.log" &
    pids[$1]=$!
}

# ended PROGRAM STATUS: waits for a program, which has to end so, and shows what it printed
ended() {
    wait "${pids[$1]}"
    test $? = "$2" || {
        tail -n 20 "out/try/$1.log" >&2
        echo "failed: $1. The whole log is out/try/$1.log" >&2
        exit 1
    }
    sed "s/^/$1: /" "out/try/$1.out"
}

mkdir -p out/try "$room/served" "$room/runs"
cp examples/packets.hex "$room/served"
port=$((20000 + RANDOM % 10000)) got=$room/packets.hex
# two runs of tftp, which is compiled once: the words of each, one a line
printf '%s\n' get "127.0.0.1:$port" packets.hex "$got" > "$room/runs/1-get.args"
printf '%s\n' put "127.0.0.1:$port" "$got" copy.hex --blksize 1428 --tsize > "$room/runs/2-put.args"
touch "$room/runs/1-get" "$room/runs/2-put"
echo 'These runs are checked, not proved: each program is compiled from source, and runs with its checks on.'
begin tftpd /dev/null --seconds 600 -- "$room/served" --listen "127.0.0.1:$port" --transfers 2 --rounds 600
begin tftp-show examples/packets.hex
begin tftp-play examples/lossy.script
until grep -q ":$(printf '%04X' "$port") " /proc/net/udp; do
    kill -0 "${pids[tftpd]}" 2> /dev/null || ended tftpd 'listening'
    sleep 0.2
done
begin tftp /dev/null --cases "$room/runs"
ended tftp 0
cmp examples/packets.hex "$got" && cmp examples/packets.hex "$room/served/copy.hex" || exit 1
ended tftpd 0
ended tftp-show 1 # some lines of the sample are faults
ended tftp-play 0
echo 'The file that was fetched and the one that was sent are the same, byte for byte. make proves and builds the programs.'
