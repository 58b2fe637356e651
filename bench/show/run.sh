#!/bin/bash
# Times tftp-show, a plain C reader and cat over the same lines, on the clock and in seconds of a processor, which other
# work disturbs less. Usage: run.sh TFTP_SHOW [LINES [ROUNDS]]
set -eu
show=$1
lines=${2:-1000000}
rounds=${3:-3}
here=$(dirname "$0")
work=$(mktemp -d)
trap 'rm -rf "$work"' EXIT
python3 "$here/packets.py" "$lines" > "$work/in"
cc -O2 -o "$work/plain" "$here/plain.c"
bytes=$(wc -c < "$work/in")
TIMEFORMAT='%R %U %S'
# one run: its seconds, and its processor seconds, are appended to its file
timed() {
    name=$1
    shift
    { time "$@" < "$work/in" > "$work/$name.out" || test $? = 1; } 2>> "$work/$name.times"
}
# the best and the median of the rounds
report() {
    awk '{ print $1, $2 + $3 }' "$work/$1.times" > "$work/both"
    for column in 1 2; do
        cut -d ' ' -f "$column" "$work/both" | sort -n | awk '{ t[NR] = $1 } END { print t[1], t[int((NR + 1) / 2)] }'
    done | paste -d ' ' - - | awk -v n="$1" -v l="$lines" -v b="$bytes" '{
        printf "%-10s %6.2f s (median %.2f) %12.0f lines/s %8.1f MB/s; of a processor %6.2f s (median %.2f)\n",
            n, $1, $2, l / $1, b / $1 / 1e6, $3, $4 }'
}
# each program has its turn in each round
for _ in $(seq "$rounds"); do
    timed cat cat
    timed plain "$work/plain"
    timed tftp-show "$show"
done
report cat
report plain
report tftp-show
cmp "$work/plain.out" "$work/tftp-show.out" && echo "the two readers print the same"
