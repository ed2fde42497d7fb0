#!/bin/sh
# Prints what `tracepipe gen 0 1000000` costs: time and peak memory, beside those of a tenth as many writes, and the
# instructions that a write more takes, as callgrind counts them (valgrind, a Debian package) on 10,000 writes and on
# 20,000. A write is made by one of four threads, and goes to one session or to two; both sessions sweep after each 4,096.
# It needs valgrind and GNU time.
here=$(cd "$(dirname "$0")/.." && pwd) || exit 1
program=$here/crates/tracepipe/out/tracepipe
work=$(mktemp -d) || exit 1
trap 'rm -rf "$work"' EXIT
"$here/tracepipe" gen 0 16 || exit 1

# The instructions of so many writes.
instructions() {
    valgrind --tool=callgrind --callgrind-out-file="$work/counts" "$program" gen 0 "$1" >/dev/null 2>"$work/told" || exit 1
    sed -n 's/^.*Collected : //p' "$work/told"
}

fewer=$(instructions 10000)
more=$(instructions 20000)
echo "instructions for a write more: $(((more - fewer) / 10000))"
for writes in 100000 1000000; do
    /usr/bin/time -f '%e seconds, %M KB at most' -o "$work/spent" "$program" gen 0 "$writes" >"$work/summary" || exit 1
    echo "gen 0 $writes: $(cat "$work/spent")"
done
cat "$work/summary"
