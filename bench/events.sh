#!/bin/sh
# Reads back what `events --json` and `convert chromium` write of a sample trace, in which each of four threads makes as many
# writes as the first word says, for a session of one megabyte: with python3's json, and with jq (a Debian package) where it is
# there. Each line is an object and the file one value; both have as many events as `report` counts, in one order and at one
# time, and what is lost sums up to what `report` says is missing; every span is of an activity. The same trace cut in its
# middle ends with status 3, and is JSON all the same. Where something is otherwise it says so and ends with 1. In the end it
# prints how many instructions each form takes an event, counted by callgrind (valgrind, a Debian package) where it is there,
# beside what is aimed at, and beside those of a C program by hand that writes the same lines and objects (c/events.c), whose
# bytes are compared. Where a second word is given, as `parts`, it also prints which functions take them, those of five or more
# an event. It needs python3 and cc; PROGRAM names another program than ./tracepipe.
here=$(cd "$(dirname "$0")/.." && pwd) || exit 1
program=${PROGRAM:-$here/tracepipe}
writes=${1:-100000}
work=$(mktemp -d) || exit 1
trap 'rm -rf "$work"' EXIT
"$program" trace 4 "$writes" Sample-Web,Sample-Store,Sample-Jobs --mb 1 >"$work/trace" || exit 1
"$program" report <"$work/trace" >"$work/report" || exit 1
"$program" events --json <"$work/trace" >"$work/objects" || exit 1
"$program" convert chromium <"$work/trace" >"$work/file" || exit 1
head -c "$(($(wc -c <"$work/trace") / 2))" "$work/trace" >"$work/half"
for words in "events --json" "convert chromium"; do
    # shellcheck disable=SC2086
    "$program" $words <"$work/half" >"$work/half.${words#* }"
    status=$?
    [ "$status" = 3 ] || { echo "$words of half a trace: status $status" && exit 1; }
done
if command -v jq >/dev/null; then
    jq -s -r 'group_by(.kind) | map("\(.[0].kind) \(length)") | "jq: " + join(", ")' "$work/objects" || exit 1
    jq -r '"jq: \(.traceEvents | length) trace events"' "$work/file" || exit 1
fi
python3 - "$work" <<'READ'
import json, sys
from decimal import Decimal

work = sys.argv[1]


def expect(holds, what):
    if not holds:
        sys.exit(f"not so: {what}")


def number(value):
    return int(value)


lines = [line.split() for line in open(f"{work}/report")]
events, points = [(int(line[1]), int(line[4])) for line in lines if line[0] == "items"][0]
missing = {int(line[1]): int(line[4]) for line in lines if line[0] == "thread"}
objects = [json.loads(line) for line in open(f"{work}/objects")]
file = json.load(open(f"{work}/file"), parse_float=Decimal)
entries = file["traceEvents"]
expect("error" not in file, "no error in a whole trace")
expect(len(objects) == len(entries), "as many trace events as lines")
lost = dict.fromkeys(missing, 0)
spans = 0
for line, entry in zip(objects, entries):
    kind, phase = line["kind"], entry["ph"]
    if kind == "lost":
        expect(phase == "C" and entry["args"]["count"] == line["count"], f"a counter: {entry}")
        expect(entry["id"] == entry["tid"] == line["thread"], f"a counter's thread: {entry}")
        lost[number(line["thread"])] += line["count"]
        continue
    expect(entry["ts"] * 1000 == number(line["stamp"]), f"a time of {line['stamp']} nanoseconds: {entry}")
    if kind == "point":
        expect(phase == "i" and entry["args"]["threads"] == len(line["threads"]), f"a point: {entry}")
        continue
    end = {"b": "Start", "e": "Stop", "i": ""}[phase]
    spans += phase != "i"
    expect((entry["name"] + end, entry["cat"]) == (line["name"], line["provider"]), f"a name: {entry}")
    expect(phase == "i" or entry["id"] == line["activity"], f"a span's activity: {entry}")
    expect(entry["args"] == {"number": line["number"], "fields": line["fields"]}, f"the fields: {entry}")
expect(sum(line["kind"] == "event" for line in objects) == events, "as many events as the report counts")
expect(sum(line["kind"] == "point" for line in objects) == points, "as many points as the report counts")
expect(lost == missing, "what is lost is what the report misses")
halves = [json.loads(line) for line in open(f"{work}/half.--json")]
half = json.load(open(f"{work}/half.chromium"), parse_float=Decimal)
expect(half["error"] == halves[-1] and half["traceEvents"] == entries[: len(halves) - 1], "half a trace")
print(f"{events} events, {spans} of them ends of spans, {points} points, {sum(lost.values())} lost; half of it: {half['error']['error']}")
READ
command -v valgrind >/dev/null || exit 0
events=$(awk '$1 == "items" { print $2 }' "$work/report")
program=${PROGRAM:-$here/crates/tracepipe/out/tracepipe}
${CC:-cc} -O2 -o "$work/by_hand" "$here/bench/c/events.c" || exit 1

# The instructions of a command an event, whose output goes to a file.
instructions() {
    valgrind --tool=callgrind --callgrind-out-file="$work/callgrind" "$@" <"$work/trace" 2>"$work/said" >"$work/lines" || exit 1
    echo "$(($(sed -n 's/.*Collected : //p' "$work/said") / events))"
}

# The functions that take them, where they are asked for. A function that was inlined counts for the one that it stands in.
asked=${2:-}
parts() {
    [ -n "$asked" ] || return 0
    callgrind_annotate --show-percs=no "$work/callgrind" | awk -v events="$events" '
        /^ *[0-9,]+ +[^ ]*:/ {
            count = $1; gsub(",", "", count); count /= events
            if (count < 5) exit
            $1 = ""; sub(/ \[.*/, ""); sub(/^ *[^ ]*\/[^:]*:|^ *\?\?\?:/, "")
            printf "    %.0f %s\n", count, $0
        }'
}

while read -r aim words; do
    # shellcheck disable=SC2086
    count=$(instructions "$program" $words)
    echo "$words: $count instructions an event, $(($(wc -c <"$work/lines") / events)) bytes; the aim is $aim"
    parts
    [ "$words" = page ] && continue
    mv "$work/lines" "$work/ours"
    # shellcheck disable=SC2086
    echo "  by hand: $(instructions "$work/by_hand" $words)"
    parts
    cmp "$work/ours" "$work/lines" || exit 1
done <<'AIMS'
600 events
900 events --json
900 convert chromium
900 page
AIMS
