#!/bin/sh
# Prints what `tracepipe trace` costs, for a session that gets every event and for one that gets none, each beside a program in
# plain C that does the same (c/trace.c). First the instructions for a write more of one thread, with its making, as callgrind
# counts them (valgrind, a Debian package) on 10,000 writes and on 30,000: those of the thread that writes alone, and those of
# the others, which write the stream; and of all the functions that take one or more, each without the functions that it
# calls.
# Then 4,000,000 writes of each of 1, 2, 3 and 4 threads into a file: the processor time of a writing thread for a write, as
# the system counts it, the time from start to end, the events a second that the file has, and how many writes were refused
# since the budget was spent, as `report` counts them. Last `watch` with as many threads, 1,000,000 writes each, for 256
# megabytes and for one: what it heard of a thread and what was refused there must be all that the thread wrote, and the
# counts by event must be all that was heard; else it ends with 1. The word is how many writes each thread makes; with 0 there
# are only the instructions. It needs valgrind, cc and python3; PROGRAM names another program than the one that ./tracepipe
# built.
here=$(cd "$(dirname "$0")/.." && pwd) || exit 1
program=${PROGRAM:-$here/crates/tracepipe/out/tracepipe}
writes=${1:-4000000}
work=$(mktemp -d) || exit 1
trap 'rm -rf "$work"' EXIT
all=Sample-Web,Sample-Store,Sample-Jobs
[ -n "$PROGRAM" ] || "$here/tracepipe" trace 1 8 "$all" >"$work/warm" || exit 1
${CC:-cc} -std=c11 -O2 -pthread -I"$here/include" -o "$work/in_c" "$here/bench/c/trace.c" || exit 1

# The instructions of so many writes of one thread for this session; with a third word, only those in functions of that name.
# Those of the whole run are kept by function.
instructions() {
    case $2 in
    # shellcheck disable=SC2086
    in_c*) set -- "$1" "$2" "$3" "$work/in_c" 1 "$1" ${2#in_c} ;;
    *) set -- "$1" "$2" "$3" "$program" trace 1 "$1" "$2" ;;
    esac
    count=$1 only=$3
    shift 3
    valgrind --tool=callgrind --callgrind-out-file="$work/counts-$count" ${only:+"--toggle-collect=$only"} "$@" \
        >/dev/null 2>"$work/told" || exit 1
    sed -n 's/^.*Collected : //p' "$work/told"
}

for text in "$all" None:1:1 in_c in_c\ none; do
    case $text in
    in_c*) own='write_all' ;;
    *) own='*chunks_from*' ;;
    esac
    writing=$((($(instructions 30000 "$text" "$own") - $(instructions 10000 "$text" "$own")) / 20000))
    whole=$((($(instructions 30000 "$text") - $(instructions 10000 "$text")) / 20000))
    echo "$text: $writing instructions for a write more in its thread, $((whole - writing)) in the others"
    python3 - "$work/counts-10000" "$work/counts-30000" 20000 <<'SHARES'
import re, sys

few, many, more = sys.argv[1], sys.argv[2], int(sys.argv[3])


def counted(path):
    """The instructions of each function itself, without those of the functions that it calls."""
    names, counts, name, is_call = {}, {}, None, False
    for line in open(path):
        if found := re.match(r"fn=(\(\d+\))(?: (.*))?", line):
            name = names.setdefault(found.group(1), (found.group(2) or "").strip())
        elif found := re.match(r"cfn=(\(\d+\)) (.*)", line):
            names.setdefault(found.group(1), found.group(2).strip())
        elif line.startswith("calls="):
            is_call = True
        elif name is not None and re.match(r"[+*-]?\d*(?: \d+)+$", line.rstrip()):
            if not is_call:
                counts[name] = counts.get(name, 0) + int(line.split()[-1])
            is_call = False
    return counts


before, after = counted(few), counted(many)
shares = sorted(((after[name] - before.get(name, 0)) / more, name) for name in after)
for share, name in reversed(shares):
    if share >= 1:
        print(f"  {share:6.1f} in {re.sub('::<#.*?>', '', name)}")
SHARES
done
[ "$writes" -gt 0 ] || exit 0
python3 - "$program" "$work" "$all" "$writes" <<'MEASURE'
import os, subprocess, sys, time

program, work, all_events, writes = sys.argv[1], sys.argv[2], sys.argv[3], int(sys.argv[4])


def spent(process):
    """The processor time of each of its threads but the first, in nanoseconds, as the system has counted it."""
    found = {}
    try:
        for thread in os.listdir(f"/proc/{process}/task"):
            if int(thread) != process:
                with open(f"/proc/{process}/task/{thread}/schedstat") as counts:
                    found[thread] = int(counts.read().split()[0])
    except OSError:
        pass
    return found


ours, in_c = [program, "trace"], [f"{work}/in_c"]
for text, words, more in (
    (all_events, ours, [all_events]),
    ("None:1:1", ours, ["None:1:1"]),
    ("in_c", in_c, []),
    ("in_c none", in_c, ["none"]),
):
    for threads in (1, 2, 3, 4):
        with open(f"{work}/stream", "wb") as stream:
            begun = time.monotonic()
            run = subprocess.Popen([*words, str(threads), str(writes), *more], stdout=stream)
            last = {}
            while run.poll() is None:
                last.update(spent(run.pid))
                time.sleep(0.001)
            passed = time.monotonic() - begun
        with open(f"{work}/stream", "rb") as stream:
            report = subprocess.run([program, "report"], stdin=stream, capture_output=True, text=True, check=True)
        lines = [line.split() for line in report.stdout.splitlines()]
        events = sum(int(line[1]) for line in lines if line[0] == "items")
        refused = sum(int(line[4]) for line in lines if line[0] == "thread")
        own = sorted(last.values())[-threads:]
        print(
            f"{text}, {threads} threads: {sum(own) / max(len(own), 1) / writes:.0f} ns a write in its thread,"
            f" {passed:.2f} seconds, {events / passed:,.0f} events a second, {events} events"
            f" in {os.path.getsize(f'{work}/stream')} bytes, {refused} refused"
        )

for megabytes in (256, 1):
    for threads in (1, 2, 3, 4):
        words = [program, "watch", str(threads), "1000000", all_events, "--mb", str(megabytes)]
        begun = time.monotonic()
        told = subprocess.run(words, capture_output=True, text=True, check=True).stdout
        passed = time.monotonic() - begun
        lines = [line.split() for line in told.splitlines()]
        heard = [(int(line[2]), int(line[3])) for line in lines if line[0] == "heard"]
        events = sum(count for count, _ in heard)
        if [sum(it) for it in heard] != [1_000_000] * threads or events != sum(int(line[2]) for line in lines if line[0] == "count"):
            sys.exit(f"watch {threads}: heard and refused are not what was written:\n{told}")
        print(
            f"watch, {threads} threads, {megabytes} megabytes: {passed:.2f} seconds, {events / passed:,.0f} events a second,"
            f" {events} heard, {sum(refused for _, refused in heard)} refused"
        )
MEASURE
