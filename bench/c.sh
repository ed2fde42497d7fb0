#!/bin/sh
# The C library as programs use it. Builds the examples in C with warnings as errors and gcc's sanitizers, runs them and the
# one in Python, and has `tracepipe report` read each stream: every event has to be there, a million of them by four
# threads. It tries what is refused, and refuses each growth of memory in turn. Then it prints the instructions and
# nanoseconds of an event of 8 bytes through the call, and the instructions of events with two frames of twelve stacks and of
# two definitions in turn, beside those of the same functions in plain C (c/plain.c), which are tried in the same way, and of
# a C program by hand (c/by_hand.c) that has no such functions but writes the first events alone: the streams are compared.
# Last come the functions with the most instructions, and the bytes a second to a pipe. Instructions are counted by callgrind
# (valgrind, a Debian package), since times vary by a third. The word is how many events each of the four threads writes. It
# needs gcc, python3 and valgrind; PROGRAM names another program than ./tracepipe.
here=$(cd "$(dirname "$0")/.." && pwd) || exit 1
each=${1:-250000}
program=${PROGRAM:-$here/tracepipe}
work=$(mktemp -d) || exit 1
trap 'rm -rf "$work"' EXIT
lib=$("$here/libtracepipe") || exit 1
strict="-std=c11 -Wall -Wextra -Werror -I$here/include"

fail() {
    echo "bench/c.sh: $1" >&2
    exit 1
}

# What a stream's report says, where the stream is whole.
report() {
    "$program" report <"$1" >"$work/report" || fail "$1 is not a whole stream"
}

# Whether the report has these words as a line, whatever spaces stand between them.
says() {
    grep -Eqx "$(echo "$1" | sed 's/ / +/g')" "$work/report" || fail "the report of $2 does not say: $1"
}

# The examples.
gcc $strict -g -O1 -fsanitize=address,undefined "$here/examples/c/tick.c" "$lib/libtracepipe.a" -o "$work/tick" &&
    gcc $strict -g -O1 -fsanitize=thread -pthread "$here/examples/c/threads.c" "$lib/libtracepipe.a" -o "$work/threads" &&
    g++ -Wall -Wextra -Werror -fsyntax-only -x c++ "$here/include/tracepipe.h" || fail 'an example does not compile'
"$work/tick" "$work/tick.nettrace" || fail 'tick'
report "$work/tick.nettrace"
says 'thread 1 5 5 0' tick
"$work/threads" "$work/threads.nettrace" "$each" || fail 'threads'
report "$work/threads.nettrace"
for thread in 1 2 3 4; do says "thread $thread $each $each 0" threads; done
python3 "$here/examples/c/tick.py" "$lib/libtracepipe.so" "$work/python.nettrace" 100 || fail 'tick.py'
report "$work/python.nettrace"
says 'thread 1 100 100 0' tick.py
echo "tick, threads ($each events each) and tick.py: every event is in its stream"

# What is refused: a handle of zeros, NULL, twice begun, after the end.
cat >"$work/refused.c" <<'PROGRAM'
#include <assert.h>
#include "tracepipe.h"

int main(void) {
    tp_handle handle = {0};
    tp_info info = {.frequency = 1};
    tp_event_head event = {.event = 1};
    uint8_t bytes[4096];
    size_t count = 7;
    assert(tp_event(&handle, &event, NULL, 0, NULL, 0) == TP_NOT_LIVE);
    assert(tp_pull(&handle, bytes, sizeof bytes, &count) == TP_NOT_LIVE && count == 7);
    assert(tp_begin(NULL, &info) == TP_NULL && tp_begin(&handle, NULL) == TP_NULL && !handle.live);
    assert(tp_begin(&handle, &info) == TP_OK && tp_begin(&handle, &info) == TP_LIVE);
    assert(tp_event(&handle, &event, NULL, 8, NULL, 0) == TP_NULL);
    assert(tp_event(&handle, &event, NULL, 0, NULL, 0) == TP_NO_DEFINITION);
    assert(tp_pull(&handle, NULL, 0, &count) == TP_OK && count == 0);
    assert(tp_end(&handle, NULL, 0, &count) == TP_MORE && count == 0);
    assert(tp_point(&handle, 1) == TP_ENDED);
    assert(tp_end(&handle, bytes, sizeof bytes, &count) == TP_OK && count == 103);
    assert(tp_end(&handle, bytes, sizeof bytes, &count) == TP_NOT_LIVE && !handle.live);
    return 0;
}
PROGRAM
for way in "$lib/libtracepipe.a" "$here/bench/c/plain.c"; do
    gcc $strict -g -fsanitize=address,undefined "$work/refused.c" "$way" -o "$work/refused" &&
        "$work/refused" || fail "a refusal of $way has another code"
    # What is answered where memory is missing.
    gcc $strict -g -O1 -Wl,--wrap=malloc,--wrap=realloc "$here/bench/c/growths.c" "$way" -o "$work/growths" &&
        "$work/growths" || fail "a growth of $way that is refused has another end"
done
echo 'refusals: each has its code'

# Speed.
gcc $strict -O2 "$here/bench/c/by_library.c" "$lib/libtracepipe.a" -o "$work/by_library" &&
    gcc $strict -O2 -c "$here/bench/c/plain.c" -o "$work/plain.o" &&
    gcc $strict -O2 "$here/bench/c/by_library.c" "$work/plain.o" -o "$work/by_plain" &&
    gcc $strict -O2 "$here/bench/c/by_hand.c" -o "$work/by_hand" || fail 'a way does not compile'
"$work/by_library" 100000 >"$work/library.nettrace" && "$work/by_library" 100000 mixed >"$work/mixed.nettrace" || fail 'speed'
"$work/by_hand" 100000 | cmp - "$work/library.nettrace" && "$work/by_plain" 100000 | cmp - "$work/library.nettrace" &&
    "$work/by_plain" 100000 mixed | cmp - "$work/mixed.nettrace" || fail 'two ways write other bytes'
python3 - "$work" <<'MEASURE'
import re, subprocess, sys, time

work = sys.argv[1]
FEW, MANY, TIMED = 20_000, 120_000, 4_000_000


def instructions(program, count, *more):
    """The instructions of a whole run, as callgrind counts them, and its file of costs."""
    out = f"{work}/callgrind.{count}"
    words = ["valgrind", "--tool=callgrind", f"--callgrind-out-file={out}", program, str(count), *more]
    run = subprocess.run(words, stdout=subprocess.DEVNULL, stderr=subprocess.PIPE, text=True, check=True)
    return int(re.search(r"Collected : (\d+)", run.stderr).group(1)), out


def an_event(way, *more):
    few, _ = instructions(f"{work}/by_{way}", FEW, *more)
    many, out = instructions(f"{work}/by_{way}", MANY, *more)
    return (many - few) / (MANY - FEW), out


def seconds(words):
    """The least processor time of some runs whose output goes nowhere."""
    least = float("inf")
    for _ in range(5):
        before = time.perf_counter()
        subprocess.run(words, stdout=subprocess.DEVNULL, check=True)
        least = min(least, time.perf_counter() - before)
    return least


def to_a_pipe(way):
    """The bytes a second that `cat` takes through a pipe."""
    source = subprocess.Popen([f"{work}/by_{way}", str(TIMED)], stdout=subprocess.PIPE)
    before, count = time.perf_counter(), 0
    while piece := source.stdout.read(1 << 20):
        count += len(piece)
    assert source.wait() == 0
    return count / (time.perf_counter() - before)


mixed, plain_mixed = (an_event(way, "mixed")[0] for way in ("library", "plain"))
(plain, _), (hand, _), (library, costs) = (an_event(way) for way in ("plain", "hand", "library"))
print(f"instructions an event: {library:.0f} by the library; {plain:.0f} by plain C behind the same functions; {hand:.0f} by hand")
print(f"of two definitions and with two frames: {mixed:.0f} by the library; {plain_mixed:.0f} by plain C")
for way in ("library", "plain", "hand"):
    print(f"nanoseconds an event {way}: {seconds([f'{work}/by_{way}', str(TIMED)]) / TIMED * 1e9:.0f}")
    print(f"megabytes a second to a pipe {way}: {to_a_pipe(way) / 1e6:.0f}")
told = subprocess.run(["callgrind_annotate", costs], stdout=subprocess.PIPE, text=True, check=True).stdout
rows = re.findall(r"^ *([\d,]+) \([^)]*\) +\S*?:?([^\s:][^\[\n]*)", told, re.M)
for cost, name in rows[:14]:
    print(f"{int(cost.replace(',', '')) / MANY:8.1f} an event  {name.strip()}")
MEASURE
