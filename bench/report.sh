#!/bin/sh
# Prints the time and the peak memory of `tracepipe report` on a trace of 10 MB and one of 100 MB, of plain events and of
# events with 16 bytes of payload, as ratios to `wc -c` and `sha256sum` of the same bytes measured in one run, with the
# events a second. Then the instructions an event, counted by callgrind (valgrind, a Debian package), which counts each
# byte of a string instruction's copy as one; and those of events of some definitions, threads and stacks, beside a C
# program by hand that writes the same lines (c/report.c). Times are processor times, the least of some runs. It needs
# python3, cc and GNU time.
here=$(cd "$(dirname "$0")/.." && pwd) || exit 1
runs=${1:-5}
work=$(mktemp -d) || exit 1
trap 'rm -rf "$work"' EXIT
"$here/tracepipe" replay <"$here/examples/one_event.schedule" >"$work/start" || exit 1
${CC:-cc} -O2 -o "$work/by_hand" "$here/bench/c/report.c" || exit 1
python3 - "$here/crates/tracepipe/out/tracepipe" "$work" "$runs" <<'MEASURE'
import os, re, subprocess, sys

program, work, runs = sys.argv[1], sys.argv[2], int(sys.argv[3])
BODY_BYTES = 100_000

# The stream of one event up to the end of its metadata block, which defines event 1.
with open(f"{work}/start", "rb") as start:
    FRONT = start.read()[:196]


def varuint(number):
    out = bytearray()
    while number >= 128:
        out.append(number % 128 + 128)
        number //= 128
    out.append(number)
    return bytes(out)


def event_block(at, first, events, payload):
    """An event block at this offset, of events of thread 1 numbered from the first one, a nanosecond apart."""
    size = varuint(payload)
    head = bytes((0x87, 1)) + varuint(first - 1) + bytes((1, 0, 1)) + varuint(first) + size
    blobs = head + bytes(payload) + (bytes((0, 1)) + bytes(payload)) * (events - 1)
    stamps = first.to_bytes(8, "little") + (first + events - 1).to_bytes(8, "little")
    body = bytes((20, 0, 1, 0)) + stamps + blobs
    name = b"EventBlock"
    tags = b"\x05\x05\x01" + (2).to_bytes(4, "little") * 2 + len(name).to_bytes(4, "little") + name + b"\x06"
    sizes = len(body).to_bytes(4, "little")
    padding = bytes(-(at + len(tags) + len(sizes)) % 4)
    return tags + sizes + padding + body + b"\x06"


def make_trace(least_bytes, payload):
    """Writes a trace of at least so many bytes, and answers how many events it has."""
    at, events, a_block = len(FRONT), 0, BODY_BYTES // (2 + payload)
    with open(f"{work}/trace", "wb") as trace:
        trace.write(FRONT)
        while at < least_bytes:
            block = event_block(at, events + 1, a_block, payload)
            trace.write(block)
            at, events = at + len(block), events + a_block
        trace.write(b"\x01")
    return events


NAMES = [
    "RequestStart",
    "RequestStop",
    "GCHeapStats",
    "MethodLoadVerbose",
    "ExceptionThrown",
    "ContentionStart",
    "ThreadPoolWorkerThreadAdjustment",
    "ConnectionAccepted",
    "BufferSegmentReturned",
    "QueueLengthChanged",
]


def units(text):
    return text.encode("utf-16-le") + bytes(2)


def add_object(trace, name, version, payload, is_block):
    trace += b"\x05\x05\x01" + version.to_bytes(4, "little") * 2 + len(name).to_bytes(4, "little") + name + b"\x06"
    if is_block:
        trace += len(payload).to_bytes(4, "little")
        trace += bytes(-len(trace) % 4)
    trace += payload + b"\x06"


def definition(index):
    """The payload that defines an event of one provider, under the next metadata id."""
    name = NAMES[index % 10] + (str(index) if index >= 10 else "")
    numbers = bytes(8) + (1).to_bytes(4, "little") + (4).to_bytes(4, "little") + bytes(4)
    front = (index + 1).to_bytes(4, "little") + units("Huskevening-Sample-Provider")
    return front + (index + 100).to_bytes(4, "little") + units(name) + numbers


def make_mixed(events, definitions, threads, stacks, in_a_row, thread_step):
    """Writes a trace of events with 8 bytes of payload, so many in a row of a thread, the threads' ids so far apart."""
    trace = bytearray(FRONT[:32])
    add_object(trace, b"Trace", 4, bytes(48), False)
    header = b"\x14\0\x01\0" + bytes(16)
    blobs = bytearray()
    for index in range(definitions):
        payload = definition(index)
        blobs += b"\x80\0" + varuint(len(payload)) + payload
    add_object(trace, b"MetadataBlock", 2, header + blobs, True)
    if stacks > 0:
        frames = bytearray((1).to_bytes(4, "little") + stacks.to_bytes(4, "little"))
        for stack in range(stacks):
            frames += (64).to_bytes(4, "little") + b"".join((stack * 977 + k).to_bytes(8, "little") for k in range(8))
        add_object(trace, b"StackBlock", 2, frames, True)
    numbers, done = [0] * threads, 0
    while done < events:
        blobs, last = bytearray(), (0, 0, 0, 0, 0)
        for event in range(done, min(done + 6000, events)):
            thread = event // in_a_row % threads
            numbers[thread] += 1
            number, capture = numbers[thread], (thread + 1) * thread_step
            metadata, stack = event * 7 % definitions + 1, event * 5 % stacks + 1 if stacks > 0 else 0
            flags, fields = 0, b""
            if metadata != last[0]:
                flags, fields = flags | 1, fields + varuint(metadata)
            if (number, capture) != (last[1] + 1, last[2]):
                flags, fields = flags | 2, fields + varuint((number - last[1] - 1) % 2**32) + varuint(capture) + b"\x01"
            if capture != last[2]:
                flags, fields = flags | 4, fields + varuint(capture)
            if stack != last[3]:
                flags, fields = flags | 8, fields + varuint(stack)
            fields += varuint(100)
            if last[4] == 0:
                flags, fields = flags | 128, fields + b"\x08"
            blobs += bytes((flags,)) + fields + bytes(8)
            last = (metadata, number, capture, stack, 8)
        add_object(trace, b"EventBlock", 2, header + blobs, True)
        done += 6000
    with open(f"{work}/trace", "wb") as out:
        out.write(trace + b"\x01")


def run(words):
    with open(f"{work}/trace", "rb") as given:
        return subprocess.run(words, stdin=given, stdout=subprocess.PIPE, stderr=subprocess.PIPE, check=True)


def measure(words):
    """The least processor time in seconds of some runs, and the peak memory in KiB of one."""
    least = float("inf")
    for _ in range(runs):
        # by a pipe, since of a file `wc -c` reads no byte
        given = subprocess.Popen(["cat", f"{work}/trace"], stdout=subprocess.PIPE)
        child = subprocess.Popen(words, stdin=given.stdout, stdout=subprocess.DEVNULL)
        given.stdout.close()
        _, status, used = os.wait4(child.pid, 0)
        child.returncode = os.waitstatus_to_exitcode(status)
        assert child.returncode == 0 and given.wait() == 0
        least = min(least, used.ru_utime + used.ru_stime)
    return least, int(run(["/usr/bin/time", "-f", "%M", *words]).stderr)


def instructions(*command):
    """The instructions of a whole report, as callgrind counts them."""
    words = ["valgrind", "--tool=callgrind", f"--callgrind-out-file={work}/callgrind", *(command or (program, "report"))]
    return int(re.search(rb"Collected : (\d+)", run(words).stderr).group(1))


for title, payload in (("plain events", 0), ("events with 16 bytes of payload", 16)):
    print(title)
    for megabytes in (10, 100):
        events = make_trace(megabytes * 1_000_000, payload)
        counted = run([program, "report"]).stdout.split(b"\n")[1].split()
        assert counted[:2] == [b"items", str(events).encode()], counted
        rows = [("wc -c", measure(["wc", "-c"])), ("sha256sum", measure(["sha256sum"]))]
        rows.append(("report", measure([program, "report"])))
        seconds, memory = rows[2][1]
        print(f"  {megabytes} MB, {events} events, {events / seconds / 1e6:.1f} million a second")
        for name, (known, room) in rows:
            print(f"    {name:10} {known * 1000:9.1f} ms {seconds / max(known, 0.001):8.2f} x   {room:8d} KiB {memory / room:6.2f} x")
    few = make_trace(1_000_000, payload), instructions()
    many = make_trace(2_000_000, payload), instructions()
    print(f"  instructions an event {(many[1] - few[1]) / (many[0] - few[0]):8.1f}")

print("events with 8 bytes of payload, instructions an event: report, the program by hand, the ratio")
for title, shape in (
    ("1 definition, 1 thread", (1, 1, 0, 1, 1)),
    ("10 definitions, 4 threads, 20 events of a thread in a row", (10, 4, 0, 20, 1)),
    ("1,000 definitions, the same", (1000, 4, 0, 20, 1)),
    ("10 definitions, 256 threads, 20 events of a thread in a row", (10, 256, 0, 20, 1)),
    ("the same, the threads' ids 7,919 apart", (10, 256, 0, 20, 7919)),
    ("the same, each event of another thread", (10, 256, 0, 1, 7919)),
    ("10 definitions, 4 threads, one of 100 stacks for each event", (10, 4, 100, 20, 1)),
):
    counts = {}
    for events in (50_000, 100_000):
        make_mixed(events, *shape)
        commands = (program, "report"), (f"{work}/by_hand",)
        assert len({run(command).stdout for command in commands}) == 1
        counts[events] = [instructions(*command) for command in commands]
    ours, by_hand = ((more - few) / 50_000 for few, more in zip(counts[50_000], counts[100_000]))
    print(f"  {title:62} {ours:7.1f} {by_hand:7.1f} {ours / by_hand:6.2f}")
MEASURE
