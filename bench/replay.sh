#!/bin/sh
# Prints what `tracepipe replay` costs on three schedules. In the first a session with a budget of one chunk is open on one
# thread, whose writes have payload and two frames, one of sixteen stacks; every 600th write is refused, and points
# follow. In the second 60 sessions are open on 15 threads, over 1,000 definitions. The third is that of `gen 0 N`. For
# each it prints the instructions for a line more, as callgrind counts them (valgrind, a Debian package), beside those of a
# C program by hand (c/replay.c) that writes the streams of all sessions, and of one that keeps the session that is asked
# for alone, whose bytes are compared; the lines a second, and time and peak memory beside `cat` of the same input, as
# ratios measured in one run; and the memory for a schedule of twice the length. The report on the first stream, which it
# prints too, counts what was refused. Last come the instructions for a line more of one session with 64 sessions in place
# of one, with 256 threads, and with 1,000 definitions. It needs python3, cc, valgrind and GNU time; PROGRAM names another
# program than the one that ./tracepipe built.
here=$(cd "$(dirname "$0")/.." && pwd) || exit 1
runs=${1:-20}
program=${PROGRAM:-$here/crates/tracepipe/out/tracepipe}
work=$(mktemp -d) || exit 1
trap 'rm -rf "$work"' EXIT
[ -n "$PROGRAM" ] || "$here/tracepipe" replay <"$here/examples/one_event.schedule" >"$work/warm" || exit 1
${CC:-cc} -O2 -o "$work/by_hand" "$here/bench/c/replay.c" || exit 1
python3 - "$program" "$work" "$runs" <<'MEASURE'
import re, subprocess, sys, time

program, work, runs = sys.argv[1], sys.argv[2], int(sys.argv[3])


def one_session(rounds):
    """Rounds of 600 writes. 599 records of 109 bytes leave 245 bytes of the chunk, too few for the 600th write."""
    yield from ("event 1 P 1 0 4 1 E -", "accept 1 1 P:1:4", "open 1 1")
    for write in range(600 * rounds):
        frames = f"7f0000{4096 + write % 16:x},7f0000{8192 + write % 16:x}"
        payload = "2a" * (161 + 25 if write % 600 == 599 else 25)
        yield from (f"begin 1 {1000 * write} 1 - - {frames} {payload}", "show 1 1", "end 1")
        if write % 600 == 599:
            yield from ("steal 1 1", "give 1")
            if write % 6000 == 5999:
                yield f"point 1 {1000 * write}"
    yield from ("close 1 1", f"finish 1 {600000 * rounds}")


def many_sessions(rounds):
    """Sixty sessions, each of which wants one keyword, on fifteen threads, over a thousand definitions."""
    sessions, threads, events = 60, 15, 1000
    wanted = {session: session % 8 for session in range(1, sessions + 1)}
    for event in range(1, events + 1):
        yield f"event {event} P {event} 0 4 {1 << event % 8:x} E{event} -"
    for session in wanted:
        yield f"accept {session} 16 P:{1 << wanted[session]:x}:5"
        yield from (f"open {session} {thread}" for thread in range(1, threads + 1))
    for write in range(600 * rounds):
        thread, event = 1 + write % threads, 1 + write % events
        yield f"begin {thread} {write} {event} - - - -"
        yield from (f"show {thread} {session}" for session in wanted if wanted[session] == event % 8)
        yield f"end {thread}"
        if write % 600 == 599:
            for session in wanted:
                for stolen in range(1, threads + 1):
                    yield from (f"steal {session} {stolen}", f"give {session}")
    for session in wanted:
        for thread in range(1, threads + 1):
            yield from (f"close {session} {thread}", f"give {session}")
        yield f"finish {session} {600 * rounds}"


def of_gen(rounds):
    """The schedule that `gen 0 N` makes of 600 writes a round, as docs/PROFILE.md says it."""
    names = ["RequestStart", "RequestStop", "RequestFailed", "PageRead", "PageWrite", "StoreOpened", "JobQueued", "JobSlow"]
    providers = ["Sample-Web"] * 3 + ["Sample-Store"] * 3 + ["Sample-Jobs"] * 2
    numbers, levels, keywords = (1, 2, 3, 1, 2, 3, 1, 2), (4, 4, 2, 5, 4, 0, 4, 3), (1, 1, 2, 1, 2, 0, 3, 4)
    fields = {2: "index:9,thread:12", 6: "-"}
    for event, (provider, number, level, keyword, name) in enumerate(zip(providers, numbers, levels, keywords, names), 1):
        yield f"event {event} {provider} {number} 0 {level} {keyword:x} {name} {fields.get(event, 'index:9')}"
    yield "accept 1 4 " + " ".join(f"Sample-{name}:{'f' * 16}:5" for name in ("Web", "Store", "Jobs"))
    yield "accept 2 1 Sample-Store:1:4"
    yield from (f"open {session} {thread}" for thread in range(1, 5) for session in (1, 2))
    for write in range(600 * rounds):
        index, thread = divmod(write, 4)
        thread += 1
        event = 1 + (thread + index) % 8
        payload = {6: ""}.get(event, index.to_bytes(4, "little").hex()) + (thread.to_bytes(8, "little").hex() if event == 2 else "")
        frames = ",".join(f"{4194304 + 4096 * (index % 16) + 16 * frame:x}" for frame in range(index % 4))
        activity = (thread.to_bytes(8, "little") + index.to_bytes(8, "little")).hex() if event <= 3 else "-"
        yield from (f"begin {thread} {write} {event} {activity} - {frames or '-'} {payload or '-'}", f"show {thread} 1")
        if event == 6:
            yield f"show {thread} 2"
        yield f"end {thread}"
        if write % 4096 == 4095:
            for session in (1, 2):
                for stolen in range(1, 5):
                    yield from (f"steal {session} {stolen}", f"give {session}")
                yield f"point {session} {write + 1}"
    for session in (1, 2):
        for thread in range(1, 5):
            yield from (f"close {session} {thread}", f"give {session}")
        yield f"finish {session} {600 * rounds}"


def one_among(sessions, threads, events):
    """Schedules of one session, the oldest of so many, that gets the events of so many definitions of so many threads."""
    def schedule(rounds):
        for event in range(1, events + 1):
            yield f"event {event} P {event} 0 4 1 E{event} -"
        for session in range(1, sessions + 1):
            yield f"accept {session} {2 * threads} {'P' if session == 1 else 'Q'}:1:4"
        yield from (f"open 1 {thread}" for thread in range(1, threads + 1))
        for write in range(600 * rounds):
            thread = 1 + write % threads
            yield from (f"begin {thread} {write} {1 + write % events} - - - 2a2a", f"show {thread} 1", f"end {thread}")
            if write % 600 == 599:
                for stolen in range(1, threads + 1):
                    yield from (f"steal 1 {stolen}", "give 1")
        for thread in range(1, threads + 1):
            yield from (f"close 1 {thread}", "give 1")
        yield from (f"finish {session} {600 * rounds}" for session in range(1, sessions + 1))
    return schedule


def run(words, source):
    with open(f"{work}/{source}", "rb") as given:
        return subprocess.run(words, stdin=given, stdout=subprocess.PIPE, stderr=subprocess.PIPE, check=True)


def put(schedule, rounds, name):
    """The number of the schedule's lines."""
    lines = list(schedule(rounds))
    with open(f"{work}/{name}", "w") as out:
        out.writelines(line + "\n" for line in lines)
    return len(lines)


def instructions_of(source, *words):
    """The instructions of a whole run, as callgrind counts them."""
    words = ["valgrind", "--tool=callgrind", f"--callgrind-out-file={work}/callgrind", *(words or (program, "replay"))]
    return int(re.search(r"Collected : (\d+)", run(words, source).stderr.decode()).group(1))


def memory_of(words, source):
    """The peak memory of a run, in KiB."""
    return int(run(["/usr/bin/time", "-f", "%M", *words], source).stderr)


def seconds_of(words, source):
    """The least wall time of some runs."""
    least = float("inf")
    for _ in range(runs):
        begun = time.monotonic()
        run(words, source)
        least = min(least, time.monotonic() - begun)
    return least


def instructions_a_line(schedule, rounds):
    """Those for a line more, and the lines of a schedule of so many rounds and of one of twice as many."""
    few, many = put(schedule, rounds, "few"), put(schedule, 2 * rounds, "many")
    return (instructions_of("many") - instructions_of("few")) / (many - few), few, many


def by_hand_a_line(lines, *words):
    """Those of the program by hand for a line more, of so many lines, once it has written the same bytes."""
    if run([f"{work}/by_hand", *words], "many").stdout != run([program, "replay"], "many").stdout:
        sys.exit("the program by hand writes other bytes")
    return (instructions_of("many", f"{work}/by_hand", *words) - instructions_of("few", f"{work}/by_hand", *words)) / lines


for title, schedule, rounds in (
    ("one session, one chunk", one_session, 20),
    ("60 sessions, 15 threads", many_sessions, 10),
    ("that of gen", of_gen, 35),
):
    more, few, many = instructions_a_line(schedule, rounds)
    by_hand, alone = by_hand_a_line(many - few), by_hand_a_line(many - few, "alone")
    most = put(schedule, 10 * rounds, "most")
    seconds, seconds_of_cat = seconds_of([program, "replay"], "most"), seconds_of(["cat"], "most")
    stream = run([program, "replay"], "many").stdout
    print(f"{title}: schedules of {few}, {many} and {most} lines")
    print(f"  {more:.0f} instructions for a line more; by hand {by_hand:.0f}, {more / by_hand:.2f} times, and of session 1 alone {alone:.0f}")
    print(f"  {most / seconds:.0f} lines a second; {seconds * 1000:.1f} ms, {seconds / seconds_of_cat:.2f} x cat of the schedule")
    print(f"  {memory_of([program, 'replay'], 'few')} and {memory_of([program, 'replay'], 'many')} KiB for the first two, cat {memory_of(['cat'], 'many')} KiB, stream {len(stream) // 1024} KiB")
    if schedule is one_session:
        with open(f"{work}/stream", "wb") as out:
            out.write(stream)
        print("  " + run([program, "report"], "stream").stdout.decode().splitlines()[-17])
for among in ((1, 1, 1), (64, 1, 1), (1, 256, 1), (1, 1, 1000)):
    more, _, _ = instructions_a_line(one_among(*among), 5)
    print("%d of %d sessions, %d threads, %d definitions: " % (1, *among) + f"{more:.0f} instructions for a line more")
MEASURE
