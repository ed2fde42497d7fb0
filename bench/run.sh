#!/bin/sh
# Runs `tracepipe run` on real sockets, with this program's own clients, and prints what it costs. It checks as it measures,
# and ends with status 1 where something is wrong:
#   - `ps`, three collects at once with rules and budgets of their own, and a stop: each stream is reported whole, with the
#     numbers that the summary has of its session
#   - what a signal leaves, and that nobody is answered there
#   - how many `ps` a second are answered, and how long after a stop's request the last byte of its stream comes
#   - a client that never reads beside one that does
#   - 250 collects one after another, each stopped, with 1,024 MB each, and 500 whose clients go away, under a memory limit
#   - 4 threads at full speed with 1, 8 and 64 sessions: processor time of a write, and the writes that were refused
#   - the instructions of a write, by how many sessions get it, as callgrind counts them
# All of it takes some minutes. Nothing is waited for longer than a minute, or ten under callgrind, and all that was started
# is ended with it. It needs python3, and valgrind (a Debian package) for the instructions.
#
# TRACEPIPE names another build of the program, and SECONDS_AT_MOST another limit than a minute, for a busy machine.
here=$(cd "$(dirname "$0")/.." && pwd) || exit 1
if [ -z "$TRACEPIPE" ]; then
    "$here/tracepipe" gen 0 1 >/dev/null || exit 1
    TRACEPIPE=$here/crates/tracepipe/out/tracepipe
fi
work=$(mktemp -d) || exit 1
trap 'rm -rf "$work"' EXIT
trap 'exit 143' TERM HUP
export PYTHONPATH="$here/bench" PYTHONDONTWRITEBYTECODE=1
python3 - "$TRACEPIPE" "$work" <<'MEASURE'
import os, re, shutil, signal, subprocess, time

from peers import (
    ALL, INFO_REQUEST, LIMIT, OK, WEB, Run, ask, client, collect_request, connected, ended, marks_in, program, read, sessions_in,
    start, stop_request, threads_in, until, wanted, work,
)

SOME = ["Sample-Jobs:4:3"]
ENDLESS = 4_000_000_000  # writes of a thread, some minutes at least
MEMORY = 8 << 30  # bytes of addresses, where a run is held to some


def collect(run, megabytes, rules, to):
    with open(to, "wb") as stream:
        return start([program, "collect", run.path, str(megabytes), *rules], stdout=stream)


def begun(run, megabytes, rules, to):
    """A collect whose session has begun: the first bytes of its stream are there."""
    process = collect(run, megabytes, rules, to)
    until("a session begins", lambda: os.path.getsize(to) > 0 or process.poll() is not None)
    wanted(f"a session begins, and its collect does not end with {process.poll()}", os.path.getsize(to) > 0)
    return process


def reported(path):
    """What `report` counts of each thread of a stream: events, last number and gaps."""
    with open(path, "rb") as stream:
        report = subprocess.run([program, "report"], stdin=stream, capture_output=True, text=True, timeout=LIMIT)
    wanted(f"{path} is a whole stream: {report.stdout}", report.returncode == 0)
    return threads_in(report.stdout)


def whole():
    """Three sessions at once, each of which ends as it is to."""
    writes = 1_000_000
    run = Run(4, writes, "--wait", 3)
    said = client("ps", run.path)
    wanted("ps tells the process", said.returncode == 0 and said.stdout.split()[1] == str(run.process.pid))
    asked = [(256, ALL), (1, SOME), (16, ["Sample-Store:ffffffffffffffff:5", "Sample-Web:1:4"])]
    paths = [f"{work}/{number}" for number in (1, 2, 3)]
    clients = [begun(run, *of, path) for of, path in zip(asked, paths)]
    stopped = client("stop", run.path, 2)
    summary = run.end()
    for process in clients:
        wanted("a collect ends well", ended(process, "a collect") == 0)
    fates = {session: told[2] for session, told in sessions_in(summary).items()}
    second = "stop" if stopped.returncode == 0 else "end"
    wanted(f"sessions end as is said: {fates}, {stopped.stdout}", fates == {"1": "end", "2": second, "3": "end"})
    wanted("each connection is counted", summary[-1] == ["connections", "5"])
    for mark in (line for line in summary if line[0] == "mark"):
        wanted("a session that is waited for misses nothing at first", mark[3] == "0")
        wanted("a session that ends with the program misses nothing at last", mark[1] == "2" or mark[4] == str(writes))
    for session, path in zip("123", paths):
        wanted(f"the report of session {session} has the summary's numbers", reported(path) == marks_in(summary, session))
    print(f"three sessions at once, the second ended by {second}: each stream is whole, with the numbers of the summary")


def signals():
    """A signal leaves the file, where nobody is answered."""
    for by in (signal.SIGINT, signal.SIGTERM):
        run = Run(1, 1)
        run.process.send_signal(by)
        wanted("a signal ends a run", ended(run.process, "run after a signal") == -by)
        wanted("a signal leaves the file", os.path.exists(run.path))
        wanted("nobody is answered there", client("ps", run.path).returncode == 6)
        os.remove(run.path)
    print("a signal ends it and leaves its file, and connecting there is refused")


def asked():
    """How fast a request is answered while threads write."""
    run = Run(4, ENDLESS)
    collect(run, 64, ALL, os.devnull)
    until("threads write", lambda: sum(run.spent().values()) > 0.5)
    times = sorted(ask(run, INFO_REQUEST)[1] for _ in range(400))
    print(
        f"`ps` beside 4 writing threads: {len(times) / sum(times):,.0f} connections a second, median {times[200] * 1e6:.0f} us,"
        f" most {times[-1] * 1e6:.0f} us"
    )
    run.kill()


def stopped():
    """How long after a stop's request the last byte of its stream comes."""
    latest = []
    for _ in range(20):
        run = Run(4, ENDLESS)
        with connected(run) as link:
            link.sendall(collect_request(64, WEB))
            wanted("a session begins", link.recv(28) and link.recv(65536))
            at = time.monotonic()
            reply, _ = ask(run, stop_request(1))
            wanted("the stop is granted", reply[16:18] == OK)
            while link.recv(65536):
                pass
            latest.append(time.monotonic() - at)
        run.kill()
    latest.sort()
    print(f"from a stop's request to its stream's last byte: median {latest[10] * 1e3:.1f} ms, most {latest[-1] * 1e3:.1f} ms")


def slow():
    """A client that never reads is given up; the other one's stream is whole."""
    run = Run(2, 1_000_000, "--wait", 2)
    with connected(run) as link:
        link.sendall(collect_request(1, WEB))
        process = collect(run, 256, ALL, f"{work}/stream")
        summary = run.end()
    wanted("the other client ends well", ended(process, "a collect") == 0)
    told = sessions_in(summary)
    wanted(f"who never reads is given up, and the other not: {told}", (told["1"][2], told["2"][2]) == ("link", "end"))
    wanted("the other stream has its numbers", reported(f"{work}/stream") == marks_in(summary, "2"))
    print(f"a client that never reads: its session wrote {told['1'][0]} and refused {told['1'][1]}, the other {told['2'][0]} and {told['2'][1]}")


def many():
    """250 sessions, one after another, with the largest budget each: 1,024 MB are 16,384 chunks, which are reserved."""
    run = Run(4, ENDLESS, limit=MEMORY)
    at, most = time.monotonic(), 0
    for number in range(1, 251):
        process = begun(run, 1024, SOME, f"{work}/stream")
        stop = client("stop", run.path, number)
        wanted(f"session {number} is stopped: {stop.stdout}", stop.returncode == 0)
        wanted("its collect ends well", ended(process, "a collect") == 0)
        most = max(most, run.memory())
        if number % 50 == 0:
            reported(f"{work}/stream")
    passed = time.monotonic() - at
    run.kill()
    print(f"250 sessions of 1,024 MB one after another: {passed:.1f} seconds, at most {most:.0f} MB in memory")


def gone():
    """500 sessions whose clients go away. All slots at once would be within the limit, all sessions are not."""
    run = Run(4, ENDLESS, limit=MEMORY)
    at, most = time.monotonic(), 0
    for _ in range(500):
        process = begun(run, 64, SOME, f"{work}/stream")
        process.kill()
        process.wait()
        most = max(most, run.memory())
    passed = time.monotonic() - at
    wanted("the run goes on", run.process.poll() is None)
    run.kill()
    print(f"500 sessions of 64 MB whose clients go away: {passed:.1f} seconds, at most {most:.0f} MB in memory")


def speed(sessions):
    writes = 2_000_000
    run = Run(4, writes, "--wait", sessions)
    clients = [collect(run, 64, ALL, os.devnull) for _ in range(sessions)]
    at, last = time.monotonic(), {}

    def is_over():
        last.update(run.spent())
        return run.process.poll() is not None

    until("a run at full speed ends", is_over)
    passed = time.monotonic() - at
    told = sessions_in(run.end()).values()
    for process in clients:
        wanted("a collect ends well", ended(process, "a collect") == 0)
    written, refused = (sum(int(line[place]) for line in told) for place in (0, 1))
    print(
        f"{sessions} sessions, 4 threads of {writes:,} writes: {passed:.1f} seconds, {sum(last.values()) / (4 * writes) * 1e9:.0f} ns of"
        f" processor time a write, all threads together; {written / passed:,.0f} events a second written,"
        f" {100 * refused / max(written + refused, 1):.0f} % refused"
    )


def instructions(sessions, writes):
    tool = ["valgrind", "--tool=callgrind", f"--callgrind-out-file={work}/counts", "--toggle-collect=*write_life*"]
    run = Run(1, writes, *(["--wait", sessions] if sessions else []), before=tool)
    if sessions == 0:
        # Without a session the writers wait until nobody may come any more: 500 connections that ask for nothing.
        for _ in range(500):
            ask(run, b"\0" * 20)
    clients = [collect(run, 256, ALL, os.devnull) for _ in range(sessions)]
    ended(run.process, "run under callgrind", 10 * LIMIT)
    for process in clients:
        ended(process, "a collect")
    counted = int(re.search(r"Collected : (\d+)", read(run.errors))[1])
    wanted("callgrind finds the function", counted > 0)
    return counted


whole()
signals()
asked()
stopped()
slow()
many()
gone()
for sessions in (1, 8, 64):
    speed(sessions)
if shutil.which("valgrind"):
    for sessions in (0, 1, 8, 64):
        more = instructions(sessions, 3_000) - instructions(sessions, 1_000)
        print(f"{sessions} sessions: {more / 2_000:.0f} instructions for a write more in its thread")
MEASURE
