#!/bin/sh
# Minutes of hostile use of one `tracepipe run`, over its real socket, while its threads come and go: sessions that are
# collected and stopped, by this program's own clients and by hand, links that are cut, that nobody reads, that send nothing or
# garbage, and stops of sessions that are none. It ends with status 1 where something is wrong:
#   - each stream whose session was stopped is whole for `report`, and has the summary's numbers
#   - each connection is counted in the summary, and each session is there with the fate that its client saw
#   - with no session open, the program has as much memory at the end as after ten seconds, but for what it keeps of each session
#   - when it has ended, no file is left in its folder
# It takes the seconds and about as many more until the run's threads have made their writes. It needs python3.
#
#   bench/soak.sh [SECONDS [SEED]]
#
# TRACEPIPE names another build of the program, and SECONDS_AT_MOST another limit than a minute for a single thing.
here=$(cd "$(dirname "$0")/.." && pwd) || exit 1
if [ -z "$TRACEPIPE" ]; then
    "$here/tracepipe" gen 0 1 >/dev/null || exit 1
    TRACEPIPE=$here/crates/tracepipe/out/tracepipe
fi
work=$(mktemp -d) || exit 1
trap 'rm -rf "$work"' EXIT
trap 'exit 143' TERM HUP
# Chunks of a budget, of 64 KB each, stand in pages of their own, which go back to the system once they are freed: so memory is
# what the program holds, and not also what glibc keeps of freed heap for later.
export GLIBC_TUNABLES=glibc.malloc.mmap_threshold=32768:glibc.malloc.mmap_max=1000000
export PYTHONPATH="$here/bench" PYTHONDONTWRITEBYTECODE=1
python3 - "$TRACEPIPE" "$work" "${1:-120}" "${2:-0}" <<'SOAK'
import collections, os, random, socket, subprocess, sys, threading, time

from peers import (
    ALL, INFO_REQUEST, JOBS, LIMIT, OK, STORE, WEB, Run, ask, client, collect_request, connected, marks_in, program, received,
    report, session_of, sessions_in, stop_request, threads_in, wanted, work,
)

seconds, seed = int(sys.argv[3]), int(sys.argv[4])
ROWS, LIVES = 2, 100
MOST_CONNECTIONS = 470  # of the 500 that a run takes
NOBODY = ("Nobody", 1, 1)  # a provider of no event
KEPT_BYTES = 1 << 16  # what a run may keep of a session that has ended, beside its budget's
A_CHUNK = 24  # and of each chunk of a budget, until the run ends
SLACK = 4  # megabytes


def speed():
    """How many writes a second a thread makes for nobody."""
    writes = 4_000_000
    run = Run(ROWS, writes, "--wait", 64)
    for _ in range(500):
        ask(run, bytes(20))
    at = time.monotonic()
    run.end()
    return writes / (time.monotonic() - at)


class Soak:
    """One run, those who come to it, and what they saw."""

    def __init__(self, writes):
        self.folder = f"{work}/sockets"
        os.mkdir(self.folder)
        self.run = Run(ROWS, writes, "--lives", LIVES, "--streamers", 3, folder=self.folder)
        self.lock = threading.Lock()
        self.connections = 0
        self.done = collections.Counter()
        self.streams = {}  # of each session that was stopped, what the report of its stream counts
        self.begun = []  # the ids of all sessions, and their budgets in megabytes
        self.wrong = []

    def count(self):
        """One connection more."""
        with self.lock:
            self.connections += 1

    def connected(self):
        link = connected(self.run)
        self.count()
        return link

    def say(self, request, ends=False):
        """The reply to a request."""
        with self.connected() as link:
            link.sendall(request)
            if ends:
                link.shutdown(socket.SHUT_WR)
            return link.recv(4096)

    def begin(self, link, megabytes, providers):
        """Begins a session. Gives its id, unless all slots are held."""
        link.sendall(collect_request(megabytes, *providers))
        reply = b""
        while len(reply) < 28 and (part := link.recv(28 - len(reply))):
            reply += part
        session = session_of(reply)
        if session is not None:
            with self.lock:
                self.begun.append((session, megabytes))
        return session

    def come(self, rand):
        """Somebody comes, does one thing, and goes."""
        kinds = {
            self.collect: 10, self.kill: 2, self.cut: 4, self.never_read: 0.3, self.stop_nobody: 2, self.ask: 2,
            self.garbage: 3, self.almost: 3, self.leave_at_once: 1, self.say_nothing: 0.3,
        }  # fmt: skip
        kind = rand.choices([*kinds], [*kinds.values()])[0]
        try:
            kind(rand)
        except (AssertionError, OSError, subprocess.SubprocessError) as error:
            self.wrong.append(f"{kind.__name__}: {error!r}")
        with self.lock:
            self.done[kind.__name__] += 1

    def collect(self, rand):
        """A session that is read until it was stopped."""
        providers = rand.choice([[WEB], [STORE, JOBS], [NOBODY], [NOBODY], [WEB, STORE, JOBS]])
        most, until = rand.randrange(1 << 22), time.monotonic() + rand.random() * 4
        with self.connected() as link:
            session = self.begin(link, rand.choice([1, 4, 16]), providers)
            if session is None:
                return
            stream = b""
            link.settimeout(0.1)
            while len(stream) < most and time.monotonic() < until:
                try:
                    stream += link.recv(1 << 16)
                except TimeoutError:
                    pass
            link.settimeout(LIMIT)
            asked = threading.Thread(target=self.stop, args=(session, rand.random() < 0.3))
            asked.start()
            stream += received(link)
            asked.join()
        self.is_whole(session, stream)

    def stop(self, session, by_program):
        if by_program:
            self.count()
            said = client("stop", self.run.path, session)
            granted = (said.returncode, said.stdout.split()) == (0, ["stopped", str(session)])
        else:
            granted = session_of(self.say(stop_request(session))) == session
        if not granted:
            self.wrong.append(f"the stop of session {session} is not granted")

    def is_whole(self, session, stream):
        said = report(stream)
        assert said.returncode == 0, f"the stream of session {session} is whole: {said.stdout}"
        with self.lock:
            self.streams[session] = threads_in(said.stdout.decode())

    def kill(self, rand):
        """The program's own client, which is killed."""
        self.count()
        words = [program, "collect", self.run.path, "1", *ALL[: rand.randint(1, 3)]]
        with subprocess.Popen(words, stdout=subprocess.PIPE) as process:
            assert process.stdout.read(102), "the program's own client begins a session"
            time.sleep(rand.random() / 4)
            process.kill()

    def cut(self, rand):
        """A session whose client goes away."""
        most = rand.randrange(1 << 18)
        with self.connected() as link:
            self.begin(link, rand.choice([1, 4, 16]), [WEB, STORE])
            taken = 0
            while taken < most and (part := link.recv(1 << 14)):
                taken += len(part)

    def never_read(self, _rand):
        """A session whose client stays and reads nothing."""
        with self.connected() as link:
            self.begin(link, 1, [WEB, STORE, JOBS])
            time.sleep(7)

    def stop_nobody(self, rand):
        reply = self.say(stop_request(rand.choice([0, 501, 2**64 - 1])))
        assert len(reply) == 24, f"a stop of no session is refused: {reply.hex()}"

    def ask(self, rand):
        if rand.random() < 0.5:
            self.count()
            said = client("ps", self.run.path)
            assert said.returncode == 0 and said.stdout.split()[1] == str(self.run.process.pid), f"ps: {said}"
        else:
            reply = self.say(INFO_REQUEST)
            assert reply[16:18] == OK and len(reply) > 50, f"the process describes itself: {reply.hex()}"

    def garbage(self, rand):
        reply = self.say(rand.randbytes(rand.randrange(200)), ends=True)
        assert len(reply) == 24, f"garbage is refused: {reply.hex()}"

    def almost(self, rand):
        """A request with a part missing."""
        request = collect_request(1, WEB)
        reply = self.say(request[: rand.randrange(len(request))], ends=True)
        assert len(reply) == 24, f"a part of a request is refused: {reply.hex()}"

    def leave_at_once(self, _rand):
        self.connected().close()

    def say_nothing(self, rand):
        """Somebody who says nothing, or a part of something, until the server has lost patience."""
        with self.connected() as link:
            link.sendall(INFO_REQUEST[: rand.randrange(20)])
            try:
                link.recv(1)
            except ConnectionError:
                pass

    def go_on(self, rand, until):
        """Lets people come, about as many a second as use up the connections, until the time has come and all have gone."""
        there = []
        pace = seconds / MOST_CONNECTIONS * 1.3
        while time.monotonic() < until and self.connections < MOST_CONNECTIONS and not self.wrong:
            there.append(threading.Thread(target=self.come, args=(random.Random(rand.random()),)))
            there[-1].start()
            time.sleep(rand.expovariate(1 / pace))
        for one in there:
            one.join()

    def check(self, summary):
        """Whether the summary tells what was seen."""
        wanted(
            f"each of the {self.connections} connections is counted: {summary[-1]}",
            summary[-1] == ["connections", str(self.connections)],
        )
        told = sessions_in(summary)
        missing = [session for session, _ in self.begun if str(session) not in told]
        wanted(f"each session is there: {missing}", not missing)
        for session, seen in self.streams.items():
            name = str(session)
            wanted(f"session {name} was stopped: {told[name]}", told[name][2] == "stop")
            wanted(f"the report of session {name} has the summary's numbers", seen == marks_in(summary, name))
        wanted(f"no session wants memory: {told}", not any(line[2] in ("memory", "long") for line in told.values()))
        wanted(f"its folder is empty: {os.listdir(self.folder)}", not os.listdir(self.folder))
        return collections.Counter(line[2] for line in told.values())


def soak():
    rand = random.Random(seed)
    writes = int(speed() * (seconds + 20) / LIVES)
    of = Soak(writes)
    at = time.monotonic()
    of.go_on(rand, at + min(10, seconds / 2))
    first, sessions = of.run.memory(), len(of.begun)
    of.go_on(rand, at + seconds)
    last = of.run.memory()
    passed = time.monotonic() - at
    for wrong in of.wrong:
        print(f"wrong: {wrong}")
    wanted("all went as it is to", not of.wrong)
    wanted("the run goes on meanwhile", of.run.process.poll() is None)
    later = of.begun[sessions:]
    kept = sum(KEPT_BYTES + 16 * megabytes * A_CHUNK for _, megabytes in later) / (1 << 20)
    wanted(f"memory stays as it is: {first:.1f} and {last:.1f} MB, for {kept:.1f} MB kept", last <= first + kept + SLACK)
    fates = of.check(of.run.end(10 * (seconds + LIMIT)))
    print(f"{passed:.0f} seconds, seed {seed}, {ROWS} rows of {LIVES} threads of {writes:,} writes:")
    print(f"  {of.connections} connections: " + ", ".join(f"{many} {kind}" for kind, many in of.done.most_common()))
    print(f"  {sum(fates.values())} sessions: " + ", ".join(f"{many} {fate}" for fate, many in fates.most_common()))
    print(f"  {len(of.streams)} stopped streams whole, with the numbers of the summary")
    print(f"  {first:.1f} MB in memory at first, {last:.1f} MB at last, and no file left")


soak()
SOAK
