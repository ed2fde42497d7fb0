#!/bin/sh
# Hands random and changed bytes to `report` and to `run`, and checks that they answer by their statuses and codes alone:
#   - traces, made from those of examples/ and of `trace`, with bytes changed, left out, put in, said twice or cut off: `report`
#     ends with 0 and a report, or with 3 and one line that names a place and a finding
#   - requests, random ones and good ones changed so: `run` answers each by one reply of the protocol, begins a session only for
#     what is a request for one, whose stream is whole once it was stopped, and counts each connection in its summary
# It prints how many there were of which kind, and ends with status 1 where an answer is none of these. What is made rests on
# the seed alone. No process may have more than a gigabyte of addresses. It needs python3.
#
#   bench/fuzz.sh [TRACES [REQUESTS [SEED]]]
#
# TRACEPIPE names another build of the program, and SECONDS_AT_MOST another limit than a minute for a single thing.
here=$(cd "$(dirname "$0")/.." && pwd) || exit 1
if [ -z "$TRACEPIPE" ]; then
    "$here/tracepipe" gen 0 1 >/dev/null || exit 1
    TRACEPIPE=$here/crates/tracepipe/out/tracepipe
fi
work=$(mktemp -d) || exit 1
trap 'rm -rf "$work"' EXIT
trap 'exit 143' TERM HUP
for schedule in "$here"/examples/*.schedule; do
    "$TRACEPIPE" replay <"$schedule" >"$work/$(basename "$schedule").nettrace" || exit 1
done
"$TRACEPIPE" trace 2 300 Sample-Web,Sample-Store,Sample-Jobs >"$work/threads.nettrace" || exit 1
export PYTHONPATH="$here/bench" PYTHONDONTWRITEBYTECODE=1
python3 - "$TRACEPIPE" "$work" "${1:-2000}" "${2:-2000}" "${3:-0}" <<'FUZZ'
import collections, glob, random, re, resource, socket, sys

from peers import (
    ERROR, INFO_REQUEST, JOBS, OK, STORE, WEB, Run, collect_request, connected, received, report, session_of, stop_request,
    wanted, work,
)

traces, requests, seed = map(int, sys.argv[3:6])
MEMORY = 1 << 30  # bytes of addresses that a process may have
A_RUN = 490  # connections of one run, of the 500 that it takes
SESSIONS = 60  # of one run, none of which may find all slots held

CODES = {
    0x80131384: "bad encoding",
    0x80131385: "unknown command",
    0x80131386: "unknown magic",
    0x80004005: "refused",
    0x8007000E: "out of memory",
}
FINDING = re.compile(
    rb"error: offset \d+: (BadMagic|BadObject|BadVersion|BadBlock|Uncompressed|BadHead|BadMeta|Truncated|TooLarge|"
    rb"UnknownMetadata|UnknownStack|MetadataTwice|StackTwice)( \d+)?\n"
)


def changed(rand, whole, others):
    """The bytes with one to four changes."""
    out = bytearray(whole)
    for _ in range(rand.randint(1, 4)):
        at = rand.randrange(len(out) + 1)
        many = min(rand.choice([1, 1, 2, 4, 8, 60]), len(out))
        match rand.randrange(8):
            case 0:
                del out[at:]
            case 1:
                del out[at : at + many]
            case 2:
                out[at:at] = rand.randbytes(many)
            case 3:
                out[at:at] = out[at : at + many]
            case 4:
                other = rand.choice(others)
                out[at:] = other[rand.randrange(len(other)) :]
            case 5:
                out[at : at + many] = bytes([rand.choice([0, 127, 128, 255])]) * len(out[at : at + many])
            case _:
                if at < len(out):
                    out[at] ^= 1 << rand.randrange(8)
    return bytes(out)


def fuzz_traces(rand):
    bases = []
    for path in sorted(glob.glob(f"{work}/*.nettrace")):
        with open(path, "rb") as it:
            bases.append(it.read())
    kinds = collections.Counter()
    for number in range(traces):
        trace = rand.randbytes(rand.randrange(300)) if number % 20 == 0 else changed(rand, rand.choice(bases), bases)
        said = report(trace)
        found = FINDING.fullmatch(said.stdout)
        if said.returncode == 3 and found:
            kinds[found[1].decode()] += 1
        elif said.returncode == 0 and said.stdout.startswith(b"trace ") and not said.stderr:
            kinds["whole"] += 1
        else:
            seen = f"{said.returncode} {said.stdout[:200]} {said.stderr[:200]}"
            wanted(f"report answers trace {number}, {trace.hex()}, by its statuses, and not by {seen}", False)
    return kinds


def good_request(rand):
    return rand.choice(
        [
            INFO_REQUEST,
            stop_request(rand.randrange(70)),
            collect_request(rand.choice([1, 2, 0, 2**32 - 1]), WEB, STORE, JOBS),
            collect_request(1, *[("N" * rand.randint(1, 40), rand.getrandbits(64), rand.randrange(7)) for _ in range(20)]),
        ]
    )


class Fuzzed:
    """A run that many come to."""

    def __init__(self, kinds):
        # Its threads make no write, and wait for more sessions than there are. So it ends once 500 have come.
        self.run = Run(1, 0, "--wait", 64, limit=MEMORY)
        self.kinds = kinds
        self.connections, self.sessions = 0, 0

    def say(self, request):
        """What comes back for these bytes, behind which nothing comes, and the link."""
        self.connections += 1
        link = connected(self.run)
        link.sendall(request)
        link.shutdown(socket.SHUT_WR)
        return link, link.recv(28)

    def put(self, request):
        link, reply = self.say(request)
        with link:
            session = session_of(reply)
            code = int.from_bytes(reply[20:24], "little")
            if reply[16:18] == ERROR and len(reply) == 24 and code in CODES:
                self.kinds[CODES[code]] += 1
            elif session is not None and request[16:18] == b"\x02\x01":
                self.kinds["stopped"] += 1
            elif session is not None and request[16:17] == b"\x02":
                self.kinds["session"] += 1
                self.sessions += 1
                self.is_whole(link, session)
            elif reply[16:18] == OK and request[16:18] == b"\x04\x00":
                self.kinds["described"] += 1
            else:
                wanted(f"{request.hex()} is answered by a reply, and not by {reply.hex()}", False)

    def is_whole(self, link, session):
        """The session is stopped, and its stream is whole."""
        other, reply = self.say(stop_request(session))
        other.close()
        wanted(f"the stop of session {session} is granted", session_of(reply) == session)
        said = report(received(link))
        wanted(f"the stream of session {session} is whole: {said.stdout}", said.returncode == 0)

    def end(self):
        while self.connections < 500:
            self.say(b"")[0].close()
        summary = self.run.end()
        wanted(f"each connection is counted: {summary[-1]}", summary[-1] == ["connections", "500"])
        told = sum(line[0] == "session" for line in summary)
        wanted(f"each of the {self.sessions} sessions is told: {told}", told == self.sessions)


def fuzz_requests(rand):
    kinds = collections.Counter()
    left = requests
    while left > 0:
        run = Fuzzed(kinds)
        while left > 0 and run.connections < A_RUN and run.sessions < SESSIONS:
            left -= 1
            good = good_request(rand)
            match rand.randrange(6):
                case 0:
                    run.put(rand.randbytes(rand.randrange(200)))
                case 1:
                    run.put(good)
                case _:
                    run.put(changed(rand, good, [INFO_REQUEST, stop_request(1), good]))
        run.end()
    return kinds


def told(kinds):
    return ", ".join(f"{many} {kind}" for kind, many in kinds.most_common())


resource.setrlimit(resource.RLIMIT_CORE, (0, 0))
print(f"{traces} traces, seed {seed}: {told(fuzz_traces(random.Random(seed)))}")
print(f"{requests} requests, seed {seed}: {told(fuzz_requests(random.Random(seed)))}")
FUZZ
