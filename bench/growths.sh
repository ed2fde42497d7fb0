#!/bin/sh
# Refuses each growth of the program's memory in turn, one growth a run, and checks how the run ends:
#   - `replay` of one event, and of a budget that is spent, and `report` of the latter's stream end with 9, and what they have
#     written begins what they write else
#   - `run` with two threads and budgets of one megabyte, of whose sessions the first is stopped, ends with 6 or 9 before it
#     listens, and later with 9, or with 0: then one connection at most was refused for want of memory, the one that asks what
#     the process says of itself among them, or one session ended for it, each other one is whole for `report`, with the
#     summary's numbers, and three were opened on all rows, so after one that was refused, or ended before it was open,
#     others were served
# A growth is a call of the C library's malloc or realloc, which is refused by a small library that stands before it: those
# of the C library itself, for its threads, are among them. It prints how many growths there are, and how the runs ended.
# It needs python3 and a C compiler.
#
#   bench/growths.sh [EVERY]    refuses every growth (or each of so many) of `run`, of which there are more
#
# TRACEPIPE names another build of the program, and SECONDS_AT_MOST another limit than a minute for a single thing.
here=$(cd "$(dirname "$0")/.." && pwd) || exit 1
if [ -z "$TRACEPIPE" ]; then
    "$here/tracepipe" gen 0 1 >/dev/null || exit 1
    TRACEPIPE=$here/crates/tracepipe/out/tracepipe
fi
work=$(mktemp -d) || exit 1
trap 'rm -rf "$work"' EXIT
trap 'exit 143' TERM HUP
cp "$here/examples/one_event.schedule" "$here/examples/budget_spent.schedule" "$work" || exit 1
cat >"$work/refuse.c" <<'REFUSE'
#define _GNU_SOURCE
#include <dlfcn.h>
#include <fcntl.h>
#include <stdatomic.h>
#include <stddef.h>
#include <stdlib.h>
#include <sys/mman.h>

/* How many growths there were, in the file that the script reads: the program ends without a word to its libraries. */
static atomic_long here, *calls = &here;
static long refused;
static void *(*real_malloc)(size_t);
static void *(*real_realloc)(void *, size_t);

__attribute__((constructor)) static void begin(void) {
    const char *number = getenv("REFUSED"), *to = getenv("GROWTHS");
    real_malloc = dlsym(RTLD_NEXT, "malloc");
    real_realloc = dlsym(RTLD_NEXT, "realloc");
    int file = to ? open(to, O_RDWR | O_CLOEXEC) : -1;
    void *shared = file < 0 ? MAP_FAILED : mmap(NULL, sizeof here, PROT_READ | PROT_WRITE, MAP_SHARED, file, 0);
    if (shared != MAP_FAILED) calls = shared;
    refused = number ? atol(number) : 0;
}

static int is_refused(void) { return atomic_fetch_add(calls, 1) + 1 == refused; }

void *malloc(size_t size) {
    if (!real_malloc) real_malloc = dlsym(RTLD_NEXT, "malloc");
    return is_refused() ? NULL : real_malloc(size);
}

void *realloc(void *old, size_t size) {
    if (!real_realloc) real_realloc = dlsym(RTLD_NEXT, "realloc");
    return is_refused() ? NULL : real_realloc(old, size);
}
REFUSE
cc -O1 -shared -fPIC -o "$work/refuse.so" "$work/refuse.c" || exit 1
export PYTHONPATH="$here/bench" PYTHONDONTWRITEBYTECODE=1
python3 - "$TRACEPIPE" "$work" "${1:-1}" <<'GROWTHS'
import collections, struct, subprocess, sys, threading

from peers import (
    ERROR, INFO_REQUEST, LIMIT, OK, WEB, Run, collect_request, connected, ended, marks_in, program, received, report,
    session_of, sessions_in, stop_request, threads_in, wanted, work,
)

every = int(sys.argv[3])
NO_MEMORY = 0x8007000E


def refusing(number):
    """An environment in which this growth is refused, none where it is 0, and in which growths are counted anew."""
    with open(f"{work}/growths", "wb") as it:
        it.write(bytes(8))
    return {"LD_PRELOAD": f"{work}/refuse.so", "REFUSED": str(number), "GROWTHS": f"{work}/growths"}


def growths():
    with open(f"{work}/growths", "rb") as it:
        return struct.unpack("<q", it.read())[0]


def carried_out(words, given, number):
    """The status of the words for the bytes given, and what they wrote."""
    said = subprocess.run([program, *words], input=given, capture_output=True, timeout=LIMIT, env=refusing(number))
    return said.returncode, said.stdout


def alone(words, given):
    """Refuses each growth of a command that nobody comes to. Gives what it writes."""
    status, whole = carried_out(words, given, 0)
    wanted(f"{words} ends well, and not with {status}", status == 0)
    statuses, count = collections.Counter(), growths()
    wanted("growths are counted", count > 0)
    for number in range(1, count + 1):
        status, written = carried_out(words, given, number)
        statuses[status] += 1
        wanted(f"{words} ends with 9 where growth {number} is refused, and not with {status}", status in (0, 9))
        wanted(f"it begins what it writes else, with growth {number} refused", whole.startswith(written))
        wanted(f"it writes all where it ends well, with growth {number} refused", status == 9 or written == whole)
    print(f"{' '.join(words)}, {len(given)} bytes: {count} growths, " + ended_with(statuses))
    return whole


def ended_with(statuses):
    return ", ".join(f"{many} ended with {status}" for status, many in sorted(statuses.items()))


class Served:
    """A run, those who came to it, and what they got."""

    def __init__(self, number):
        self.run = Run(2, 10, "--wait", 3, more=refusing(number), may_fail=True)
        self.connections, self.refused = 0, 0
        self.described = self.undescribed = False
        self.streams, self.readers = {}, []

    def collect(self):
        """Whether somebody got a session, whose stream is read meanwhile."""
        link = connected(self.run)
        self.connections += 1
        link.sendall(collect_request(1, WEB))
        reply = b""
        while len(reply) < 28 and (part := link.recv(28 - len(reply))):
            reply += part
        session = session_of(reply)
        if session is None:
            self.refused += 1
            is_so = len(reply) in (0, 24) and (not reply or reply[20:24] == NO_MEMORY.to_bytes(4, "little"))
            wanted(f"who gets no session is told that memory is missing, and not {reply.hex()}", is_so)
            return None

        def read():
            with link:
                self.streams[session] = received(link)

        self.readers.append(threading.Thread(target=read))
        self.readers[-1].start()
        return session

    def describe(self):
        """Asks what the process says of itself, which takes memory."""
        with connected(self.run) as link:
            self.connections += 1
            link.sendall(INFO_REQUEST)
            reply = received(link)
        self.described = reply[16:18] == OK
        is_so = not reply or self.described or reply[20:] == NO_MEMORY.to_bytes(4, "little")
        wanted(f"a process describes itself, or says that memory is missing, and not {reply.hex()}", is_so)
        self.undescribed = bool(reply) and not self.described

    def stop(self, session):
        with connected(self.run) as link:
            self.connections += 1
            link.sendall(stop_request(session))
            reply = link.recv(28)
        wanted(f"a stop is answered, and not by {reply.hex()}", reply[16:18] in (OK, ERROR))

    def serve(self):
        """Sessions come until the threads write, the first of which is stopped."""
        first = True
        try:
            self.describe()
        except OSError:
            return  # It has ended.
        while self.run.process.poll() is None and self.connections < 20:
            try:
                session = self.collect()
                if first and session is not None:
                    self.stop(session)
                    first = False
            except OSError:
                break  # It has ended.


def one_run(number):
    """How a run ends of which a growth is refused."""
    of = Served(number)
    if of.run.path is None:
        status = ended(of.run.process, "run")
        wanted(f"growth {number}: a run that nobody was let into ends with 6 or 9, and not with {status}", status in (6, 9))
        return {f"{status}, nobody let in": 1}
    of.serve()
    status = ended(of.run.process, "run")
    for reader in of.readers:
        reader.join()
    wanted(f"growth {number}: a run ends with 0 or 9, and not with {status}", status in (0, 9))
    if status == 9:
        return {"9, somebody let in": 1}
    wanted(f"growth {number}: a process that is asked says something of itself", of.described or of.undescribed)
    told = sessions_in(of.run.summary())
    memory = 0
    for session, stream in of.streams.items():
        if str(session) not in told:
            # Memory was missing behind its reply, before its stream had begun.
            wanted(f"growth {number}: session {session} is told, which got {len(stream)} bytes", not stream)
            of.refused += 1
            continue
        line = told[str(session)]
        if line[2] == "memory":
            memory += 1
            continue
        said = report(stream)
        wanted(f"growth {number}: session {session} is whole: {line} {said.stdout}", said.returncode == 0)
        same = threads_in(said.stdout.decode()) == marks_in(of.run.summary(), str(session))
        wanted(f"growth {number}: session {session} has the summary's numbers", same)
    wanted(f"growth {number}: one answer at most wants memory", memory + of.refused + of.undescribed <= 1)
    summary = of.run.summary()
    early = [it for it in told if sum(line[:2] == ["mark", it] and line[3] == "0" for line in summary) == 2]
    wanted(f"growth {number}: as many sessions are opened as the threads wait for: {summary}", len(early) >= 3)
    others = {"0, a session refused": of.refused, "0, a session ended for it": memory, "0, not described": of.undescribed}
    return {**others, "0": 1 - sum(others.values())}


def runs():
    one_run(0)
    count = growths()
    wanted("growths are counted", count > 0)
    tried = range(1, count + 1, every)
    ends = collections.Counter()
    for number in tried:
        ends.update({end: many for end, many in one_run(number).items() if many})
    print(f"run 2 10: {count} growths, {len(tried)} of them refused, " + ended_with(ends))


for schedule in ("one_event", "budget_spent"):
    with open(f"{work}/{schedule}.schedule", "rb") as given:
        stream = alone(["replay"], given.read())
alone(["report"], stream)
runs()
GROWTHS
