"""Runs of `tracepipe run` and who comes to their sockets, for the scripts here.

The first two words of a script are the program and a folder to work in. Nothing is waited for longer than a limit, and
all that was started is ended with the script.
"""

import atexit, os, re, resource, signal, socket, struct, subprocess, sys, time

program, work = sys.argv[1], sys.argv[2]

LIMIT = int(os.environ.get("SECONDS_AT_MOST", 60))  # seconds that anything may take

# Rules for all events, by the words of `collect`.
ALL = [f"Sample-{name}:ffffffffffffffff:5" for name in ("Web", "Store", "Jobs")]

# A provider's name with all keywords and levels, as a request has it.
WEB, STORE, JOBS = ((f"Sample-{name}", 2**64 - 1, 5) for name in ("Web", "Store", "Jobs"))

OK, ERROR = b"\xff\x00", b"\xff\xff"  # the set and the command of a reply

started = []


def start(words, **more):
    started.append(subprocess.Popen(words, **more))
    return started[-1]


@atexit.register
def end_all():
    for process in started:
        if process.poll() is None:
            process.kill()
            process.wait()


signal.signal(signal.SIGTERM, lambda *_: sys.exit(143))


def wanted(what, is_so):
    if not is_so:
        sys.exit(f"wrong: {what}")


def until(what, is_so):
    """Waits until it is so."""
    last = time.monotonic() + LIMIT
    while not is_so():
        wanted(f"{what}, within {LIMIT} seconds", time.monotonic() < last)
        time.sleep(0.001)


def ended(process, what, limit=LIMIT):
    """The status of a process, once it has ended."""
    try:
        return process.wait(timeout=limit)
    except subprocess.TimeoutExpired:
        wanted(f"{what} ends within {limit} seconds", False)


def read(path):
    with open(path) as it:
        return it.read()


class Run:
    """The program at `run`, and the path of its socket. What it says goes to files, so that nobody has to read it."""

    count = 0

    def __init__(self, *words, before=(), limit=None, folder=None, more={}, may_fail=False):
        Run.count += 1
        self.output, self.errors = (f"{work}/run-{Run.count}.{kind}" for kind in ("out", "err"))
        held = (lambda: resource.setrlimit(resource.RLIMIT_AS, (limit, limit))) if limit else None
        with open(self.output, "wb") as output, open(self.errors, "wb") as errors:
            self.process = start(
                [*before, program, "run", *map(str, words)],
                env={**os.environ, "TMPDIR": folder or work, **more},
                stdout=output,
                stderr=errors,
                preexec_fn=held,
            )
        until("run listens or ends", lambda: self.listens() or self.process.poll() is not None)
        wanted(f"run listens: {read(self.errors)}", self.listens() or may_fail)
        self.path = self.listens() and self.listens()[1]

    def listens(self):
        return re.search(r"^listening at (.+)\n", read(self.errors), re.M)

    def end(self, limit=LIMIT):
        """Its summary as lists of words, once it has ended by itself."""
        status = ended(self.process, "run", limit)
        wanted(f"run ends well, and not with {status}: {read(self.errors)}", status == 0)
        wanted("its socket's file is gone", not os.path.exists(self.path))
        return self.summary()

    def summary(self):
        return [line.split() for line in read(self.output).splitlines()]

    def kill(self, by=signal.SIGKILL):
        """Ends it by a signal, which leaves the file."""
        self.process.send_signal(by)
        ended(self.process, "run after a signal")
        os.remove(self.path)

    def spent(self):
        """The processor time of each of its threads, in seconds."""
        found = {}
        try:
            for thread in os.listdir(f"/proc/{self.process.pid}/task"):
                found[thread] = int(read(f"/proc/{self.process.pid}/task/{thread}/schedstat").split()[0]) / 1e9
        except OSError:
            pass  # It has ended meanwhile.
        return found

    def memory(self):
        """The megabytes that it has in memory."""
        return int(re.search(r"VmRSS:\s+(\d+)", read(f"/proc/{self.process.pid}/status"))[1]) / 1024


def client(*words):
    return subprocess.run([program, *map(str, words)], capture_output=True, text=True, timeout=LIMIT)


def report(stream):
    """What `report` says of the bytes of a stream."""
    return subprocess.run([program, "report"], input=stream, capture_output=True, timeout=LIMIT)


def threads_in(text):
    """What a report counts of each thread: events, last number and gaps."""
    return {line.split()[1]: line.split()[2:] for line in text.splitlines() if line.startswith("thread")}


def sessions_in(summary):
    """Of each session, by id: how many events it wrote, how many were refused, and why it ended."""
    return {line[1]: line[2:] for line in summary if line[0] == "session"}


def marks_in(summary, session):
    """What a report is to count of each thread of a session."""
    marks = [line[2:] for line in summary if line[:2] == ["mark", session]]
    return {thread: [taken, str(int(taken) + int(refused)), refused] for thread, _, _, taken, refused in marks}


def connected(run):
    link = socket.socket(socket.AF_UNIX)
    link.settimeout(LIMIT)
    link.connect(run.path)
    return link


def ask(run, message):
    """The first bytes of the reply to a message, and how many seconds they took."""
    at = time.monotonic()
    with connected(run) as link:
        link.sendall(message)
        reply = link.recv(4096)
    return reply, time.monotonic() - at


def received(link):
    """All that a link gives until it ends."""
    parts = []
    while part := link.recv(1 << 16):
        parts.append(part)
    return b"".join(parts)


def message(commands, command, body=b""):
    return b"DOTNET_IPC_V1\0" + struct.pack("<HBBH", 20 + len(body), commands, command, 0) + body


def text(word):
    return struct.pack("<I", len(word) + 1) + (word + "\0").encode("utf-16le")


def collect_request(megabytes, *providers):
    """A request for a session with these providers: names, keywords and levels."""
    rules = [struct.pack("<QI", keywords, level) + text(name) + bytes(4) for name, keywords, level in providers]
    return message(2, 3, struct.pack("<IIBI", megabytes, 1, 0, len(rules)) + b"".join(rules))


def stop_request(session):
    return message(2, 1, struct.pack("<Q", session))


INFO_REQUEST = message(4, 0)


def session_of(reply):
    """The session that a reply of 28 bytes tells of, if it is none of an error."""
    return struct.unpack("<Q", reply[20:28])[0] if reply[16:18] == OK and len(reply) >= 28 else None
