#!/bin/sh
# Runs the gate, or another command, and prints what each crate costs it: a table of processor-seconds of its proof, of the
# proof of its tests, and of its wrong bodies, the dearest crate first, and their sums. It reads the system's times of the
# prover's processes four times a second while they run, so what a process takes in its last quarter of a second is missed.
# A command as `rt must-fail NAME` or `rt all check` shows its own part of what the gate does. (There are kits whose gate
# counts what passed on this machine before, and does all of it by `rt ci --anew`.)
# It needs python3.
#
#   bench/gate.sh [COMMAND WORD...]
here=$(cd "$(dirname "$0")/.." && pwd) || exit 1
cd "$here" && exec python3 - "$@" <<'MEASURE'
import collections, os, subprocess, sys, tempfile, time

TICKS = os.sysconf("SC_CLK_TCK")
KINDS = ["proof", "tests", "wrong bodies"]


def read(path):
    try:
        with open(path, "rb") as it:
            return it.read().decode(errors="replace")
    except OSError:
        return ""


def stat_of(pid):
    """The parent of a process, and the processor time that it has taken."""
    rest = read(f"/proc/{pid}/stat").rpartition(")")[2].split()
    return (int(rest[1]), (int(rest[11]) + int(rest[12])) / TICKS) if len(rest) > 12 else (0, 0.0)


def kind_of(pid, words):
    try:
        folder = os.readlink(f"/proc/{pid}/cwd")
    except OSError:
        return None
    if "rt-edit-" in folder:
        return "wrong bodies"
    return "tests" if "--test" in words else "proof"


def is_below(pid, top):
    while pid > 1:
        if pid == top:
            return True
        pid = stat_of(pid)[0]
    return False


def sample(top, seen):
    pids = [int(it) for it in os.listdir("/proc") if it.isdigit()]
    for pid in pids:
        words = read(f"/proc/{pid}/cmdline").split("\0")
        if not words[0].endswith("/rattle") or "--crate-name" not in words or not is_below(pid, top):
            continue
        kind = seen[pid][1] if pid in seen else kind_of(pid, words)
        if kind:
            seen[pid] = (words[words.index("--crate-name") + 1], kind, stat_of(pid)[1])


with tempfile.TemporaryFile("w+") as log:
    gate = subprocess.Popen(sys.argv[1:] or ["rt", "ci"], stdout=log, stderr=subprocess.STDOUT, text=True)
    seen = {}
    while gate.poll() is None:
        sample(gate.pid, seen)
        time.sleep(0.25)
    log.seek(0)
    told = log.read()
times = collections.defaultdict(lambda: dict.fromkeys(KINDS, 0.0))
for crate, kind, seconds in seen.values():
    times[crate][kind] += seconds
print("| Crate | Proof | Tests | Wrong bodies | All |")
print("|---|---|---|---|---|")
for crate, by_kind in sorted(times.items(), key=lambda it: -sum(it[1].values())):
    print(f"| `{crate}` | " + " | ".join(f"{by_kind[kind]:.0f}" for kind in KINDS) + f" | {sum(by_kind.values()):.0f} |")
sums = [sum(by_kind[kind] for by_kind in times.values()) for kind in KINDS]
print("| all | " + " | ".join(f"{it:.0f}" for it in sums) + f" | {sum(sums):.0f} |")
print()
print(f"{sum(sums) / 60:.0f} processor-minutes; {told.rstrip().splitlines()[-1] if told.strip() else 'it said nothing'}")
sys.exit(gate.returncode)
MEASURE
