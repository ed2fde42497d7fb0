#!/bin/sh
# Prints what it takes to take a chunk from a pool and to give it back, in instructions and in nanoseconds: from the pool
# that threads share, with no other takers, beside the pool of one owner. It makes a small program over the crates in a
# folder of its own, which is proved and built there. Instructions are counted by callgrind (valgrind, a Debian package);
# times are processor times, the least of some runs less the least of some of half their length, so that the start of the
# program is in neither. It needs python3.
here=$(cd "$(dirname "$0")/.." && pwd) || exit 1
runs=${1:-20}
work=$(mktemp -d) || exit 1
trap 'rm -rf "$work"' EXIT
mkdir -p "$work/crates/measure/src" "$work/crates/measure/proofs/shared_pairs" || exit 1
cp "$here/HANDLES" "$work/" || exit 1
for crate in ep_chunk ep_pool; do
    cp -r "$here/crates/$crate" "$work/crates/" || exit 1
    grep "^$crate:" "$here/crates.txt" >>"$work/crates.txt" || exit 1
done
echo 'measure: ep_pool ep_chunk anyhow' >>"$work/crates.txt"
cat >"$work/crates/measure/src/main.rt" <<'PROGRAM'
//! Takes a chunk from a pool and gives it back, as often as it is told.
#![tactic(auto)]

ghost use Rattle.std.specs.Prelude.{◌≡◌, ◌<◌};
ghost use Rattle.ep_pool.specs.Shared.{IsSeatOf};

use anyhow::{Result, ensure};
use ep_pool::{OwnPool, Pool, PoolSeat, Purse};
use std::env;
use std::hint::black_box;
use std::sync::Wait;

const CHUNKS: u32 = 4;

fn own_pairs(pool: &mut OwnPool, turns: u64) {
    for _ in 0..turns {
        if let Some(chain) = pool.take() {
            pool.give(black_box(chain));
        }
    }
}

fn shared_pairs<R: Wait>(rt: &R, pool: &Pool, seat: PoolSeat, turns: u64) -> PoolSeat
    requires own { IsSeatOf pool.now seat }
    requires unused { (seat.taken ≡ 0) × (seat.given ≡ 0) }
    requires few { turns < 1000000000 }
{
    let mut seat = seat;
    for _ in 0..turns {
        if let Some(chain) = pool.take(rt, &mut seat) {
            pool.give(rt, &mut seat, black_box(chain));
        }
    }
    seat
}

fn main(rt: HostRuntime) -> Result<()> {
    let mut words = env::args(&rt)?;
    let _name = words.next();
    let (Some(what), Some(turns)) = (words.next(), words.next()) else {
        return Ok(());
    };
    let Ok(turns) = turns.as_str().parse::<u64>() else {
        return Ok(());
    };
    ensure!(turns < 1_000_000_000, "too many turns");
    if what.as_str() == "shared" {
        let (pool, seat) = Pool::new(&rt, rt.alloc(), CHUNKS, 1)?;
        let seat = shared_pairs(&rt, &pool, seat, turns);
        println!(rt; "{} {}", seat.taken(), seat.given())?;
    } else {
        let mut pool = OwnPool::new(rt.alloc(), CHUNKS)?;
        own_pairs(&mut pool, turns);
        println!(rt; "{}", pool.free())?;
    }
    Ok(())
}
PROGRAM
cat >"$work/crates/measure/proofs/shared_pairs/Invariants.antt" <<'PROOF'
use Rattle.std.proofs.Common.{◌≡◌, ◌≤◌}
use Rattle.ep_pool.specs.Shared.{IsSeatOf}
use Rattle.measure.proofs.shared_pairs.Given as goal

abbrev pub invariant-loop : goal.invariant-loop
invariant-loop g l = IsSeatOf l.pool l.seat × (l.seat.taken ≡ l.seat.given) × (l.seat.taken ≤ l.counter)
PROOF
cd "$work/crates/measure" || exit 1
if ! rt run -- shared 1 >"$work/log" 2>&1; then
    cat "$work/log"
    exit 1
fi
python3 - "$work/crates/measure/out/measure" "$work" "$runs" <<'MEASURE'
import os, re, subprocess, sys

program, work, runs = sys.argv[1], sys.argv[2], int(sys.argv[3])
PAIRS = 1_000_000


def instructions_of(what, turns):
    """The instructions of a whole run, as callgrind counts them."""
    words = ["valgrind", "--tool=callgrind", f"--callgrind-out-file={work}/callgrind", program, what, str(turns)]
    said = subprocess.run(words, stdout=subprocess.PIPE, stderr=subprocess.PIPE, check=True).stderr.decode()
    return int(re.search(r"Collected : (\d+)", said).group(1))


def instructions_a_turn(what):
    return (instructions_of(what, 20_000) - instructions_of(what, 10_000)) / 10_000


def seconds_of(what, turns):
    """The least processor time of some runs."""
    least = float("inf")
    for _ in range(runs):
        child = subprocess.Popen([program, what, str(turns)], stdout=subprocess.DEVNULL)
        _, status, used = os.wait4(child.pid, 0)
        child.returncode = os.waitstatus_to_exitcode(status)
        assert child.returncode == 0
        least = min(least, used.ru_utime + used.ru_stime)
    return least


def nanoseconds_a_turn(what):
    return (seconds_of(what, 2 * PAIRS) - seconds_of(what, PAIRS)) / PAIRS * 1e9


print("a chunk taken and given back")
for title, what in (("the pool of one owner", "own"), ("the pool that threads share, no other takers", "shared")):
    print(f"  {title:46} {instructions_a_turn(what):8.1f} instructions {nanoseconds_a_turn(what):8.1f} ns")
MEASURE
