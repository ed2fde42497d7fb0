#!/bin/sh
# Prints what a numbered lock and a tie cost, in nanoseconds and in instructions, beside std's Mutex over the same
# value: with one taker, with four takers of one lock, and with four takers of four locks side by side. It makes a small
# program over the crates in a folder of its own, which is proved and built there, and runs it, also under callgrind
# (valgrind, a Debian package): times here vary by a third, instructions don't. It needs python3.
#
#   bench/locks.sh [ROUNDS]     how often each time is taken, of which the least counts; 20 if left out
here=$(cd "$(dirname "$0")/.." && pwd) || exit 1
rounds=${1:-20}
work=$(mktemp -d) || exit 1
trap 'rm -rf "$work"' EXIT
mkdir -p "$work/crates/measure/src" "$work/crates/measure/proofs/pair/tied_turns" || exit 1
for crate in ep_locks ep_tie; do
    mkdir "$work/crates/$crate" || exit 1
    for part in src specs proofs; do
        cp -r "$here/crates/$crate/$part" "$work/crates/$crate/" || exit 1
    done
done
echo 'Handles allowed: Threads, Wait, Net.' >"$work/HANDLES"
cat >"$work/crates.txt" <<'CRATES'
ep_locks: atomic_table
ep_tie: atomic_table
measure: ep_locks ep_tie anyhow
CRATES
cat >"$work/crates/measure/src/main.rt" <<'PROGRAM'
//! Does one thing as often as it is told, and prints how many nanoseconds that took.
#![tactic(auto)]

mod locks;
mod pair;
mod value;

use std::env;
use std::time::Instant;

fn main(rt: HostRuntime) -> anyhow::Result<()> {
    let mut words = env::args(&rt)?;
    let _name = words.next();
    let (Some(what), Some(turns)) = (words.next(), words.next()) else {
        return Ok(());
    };
    let Ok(turns) = turns.as_str().parse::<u64>() else {
        return Ok(());
    };
    let alloc = rt.alloc();
    let began = Instant::now(&rt)?;
    match what.as_str() {
        "mutex_wide" => locks::by_one_mutex(&rt, value::new_wide(), turns),
        "mutex_box" => locks::by_one_mutex(&rt, Box::new(alloc, value::new_wide())?, turns),
        "mutex_of_four_takers" => locks::by_four_mutex(&rt, turns),
        "four_mutexes" => locks::by_four_mutexes(&rt, alloc, turns)?,
        "lock_wide" => locks::by_one_lock(&rt, locks::wide_row(alloc)?, turns),
        "lock_box" => locks::by_one_lock(&rt, locks::boxed_row(alloc)?, turns),
        "lock_of_four_takers" => locks::by_four_lock(&rt, locks::small_row(alloc)?, turns),
        "four_locks" => locks::by_four_locks(&rt, locks::small_row(alloc)?, turns),
        "meet" => pair::tied_turns(alloc, false, turns)?,
        _ => pair::tied_turns(alloc, true, turns)?,
    }
    let took = began.elapsed(&rt)?;
    println!(rt; "{}", took.as_secs().saturating_mul(1_000_000_000).saturating_add(u64::from(took.subsec_nanos())))?;
    Ok(())
}
PROGRAM
cat >"$work/crates/measure/src/value.rt" <<'PROGRAM'
//! What stands under a lock.

/// A value that a turn changes.
pub trait Counted: Drop {
    fn raise(&mut self);
}

/// 200 bytes.
#[derive(Drop)]
pub struct Wide {
    count: u64,
    rest: [u64; 24],
}

pub fn new_wide() -> Wide {
    Wide {
        count: 0,
        rest: [0; 24],
    }
}

impl Counted for Wide {
    fn raise(&mut self) {
        self.count = self.count.wrapping_add(1);
    }
}

impl Counted for Box<Wide> {
    fn raise(&mut self) {
        self.count = self.count.wrapping_add(1);
    }
}

impl Counted for u64 {
    fn raise(&mut self) {
        *self = self.wrapping_add(1);
    }
}
PROGRAM
cat >"$work/crates/measure/src/locks.rt" <<'PROGRAM'
//! Takes and puts.
ghost use Rattle.std.specs.Prelude.{◌≡◌, ◌<◌, ℕ};

use crate::value::{Counted, Wide, new_wide};
use ep_locks::{Guards, Locks};
use std::alloc::{AllocError, Global};
use std::sync::{Mutex, Wait};
use std::thread;
use std::thread::Threads;

/// Nothing is said of the values.
pub struct Whatever;

impl<T> Guards<T> for Whatever {
    ghost holds = { λ _ _. Unit {0} };
}

/// A row of four locks.
#[derive(Drop)]
pub struct Row<T> {
    locks: Locks<T, Whatever>,
    ghost four: { locks.count ≡ 4 },
}

fn row_of<T: Drop>(alloc: Global, values: [T; 4]) -> Result<Row<T>, AllocError> {
    let locks = Locks::new(alloc, Vec::from_array(alloc, values)?)?;
    Ok(Row { locks })
}

pub fn wide_row(alloc: Global) -> Result<Row<Wide>, AllocError> {
    row_of(alloc, [new_wide(), new_wide(), new_wide(), new_wide()])
}

pub fn boxed_row(alloc: Global) -> Result<Row<Box<Wide>>, AllocError> {
    let one = Box::new(alloc, new_wide())?;
    let two = Box::new(alloc, new_wide())?;
    let three = Box::new(alloc, new_wide())?;
    let four = Box::new(alloc, new_wide())?;
    row_of(alloc, [one, two, three, four])
}

pub fn small_row(alloc: Global) -> Result<Row<u64>, AllocError> {
    row_of(alloc, [0, 0, 0, 0])
}

fn lock_turns<T: Counted, R: Wait>(rt: &R, row: &Row<T>, number: usize, turns: u64)
    requires { number < 4 }
{
    for _ in 0..turns {
        let (mut value, held) = row.locks.take(rt, number);
        value.raise();
        row.locks.put(held, value);
    }
}

fn mutex_turns<T: Counted, R: Wait>(rt: &R, mutex: &Mutex<T>, turns: u64) {
    for _ in 0..turns {
        mutex.lock(rt).raise();
    }
}

pub fn by_one_mutex<T: Counted, R: Wait>(rt: &R, value: T, turns: u64) {
    mutex_turns(rt, &Mutex::new(value), turns);
}

pub fn by_one_lock<T: Counted, R: Wait>(rt: &R, row: Row<T>, turns: u64) {
    lock_turns(rt, &row, 0, turns);
}

pub fn by_four_mutex<R: Threads + Wait + Sync>(rt: &R, turns: u64) {
    let mutex = Mutex::new(0u64);
    let one = || mutex_turns(rt, &mutex, turns);
    let two = || {
        thread::join(rt, &one, &one);
    };
    thread::join(rt, &two, &two);
}

pub fn by_four_mutexes<R: Threads + Wait + Sync>(
    rt: &R,
    alloc: Global,
    turns: u64,
) -> Result<(), AllocError> {
    let mutexes = Box::new(alloc, (Mutex::new(0u64), Mutex::new(0u64), Mutex::new(0u64), Mutex::new(0u64)))?;
    let four = &*mutexes;
    thread::join(
        rt,
        || {
            thread::join(rt, || mutex_turns(rt, &four.0, turns), || mutex_turns(rt, &four.1, turns));
        },
        || {
            thread::join(rt, || mutex_turns(rt, &four.2, turns), || mutex_turns(rt, &four.3, turns));
        },
    );
    Ok(())
}

pub fn by_four_lock<R: Threads + Wait + Sync>(rt: &R, row: Row<u64>, turns: u64) {
    let one = || lock_turns(rt, &row, 0, turns);
    let two = || {
        thread::join(rt, &one, &one);
    };
    thread::join(rt, &two, &two);
}

pub fn by_four_locks<R: Threads + Wait + Sync>(rt: &R, row: Row<u64>, turns: u64) {
    thread::join(
        rt,
        || {
            thread::join(rt, || lock_turns(rt, &row, 0, turns), || lock_turns(rt, &row, 1, turns));
        },
        || {
            thread::join(rt, || lock_turns(rt, &row, 2, turns), || lock_turns(rt, &row, 3, turns));
        },
    );
}
PROGRAM
cat >"$work/crates/measure/src/pair.rt" <<'PROGRAM'
//! Meets and sets.
ghost use Rattle.std.specs.Prelude.{◌≡◌};

use ep_tie::{Blank, Left, Named, Right, Ties};
use std::alloc::{AllocError, Global};
use std::marker::Brand;

#[derive(Drop)]
struct Pair<N: Named> {
    left: Left<N, u64>,
    right: Right<N, u64>,
    ghost one_place: { left.place ≡ right.place },
}

fn meet<N: Named>(ties: &Ties<N, u64>, pair: &mut Pair<N>) {
    let Pair { left, right } = pair;
    left.meet(ties, right);
}

fn set<N: Named>(ties: &Ties<N, u64>, pair: &mut Pair<N>, value: u64) {
    let Pair { left, right } = pair;
    left.set(ties, right, &value);
}

fn turns_of<N: Named>(blank: Blank<u64>, sets: bool, turns: u64)
    requires { (blank.ties ≡ N.ties) × (blank.places ≡ 1) }
{
    let (ties, mut maker) = blank.open::<N>();
    let (left, right) = maker.next(&ties, &0);
    let mut pair = Pair { left, right };
    if sets {
        for turn in 0..turns {
            set(&ties, &mut pair, turn);
        }
    } else {
        for _ in 0..turns {
            meet(&ties, &mut pair);
        }
    }
}

pub fn tied_turns(alloc: Global, sets: bool, turns: u64) -> Result<(), AllocError> {
    let blank = Blank::<u64>::new(alloc, 1)?;
    turns_of::<Brand>(blank, sets, turns);
    Ok(())
}
PROGRAM
cat >"$work/crates/measure/proofs/pair/tied_turns/Invariants.antt" <<'PROOF'
use Rattle.measure.proofs.pair.tied_turns.Given as goal

-- the set that was just made
abbrev pub ghosts-turns_of : goal.ghosts-turns_of
ghosts-turns_of a = record { ties = a.blank.ties }
PROOF
cd "$work/crates/measure" || exit 1
if ! rt run -- meet 1 >"$work/log" 2>&1; then
    cat "$work/log"
    exit 1
fi
python3 - "$work/crates/measure/out/measure" "$work" "$rounds" <<'MEASURE'
import re, subprocess, sys

program, work, rounds = sys.argv[1], sys.argv[2], int(sys.argv[3])
TURNS = 400_000


def time_of(what, turns):
    """The least nanoseconds a turn of some rounds."""
    return min(int(subprocess.run([program, what, str(turns)], stdout=subprocess.PIPE, check=True).stdout) for _ in range(rounds)) / turns


def whole_run(what, turns):
    """The instructions of a whole run, as callgrind counts them."""
    words = ["valgrind", "--tool=callgrind", f"--callgrind-out-file={work}/callgrind", program, what, str(turns)]
    said = subprocess.run(words, stdout=subprocess.PIPE, stderr=subprocess.PIPE, check=True).stderr.decode()
    return int(re.search(r"Collected : (\d+)", said).group(1))


def instructions_of(what):
    """The instructions of a turn, with the loop's own."""
    return f"{(whole_run(what, 20_000) - whole_run(what, 10_000)) / 10_000:.0f}"


def row(title, nanoseconds, instructions, base):
    """One line: nanoseconds, instructions, and the ratio to what a reader knows."""
    ratio = f"{nanoseconds / base:6.2f} x" if base else ""
    print(f"  {title:44} {nanoseconds:8.1f} ns {instructions:>6} {ratio}")


print("one taker: a take and a put, in a loop")
for size, title in (("wide", "a value of 200 bytes"), ("box", "a box of 200 bytes")):
    known = time_of(f"mutex_{size}", TURNS)
    row(f"std's Mutex over {title}", known, instructions_of(f"mutex_{size}"), 0)
    row(f"a numbered lock over {title}", time_of(f"lock_{size}", TURNS), instructions_of(f"lock_{size}"), known)
print("four takers, each in a thread of its own: a turn of all four")
for what, known, title in (("lock_of_four_takers", "mutex_of_four_takers", "one"), ("four_locks", "four_mutexes", "four, side by side")):
    base = time_of(known, TURNS // 4)
    row(f"std's Mutex, {title}", base, "", 0)
    row(f"a numbered lock, {title}", time_of(what, TURNS // 4), "", base)
print("ties: two halves, in a loop")
for what in ("meet", "set"):
    row(what, time_of(what, TURNS), instructions_of(what), 0)
MEASURE
