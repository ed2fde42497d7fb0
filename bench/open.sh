#!/bin/sh
# Prints what it takes to open a session on a thread's row and to close it again, in instructions and in nanoseconds: in a
# program of 8 and of 1,000 events, for a session of 1 rule and of 1,000, by its rules (`Row::open_on`) and by a list of
# what it gets that was made before (`Row::open_admitted`). While threads run it is the list's way that stands under the
# row's lock. Beside them what it takes to make the list, once for all rows. The rules are of another provider but for the
# last, so each is read.
#
# Then what that is to a thread that writes (`Live`): one thread makes 300,000 writes on its row as fast as it can, while
# another opens a session there and closes it again, as often as it can and 200 times a millisecond. It prints how many
# nanoseconds a write takes with no opening beside it, with openings on another row, and with openings on its own; how many
# the last were; and what one of them, with its closing, costs the writes, which is what they wait for it: the time that
# they took more than with none, shared among the openings. The session gets each event but the one that is written, so
# that no write is shown to it, and what the writes take more is the waiting, and the way of the row's memory between two
# processors. Last comes the longest write, in runs of their own with a look at the clock behind each write; a pause of the
# scheduler shows there too, also with no opening.
#
# It makes two small programs over the crates, each in a folder of its own, where it is proved before it is built. The
# second takes the crates with what was proved of them here; where nothing was, their proofs come first, which takes long.
# (`rt try` proves nothing, but the program that it runs looks at each step, and a write takes microseconds there.) The
# first runs under callgrind too (valgrind, a Debian package): times vary by a third, instructions don't. It needs python3,
# and for the second two processors that do nothing else.
#
#   bench/open.sh [ROUNDS]     how often each time is taken, of which the least counts, or with two threads the middle; 20
#                              if left out
here=$(cd "$(dirname "$0")/.." && pwd) || exit 1
rounds=${1:-20}
work=$(mktemp -d) || exit 1
trap 'rm -rf "$work"' EXIT
mkdir -p "$work/crates/measure/src" "$work/crates/measure/proofs/opens" "$work/crates/measure/proofs/events_of" || exit 1
for crate in ep_chunk ep_defs ep_pool ep_model ep_slot ep_row; do
    mkdir "$work/crates/$crate" || exit 1
    for part in src specs proofs; do
        cp -r "$here/crates/$crate/$part" "$work/crates/$crate/" || exit 1
    done
    grep "^$crate:" "$here/crates.txt" >>"$work/crates.txt" || exit 1
done
echo 'measure: ep_row ep_slot ep_pool ep_chunk ep_defs anyhow' >>"$work/crates.txt"
cat >"$work/crates/measure/src/main.rt" <<'PROGRAM'
//! Opens a session on a row and closes it again, as often as it is told, and prints how many nanoseconds that took.
#![tactic(auto)]

ghost use Rattle.std.specs.Prelude.{◌≡◌, ◌<◌, length, vec_len, IfOk};

use anyhow::{Result, ensure};
use ep_defs::{Config, EventDef, FieldList, Rule, RuleList, Units, admits};
use ep_row::Row;
use std::alloc::{AllocError, Global};
use std::env;
use std::hint::black_box;
use std::time::Instant;

// A text of one unit.
fn text(alloc: Global, unit: u16) -> Result<Units, AllocError> {
    Ok(Units::new(vec![in alloc; unit]?))
}

// So many events of the provider P.
fn events_of(alloc: Global, count: u32) -> Result<Vec<EventDef>, AllocError>
    ensures { IfOk result (λ events. vec_len events ≡ count) }
{
    let mut events = Vec::new(alloc);
    for id in 0..count {
        events.push(EventDef {
            provider: text(alloc, 80)?,
            id,
            version: 0,
            level: 4,
            keywords: 1,
            name: text(alloc, 69)?,
            fields: FieldList::new(Vec::new(alloc)),
        })?;
    }
    Ok(events)
}

// A session of so many rules, of which the last alone is for the provider P.
fn config_of(alloc: Global, rules: u32) -> Result<Config, AllocError> {
    let mut list = Vec::new(alloc);
    for place in 0..rules {
        let name = if place + 1 == rules { 80 } else { 81 };
        list.push(Rule {
            name: text(alloc, name)?,
            keywords: 1,
            level: 4,
        })?;
    }
    Ok(Config {
        rules: RuleList::new(list),
        chunks: 1,
        stackwalk: false,
        rundown: false,
    })
}

// Of each event whether the session gets it.
fn admitted_of(alloc: Global, config: &Config, events: &[EventDef]) -> Result<Vec<bool>, AllocError>
    ensures { IfOk result (λ list. vec_len list ≡ length events.now) }
{
    events.iter().map(|def| admits(config, def)).collect(alloc)
}

// How a session is opened.
#[derive(Clone, Copy, PartialEq, Eq)]
enum How {
    ByRules,
    ByList,
}

// Opens the session and closes it again, as often as it is told.
fn opens(
    alloc: Global,
    row: &mut Row,
    config: &Config,
    events: &[EventDef],
    admitted: &[bool],
    how: How,
    turns: u32,
) -> Result<()>
    requires events { length events.now ≡ length row.old.masks }
    requires admitted { length admitted.now ≡ length row.old.masks }
{
    for _ in 0..turns {
        ensure!(!row.in_write() && !row.left() && !row.is_on(0), "not to be opened on");
        let (slot, hand) = match how {
            How::ByRules => row.open_on(alloc, 0, 1, config, events)?,
            How::ByList => row.open_admitted(alloc, 0, 1, config.chunks, admitted)?,
        };
        black_box(row.close_on(0, slot, hand));
    }
    Ok(())
}

fn main(rt: HostRuntime) -> Result<()> {
    let mut words = env::args(&rt)?;
    let _name = words.next();
    let (Some(what), Some(events), Some(rules), Some(turns)) =
        (words.next(), words.next(), words.next(), words.next())
    else {
        return Ok(());
    };
    let events = events.as_str().parse::<u32>().unwrap_or(0);
    let rules = rules.as_str().parse::<u32>().unwrap_or(0);
    let turns = turns.as_str().parse::<u32>().unwrap_or(0);
    ensure!(events <= 4000 && rules <= 1000, "too many");
    let alloc = rt.alloc();
    let defs = events_of(alloc, events)?;
    let config = config_of(alloc, rules)?;
    let admitted = admitted_of(alloc, &config, defs.as_slice())?;
    let mut row = Row::new(alloc, 1, events)?;
    let began = Instant::now(&rt)?;
    match what.as_str() {
        "list" => {
            for _ in 0..turns {
                black_box(admitted_of(alloc, black_box(&config), defs.as_slice())?);
            }
        }
        "by_list" => {
            opens(alloc, &mut row, &config, defs.as_slice(), admitted.as_slice(), How::ByList, turns)?;
        }
        _ => {
            opens(alloc, &mut row, &config, defs.as_slice(), admitted.as_slice(), How::ByRules, turns)?;
        }
    }
    let took = began.elapsed(&rt)?;
    println!(rt; "{}", took.as_secs().saturating_mul(1_000_000_000).saturating_add(u64::from(took.subsec_nanos())))?;
    Ok(())
}
PROGRAM
cat >"$work/crates/measure/proofs/events_of/Invariants.antt" <<'PROOF'
use Rattle.std.proofs.Common.{◌≡◌, vec_len}
use Rattle.measure.proofs.events_of.Given as goal

abbrev pub invariant-loop-id : goal.invariant-loop-id
invariant-loop-id l = vec_len l.events ≡ l.id
PROOF
cat >"$work/crates/measure/proofs/opens/Invariants.antt" <<'PROOF'
use Rattle.std.proofs.Common.{◌≡◌, length}
use Rattle.measure.proofs.opens.Given as goal

abbrev pub invariant-loop : goal.invariant-loop
invariant-loop l = length l.row.masks ≡ length l.fn.row.masks
PROOF
cd "$work/crates/measure" || exit 1
if ! rt run -- by_list 8 1 1 >"$work/log" 2>&1; then
    cat "$work/log"
    exit 1
fi
python3 - "$work/crates/measure/out/measure" "$work" "$rounds" <<'MEASURE'
import re, subprocess, sys

program, work, rounds = sys.argv[1], sys.argv[2], int(sys.argv[3])


def ran(what, events, rules, turns):
    return subprocess.run([program, what, str(events), str(rules), str(turns)], capture_output=True, text=True, check=True).stdout


def instructions_of(what, events, rules, turns):
    """The instructions of a whole run, as callgrind counts them."""
    out = work + "/callgrind.out"
    done = subprocess.run(["valgrind", "--tool=callgrind", "--callgrind-out-file=" + out, program, what, str(events), str(rules), str(turns)],
                          capture_output=True, text=True, check=True)
    return int(re.search(r"Collected : (\d+)", done.stderr).group(1))


print("what           events  rules   instructions   nanoseconds")
for what, said in (("by_rules", "open by rules"), ("by_list", "open by a list"), ("list", "make the list")):
    for events in (8, 1000):
        for rules in (1, 1000):
            few = 10 if rules * events > 100_000 else 100
            counted = (instructions_of(what, events, rules, 2 * few) - instructions_of(what, events, rules, few)) / few
            time = min(int(ran(what, events, rules, 10 * few)) for _ in range(rounds)) / (10 * few)
            print(f"{said:14} {events:6} {rules:6} {counted:14,.0f} {time:13,.0f}")
MEASURE

# The program of two threads.
beside=$work/beside/crates/beside
mkdir -p "$beside/src" "$beside/specs" "$beside/proofs/told_on" || exit 1
mkdir -p "$beside/proofs/begun/events_of" "$beside/proofs/begun/hands_of" "$beside/proofs/begun/halves_of_two" || exit 1
cp "$here/HANDLES" "$work/beside/" || exit 1
for crate in pt_num pt_io ep_defs ep_model nt_object nt_head nt_meta nt_stacks nt_blocks nt_write ep_chunk ep_pool ep_slot \
    ep_row ep_stream ep_locks ep_tie ep_shelf ep_guarded ep_live; do
    cp -r "$here/crates/$crate" "$work/beside/crates/" || exit 1
    grep "^$crate:" "$here/crates.txt" >>"$work/beside/crates.txt" || exit 1
done
echo 'beside: ep_live ep_guarded ep_shelf ep_tie ep_slot ep_pool pt_io ep_defs anyhow' >>"$work/beside/crates.txt"
cat >"$beside/src/main.rt" <<'PROGRAM'
//! A thread makes so many writes on its row as fast as it can, while another opens a session on a row and closes it again.
//! Prints how many nanoseconds the writes took, how many openings there were, and how many nanoseconds the longest write
//! took, where each was timed.
#![tactic(auto)]

mod begun;
mod place;
mod writer;

ghost use Rattle.std.specs.Prelude.{◌≡◌, ◌<◌, ◌≤◌};
ghost use Rattle.ep_guarded.specs.Tied.{buffer_number};
ghost use Rattle.beside.specs.Begun.{IsGranted};
ghost use Rattle.beside.specs.Runs.{IsProgram};

use anyhow::{Result, ensure};
use begun::{Granted, Halves, events_of, hands_of, placed_grant, write, writer_of};
use ep_defs::{EventDef, Write};
use ep_guarded::{Agreed, Grant, Program};
use ep_live::Live;
use ep_shelf::Shelf;
use ep_tie::Blank;
use place::Place;
use std::alloc::{AllocError, Global};
use std::env;
use std::hint::spin_loop;
use std::io;
use std::marker::Brand;
use std::sync::Wait;
use std::sync::atomic::{AtomicBool, Ordering};
use std::thread;
use std::thread::Threads;
use std::time::{Clock as Timer, Duration, Instant};
use writer::{Run, Writer};

/// Where the session is opened.
#[derive(Clone, Copy, PartialEq, Eq)]
enum Where {
    Nowhere,
    OnItsRow,
    OnTheOther,
}

/// What is asked of a run: where the session is opened, how long it takes from one opening to the next at least, and whether
/// each write is timed.
#[derive(Clone, Copy)]
struct Asked {
    place: Where,
    pace: Duration,
    each: bool,
}

/// The nanoseconds of all writes, and of the longest.
#[derive(Clone, Copy)]
struct Took {
    all: u64,
    longest: u64,
}

/// What a run tells, where the clock answered.
#[derive(Clone, Copy)]
struct Told {
    took: Option<Took>,
    openings: Option<u64>,
}

/// By these the threads know of each other.
#[derive(Drop)]
struct Flags {
    begun: AtomicBool,
    ended: AtomicBool,
}

fn nanoseconds(time: Duration) -> u64 {
    time.as_secs()
        .saturating_mul(1_000_000_000)
        .saturating_add(u64::from(time.subsec_nanos()))
}

// ---- the thread that writes

fn write_all<'a, P: Program, R: Wait + Timer>(
    rt: &R,
    run: &Run<'a, P>,
    writer: &mut Writer<'a, P>,
) -> io::Result<Took> {
    let began = Instant::now(rt)?;
    for _ in 0..run.turns {
        writer.write(rt, run);
    }
    let all = nanoseconds(began.elapsed(rt)?);
    Ok(Took { all, longest: 0 })
}

// The same with a look at the clock behind each write, which is in the times too.
fn write_each<'a, P: Program, R: Wait + Timer>(
    rt: &R,
    run: &Run<'a, P>,
    writer: &mut Writer<'a, P>,
) -> io::Result<Took> {
    let began = Instant::now(rt)?;
    let (mut last, mut longest) = (began, 0);
    for _ in 0..run.turns {
        writer.write(rt, run);
        let now = Instant::now(rt)?;
        longest = longest.max(nanoseconds(now.duration_since(last)));
        last = now;
    }
    let all = nanoseconds(last.duration_since(began));
    Ok(Took { all, longest })
}

// Waits until the other thread is there, which it is soon, or never where no thread could be made for it.
fn wait_a_while(flags: &Flags) {
    for _ in 0..1_000_000 {
        if flags.begun.load(Ordering::SeqCst) {
            return;
        }
        thread::yield_now();
    }
}

/// The thread that writes, and all that it looks at.
#[derive(Drop)]
struct Writes<'r, 'a, P: Program, R> {
    rt: &'r R,
    run: &'r Run<'a, P>,
    flags: &'r Flags,
    writer: Writer<'a, P>,
    asked: Asked,
}

impl<'r, 'a, P: Program, R: Wait + Timer> Writes<'r, 'a, P, R> {
    fn play(self) -> Option<Took> {
        let Writes {
            rt,
            run,
            flags,
            mut writer,
            asked,
        } = self;
        wait_a_while(flags);
        let took = if asked.each {
            write_each(rt, run, &mut writer)
        } else {
            write_all(rt, run, &mut writer)
        };
        flags.ended.store(true, Ordering::SeqCst);
        took.ok()
    }
}

// ---- the thread that opens

// Opens the session and closes it again until the other thread has made its writes. Gives how often.
fn open_often<'a, P: Program, R: Wait + Timer>(
    rt: &R,
    alloc: Global,
    run: &Run<'a, P>,
    place: &mut Place<'a, P>,
    asked: Asked,
    flags: &Flags,
) -> io::Result<u64> {
    let mut openings = 0u64;
    let mut last = Instant::now(rt)?;
    for _ in rt.forever() {
        if flags.ended.load(Ordering::SeqCst) {
            return Ok(openings);
        }
        let now = Instant::now(rt)?;
        if now.duration_since(last) < asked.pace {
            spin_loop();
        } else {
            last = now;
            place.open(rt, alloc, &run.live);
            let closed = place.close(rt, alloc, &run.live);
            openings = openings.saturating_add(u64::from(closed));
        }
    }
    unreachable!()
}

/// The thread that opens, and all that it looks at.
#[derive(Drop)]
struct Opens<'r, 'a, P: Program, R> {
    rt: &'r R,
    run: &'r Run<'a, P>,
    flags: &'r Flags,
    place: Place<'a, P>,
    asked: Asked,
}

impl<'r, 'a, P: Program, R: Wait + Timer> Opens<'r, 'a, P, R> {
    fn play(self, alloc: Global) -> Option<u64> {
        let Opens {
            rt,
            run,
            flags,
            mut place,
            asked,
        } = self;
        flags.begun.store(true, Ordering::SeqCst);
        if asked.place == Where::Nowhere {
            return Some(0);
        }
        open_often(rt, alloc, run, &mut place, asked, flags).ok()
    }
}

// ---- both

/// The thread of the first row, and a session on one of the rows.
#[derive(Drop)]
struct Cast<'a, P: Program> {
    writer: Writer<'a, P>,
    place: Place<'a, P>,
}

fn cast_of<'a, P: Program>(
    halves: Halves<'a, P>,
    granted: Granted<'a>,
    row: u32,
    slot: u32,
) -> Cast<'a, P>
    requires granted { IsGranted P.events granted.grant.now granted.seat }
    requires row { row < 2 }
    requires slot { slot < 64 }
    requires other { 3 < buffer_number row slot }
{
    let Halves { threads, hands } = halves;
    let high = row as usize * 64 + slot as usize;
    let (_one, other) = hands_of(hands, 3, high);
    let place = Place::new(row, slot, other, granted.grant, granted.seat);
    let writer = writer_of(threads);
    Cast { writer, place }
}

fn play_both<'r, 'a, P: Program + Send + Sync, R: Threads + Wait + Timer + Sync>(
    rt: &R,
    alloc: Global,
    one: Writes<'r, 'a, P, R>,
    other: Opens<'r, 'a, P, R>,
) -> Told {
    let (took, openings) = thread::join(rt, move || one.play(), move || other.play(alloc));
    Told { took, openings }
}

fn play<'a, P: Program + Send + Sync, R: Threads + Wait + Timer + Sync>(
    rt: &R,
    alloc: Global,
    run: &Run<'a, P>,
    cast: Cast<'a, P>,
    asked: Asked,
) -> Told {
    let Cast { writer, place } = cast;
    let flags = Flags {
        begun: AtomicBool::new(false),
        ended: AtomicBool::new(false),
    };
    let one = Writes {
        rt,
        run,
        flags: &flags,
        writer,
        asked,
    };
    let other = Opens {
        rt,
        run,
        flags: &flags,
        place,
        asked,
    };
    play_both(rt, alloc, one, other)
}

fn play_on<'a, P: Program + Send + Sync, R: Threads + Wait + Timer + Sync>(
    rt: &R,
    alloc: Global,
    run: &Run<'a, P>,
    halves: Halves<'a, P>,
    granted: Granted<'a>,
    asked: Asked,
) -> Told
    requires granted { IsGranted P.events granted.grant.now granted.seat }
{
    match asked.place {
        Where::OnTheOther => play(rt, alloc, run, cast_of(halves, granted, 1, 5), asked),
        _ => play(rt, alloc, run, cast_of(halves, granted, 0, 5), asked),
    }
}

// A run of these events.
fn run<'a, P: Program + Send + Sync, R: Threads + Wait + Timer + Sync>(
    rt: &R,
    alloc: Global,
    blank: Blank<Agreed<'a>>,
    events: Vec<EventDef>,
    write: Write,
    turns: u32,
    granted: Granted<'a>,
    asked: Asked,
) -> Result<Told, AllocError>
    requires ties { blank.ties ≡ P.ties }
    requires places { blank.places ≡ 258 }
    requires two { P.rows ≡ 2 }
    requires events { events.items ≡ P.events }
    requires program { IsProgram P.events P.writes turns write }
    requires granted { IsGranted P.events granted.grant.now granted.seat }
{
    let (live, threads, hands) = Live::<P>::new(alloc, blank, 2, events)?;
    let run = Run { live, write, turns };
    let halves = Halves { threads, hands };
    Ok(play_on(rt, alloc, &run, halves, granted, asked))
}

// A run of so many events and writes, with a session of so many rules.
fn told_on<R: Threads + Wait + Timer + Sync>(
    rt: &R,
    alloc: Global,
    grants: &Shelf<Grant>,
    count: u32,
    rules: u32,
    turns: u32,
    asked: Asked,
) -> Result<Told, AllocError>
    requires some { 0 < count }
    requires most { count ≤ 1000 }
    requires few { turns ≤ 1000000000 }
{
    let events = events_of(alloc, count)?;
    let granted = placed_grant(rt, alloc, grants, events.as_slice(), rules)?;
    let blank = Blank::new(alloc, 258)?;
    let write = write(alloc);
    run::<Brand, R>(rt, alloc, blank, events, write, turns, granted, asked)
}

fn main(rt: HostRuntime) -> Result<()> {
    let mut words = env::args(&rt)?;
    let _name = words.next();
    let (Some(place), Some(events), Some(rules), Some(pace)) =
        (words.next(), words.next(), words.next(), words.next())
    else {
        return Ok(());
    };
    let (Some(turns), Some(each)) = (words.next(), words.next()) else {
        return Ok(());
    };
    let events = events.as_str().parse::<u32>().unwrap_or(0);
    let rules = rules.as_str().parse::<u32>().unwrap_or(0);
    let turns = turns.as_str().parse::<u32>().unwrap_or(0);
    ensure!(0 < events && events <= 1000 && rules <= 1000 && turns <= 1_000_000_000, "too many");
    let place = match place.as_str() {
        "on_its_row" => Where::OnItsRow,
        "on_the_other" => Where::OnTheOther,
        _ => Where::Nowhere,
    };
    let asked = Asked {
        place,
        pace: Duration::from_nanos(pace.as_str().parse::<u64>().unwrap_or(0)),
        each: each.as_str() == "each",
    };
    let alloc = rt.alloc();
    let grants = Shelf::new(alloc)?;
    let told = told_on(&rt, alloc, &grants, events, rules, turns, asked)?;
    let (Some(took), Some(openings)) = (told.took, told.openings) else {
        return Ok(());
    };
    println!(rt; "{} {} {}", took.all, openings, took.longest)?;
    Ok(())
}
PROGRAM
cat >"$beside/src/begun.rt" <<'PROGRAM'
//! What a run begins with.
ghost use Rattle.std.specs.Prelude.{◌≡◌, ◌<◌, IfOk, IsTrue, vec_len};
ghost use Rattle.ep_defs.specs.Session as valid;
ghost use Rattle.ep_live.specs.Made.{AreStands, AreHandTies, IsHandTie, IsStand};
ghost use Rattle.beside.specs.Begun.{IsGranted};

use crate::writer::Writer;
use ep_defs::{Config, EventDef, FieldList, Items, Rule, RuleList, Units, Write};
use ep_guarded::{Agreed, Grant, Program};
use ep_live::place;
use ep_pool::{Pool, PoolSeat};
use ep_shelf::Shelf;
use ep_tie::Right;
use std::alloc::{AllocError, Global};
use std::marker::Model;
use std::sync::Wait;

// A text of one unit.
fn text(alloc: Global, unit: u16) -> Result<Units, AllocError> {
    Ok(Units::new(vec![in alloc; unit]?))
}

/// So many events of the provider P. The first, which the thread writes, is of a level that the session does not get.
pub(crate) fn events_of(alloc: Global, count: u32) -> Result<Vec<EventDef>, AllocError>
    ensures { IfOk result (λ events. vec_len events ≡ count) }
{
    let mut events = Vec::new(alloc);
    for id in 0..count {
        let level = if id == 0 { 5 } else { 4 };
        events.push(EventDef {
            provider: text(alloc, 80)?,
            id,
            version: 0,
            level,
            keywords: 1,
            name: text(alloc, 69)?,
            fields: FieldList::new(Vec::new(alloc)),
        })?;
    }
    Ok(events)
}

/// What the thread writes: the first event.
pub(crate) fn write(alloc: Global) -> Write
    ensures event { result.event ≡ 1 }
    ensures fits { IsTrue (valid.fits result) }
{
    Write {
        event: 1,
        activity: [0; 16],
        related: [0; 16],
        frames: Items::new(Vec::new(alloc)),
        payload: Items::new(Vec::new(alloc)),
    }
}

// A session of so many rules, of which the last alone is for the provider P.
fn rules_of(alloc: Global, rules: u32) -> Result<RuleList, AllocError> {
    let mut list = Vec::new(alloc);
    for place in 0..rules {
        let name = if place + 1 == rules { 80 } else { 81 };
        list.push(Rule {
            name: text(alloc, name)?,
            keywords: 1,
            level: 4,
        })?;
    }
    Ok(RuleList::new(list))
}

// The same, with four chunks.
fn config_of(alloc: Global, rules: u32) -> Result<Config, AllocError>
    ensures { IfOk result (λ config. config.chunks ≡ 4) }
{
    Ok(Config {
        rules: rules_of(alloc, rules)?,
        chunks: 4,
        stackwalk: false,
        rundown: false,
    })
}

/// What a session is granted, and the first seat of its pool.
#[derive(Drop)]
pub(crate) struct Granted<'a> {
    pub(crate) grant: &'a Grant,
    pub(crate) seat: PoolSeat,
}

/// What a session of so many rules is granted, on the shelf.
pub(crate) fn placed_grant<'a, R: Wait>(
    rt: &R,
    alloc: Global,
    grants: &'a Shelf<Grant>,
    events: &[EventDef],
    rules: u32,
) -> Result<Granted<'a>, AllocError>
    ensures { IfOk result (λ made. IsGranted events.now made.grant.now made.seat) }
{
    let (pool, seat) = Pool::new(rt, alloc, 4, 3)?;
    let grant = Grant::new(alloc, config_of(alloc, rules)?, pool, events)?;
    match place(rt, grants, grant) {
        Ok(grant) => Ok(Granted { grant, seat }),
        Err(_back) => Err(AllocError),
    }
}

/// The halves that a run of two rows begins with: those of the threads, by row, and those of the hands that are to come, by
/// the number of the buffer.
#[derive(Drop)]
pub(crate) struct Halves<'a, P: Program> {
    pub(crate) threads: Vec<Right<P, Agreed<'a>>>,
    pub(crate) hands: Vec<Right<P, Agreed<'a>>>,
}

impl<'a, P: Program> Model for Halves<'a, P> {
    ghost use Rattle.std.specs.Prelude.{ℕ, length};
    ghost use Rattle.beside.specs.Begun.{AreHalves};

    ghost Value = { ℕ };

    ghost view = { λ h. length h.threads.items };

    ghost invariant = { λ h. AreHalves P.rows h.threads.items h.hands.items };
}

/// The thread of the first row.
pub(crate) fn writer_of<'a, P: Program>(halves: Vec<Right<P, Agreed<'a>>>) -> Writer<'a, P>
    requires two { P.rows ≡ 2 }
    requires count { vec_len halves ≡ 2 }
    requires stands { AreStands 0 halves.items }
{
    let (first, _second) = halves_of_two(halves);
    Writer::new(0, first)
}

// The halves of the threads of both rows.
fn halves_of_two<'a, P: Program>(
    halves: Vec<Right<P, Agreed<'a>>>,
) -> (Right<P, Agreed<'a>>, Right<P, Agreed<'a>>)
    requires count { vec_len halves ≡ 2 }
    requires stands { AreStands 0 halves.items }
    ensures { IsStand 0 0 result.0 × IsStand 0 1 result.1 }
{
    let mut halves = halves;
    let second = halves.swap_remove(1);
    (halves.swap_remove(0), second)
}

/// The halves of the hands of two buffers, by the buffers' numbers.
pub(crate) fn hands_of<'a, P: Program>(
    hands: Vec<Right<P, Agreed<'a>>>,
    low: usize,
    high: usize,
) -> (Right<P, Agreed<'a>>, Right<P, Agreed<'a>>)
    requires hands { AreHandTies P.rows hands.items }
    requires many { vec_len hands ≡ 128 }
    requires ordered { low < high }
    requires within { high < 128 }
    ensures { IsHandTie P.rows low result.0 × IsHandTie P.rows high result.1 }
{
    let mut hands = hands;
    let second = hands.swap_remove(high);
    (hands.swap_remove(low), second)
}
PROGRAM
cat >"$beside/src/writer.rt" <<'PROGRAM'
//! The rows, and the thread that writes on the first.
ghost use Rattle.std.specs.Prelude.{◌<◌};
ghost use Rattle.ep_live.specs.Made.{IsStand};

use ep_defs::Write;
use ep_guarded::{Agreed, Program, Stand};
use ep_live::Live;
use ep_tie::Right;
use pt_io::{Moment, OpenGate};
use std::marker::Model;
use std::sync::Wait;

/// The rows, and what the thread writes, so often.
#[derive(Drop)]
pub(crate) struct Run<'a, P: Program> {
    pub(crate) live: Live<'a, P>,
    pub(crate) write: Write,
    pub(crate) turns: u32,
}

impl<'a, P: Program> Model for Run<'a, P> {
    ghost use Rattle.std.specs.Prelude.{ℕ};
    ghost use Rattle.beside.specs.Runs.{IsRun};

    ghost Value = { ℕ };

    ghost view = { λ r. r.turns };

    ghost invariant = { λ r. IsRun P.rows P.events P.writes r.turns r.write };
}

/// A thread with its half of the tie, which stands here on its row. Contracts see the number of its row.
#[derive(Drop)]
pub(crate) struct Writer<'a, P: Program> {
    number: u32,
    half: Right<P, Agreed<'a>>,
    stand: Stand,
}

impl<'a, P: Program> Model for Writer<'a, P> {
    ghost use Rattle.std.specs.Prelude.{ℕ};
    ghost use Rattle.beside.specs.Runs.{IsWriter};

    ghost Value = { ℕ };

    ghost view = { λ t. t.number };

    ghost invariant = { λ t. IsWriter P.rows t.number t.stand t.half };
}

impl<'a, P: Program> Writer<'a, P> {
    /// The first thread of a row, which has made no write.
    pub(crate) fn new(number: u32, half: Right<P, Agreed<'a>>) -> Writer<'a, P>
        requires row { number < P.rows }
        requires few { number < 1000 }
        requires stands { IsStand 0 number half }
    {
        let stand = Stand {
            thread: u64::from(number) + 1,
            index: 0,
        };
        Writer {
            number,
            half,
            stand,
        }
    }

    /// It makes its next write, unless it has made all.
    pub(crate) fn write<R: Wait>(&mut self, rt: &R, run: &Run<'a, P>) {
        if self.stand.index >= run.turns {
            return;
        }
        let at = Moment::Begun {
            thread: 1,
            index: self.stand.index,
        };
        let number = self.number as usize;
        run.live
            .write(rt, &OpenGate, at, number, &mut self.half, 100, &run.write);
        self.stand.index += 1;
    }
}
PROGRAM
cat >"$beside/src/place.rt" <<'PROGRAM'
//! A session in a slot of one row.
ghost use Rattle.std.specs.Prelude.{◌<◌};
ghost use Rattle.ep_pool.specs.Shared.{IsSeatOf};
ghost use Rattle.ep_guarded.specs.Granted.{IsGrantFor};
ghost use Rattle.ep_guarded.specs.Tied.{buffer_number};
ghost use Rattle.ep_live.specs.Made.{IsHandTie};

use ep_guarded::{Agreed, Grant, Program};
use ep_live::{Live, Stands};
use ep_pool::PoolSeat;
use ep_slot::Hand;
use ep_tie::Right;
use std::alloc::Global;
use std::marker::Model;
use std::sync::Wait;

/// A seat that has counted so far is not used any more.
const MOST: u64 = 1_000_000;

/// A session that may be open in a slot of one row, with what it was granted. Contracts see its slot.
#[derive(Drop)]
pub(crate) struct Place<'a, P: Program> {
    number: u32,
    slot: u32,
    half: Right<P, Agreed<'a>>,
    grant: &'a Grant,
    seat: PoolSeat,
    hand: Option<Hand>,
}

impl<'a, P: Program> Model for Place<'a, P> {
    ghost use Rattle.std.specs.Prelude.{ℕ};
    ghost use Rattle.beside.specs.Runs.{IsPlace};

    ghost Value = { ℕ };

    ghost view = { λ p. p.slot };

    ghost invariant = { λ p. IsPlace P.rows P.events p.number p.slot p.half p.grant.now p.seat p.hand };
}

impl<'a, P: Program> Place<'a, P> {
    pub(crate) fn new(
        number: u32,
        slot: u32,
        half: Right<P, Agreed<'a>>,
        grant: &'a Grant,
        seat: PoolSeat,
    ) -> Place<'a, P>
        requires row { number < P.rows }
        requires slot { slot < 64 }
        requires half { IsHandTie P.rows (buffer_number number slot) half }
        requires admitted { IsGrantFor P.events grant.now }
        requires seat { IsSeatOf grant.now.pool seat }
    {
        Place {
            number,
            slot,
            half,
            grant,
            seat,
            hand: None,
        }
    }

    /// Opens the session, unless it is open.
    pub(crate) fn open<R: Wait>(&mut self, rt: &R, alloc: Global, live: &Live<'a, P>) -> bool {
        if self.hand.is_some() || self.seat.share() < 2 {
            return false;
        }
        let mut none = Stands::none(alloc);
        let opened = live.open(
            rt,
            alloc,
            self.number as usize,
            self.slot,
            0,
            &mut self.half,
            &mut none,
            5,
            self.grant,
            &mut self.seat,
        );
        self.hand = opened.ok();
        self.hand.is_some()
    }

    /// Closes the session wherever the row's thread stands, and gives the chunks back. Answers whether it was open.
    pub(crate) fn close<R: Wait>(&mut self, rt: &R, alloc: Global, live: &Live<'a, P>) -> bool {
        if self.seat.taken() >= MOST || self.seat.given() >= MOST {
            return false;
        }
        let Some(hand) = self.hand.take() else {
            return false;
        };
        let mut none = Stands::none(alloc);
        let number = self.number as usize;
        let (batch, _marks) = live.close(
            rt,
            number,
            self.slot,
            &mut self.half,
            &mut none,
            hand,
            &mut self.seat,
        );
        self.grant.pool.give(rt, &mut self.seat, batch.chain);
        true
    }
}
PROGRAM
cat >"$beside/specs/Lib.antt" <<'SPECS'
pub mod Begun
pub mod Runs
SPECS
cat >"$beside/specs/Begun.antt" <<'SPECS'
-- What a run of two rows begins with.
use Rattle.std.specs.Prelude.{◌≡◌, ℕ, List, length}
use Rattle.ep_defs.specs.declared.event.EventDef.{EventDef}
use Rattle.ep_pool.specs.Shared.{SeatState}
use Rattle.ep_tie.specs.Tied.{Tied}
use Rattle.ep_guarded.specs.declared.agreed.Agreed.{Agreed}
use Rattle.ep_guarded.specs.declared.grant.Grant.{Grant}
use Rattle.ep_guarded.specs.Granted.{IsGrantFor}
use Rattle.ep_live.specs.Made.{AreStands, AreHandTies}

-- The first seat of a pool, for the buffers of two rows and for their session.
abbrev pub first_seat : Grant → SeatState
first_seat grant = record { pool = grant.pool.pool; total = grant.pool.total; seats = 3; share = 3; taken = 0; given = 0; dry = 0 }

-- A session was granted this in a program of these events, and the seat is the first one of its pool.
pub record IsGranted (events : List EventDef) (grant : Grant) (seat : SeatState) : Type 0 where
  pub admitted : IsGrantFor events grant
  pub first : seat ≡ first_seat grant

-- The halves are those of the threads of two rows, which have made no write, and of the hands that are to come.
pub record AreHalves (rows : ℕ) (threads hands : List (Tied Agreed)) : Type 0 where
  pub two : rows ≡ 2
  pub thread_count : length threads ≡ 2
  pub threads_are : AreStands 0 threads
  pub hand_count : length hands ≡ 128
  pub hands_are : AreHandTies rows hands
SPECS
cat >"$beside/specs/Runs.antt" <<'SPECS'
-- What is known of a run of two rows: of its program, the thread, a session on one row.
use Rattle.std.specs.Prelude.{◌≡◌, ℕ, ◌<◌, ◌≤◌, List, length, Option, Some, IsTrue, slice_get}
use Rattle.std.specs.Option.{ForSome}
use Rattle.ep_defs.specs.declared.event.EventDef.{EventDef}
use Rattle.ep_defs.specs.declared.session.Write.{Write}
use Rattle.ep_defs.specs.Session.{fits}
use Rattle.ep_pool.specs.Shared.{SeatState, IsSeatOf}
use Rattle.ep_slot.specs.Hand.{HandState}
use Rattle.ep_tie.specs.Tied.{Tied}
use Rattle.ep_guarded.specs.declared.agreed.Agreed.{Agreed}
use Rattle.ep_guarded.specs.declared.agreed.Stand.{Stand}
use Rattle.ep_guarded.specs.declared.grant.Grant.{Grant}
use Rattle.ep_guarded.specs.Granted.{IsGrantFor}
use Rattle.ep_guarded.specs.Tied.{stand_in, hand_in, grant_in, buffer_number}
use Rattle.ep_live.specs.Live.{hand_place}

-- Each thread makes this write so often, and it can be made of one of the program's events.
pub record IsProgram (events : List EventDef) (writes : ℕ → List Write) (turns : ℕ) (write : Write) : Type 0 where
  pub some : 0 < length events
  pub most : length events ≤ 1000
  pub event : write.event ≡ 1
  pub fit : IsTrue (fits write)
  pub few : turns ≤ 1000000000
  pub lengths : (thread : ℕ) → length (writes thread) ≡ turns
  pub each : (thread index : ℕ) → index < turns → slice_get (writes thread) index ≡ Some write

-- There are two rows, and each thread makes this write so often.
pub record IsRun (rows : ℕ) (events : List EventDef) (writes : ℕ → List Write) (turns : ℕ) (write : Write) : Type 0 where
  pub two : rows ≡ 2
  pub program : IsProgram events writes turns write

-- The half is of the tie between a row and its thread, which stands here.
pub record IsWriter (rows number : ℕ) (stand : Stand) (half : Tied Agreed) : Type 0 where
  pub row : number < rows
  pub place : half.place ≡ number
  pub here : stand_in half.value ≡ Some stand

-- The half is of the tie between a buffer and this hand, or none, of the session that was granted this and has this seat.
pub record IsPlace (rows : ℕ) (events : List EventDef) (number slot : ℕ) (half : Tied Agreed) (grant : Grant) (seat : SeatState) (hand : Option HandState) : Type 0 where
  pub row : number < rows
  pub within : slot < 64
  pub place : half.place ≡ hand_place rows (buffer_number number slot)
  pub admitted : IsGrantFor events grant
  pub seat_is : IsSeatOf grant.pool seat
  pub hand_is : hand_in half.value ≡ hand
  pub granted : ForSome hand (λ _. grant_in half.value ≡ Some grant)
SPECS
cat >"$beside/proofs/Lib.antt" <<'PROOF'
pub mod Writing
PROOF
cat >"$beside/proofs/Writing.antt" <<'PROOF'
-- A program whose threads all make one write.
use Rattle.std.proofs.Common.{◌≡◌, ℕ, ◌<◌, ◌≤◌, List, length, refl, sym, arith}
use Rattle.std.specs.Prelude.{IsTrue, replicate}
use Rattle.std.proofs.lemmas.List.{length-replicate, get_or-replicate}
use Rattle.std.proofs.lemmas.Option.{slice_get_read}
use Rattle.ep_defs.specs.declared.event.EventDef.{EventDef}
use Rattle.ep_defs.specs.declared.session.Write.{Write}
use Rattle.ep_defs.specs.Session.{fits}
use Rattle.beside.specs.Runs.{IsProgram}

pub program-of : (turns : ℕ) (events : List EventDef) (write : Write) → 0 < length events → length events ≤ 1000 → turns ≤ 1000000000 → write.event ≡ 1 → IsTrue (fits write) → IsProgram events (λ _. replicate turns write) turns write
program-of turns events write some most few event fit =
    record {
      some = some;
      most = most;
      event = event;
      fit = fit;
      few = few;
      lengths = λ _. length-replicate turns write;
      each =
          λ _ index within.
          slice_get_read (replicate turns write) _ index write refl (omega (arith, within, length-replicate turns write))
          (sym (get_or-replicate turns index write write within));
    }
PROOF
cat >"$beside/proofs/begun/events_of/Invariants.antt" <<'PROOF'
use Rattle.std.proofs.Common.{◌≡◌, vec_len}
use Rattle.beside.proofs.begun.events_of.Given as goal

abbrev pub invariant-loop-id : goal.invariant-loop-id
invariant-loop-id l = vec_len l.events ≡ l.id
PROOF
cat >"$beside/proofs/begun/hands_of/Answers.antt" <<'PROOF'
use Rattle.std.proofs.Common.{◌≡◌, ◌∙◌, length, refl, sym, arith}
use Rattle.std.proofs.lemmas.Option.{slice_get_read}
use Rattle.beside.proofs.begun.hands_of.Goals as goal

pub returns : goal.returns
returns g c =
    let hands = c.args.hands.items in
    let low = c.args.low in
    let high = c.args.high in
    let len : length hands ≡ 128 = sym c.args.hands.ok.0 ∙ c.requires.many in
    let other = c.swap_remove-second in
    let second = c.requires.hands high other.result (slice_get_read hands _ high other.result refl (omega (arith, len, c.requires.within)) other.ensures.value) in
    let one = c.swap_remove in
    let there = one.ensures.value ∙ other.ensures.by_index.1 low one.result (λ (e : low ≡ high). omega (arith, e, c.requires.ordered)) (omega (arith, c.requires.many, c.requires.ordered, c.requires.within)) in
    (c.requires.hands low one.result (slice_get_read hands _ low one.result refl (omega (arith, len, c.requires.ordered, c.requires.within)) there), second)
PROOF
cat >"$beside/proofs/begun/halves_of_two/Answers.antt" <<'PROOF'
use Rattle.std.proofs.Common.{◌≡◌, ◌∙◌, List, [], ◌∷◌, length, refl, ap, sym, subst, arith, get_or}
use Rattle.std.specs.List.{swap_remove}
use Rattle.ep_tie.specs.Tied.{Tied}
use Rattle.ep_guarded.specs.declared.agreed.Agreed.{Agreed}
use Rattle.ep_live.specs.Made.{AreStands, IsStand}
use Rattle.beside.proofs.begun.halves_of_two.Goals as goal

two : (halves : List (Tied Agreed)) (x y : Tied Agreed) → length halves ≡ 2 → y ≡ get_or halves 1 y → x ≡ get_or (swap_remove halves 1 y) 0 x → AreStands 0 halves → IsStand 0 0 x × IsStand 0 1 y
two [] x y count there here stands = absurd (omega (arith, count))
two (a ∷ []) x y count there here stands = absurd (omega (arith, count))
two (a ∷ b ∷ []) x y count there here stands = (subst (IsStand 0 0) (sym here) (stands 0 a refl), subst (IsStand 0 1) (sym there) (stands 1 b refl))
two (a ∷ b ∷ e ∷ halves) x y count there here stands = absurd (omega (arith, count))

pub returns : goal.returns
returns g c =
    two c.args.halves.items c.swap_remove.result c.swap_remove-second.result (sym c.args.halves.ok.0 ∙ c.requires.count) c.swap_remove-second.ensures.value
    (c.swap_remove.ensures.value ∙ ap (λ (hs : List (Tied Agreed)). get_or hs 0 c.swap_remove.result) c.swap_remove-second.ensures.items) c.requires.stands
PROOF
cat >"$beside/proofs/told_on/Invariants.antt" <<'PROOF'
use Rattle.std.specs.Prelude.{replicate}
use Rattle.beside.proofs.told_on.Given as goal

-- the ties that were just made, and a run in which each thread makes the write so often
abbrev pub ghosts-run-P-Named : goal.ghosts-run-P-Named
ghosts-run-P-Named g a = record { ties = a.blank.ties }

abbrev pub ghosts-run-P-Program : goal.ghosts-run-P-Program
ghosts-run-P-Program g a = record { rows = 2; events = a.events.items; writes = λ _. replicate a.turns a.write }
PROOF
cat >"$beside/proofs/told_on/Answers.antt" <<'PROOF'
use Rattle.std.proofs.Common.{◌≡◌, ◌∙◌, length, sym, arith}
use Rattle.beside.proofs.Writing.{program-of}
use Rattle.beside.proofs.told_on.Goals as goal

pub run-requires-clause-program : goal.run-requires-clause-program
run-requires-clause-program g c κs within =
    let events = c.in_ok-events.events in
    let count : length events.items ≡ c.args.count = sym events.ok.0 ∙ c.in_ok-events.ensures in
    program-of c.args.turns events.items _ (omega (arith, count, c.requires.some)) (omega (arith, count, c.requires.most)) c.requires.few c.write-write.ensures.event c.write-write.ensures.fits
PROOF
cd "$beside" || exit 1
if ! rt run -- nowhere 8 1 0 1 all >"$work/log" 2>&1; then
    cat "$work/log"
    exit 1
fi
python3 - "$beside/out/beside" "$rounds" <<'MEASURE'
import statistics, subprocess, sys

program, rounds = sys.argv[1], int(sys.argv[2])
WRITES = 300_000


def ran(place, pace, events, rules, how="all"):
    """The nanoseconds of all writes, the openings, and the nanoseconds of the longest write where each is timed."""
    words = [program, place, str(events), str(rules), str(pace), str(WRITES), how]
    said = subprocess.run(words, capture_output=True, text=True, check=True).stdout.split()
    if len(said) != 3 or (place != "nowhere" and said[1] == "0"):
        sys.exit("the clock did not answer, or no thread was made that opens the session")
    return [int(word) for word in said]


def line_of(events, rules, pace):
    """The middle of the rounds, in each of which a run with no opening stands beside each other run."""
    lines = []
    for _ in range(rounds):
        alone = ran("nowhere", 0, events, rules)[0]
        other = ran("on_the_other", pace, events, rules)[0]
        took, openings, _ = ran("on_its_row", pace, events, rules)
        longest_alone = ran("nowhere", 0, events, rules, "each")[2]
        longest = ran("on_its_row", pace, events, rules, "each")[2]
        each = [time / WRITES for time in (alone, other, took)]
        lines.append([*each, openings, openings / took * 1e6, (took - alone) / openings, longest_alone / 1e3, longest / 1e3])
    return [statistics.median(column) for column in zip(*lines)]


print()
print("               nanoseconds of a write, with openings       openings  openings  an opening,  longest write, us")
print("events  rules    nowhere  on another row  on its row     on its row      a ms           ns    alone    beside")
for pace, said in ((0, "as often as it can"), (5_000, "200 a millisecond")):
    print(said)
    for events, rules in ((8, 1), (1000, 1), (1000, 1000)):
        alone, other, took, openings, often, costs, longest_alone, longest = line_of(events, rules, pace)
        print(f"{events:6} {rules:6} {alone:10.1f} {other:15.1f} {took:11.1f} {openings:14,.0f} {often:9,.0f} {costs:12,.0f} {longest_alone:8,.0f} {longest:9,.0f}")
MEASURE
