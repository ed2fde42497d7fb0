#!/bin/sh
# Prints how many instructions it takes to show a write to a session: for a plain write, and for one of 16 bytes of
# payload and 2 frames; beside them what it takes to copy as many bytes as their records have. Then what a whole write
# takes, of 16 bytes of payload: its begin on the thread's row, a show to each session that is due, and its end; with
# one session and with two. It makes a small program over the crates in a folder of its own, which is proved and built
# there, and runs it under callgrind (valgrind, a Debian package), since times vary by a third and instructions don't.
# It needs python3.
here=$(cd "$(dirname "$0")/.." && pwd) || exit 1
work=$(mktemp -d) || exit 1
trap 'rm -rf "$work"' EXIT
mkdir -p "$work/crates/measure/src" "$work/crates/measure/proofs/shows" "$work/crates/measure/proofs/writes_for_one" \
    "$work/crates/measure/proofs/writes_for_two" "$work/crates/measure/proofs/whole" || exit 1
for crate in ep_chunk ep_defs ep_pool ep_model ep_slot ep_row; do
    cp -r "$here/crates/$crate" "$work/crates/" || exit 1
    grep "^$crate:" "$here/crates.txt" >>"$work/crates.txt" || exit 1
done
echo 'measure: ep_row ep_slot ep_pool ep_chunk ep_defs anyhow' >>"$work/crates.txt"
cat >"$work/crates/measure/src/main.rt" <<'PROGRAM'
//! Shows a write to a session, or makes a whole write, as often as it is told.
#![tactic(auto)]

ghost use Rattle.std.specs.Prelude.{◌≡◌, ◌+◌, ◌<◌, ◌≤◌, ℕ, length, false, IsTrue, IfOk, OnOk};
ghost use Rattle.ep_defs.specs.Session as valid;
ghost use Rattle.ep_slot.specs.Slot.{SlotState};
ghost use Rattle.ep_row.specs.Row.{HasOpen};

use anyhow::{Result, ensure};
use ep_defs::{Bytes, Config, EventDef, FieldList, Frames, Rule, RuleList, Units, Write};
use ep_pool::OwnPool;
use ep_row::Row;
use ep_slot::{Slot, pair};
use std::alloc::{AllocError, Global};
use std::env;
use std::hint::black_box;

const CHUNKS: u32 = 64;

fn write_of(alloc: Global, frames: usize, payload: usize) -> Result<Write, AllocError>
    ensures { IfOk result (λ write. write.event ≡ 1) }
{
    Ok(Write {
        event: 1,
        activity: [1; 16],
        related: [2; 16],
        frames: Frames::new(vec![in alloc; 4096u64; frames]?),
        payload: Bytes::new(vec![in alloc; 5u8; payload]?),
    })
}

fn shows(slot: &mut Slot, pool: &mut OwnPool, write: &Write, turns: u32)
    requires fits { IsTrue (valid.fits write.now) }
    requires few { slot.old.used + turns < 1000000 }
    requires total { pool.old.total ≡ slot.old.chunks }
{
    for turn in 0..turns {
        black_box(slot.show(pool, u64::from(turn), write));
    }
}

// The text P.
fn text(alloc: Global) -> Result<Units, AllocError> {
    Ok(Units::new(vec![in alloc; 80u16]?))
}

// The program's only event.
fn events(alloc: Global) -> Result<[EventDef; 1], AllocError> {
    Ok([EventDef {
        provider: text(alloc)?,
        id: 1,
        version: 0,
        level: 4,
        keywords: 1,
        name: text(alloc)?,
        fields: FieldList::new(Vec::new(alloc)),
    }])
}

// A session that gets it.
fn config(alloc: Global) -> Result<Config, AllocError>
    ensures { IfOk result (λ config. config.chunks ≡ 64) }
{
    let mut rules = Vec::new(alloc);
    rules.push(Rule { name: text(alloc)?, keywords: 1, level: 4 })?;
    Ok(Config { rules: RuleList::new(rules), chunks: CHUNKS, stackwalk: true, rundown: false })
}

// Opens the session on a row that is not in a write.
fn open(alloc: Global, row: &mut Row, place: u32) -> Result<Slot>
    requires within { place < 64 }
    requires masks { length row.old.masks ≡ 1 }
    ensures open { IfOk result (λ slot. HasOpen row.new place slot) }
    ensures unused { IfOk result (λ slot. slot.used ≡ 0) }
    ensures chunks { IfOk result (λ slot. slot.chunks ≡ 64) }
    ensures masks { OnOk result (length row.new.masks ≡ 1) }
    ensures others { OnOk result ((other : ℕ) (slot : SlotState) → (other ≡ place → ⊥) → HasOpen row.old other slot → HasOpen row.new other slot) }
{
    ensure!(!row.in_write() && !row.left() && !row.is_on(place), "not to be opened on");
    let (slot, _hand) = row.open_on(alloc, place, 1, &config(alloc)?, &events(alloc)?)?;
    Ok(slot)
}

// Shows the write that was begun to a session that is due.
fn show_due(row: &mut Row, place: u32, slot: &mut Slot, pool: &mut OwnPool, write: &Write)
    requires within { place < 64 }
    requires open { HasOpen row.old place slot.old }
    requires fits { IsTrue (valid.fits write.now) }
    requires few { slot.old.used < 1000000 }
    requires total { pool.old.total ≡ 64 }
    requires chunks { slot.old.chunks ≡ 64 }
    ensures open { HasOpen row.new place slot.new }
    ensures others { (other : ℕ) (buffer : SlotState) → (other ≡ place → ⊥) → HasOpen row.old other buffer → HasOpen row.new other buffer }
    ensures few { slot.new.used ≤ slot.old.used + 1 }
    ensures total { pool.new.total ≡ 64 }
    ensures chunks { slot.new.chunks ≡ 64 }
    ensures masks { row.new.masks ≡ row.old.masks }
    ensures index { row.new.index ≡ row.old.index }
    ensures in_write { row.new.in_write ≡ row.old.in_write }
    ensures left { row.new.left ≡ row.old.left }
{
    if let Some(due) = row.next_due() {
        if due == place {
            black_box(row.show(place, slot, pool, write));
        }
    }
}

// Makes a write for one session, as often as it is told.
fn writes_for_one(row: &mut Row, slot: &mut Slot, pool: &mut OwnPool, write: &Write, turns: u32)
    requires open { HasOpen row.old 0 slot.old }
    requires event { write.now.event ≡ 1 }
    requires masks { length row.old.masks ≡ 1 }
    requires fits { IsTrue (valid.fits write.now) }
    requires few { turns < 100000 }
    requires unused { slot.old.used ≡ 0 }
    requires total { pool.old.total ≡ 64 }
    requires chunks { slot.old.chunks ≡ 64 }
{
    for turn in 0..turns {
        if row.in_write() || row.left() || row.index() > 100_000 {
            return;
        }
        black_box(row.begin(u64::from(turn), write));
        show_due(row, 0, slot, pool, write);
        if row.due() != 0 {
            return;
        }
        row.end();
    }
}

// Makes a write for two sessions, as often as it is told.
fn writes_for_two(row: &mut Row, first: &mut Slot, second: &mut Slot, first_pool: &mut OwnPool, second_pool: &mut OwnPool, write: &Write, turns: u32)
    requires first { HasOpen row.old 0 first.old }
    requires second { HasOpen row.old 1 second.old }
    requires event { write.now.event ≡ 1 }
    requires masks { length row.old.masks ≡ 1 }
    requires fits { IsTrue (valid.fits write.now) }
    requires few { turns < 100000 }
    requires unused { first.old.used ≡ 0 }
    requires second_unused { second.old.used ≡ 0 }
    requires total { first_pool.old.total ≡ 64 }
    requires second_total { second_pool.old.total ≡ 64 }
    requires chunks { first.old.chunks ≡ 64 }
    requires second_chunks { second.old.chunks ≡ 64 }
{
    for turn in 0..turns {
        if row.in_write() || row.left() || row.index() > 100_000 {
            return;
        }
        black_box(row.begin(u64::from(turn), write));
        show_due(row, 0, first, first_pool, write);
        show_due(row, 1, second, second_pool, write);
        if row.due() != 0 {
            return;
        }
        row.end();
    }
}

// Makes whole writes for one session or two, and answers how many there were.
fn whole(alloc: Global, write: &Write, two: bool, turns: u32) -> Result<u32>
    requires event { write.now.event ≡ 1 }
    requires fits { IsTrue (valid.fits write.now) }
    requires few { turns < 100000 }
{
    let mut row = Row::new(alloc, 1, 1)?;
    let mut pool = OwnPool::new(alloc, CHUNKS)?;
    let mut slot = open(alloc, &mut row, 0)?;
    if two {
        let mut second_pool = OwnPool::new(alloc, CHUNKS)?;
        let mut second = open(alloc, &mut row, 1)?;
        writes_for_two(&mut row, &mut slot, &mut second, &mut pool, &mut second_pool, write, turns);
    } else {
        writes_for_one(&mut row, &mut slot, &mut pool, write, turns);
    }
    Ok(row.index())
}

fn copies(into: &mut Vec<u8>, bytes: &[u8], turns: u32) {
    for _ in 0..turns {
        into.clear();
        let _ = black_box(into.extend_from_slice(black_box(bytes)));
    }
}

fn main(rt: HostRuntime) -> Result<()> {
    let mut words = env::args(&rt)?;
    let _name = words.next();
    let (Some(what), Some(turns)) = (words.next(), words.next()) else {
        return Ok(());
    };
    let Ok(turns) = turns.as_str().parse::<u32>() else {
        return Ok(());
    };
    ensure!(turns < 100_000, "too many turns");
    let alloc = rt.alloc();
    let (frames, payload) = match what.as_str() {
        "full" | "copy_full" => (2, 16),
        "one" | "two" => (0, 16),
        _ => (0, 0),
    };
    let write = write_of(alloc, frames, payload)?;
    ensure!(write.fits(), "too large");
    if what.as_str() == "one" || what.as_str() == "two" {
        println!(rt; "{}", whole(alloc, &write, what.as_str() == "two", turns)?)?;
        return Ok(());
    }
    let bytes = vec![in alloc; 7u8; 68 + 8 * frames + payload]?;
    let mut into = Vec::with_capacity(alloc, 100)?;
    let mut pool = OwnPool::new(alloc, CHUNKS)?;
    let (mut slot, _hand) = pair(alloc, 1, 1, 0, CHUNKS)?;
    if what.as_str() == "copy" || what.as_str() == "copy_full" {
        copies(&mut into, bytes.as_slice(), turns);
    } else {
        shows(&mut slot, &mut pool, &write, turns);
    }
    println!(rt; "{} {}", slot.counts().pending, slot.counts().refused)?;
    Ok(())
}
PROGRAM
cat >"$work/crates/measure/proofs/shows/Invariants.antt" <<'PROOF'
use Rattle.std.proofs.Common.{◌≡◌, ◌+◌}
use Rattle.measure.proofs.shows.Given as goal

abbrev pub invariant-loop-turn : goal.invariant-loop-turn
invariant-loop-turn l =
    record {
      used : l.slot.used ≡ l.fn.slot.used + l.turn;
      total : l.pool.total ≡ l.slot.chunks
    }
PROOF
cat >"$work/crates/measure/proofs/writes_for_one/Invariants.antt" <<'PROOF'
use Rattle.std.proofs.Common.{◌≡◌, ◌≤◌, length}
use Rattle.ep_row.specs.Row.{HasOpen}
use Rattle.measure.proofs.writes_for_one.Given as goal

abbrev pub invariant-loop-turn : goal.invariant-loop-turn
invariant-loop-turn l =
    record {
      «open» : HasOpen l.row 0 l.slot;
      masks : length l.row.masks ≡ 1;
      few : l.slot.used ≤ l.turn;
      total : l.pool.total ≡ 64;
      chunks : l.slot.chunks ≡ 64
    }
PROOF
cat >"$work/crates/measure/proofs/writes_for_two/Invariants.antt" <<'PROOF'
use Rattle.std.proofs.Common.{◌≡◌, ◌≤◌, length}
use Rattle.ep_row.specs.Row.{HasOpen}
use Rattle.measure.proofs.writes_for_two.Given as goal

abbrev pub invariant-loop-turn : goal.invariant-loop-turn
invariant-loop-turn l =
    record {
      first : HasOpen l.row 0 l.first;
      second : HasOpen l.row 1 l.second;
      masks : length l.row.masks ≡ 1;
      few : l.first.used ≤ l.turn;
      second_few : l.second.used ≤ l.turn;
      total : l.first_pool.total ≡ 64;
      second_total : l.second_pool.total ≡ 64;
      chunks : l.first.chunks ≡ 64;
      second_chunks : l.second.chunks ≡ 64
    }
PROOF
cat >"$work/crates/measure/proofs/writes_for_two/Answers.antt" <<'PROOF'
use Rattle.std.proofs.Common.{◌≡◌, sym, subst, arith, rules}
use Rattle.ep_row.specs.Row.{RowState, HasOpen}
use Rattle.measure.proofs.writes_for_two.Goals as goal

pub show_due-requires-in-loop-turn-clause-open : goal.show_due-requires-in-loop-turn-clause-open
show_due-requires-in-loop-turn-clause-open c =
    c.show_due.ensures.others 1 c.loop-turn.second (λ (e : 1 ≡ 0). omega (arith, e))
    (subst (λ (r : RowState). HasOpen r 1 c.loop-turn.second) (sym c.begin.ensures.row) c.loop-turn.invariant.second)

pub loop-turn-preserved : goal.loop-turn-preserved
loop-turn-preserved c =
    record {
      first = subst (λ (r : RowState). HasOpen r 0 c.show_due.new.slot) (sym c.end.ensures.row)
          (c.show_due-in-loop-turn.ensures.others 0 c.show_due.new.slot (λ (e : 0 ≡ 1). omega (arith, e)) c.show_due.ensures.open);
      second = subst (λ (r : RowState). HasOpen r 1 c.show_due-in-loop-turn.new.slot) (sym c.end.ensures.row) c.show_due-in-loop-turn.ensures.open;
      masks = search rules;
      few = search rules;
      second_few = search rules;
      total = search rules;
      second_total = search rules;
      chunks = search rules;
      second_chunks = search rules
    }
PROOF
cat >"$work/crates/measure/proofs/whole/Answers.antt" <<'PROOF'
use Rattle.std.proofs.Common.{◌≡◌, arith}
use Rattle.measure.proofs.whole.Goals as goal

pub writes_for_two-requires-clause-first : goal.writes_for_two-requires-clause-first
writes_for_two-requires-clause-first c = c.in_ok-second.ensures.others 0 c.in_ok-slot.slot (λ (e : 0 ≡ 1). omega (arith, e)) c.in_ok-slot.ensures.open
PROOF
cd "$work/crates/measure" || exit 1
if ! rt run -- plain 1 >"$work/log" 2>&1; then
    cat "$work/log"
    exit 1
fi
python3 - "$work/crates/measure/out/measure" "$work" <<'MEASURE'
import re, subprocess, sys

program, work = sys.argv[1], sys.argv[2]


def instructions_of(what, turns):
    """The instructions of a whole run, as callgrind counts them."""
    words = ["valgrind", "--tool=callgrind", f"--callgrind-out-file={work}/callgrind", program, what, str(turns)]
    said = subprocess.run(words, stdout=subprocess.PIPE, stderr=subprocess.PIPE, check=True).stderr.decode()
    return int(re.search(r"Collected : (\d+)", said).group(1))


def instructions_a_turn(what):
    return (instructions_of(what, 20_000) - instructions_of(what, 10_000)) / 10_000


print("a write shown to a session, in instructions")
for title, what, known in (("a plain write, 68 bytes", "plain", "copy"), ("16 bytes of payload and 2 frames, 100 bytes", "full", "copy_full")):
    shown, copied = instructions_a_turn(what), instructions_a_turn(known)
    print(f"  {title:46} {shown:8.1f}   {shown / copied:5.2f} x a copy of the bytes alone, {copied:.1f}")
print("a whole write of 16 bytes of payload, in instructions")
for title, what in (("for one session", "one"), ("for two sessions", "two")):
    print(f"  {title:46} {instructions_a_turn(what):8.1f}")
MEASURE
