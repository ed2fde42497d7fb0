#!/bin/sh
# Prints how many instructions it takes to read and to write the compressed header of a blob: of the usual one of two
# bytes, which follows an event of the same thread, and of one with all fields; beside them what it takes to copy as many
# bytes. Then what an event takes, and how often it takes memory: read from a body of a thousand, whose items have room
# (an item of the time before is dropped first), added to a body, and handed to the writer of a stream, without frames and
# with two that are known, one of a hundred stacks; beside them how many times a usual header it is. It makes two small
# programs over the crates in a folder of its own, which are proved and built there, and runs them under callgrind and
# memcheck (valgrind, a Debian package), since times vary by a third and instructions don't. It needs python3.
here=$(cd "$(dirname "$0")/.." && pwd) || exit 1
work=$(mktemp -d) || exit 1
trap 'rm -rf "$work"' EXIT
mkdir -p "$work/crates/measure/src" "$work/crates/measure_events/src" "$work/crates/measure_events/proofs/adds" || exit 1
for crate in pt_num nt_head ep_defs pt_io nt_object nt_meta ep_rundown nt_stacks nt_blocks nt_write; do
    cp -r "$here/crates/$crate" "$work/crates/" || exit 1
    grep "^$crate:" "$here/crates.txt" >>"$work/crates.txt" || exit 1
done
echo 'measure: nt_head pt_num anyhow' >>"$work/crates.txt"
echo 'measure_events: nt_write nt_blocks nt_meta nt_stacks nt_head nt_object pt_num pt_io ep_defs anyhow' >>"$work/crates.txt"
cat >"$work/crates/measure/src/main.rt" <<'PROGRAM'
//! Reads or writes a header as often as it is told.
#![tactic(auto)]

ghost use Rattle.std.specs.Prelude.{◌<◌};

use anyhow::{Result, ensure};
use nt_head::{HeadState, put_head, take_next};
use std::env;
use std::hint::black_box;

// Reads the header again and again, each time into what it said before, and answers the last number.
fn reads(bytes: &[u8], previous: &HeadState, turns: u32) -> u32 {
    let mut last = *previous;
    for _ in 0..turns {
        let _ = black_box(take_next(black_box(bytes), &mut last));
    }
    last.number
}

fn writes(out: &mut Vec<u8>, previous: &HeadState, now: &HeadState, turns: u32)
    requires { 0 < now.now.metadata }
{
    for _ in 0..turns {
        out.clear();
        let _ = black_box(put_head(out, black_box(previous), now));
        black_box(&*out);
    }
}

fn copies(into: &mut Vec<u8>, bytes: &[u8], turns: u32) {
    for _ in 0..turns {
        into.clear();
        let _ = black_box(into.extend_from_slice(black_box(bytes)));
    }
}

// An event of thread 1 with this sequence number and timestamp.
fn event(number: u32, stamp: u64) -> HeadState {
    let mut state = HeadState::zero();
    state.metadata = 1;
    state.number = number;
    state.capture = 1;
    state.thread = 1;
    state.stamp = stamp;
    state
}

fn main(rt: HostRuntime) -> Result<()> {
    let mut words = env::args(&rt)?;
    let _name = words.next();
    let (Some(what), Some(which), Some(turns)) = (words.next(), words.next(), words.next()) else {
        return Ok(());
    };
    let Ok(turns) = turns.as_str().parse::<u32>() else {
        return Ok(());
    };
    let (mut previous, mut now) = (event(1, 10), event(2, 11));
    if which.as_str() == "full" {
        previous = HeadState::zero();
        now.number = 70_000;
        now.processor = 3;
        now.stack = 300;
        now.activity = [5; 16];
        now.related = [6; 16];
        now.sorted = true;
        now.size = 60_000;
    }
    ensure!(now.metadata != 0, "no event");
    let mut out = Vec::with_capacity(rt.alloc(), 100)?;
    let bytes = put_head(&mut out, &previous, &now)?;
    let header = out.as_slice().to_vec(rt.alloc())?;
    let mut last = 0;
    match what.as_str() {
        "read" => last = reads(&header, &previous, turns),
        "write" => writes(&mut out, &previous, &now, turns),
        _ => copies(&mut out, &header, turns),
    }
    println!(rt; "{bytes} {last}")?;
    Ok(())
}
PROGRAM
cat >"$work/crates/measure_events/src/main.rt" <<'PROGRAM'
//! Reads or writes events as often as it is told.
#![tactic(auto)]

ghost use Rattle.std.specs.Prelude.{◌≡◌, ◌<◌, ◌≤◌, ◌%◌, ◌∷◌, [], length, IsTrue, IfOk};
ghost use Rattle.ep_defs.specs.Event.{is_valid_event};
ghost use Rattle.nt_object.specs.declared.object.BlockKind.TheVariants as block;
ghost use Rattle.nt_blocks.specs.declared.limits.TheConstants.{WRITTEN_BYTES};

use anyhow::{Result, bail};
use ep_defs::{EventDef, Item, Items, Units, standard_info};
use nt_blocks::{BlobBlock, BodyFault, take_body};
use nt_head::HeadState;
use nt_head::limits::HEAD_BYTES;
use nt_object::BlockKind;
use nt_write::{EventOut, Fault, TraceWriter};
use pt_io::MemSink;
use std::alloc::{AllocError, Global};
use std::env;
use std::hint::black_box;

// Events in a body that is read.
const EVENTS: u32 = 1_000;

// Adds an event so often, each a number and a nanosecond after the one before it. A full block is begun anew.
fn adds(
    making: &mut BlobBlock,
    first: &HeadState,
    payload: &[u8],
    turns: u32,
) -> Result<(), AllocError>
    requires kind { making.old.kind ≡ block.Event }
    requires named { 0 < first.now.metadata }
    requires size { first.now.size ≡ length payload.now }
{
    let mut head = *first;
    for _ in 0..turns {
        if !making.fits(HEAD_BYTES + payload.len()) {
            making.clear();
            continue;
        }
        head.number = head.number.wrapping_add(1);
        head.stamp = head.stamp.wrapping_add(1);
        making.add(&head, payload)?;
    }
    Ok(())
}

// Reads the body again and again.
fn reads(alloc: Global, body: &[u8], items: &mut Vec<Item>, turns: u32) -> Result<(), BodyFault>
    requires { length body.now ≤ WRITTEN_BYTES }
{
    for _ in 0..turns {
        items.clear();
        take_body(alloc, BlockKind::Event, black_box(body), 0, items)?;
    }
    Ok(())
}

// Writes an event of thread 1 with these frames so often.
fn tells(
    alloc: Global,
    writer: &mut TraceWriter<MemSink>,
    def: &EventDef,
    frames: &[u8],
    turns: u32,
) -> Result<(), Fault>
    requires valid { IsTrue (is_valid_event def.now) }
    requires few { length frames.now ≤ 16 }
    requires whole { length frames.now % 8 ≡ 0 }
{
    for turn in 0..turns {
        let out = EventOut {
            event: 1,
            thread: 1,
            number: turn + 1,
            stamp: u64::from(turn),
            activity: [0; 16],
            related: [0; 16],
            frames,
            payload: b"",
        };
        writer.event(alloc, def, black_box(&out))?;
    }
    Ok(())
}

fn text(alloc: Global, unit: u16) -> Result<Units, AllocError>
    ensures { IfOk result (λ text. text ≡ unit ∷ []) }
{
    Ok(Items::new(Vec::from_array(alloc, [unit])?))
}

// Event 1 of provider P, named E.
fn definition(alloc: Global) -> Result<EventDef, AllocError>
    ensures { IfOk result (λ def. IsTrue (is_valid_event def)) }
{
    let provider = text(alloc, 0x50)?;
    let name = text(alloc, 0x45)?;
    Ok(EventDef {
        provider,
        id: 1,
        version: 0,
        level: 4,
        keywords: 1,
        name,
        fields: Items::new(Vec::new(alloc)),
    })
}

// The bytes of a block of so many events, and the items that are read in them.
fn blobs(alloc: Global, payload: &[u8], added: u32, read: u32) -> Result<(usize, usize)> {
    let mut head = HeadState::zero();
    head.metadata = 1;
    head.capture = 1;
    head.thread = 1;
    if payload.len() > 16 {
        bail!("a long payload");
    }
    head.size = payload.len() as u32;
    let mut block = BlobBlock::new(alloc, BlockKind::Event);
    adds(&mut block, &head, payload, added)?;
    let body = block.body(alloc)?;
    let mut items = Vec::new(alloc);
    if reads(alloc, &body, &mut items, read).is_err() {
        bail!("refused");
    }
    Ok((body.len(), items.len()))
}

// The bytes of a stream of so many events with these frames, behind a hundred with others.
fn streams(alloc: Global, frames: &[u8], turns: u32) -> Result<usize>
    requires few { length frames.now ≤ 16 }
    requires whole { length frames.now % 8 ≡ 0 }
{
    let def = definition(alloc)?;
    let sink = MemSink::new(Vec::new(alloc));
    let Ok(mut writer) = TraceWriter::begin(alloc, sink, &standard_info(1, 1)) else {
        bail!("not begun");
    };
    for byte in 0..100u8 {
        if tells(alloc, &mut writer, &def, &[byte; 16], 1).is_err() {
            bail!("not written");
        }
    }
    if tells(alloc, &mut writer, &def, frames, turns).is_err() {
        bail!("not written");
    }
    let (sink, _) = writer.end(alloc);
    Ok(sink.taken().len())
}

fn main(rt: HostRuntime) -> Result<()> {
    let alloc = rt.alloc();
    let mut words = env::args(&rt)?;
    let _name = words.next();
    let (Some(what), Some(turns)) = (words.next(), words.next()) else {
        return Ok(());
    };
    let Ok(turns) = turns.as_str().parse::<u32>() else {
        return Ok(());
    };
    let (bytes, items) = match what.as_str() {
        "write" => blobs(alloc, b"", turns, 0)?,
        "write-16" => blobs(alloc, b"0123456789abcdef", turns, 0)?,
        "read" => blobs(alloc, b"", EVENTS, turns)?,
        "read-16" => blobs(alloc, b"0123456789abcdef", EVENTS, turns)?,
        "stream" => (streams(alloc, b"", turns)?, 0),
        "stream-2" => (streams(alloc, &[50; 16], turns)?, 0),
        _ => (0, 0),
    };
    println!(rt; "{bytes} {items}")?;
    Ok(())
}
PROGRAM
cat >"$work/crates/measure_events/proofs/adds/Invariants.antt" <<'PROOF'
-- It is a block of events, and the header names a definition and the payload's size.
use Rattle.std.proofs.Common.{◌≡◌, ◌<◌, length}
use Rattle.nt_object.specs.declared.object.BlockKind.TheVariants as block
use Rattle.measure_events.proofs.adds.Given as goal

abbrev pub invariant-loop : goal.invariant-loop
invariant-loop l = (l.making.kind ≡ block.Event) × (0 < l.head.metadata) × (l.head.size ≡ length l.payload)
PROOF
for program in measure measure_events; do
    cd "$work/crates/$program" || exit 1
    if ! rt run -- read usual 1 >"$work/log" 2>&1; then
        cat "$work/log"
        exit 1
    fi
done
python3 - "$work" <<'MEASURE'
import re, subprocess, sys

work = sys.argv[1]


def run_under(tool, pattern, program, words):
    """What valgrind's tool counts in a whole run, and the first number that the program prints."""
    command = ["valgrind", *tool, f"{work}/crates/{program}/out/{program}", *words]
    ran = subprocess.run(command, stdout=subprocess.PIPE, stderr=subprocess.PIPE, check=True)
    return int(re.search(pattern, ran.stderr.decode()).group(1).replace(",", "")), int(ran.stdout.split()[0])


def instructions_of(program, *words):
    return run_under(["--tool=callgrind", f"--callgrind-out-file={work}/callgrind"], r"Collected : (\d+)", program, words)


def allocations_of(program, *words):
    return run_under(["--tool=memcheck", "--leak-check=no"], r"total heap usage: ([\d,]+) allocs", program, words)


def a_turn(count, turns, program, *words):
    """What one turn more costs, and the number that the program prints."""
    more, printed = count(program, *words, str(2 * turns))
    return (more - count(program, *words, str(turns))[0]) / turns, printed


headers = {}
print("a compressed header, in instructions")
for which in "usual", "full":
    copied, size = a_turn(instructions_of, 10_000, "measure", "copy", which)
    for what in "read", "write":
        used = a_turn(instructions_of, 10_000, "measure", what, which)[0]
        headers[what, which] = used
        print(f"  {what:5} {which:5} ({size:2} bytes) {used:8.1f}   {used / copied:5.2f} x a copy of the bytes alone, {copied:.1f}")

print("an event, in instructions, and how often it takes memory")
# A block is full after 51,144 events without payload, or 5,682 with 16 bytes: so it is empty after each count of turns.
for what, text, header, turns, events in [
    ("read", "read from a body, without payload", "read", 20, 1_000),
    ("read-16", "read from a body, with 16 bytes of payload", "read", 20, 1_000),
    ("write", "added to a body, without payload", "write", 51_145, 1),
    ("write-16", "added to a body, with 16 bytes of payload", "write", 5_683, 1),
    ("stream", "handed to a writer, without frames", "write", 10_000, 1),
    ("stream-2", "handed to a writer, with two known frames", "write", 10_000, 1),
]:
    used = a_turn(instructions_of, turns, "measure_events", what)[0] / events
    taken = a_turn(allocations_of, turns, "measure_events", what)[0] / events
    print(f"  {text:42} {used:6.1f}   {used / headers[header, 'usual']:4.1f} x a header   {taken:5.3f} times memory")
MEASURE
