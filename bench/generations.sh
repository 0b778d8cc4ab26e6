#!/bin/sh
# Measures what generations cost, by a runtime that holds the heap itself, with no script and no log. First the poll of a `reserve` where
# nothing is due: an arena of 2,048 grains is full of blocks of a segment each, so a `reserve` polls and is then refused. What is printed is
# its time with a pool on no chain, and with one on a chain of eight generations. Then a collection of a young object beside 20, 100, 1,000
# and 1,800 old segments, none of which refers to it: the shortest of three is printed.
# It makes a program over a copy of the crates, proves it, and runs it.
home=$(cd "$(dirname "$0")/.." && pwd)
folder=$(mktemp -d)
cd "$folder" || exit 1
mkdir crates
# mps_heap and all crates of the repository that it stands on.
crates=$(awk -F: -v todo=mps_heap '
    { sub(/#.*/, "") }
    NF > 1 { split($1, part, " "); lows[part[1]] = $2 }
    END {
        while (split(todo, names, " ") > 0) {
            todo = ""
            for (i in names) if (names[i] in lows && !(names[i] in done)) {
                done[names[i]]
                print names[i]
                todo = todo " " lows[names[i]]
            }
        }
    }' "$home/crates.txt")
for crate in $crates; do
    mkdir "crates/$crate"
    for part in src specs proofs; do
        [ -d "$home/crates/$crate/$part" ] && cp -r "$home/crates/$crate/$part" "crates/$crate/$part"
    done
    grep "^$crate:" "$home/crates.txt" >> crates.txt
done
echo 'generation_times: mps_base mps_format mps_heap' >> crates.txt
program=crates/generation_times
mkdir -p $program/src
cat > $program/src/main.rt <<'P'
// What generations cost.
#![tactic(auto)]

ghost use Rattle.std.specs.Prelude.{◌≡◌, ◌<◌};

use mps_base::{Kind, Name, Rank, Refusal, Slot, Trail};
use mps_format::Front;
use mps_heap::{Heap, Progress, Steps};
use std::alloc::{AllocError, Global};
use std::io;
use std::marker::{Brand, Model};
use std::sync::ledger::{Blank, Ledger};
use std::time::Instant;

/// The head of an object of 3 words without references.
const SMALL: u64 = 0x301;

/// The head of an object of 511 words without references, which has a segment for itself.
const LARGE: u64 = 0x1ff01;

/// How often each is measured.
const TIMES: u64 = 3;

/// How many calls are timed together.
const CALLS: u64 = 100_000;

/// One more than a collection makes in the largest arena: the most that a call on an object asks for.
const MOST_MOVES: u32 = 2_097_153;

fn named(letter: u8) -> Name {
    Name { bytes: [letter, 0, 0, 0, 0, 0, 0, 0, 0, 0, 0, 0, 0, 0, 0, 0] }
}

fn slot(index: u64) -> Slot {
    Slot { name: named(b't'), index }
}

/// A trail with room for the moves of any call, once it is emptied.
#[derive(Drop)]
struct Moves {
    trail: Trail,
}

impl Model for Moves {
    ghost use Rattle.std.specs.Prelude.{ℕ, ◌+◌, ◌^◌, ◌<◌, length};

    ghost Value = { ℕ };

    ghost view = { λ m. m.trail.spare + length m.trail.moves };

    ghost invariant = { λ m. 2 ^ 21 < m.trail.spare + length m.trail.moves };
}

impl Moves {
    fn new(alloc: Global) -> Result<Moves, AllocError> {
        Ok(Moves { trail: Trail::new(alloc, MOST_MOVES)? })
    }

    /// Makes an object with this head. Not refused where the heap can count one flip more and has room.
    fn object(&mut self, heap: &mut Heap<Front>, head: u64, into: Slot) -> Result<(), Refusal> {
        self.reserve(heap, head)?;
        self.trail.clear();
        let _ = heap.commit(&mut self.trail, named(b'x'), into)?;
        Ok(())
    }

    fn reserve(&mut self, heap: &mut Heap<Front>, head: u64) -> Result<(), Refusal> {
        self.trail.clear();
        let _ = heap.most_moves(); // at most 2^21
        if !heap.can_collect() {
            return Err(Refusal::Running);
        }
        heap.reserve(&mut self.trail, named(b'x'), head)
    }

    /// Collects the youngest generation of the chain.
    fn collect_young<L: Ledger>(&mut self, heap: &mut Heap<Front>, steps: &mut Steps<L>) -> bool {
        self.trail.clear();
        let _ = heap.most_moves(); // at most 2^21
        if !heap.can_collect() || heap.start_chain(&mut self.trail, named(b'c'), 0).is_err() {
            return false;
        }
        self.trail.clear();
        let _ = heap.most_moves(); // at most 2^21
        matches!(heap.step(&mut self.trail, 10_000_000, steps), Progress::Idle)
    }
}

/// A pool on a chain of eight generations, each of which may have all grains, or on none; and slots for large objects.
fn make(heap: &mut Heap<Front>, on_chain: bool) -> Result<(), Refusal> {
    if on_chain {
        heap.chain(named(b'c'), &[2048, 2048, 2048, 2048, 2048, 2048, 2048, 2048])?;
        heap.pool_on_chain(named(b'p'), Kind::Amc, Front, named(b'c'))?;
    } else {
        heap.pool(named(b'p'), Kind::Amc, Front)?;
    }
    heap.table(named(b't'), 2048)?;
    heap.point(named(b'x'), named(b'p'), Rank::Exact)
}

/// Makes large objects until the arena is full.
fn fill(heap: &mut Heap<Front>, moves: &mut Moves) {
    for index in 0..2048 {
        if moves.object(heap, LARGE, slot(index)).is_err() {
            return;
        }
    }
}

fn refused_reserves(heap: &mut Heap<Front>, moves: &mut Moves) -> u64 {
    let mut refused = 0;
    for _ in 0..CALLS {
        if moves.reserve(heap, LARGE).is_err() && refused < CALLS {
            refused += 1;
        }
    }
    refused
}

/// Times the `reserve` that polls and is refused.
fn show_poll(rt: &HostRuntime, heap: &mut Heap<Front>, moves: &mut Moves, on_chain: bool) -> io::Result<()> {
    for _ in 0..TIMES {
        let began = Instant::now(rt)?;
        let refused = refused_reserves(heap, moves);
        let took = began.elapsed(rt)?.as_nanos();
        println!(rt; "on a chain {on_chain}: {refused} refused, {} ns each", took / u128::from(CALLS))?;
    }
    Ok(())
}

fn time_poll(rt: &HostRuntime, moves: &mut Moves, on_chain: bool) -> io::Result<()> {
    let mut heap = Heap::<Front>::new(rt.alloc(), 2048, 2048)?;
    let done = if make(&mut heap, on_chain).is_ok() {
        fill(&mut heap, moves);
        show_poll(rt, &mut heap, moves, on_chain)
    } else {
        println!(rt; "refused")
    };
    heap.finish();
    done
}

/// Makes large objects, and has them collected once, so that they are old.
fn grow_old<L: Ledger>(heap: &mut Heap<Front>, moves: &mut Moves, from: u64, to: u64, steps: &mut Steps<L>) -> bool {
    for index in from..to {
        if moves.object(heap, LARGE, slot(index)).is_err() {
            return false;
        }
    }
    moves.collect_young(heap, steps)
}

/// Makes the old objects, in parts for which there is room to move.
fn make_old<L: Ledger>(heap: &mut Heap<Front>, moves: &mut Moves, old: u64, steps: &mut Steps<L>) -> bool {
    for part in 0..20_u64 {
        if !grow_old(heap, moves, part * (old / 20), (part + 1) * (old / 20), steps) {
            return false;
        }
    }
    true
}

fn young_collection<L: Ledger>(
    rt: &HostRuntime,
    heap: &mut Heap<Front>,
    moves: &mut Moves,
    steps: &mut Steps<L>,
) -> io::Result<Option<u128>> {
    if moves.object(heap, SMALL, slot(2047)).is_err() {
        return Ok(None);
    }
    let began = Instant::now(rt)?;
    let done = moves.collect_young(heap, steps);
    let took = began.elapsed(rt)?.as_nanos();
    if done { Ok(Some(took)) } else { Ok(None) }
}

/// Times the collection of a young object beside old segments.
fn show_young<L: Ledger>(
    rt: &HostRuntime,
    heap: &mut Heap<Front>,
    moves: &mut Moves,
    old: u64,
    blank: Blank,
) -> io::Result<()>
    requires name { blank.name ≡ L.name }
    requires parts { blank.parts ≡ L.parts }
    requires nonzero { 0 < blank.parts }
{
    let mut steps = Steps::<L>::new(blank);
    if !make_old(heap, moves, old, &mut steps) {
        return println!(rt; "refused");
    }
    for _ in 0..TIMES {
        match young_collection(rt, heap, moves, &mut steps)? {
            Some(took) => println!(rt; "{old} old segments: {took} ns")?,
            None => println!(rt; "refused")?,
        }
    }
    Ok(())
}

fn time_young(rt: &HostRuntime, moves: &mut Moves, old: u64) -> io::Result<()> {
    let mut heap = Heap::<Front>::new(rt.alloc(), 2048, 2048)?;
    let done = if make(&mut heap, true).is_ok() {
        show_young::<Brand>(rt, &mut heap, moves, old, Blank::new(1))
    } else {
        println!(rt; "refused")
    };
    heap.finish();
    done
}

fn main(rt: HostRuntime) -> io::Result<()> {
    let mut moves = Moves::new(rt.alloc())?;
    time_poll(&rt, &mut moves, false)?;
    time_poll(&rt, &mut moves, true)?;
    time_young(&rt, &mut moves, 20)?;
    time_young(&rt, &mut moves, 100)?;
    time_young(&rt, &mut moves, 1_000)?;
    time_young(&rt, &mut moves, 1_800)
}
P
mkdir -p $program/proofs/time_young
cat > $program/proofs/time_young/Invariants.antt <<'P'
use Rattle.generation_times.proofs.time_young.Given as goal

-- the units are counted in the ledger of the blank
abbrev pub ghosts-show_young : goal.ghosts-show_young
ghosts-show_young a = record { name = a.blank.name; parts = a.blank.parts }
P
(cd $program && rt run)
cd / && rm -r "$folder"
