#!/bin/sh
# Measures how long a collection takes that moves everything, by a runtime that holds the heap itself, with no script and no log: rings and
# lists of 1,000, 10,000 and 100,000 objects of 3 words with one reference. A ring is collected in the order of its making, and a list
# against it. Room for the moves is taken before the clock runs. Each is collected three times, and the shortest of these is printed.
# Then rings of the same sizes are collected by steps of one unit each, also three times: what is printed is the time of a step.
# It makes a program over a copy of the crates, proves it, and runs it.
home=$(cd "$(dirname "$0")/.." && pwd)
folder=$(mktemp -d)
cd "$folder" || exit 1
mkdir crates
# mps_heap and all crates of the repository that it stands on.
crates=$(awk -F: -v todo=mps_heap '
    { sub(/#.*/, "") }
    NF > 1 { split($1, part, " "); lows[part[1]] = $2 }
    END {
        while (split(todo, names, " ") > 0) {
            todo = ""
            for (i in names) if (names[i] in lows && !(names[i] in done)) {
                done[names[i]]
                print names[i]
                todo = todo " " lows[names[i]]
            }
        }
    }' "$home/crates.txt")
for crate in $crates; do
    mkdir "crates/$crate"
    for part in src specs proofs; do
        [ -d "$home/crates/$crate/$part" ] && cp -r "$home/crates/$crate/$part" "crates/$crate/$part"
    done
    grep "^$crate:" "$home/crates.txt" >> crates.txt
done
echo 'collect_times: mps_base mps_format mps_heap' >> crates.txt
program=crates/collect_times
mkdir -p $program/src
cat > $program/src/main.rt <<'P'
// How long a collection takes.
#![tactic(auto)]

ghost use Rattle.std.specs.Prelude.{◌≡◌, ◌<◌};

use mps_base::{Kind, Name, Rank, Refusal, Slot, Trail};
use mps_format::Front;
use mps_heap::{Heap, Progress, Steps};
use std::alloc::{AllocError, Global};
use std::io;
use std::marker::{Brand, Model};
use std::sync::ledger::{Blank, Ledger};
use std::time::Instant;

/// The head of an object of 3 words, the first of which after the head is a reference.
const HEAD: u64 = 0x1_0000_0301;

/// How often each heap is collected.
const TIMES: u64 = 3;

/// One more than a collection makes in the largest arena: the most that a call on an object asks for.
const MOST_MOVES: u32 = 2_097_153;

fn named(letter: u8) -> Name {
    Name { bytes: [letter, 0, 0, 0, 0, 0, 0, 0, 0, 0, 0, 0, 0, 0, 0, 0] }
}

fn slot(index: u64) -> Slot {
    Slot { name: named(b't'), index }
}

/// A trail with room for the moves of any call but a collection, once it is emptied.
#[derive(Drop)]
struct Moves {
    trail: Trail,
}

impl Model for Moves {
    ghost use Rattle.std.specs.Prelude.{ℕ, ◌+◌, ◌^◌, ◌<◌, length};

    ghost Value = { ℕ };

    ghost view = { λ m. m.trail.spare + length m.trail.moves };

    ghost invariant = { λ m. 2 ^ 21 < m.trail.spare + length m.trail.moves };
}

impl Moves {
    fn new(alloc: Global) -> Result<Moves, AllocError> {
        Ok(Moves { trail: Trail::new(alloc, MOST_MOVES)? })
    }

    fn reserve(&mut self, heap: &mut Heap<Front>) -> Result<(), Refusal> {
        self.trail.clear();
        let _ = heap.most_moves(); // at most 2^21
        if !heap.can_collect() {
            return Err(Refusal::Running);
        }
        heap.reserve(&mut self.trail, named(b'x'), HEAD)
    }

    fn commit(&mut self, heap: &mut Heap<Front>, into: Slot) -> Result<(), Refusal> {
        self.trail.clear();
        let _ = heap.commit(&mut self.trail, named(b'x'), into)?;
        Ok(())
    }

    /// Makes an object that refers to nothing.
    fn object(&mut self, heap: &mut Heap<Front>, into: Slot) -> Result<(), Refusal> {
        self.reserve(heap)?;
        self.commit(heap, into)
    }

    /// Puts an object before the list that begins in the first slot.
    fn cons(&mut self, heap: &mut Heap<Front>) -> Result<(), Refusal> {
        self.reserve(heap)?;
        heap.init_ref(named(b'x'), 1, slot(0))?;
        self.commit(heap, slot(0))
    }

    /// Begins a collection, if the heap can.
    fn start(&mut self, heap: &mut Heap<Front>) -> bool {
        self.trail.clear();
        let _ = heap.most_moves(); // at most 2^21
        heap.can_collect() && heap.start(&mut self.trail).is_ok()
    }

    /// Does one unit, and tells whether the collection is still in progress.
    fn unit<L: Ledger>(&mut self, heap: &mut Heap<Front>, steps: &mut Steps<L>) -> bool {
        self.trail.clear();
        let _ = heap.most_moves(); // at most 2^21
        matches!(heap.step(&mut self.trail, 1, steps), Progress::More)
    }

    /// Makes an object to which the last of the ring refers, in the second slot, and which is the last from then on.
    fn append(&mut self, heap: &mut Heap<Front>) -> Result<(), Refusal> {
        self.object(heap, slot(2))?;
        heap.put(slot(1), 1, slot(2))?;
        heap.copy(slot(1), slot(2))
    }
}

fn make(heap: &mut Heap<Front>) -> Result<(), Refusal> {
    heap.pool(named(b'p'), Kind::Amc, Front)?;
    heap.table(named(b't'), 4)?;
    heap.point(named(b'x'), named(b'p'), Rank::Exact)
}

fn ring(heap: &mut Heap<Front>, moves: &mut Moves, count: u64) -> Result<(), Refusal> {
    make(heap)?;
    moves.object(heap, slot(0))?;
    heap.copy(slot(1), slot(0))?;
    for _ in 1..count {
        moves.append(heap)?;
    }
    heap.put(slot(1), 1, slot(0))?;
    heap.clear(slot(1))?;
    heap.clear(slot(2))
}

fn list(heap: &mut Heap<Front>, moves: &mut Moves, count: u64) -> Result<(), Refusal> {
    make(heap)?;
    for _ in 0..count {
        moves.cons(heap)?;
    }
    Ok(())
}

/// How long one collection takes, in nanoseconds; None where the heap can't collect.
fn collect(rt: &HostRuntime, heap: &mut Heap<Front>) -> io::Result<Option<u128>> {
    if !heap.can_collect() {
        return Ok(None);
    }
    let mut trail = Trail::new(rt.alloc(), 2 * heap.most_moves())?;
    let began = Instant::now(rt)?;
    heap.collect(&mut trail);
    let took = began.elapsed(rt)?.as_nanos();
    Ok(Some(took))
}

/// Does units one by one until the collection ends, and tells how many.
fn finish_by_units<L: Ledger>(heap: &mut Heap<Front>, moves: &mut Moves, most: u64, blank: Blank) -> u64
    requires name { blank.name ≡ L.name }
    requires parts { blank.parts ≡ L.parts }
    requires nonzero { 0 < blank.parts }
{
    let mut steps = Steps::<L>::new(blank);
    for count in 0..most {
        if !moves.unit(heap, &mut steps) {
            return count;
        }
    }
    most
}

/// The most units of a collection.
const MOST_UNITS: u64 = 1_000_000;

/// How long a collection by single units takes, in nanoseconds, and how many units it has; None where none can begin.
fn collect_by_units(
    rt: &HostRuntime,
    heap: &mut Heap<Front>,
    moves: &mut Moves,
) -> io::Result<Option<(u128, u64)>> {
    if !moves.start(heap) {
        return Ok(None);
    }
    let began = Instant::now(rt)?;
    let units = finish_by_units::<Brand>(heap, moves, MOST_UNITS, Blank::new(1));
    let took = began.elapsed(rt)?.as_nanos();
    Ok(Some((took, units)))
}

/// Collects a heap by single units, and tells how long one took.
fn show_units(rt: &HostRuntime, heap: &mut Heap<Front>, moves: &mut Moves, count: u64) -> io::Result<()> {
    for _ in 0..TIMES {
        let Some((took, units)) = collect_by_units(rt, heap, moves)? else {
            return println!(rt; "refused");
        };
        let units = u128::from(units.max(1));
        println!(rt; "ring of {count} by {units} units: {}.{} ns a unit", took / units, 10 * (took % units) / units)?;
    }
    Ok(())
}

/// The shortest of some collections.
fn shortest(rt: &HostRuntime, heap: &mut Heap<Front>) -> io::Result<Option<u128>> {
    let mut least = None;
    for _ in 0..TIMES {
        let Some(took) = collect(rt, heap)? else {
            return Ok(None);
        };
        least = match least {
            Some(before) if before < took => Some(before),
            _ => Some(took),
        };
    }
    Ok(least)
}

/// Collects a heap of `count` objects, and tells how long one object took.
fn show(rt: &HostRuntime, what: &str, heap: &mut Heap<Front>, count: u64) -> io::Result<()> {
    let Some(took) = shortest(rt, heap)? else {
        return println!(rt; "refused");
    };
    let count = u128::from(count.max(1));
    println!(rt; "{what} of {count}: {}.{} ns an object", took / count, 10 * (took % count) / count)
}

fn time_ring(rt: &HostRuntime, moves: &mut Moves, count: u64) -> io::Result<()> {
    let mut heap = Heap::<Front>::new(rt.alloc(), 2048, 2048)?;
    let done = if ring(&mut heap, moves, count).is_ok() {
        show(rt, "ring", &mut heap, count)
    } else {
        println!(rt; "refused")
    };
    heap.finish();
    done
}

fn time_list(rt: &HostRuntime, moves: &mut Moves, count: u64) -> io::Result<()> {
    let mut heap = Heap::<Front>::new(rt.alloc(), 2048, 2048)?;
    let done = if list(&mut heap, moves, count).is_ok() {
        show(rt, "list", &mut heap, count)
    } else {
        println!(rt; "refused")
    };
    heap.finish();
    done
}

fn time_units(rt: &HostRuntime, moves: &mut Moves, count: u64) -> io::Result<()> {
    let mut heap = Heap::<Front>::new(rt.alloc(), 2048, 2048)?;
    let done = if ring(&mut heap, moves, count).is_ok() {
        show_units(rt, &mut heap, moves, count)
    } else {
        println!(rt; "refused")
    };
    heap.finish();
    done
}

fn main(rt: HostRuntime) -> io::Result<()> {
    let mut moves = Moves::new(rt.alloc())?;
    time_ring(&rt, &mut moves, 1_000)?;
    time_ring(&rt, &mut moves, 10_000)?;
    time_ring(&rt, &mut moves, 100_000)?;
    time_list(&rt, &mut moves, 1_000)?;
    time_list(&rt, &mut moves, 10_000)?;
    time_list(&rt, &mut moves, 100_000)?;
    time_units(&rt, &mut moves, 1_000)?;
    time_units(&rt, &mut moves, 10_000)?;
    time_units(&rt, &mut moves, 100_000)
}
P
mkdir -p $program/proofs/collect_by_units
cat > $program/proofs/collect_by_units/Invariants.antt <<'P'
use Rattle.collect_times.proofs.collect_by_units.Given as goal

-- the units are counted in the ledger of the blank
abbrev pub ghosts-finish_by_units : goal.ghosts-finish_by_units
ghosts-finish_by_units a = record { name = a.blank.name; parts = a.blank.parts }
P
(cd $program && rt run)
cd / && rm -r "$folder"
