#!/bin/sh
# Measures the tables beside the blocks: a block kept in a cache and taken again; a block noted in a pool of frames and taken by a pop, for
# 1,000 and 65,536 blocks; what follows from a Free, without pairs and with 1,000; a pair of a transform; and how long all tables take to
# make, with the pages in use before and after (of 4 KiB, the second number).
# It makes a program over a copy of the crates, proves it, and runs it.
home=$(cd "$(dirname "$0")/.." && pwd)
folder=$(mktemp -d)
cd "$folder" || exit 1
mkdir crates
for crate in base bits address_marks gaps numerals arena extents marks gen seg root format sac snc dep xform neighbours; do
    mkdir "crates/mps_$crate"
    for part in src specs proofs; do
        [ -d "$home/crates/mps_$crate/$part" ] && cp -r "$home/crates/mps_$crate/$part" "crates/mps_$crate/$part"
    done
    grep "^mps_$crate:" "$home/crates.txt" >> crates.txt
done
echo 'table_times: mps_base mps_format mps_seg mps_sac mps_snc mps_dep mps_xform mps_neighbours' >> crates.txt
program=crates/table_times
mkdir -p $program/src $program/proofs/fill $program/proofs/drain
cat > $program/src/main.rt <<'P'
// How long the calls of the tables beside the blocks take.
#![tactic(auto)]

ghost use Rattle.std.specs.Prelude.{◌≡◌, ◌≤◌, IsSome};
ghost use Rattle.mps_snc.specs.State.{pool_at, notes_count, max_notes};

use mps_base::{Addr, Move};
use mps_dep::Dependents;
use mps_format::Front;
use mps_neighbours::Neighbours;
use mps_sac::{Caches, ClassSize};
use mps_seg::Segs;
use mps_snc::{Block, Frames, Place};
use mps_xform::{Pair, Transforms};
use std::fs;
use std::io;
use std::time::Instant;

/// How often a short call is made.
const TIMES: u32 = 1_000_000;

fn keep_and_take(caches: &mut Caches) -> u32 {
    let mut taken = 0u32;
    for _ in 0..TIMES {
        if caches.count() > 0 && caches.keep(0, 16, Addr(4096)) && caches.take(0, 16).is_some() {
            taken = taken.saturating_add(1);
        }
    }
    taken
}

fn fill(frames: &mut Frames, count: u32)
    requires there { IsSome (pool_at frames.old 3) }
    requires empty { notes_count frames.old ≡ 0 }
    requires few { count ≤ max_notes }
    ensures { IsSome (pool_at frames.new 3) }
{
    for number in 0..count {
        let at = Addr(8 * u64::from(number));
        let place = Place { table: 0, index: number as usize };
        frames.note(3, Block { at, place });
    }
}

fn drain(frames: &mut Frames, count: u32) -> u32
    requires { IsSome (pool_at frames.old 3) }
{
    let mut popped = 0u32;
    for _ in 0..count {
        if frames.frames(3) > 0 && frames.pop(3, 0).is_some() {
            popped = popped.saturating_add(1);
        }
    }
    popped
}

fn free_all(dependents: &mut Dependents, segs: &mut Segs) {
    for number in 0..TIMES {
        let at = Addr(8 * u64::from(number));
        dependents.follow(segs, &Front, Move::Free { at });
    }
}

fn show_frames(rt: &HostRuntime, count: u32) -> io::Result<()>
    requires { count ≤ max_notes }
{
    let mut frames = Frames::new(rt.alloc())?;
    let made = frames.new_pool()?;
    frames.add_pool(3, made);
    let _ = frames.push(3);
    let began = Instant::now(rt)?;
    fill(&mut frames, count);
    let noted = began.elapsed(rt)?.as_nanos();
    let began = Instant::now(rt)?;
    let popped = drain(&mut frames, count);
    let drained = began.elapsed(rt)?.as_nanos();
    let blocks = popped.max(1) as u128;
    println!(rt; "{popped} blocks: noted in {} ns each, popped in {} ns each", noted / blocks, drained / blocks)
}

fn show_caches(rt: &HostRuntime) -> io::Result<()> {
    let mut caches = Caches::new(rt.alloc())?;
    let _ = caches.add(0, &[ClassSize { words: 4, limit: 64 }, ClassSize { words: 16, limit: 64 }]);
    let began = Instant::now(rt)?;
    let taken = keep_and_take(&mut caches);
    let picoseconds = 1000 * began.elapsed(rt)?.as_nanos() / u128::from(TIMES);
    println!(rt; "{taken} blocks kept and taken: {picoseconds} ps a pair of calls")
}

fn show_dependents(rt: &HostRuntime, pairs: u64) -> io::Result<()> {
    let mut segs = Segs::new(rt.alloc(), 2048, 2048)?;
    let mut dependents = Dependents::new(rt.alloc())?;
    for number in 0..pairs {
        // addresses that are freed are multiples of 8 below 8,000,000
        let _ = dependents.link(Addr(0x100_0000 + 1024 * (number % 1000)), Addr(0x200_0008 + 1024 * (number % 1000)));
    }
    let began = Instant::now(rt)?;
    free_all(&mut dependents, &mut segs);
    let picoseconds = 1000 * began.elapsed(rt)?.as_nanos() / u128::from(TIMES);
    println!(rt; "{pairs} pairs: {picoseconds} ps a Free")
}

fn show_transforms(rt: &HostRuntime) -> io::Result<()> {
    let mut transforms = Transforms::new(rt.alloc())?;
    let transform = transforms.make();
    let began = Instant::now(rt)?;
    let mut added = 0u32;
    if transforms.add(Pair { transform, old: Addr(8), new: Addr(16), inside: false }).is_ok() {
        added = 1;
    }
    let nanoseconds = began.elapsed(rt)?.as_nanos();
    println!(rt; "{added} pair of a transform: {nanoseconds} ns")
}

fn show_making(rt: &HostRuntime) -> io::Result<()> {
    let _ = fs::read_to_string(rt, "/proc/self/statm")?; // what reading takes is there before
    let before = fs::read_to_string(rt, "/proc/self/statm")?;
    let began = Instant::now(rt)?;
    let beside = Neighbours::new(rt.alloc())?;
    let nanoseconds = began.elapsed(rt)?.as_nanos();
    let after = fs::read_to_string(rt, "/proc/self/statm")?;
    print!(rt; "all tables made in {nanoseconds} ns; pages before: {before}pages after:  {after}")?;
    drop(beside);
    Ok(())
}

fn main(rt: HostRuntime) -> io::Result<()> {
    show_making(&rt)?;
    show_caches(&rt)?;
    show_frames(&rt, 1_000)?;
    show_frames(&rt, 65_536)?;
    show_dependents(&rt, 0)?;
    show_dependents(&rt, 1_000)?;
    show_transforms(&rt)
}
P
cat > $program/proofs/fill/Invariants.antt <<'P'
use Rattle.std.proofs.Common.{◌≤◌}
use Rattle.std.specs.Prelude.{IsSome}
use Rattle.mps_snc.specs.State.{pool_at, notes_count}
use Rattle.table_times.proofs.fill.Given as goal

abbrev pub invariant-loop-number : goal.invariant-loop-number
invariant-loop-number l = record { there : IsSome (pool_at l.frames 3); few : notes_count l.frames ≤ l.number }
P
cat > $program/proofs/drain/Invariants.antt <<'P'
use Rattle.std.specs.Prelude.{IsSome}
use Rattle.mps_snc.specs.State.{pool_at}
use Rattle.table_times.proofs.drain.Given as goal

abbrev pub invariant-loop : goal.invariant-loop
invariant-loop l = IsSome (pool_at l.frames 3)
P
(cd $program && rt run)
cd / && rm -r "$folder"
