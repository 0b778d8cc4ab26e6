#!/bin/sh
# Measures how long it takes to reserve and commit blocks at a point of a pool that moves them, and to make and free blocks of manual
# pools: 1,000, 10,000 and 100,000 of each in segments that are new. Each call has a trail of its own, whose time is printed as well.
# It makes a program over a copy of the crates, proves it, and runs it.
home=$(cd "$(dirname "$0")/.." && pwd)
folder=$(mktemp -d)
cd "$folder" || exit 1
mkdir crates
for crate in mps_base mps_bits mps_gaps mps_numerals mps_arena mps_extents mps_marks mps_gen mps_seg mps_format mps_buffer mps_manual; do
    mkdir "crates/$crate"
    for part in src specs proofs; do
        [ -d "$home/crates/$crate/$part" ] && cp -r "$home/crates/$crate/$part" "crates/$crate/$part"
    done
done
grep -E '^mps_(base|bits|gaps|numerals|arena|extents|marks|gen|seg|format|buffer|manual):' "$home/crates.txt" > crates.txt
echo 'point_times: mps_base mps_extents mps_seg mps_buffer mps_manual' >> crates.txt
program=crates/point_times
mkdir -p $program/src
for name in make_with make_many make_all measure_in free_with; do
    mkdir -p "$program/proofs/$name"
done
for test in points/make_with manual/free_with; do
    name=${test#*/}
    sed "s/mps_memory_tests\.proofs\.${test%/*}\.$name/point_times.proofs.$name/" \
        "$home/crates/mps_memory_tests/proofs/$test/Answers.antt" > "$program/proofs/$name/Answers.antt"
done
cat > $program/proofs/make_many/Invariants.antt <<'P'
use Rattle.mps_buffer.specs.Tokens.{IsReady}
use Rattle.point_times.proofs.make_many.Given as goal

abbrev pub invariant-loop : goal.invariant-loop
invariant-loop l = IsReady l.points l.segs l.key
P
cat > $program/proofs/make_all/Answers.antt <<'P'
use Rattle.mps_base.specs.declared.names.Rank.TheVariants.{Exact}
use Rattle.mps_buffer.proofs.NoneOpen.{ready_when_made}
use Rattle.point_times.proofs.make_all.Goals as goal

pub time_points-requires : goal.time_points-requires
time_points-requires c =
    ready_when_made c.args.points.now c.add.new.self c.args.segs.now c.in-Ok.key 0 Exact c.in-Ok.ensures.made c.requires
P
cat > $program/proofs/measure_in/Answers.antt <<'P'
use Rattle.std.proofs.Common.{sym, subst}
use Rattle.mps_buffer.specs.Points.{PointsState}
use Rattle.mps_buffer.specs.Tokens.{NoneIsOpen}
use Rattle.mps_buffer.proofs.NoneOpen.{none_open, none_are_reserved}
use Rattle.point_times.proofs.measure_in.Goals as goal

pub make_all-done-requires : goal.make_all-done-requires
make_all-done-requires c =
    let P : PointsState → Type 0 = λ x. NoneIsOpen x.points in subst P (sym c.in_ok-points.ensures) (none_open 256)

pub finish-requires : goal.finish-requires
finish-requires c = none_are_reserved _ _ c.make_all-done.new.segs c.make_all-done.ensures
P
cat > $program/src/main.rt <<'P'
// How long calls at points and in manual pools take.
#![tactic(auto)]

ghost use Rattle.std.specs.Prelude.{◌<◌, ◌≤◌};
ghost use Rattle.mps_base.specs.Address.{max_block_words};
ghost use Rattle.mps_buffer.specs.Tokens.{IsReady, NoneIsOpen};

use mps_base::{Addr, Rank, Refusal, Trail};
use mps_buffer::OpenPoints;
use mps_manual::Manual;
use mps_seg::Segs;
use std::alloc::Global;
use std::io;
use std::time::Instant;

/// Reserves and commits a block at a point.
fn make_with(
    points: &mut OpenPoints,
    segs: &mut Segs,
    trail: &mut Trail,
    key: u32,
    words: u32,
) -> Result<Addr, Refusal>
    requires nonzero { 0 < words }
    requires at_most { words ≤ max_block_words }
    requires fits { 1 < trail.old.spare }
    requires ready { IsReady points.old segs.old key }
    ensures ready { IsReady points.new segs.new key }
{
    points.reserve(segs, trail, key, 7, words)?;
    let committed = points.commit(segs, trail, key);
    committed.map_err(|_| Refusal::NotOpen)
}

/// Does the same with a trail of its own, for a block of 2 to 17 words.
fn make(alloc: Global, points: &mut OpenPoints, segs: &mut Segs, key: u32, seed: u64) -> bool
    requires { IsReady points.old segs.old key }
    ensures { IsReady points.new segs.new key }
{
    let Ok(mut trail) = Trail::new(alloc, 2) else {
        return false;
    };
    make_with(points, segs, &mut trail, key, (seed % 16) as u32 + 2).is_ok()
}

/// The next pseudo-random number.
fn next(seed: u64) -> u64 {
    seed.wrapping_mul(6364136223846793005).wrapping_add(1442695040888963407)
}

/// Makes `count` blocks at a point, and returns how many were made.
fn make_many(alloc: Global, points: &mut OpenPoints, segs: &mut Segs, key: u32, count: usize) -> usize
    requires { IsReady points.old segs.old key }
    ensures { IsReady points.new segs.new key }
{
    let mut seed = 1u64;
    let mut made = 0usize;
    for _ in 0..count {
        seed = next(seed);
        if make(alloc, points, segs, key, seed >> 33) {
            made = made.saturating_add(1);
        }
    }
    made
}

fn time_points(rt: &HostRuntime, points: &mut OpenPoints, segs: &mut Segs, key: u32, count: usize) -> io::Result<()>
    requires { IsReady points.old segs.old key }
    ensures { NoneIsOpen points.new.points }
{
    let began = Instant::now(rt)?;
    let made = make_many(rt.alloc(), points, segs, key, count);
    let took = began.elapsed(rt)?.as_nanos();
    let grains = segs.committed();
    println!(rt; "{made} blocks of 2 to 17 words at a point in {grains} grains: reserved and committed in {} ns each", took / made.max(1) as u128)
}

fn make_all(rt: &HostRuntime, points: &mut OpenPoints, segs: &mut Segs, count: usize) -> io::Result<()>
    requires { NoneIsOpen points.old.points }
    ensures { NoneIsOpen points.new.points }
{
    let Ok(key) = points.add(0, Rank::Exact, true) else {
        return Ok(());
    };
    time_points(rt, points, segs, key, count)
}

fn measure_in(rt: &HostRuntime, segs: &mut Segs, count: usize) -> io::Result<()> {
    let mut points = OpenPoints::new(rt.alloc())?;
    let done = make_all(rt, &mut points, segs, count);
    points.finish(segs);
    done
}

fn measure_points(rt: &HostRuntime, count: usize) -> io::Result<()> {
    let mut segs = Segs::new(rt.alloc(), 2048, 2048)?;
    let done = measure_in(rt, &mut segs, count);
    drop(segs);
    done
}

/// Allocates a block of a pool; BadName where there is no such pool.
fn alloc_with(manual: &Manual, segs: &mut Segs, trail: &mut Trail, pool: u32, words: u32) -> Result<Addr, Refusal>
    requires { 1 < trail.old.spare }
{
    if pool as usize >= manual.pools() {
        return Err(Refusal::BadName);
    }
    manual.alloc(segs, trail, pool, words)
}

/// Does the same with a trail of its own.
fn alloc_one(alloc: Global, manual: &Manual, segs: &mut Segs, pool: u32, words: u32) -> Option<Addr> {
    let mut trail = Trail::new(alloc, 2).ok()?;
    alloc_with(manual, segs, &mut trail, pool, words).ok()
}

/// Frees the block of a pool that lies over a byte, and returns where it began; None where there is none.
fn free_with(manual: &Manual, segs: &mut Segs, trail: &mut Trail, pool: u32, n: u64) -> Option<Addr>
    requires { 1 < trail.old.spare }
{
    if pool as usize >= manual.pools() {
        return None;
    }
    let at = segs.block_at(n)?;
    manual.free(segs, trail, pool, at);
    Some(at)
}

/// Does the same with a trail of its own.
fn free_one(alloc: Global, manual: &Manual, segs: &mut Segs, pool: u32, n: u64) -> Option<Addr> {
    let mut trail = Trail::new(alloc, 2).ok()?;
    free_with(manual, segs, &mut trail, pool, n)
}

/// Allocates `count` blocks of `least` words and up to `span` more.
fn alloc_many(alloc: Global, manual: &Manual, segs: &mut Segs, pool: u32, count: usize, least: u32, span: u32) -> io::Result<Vec<Addr>> {
    let mut addresses = Vec::new(alloc);
    let mut seed = 1u64;
    for _ in 0..count {
        seed = next(seed);
        let words = least.wrapping_add(((seed >> 33) % 65536) as u32 % span.saturating_add(1).max(1));
        match alloc_one(alloc, manual, segs, pool, words) {
            Some(at) => addresses.push(at)?,
            None => return Ok(addresses),
        }
    }
    Ok(addresses)
}

fn free_many(alloc: Global, manual: &Manual, segs: &mut Segs, pool: u32, addresses: &[Addr]) {
    for at in addresses {
        let _ = free_one(alloc, manual, segs, pool, at.0);
    }
}

fn time_manual(rt: &HostRuntime, manual: &Manual, segs: &mut Segs, pool: u32, count: usize, least: u32, span: u32) -> io::Result<()> {
    let began = Instant::now(rt)?;
    let addresses = alloc_many(rt.alloc(), manual, segs, pool, count, least, span)?;
    let made = began.elapsed(rt)?.as_nanos();
    let grains = segs.committed();
    let began = Instant::now(rt)?;
    free_many(rt.alloc(), manual, segs, pool, &addresses);
    let freed = began.elapsed(rt)?.as_nanos();
    let blocks = addresses.len().max(1) as u128;
    println!(rt; "{blocks} blocks of {least} words and up to {span} more of a manual pool in {grains} grains: made in {} ns each, freed in {} ns each", made / blocks, freed / blocks)
}

fn measure_manual(rt: &HostRuntime, manual: &Manual, pool: u32, count: usize, span: u32) -> io::Result<()> {
    let mut segs = Segs::new(rt.alloc(), 2048, 2048)?;
    let done = time_manual(rt, manual, &mut segs, pool, count, 8, span);
    drop(segs);
    done
}

/// Two pools: one of blocks of any sizes, and one of blocks of 8 words.
fn two_pools(alloc: Global) -> io::Result<Manual> {
    let mut manual = Manual::new(alloc);
    manual.add(0)?;
    manual.add(8)?;
    Ok(manual)
}

fn trails(alloc: Global, count: usize) -> usize {
    let mut made = 0usize;
    for _ in 0..count {
        if Trail::new(alloc, 2).is_ok() {
            made = made.saturating_add(1);
        }
    }
    made
}

fn measure_trails(rt: &HostRuntime, count: usize) -> io::Result<()> {
    let began = Instant::now(rt)?;
    let made = trails(rt.alloc(), count);
    let took = began.elapsed(rt)?.as_nanos();
    println!(rt; "{made} trails of two moves: {} ns each", took / made.max(1) as u128)
}

fn measure_all(rt: &HostRuntime, manual: &Manual, count: usize) -> io::Result<()> {
    measure_points(rt, count)?;
    measure_manual(rt, manual, 0, count, 7)?;
    measure_manual(rt, manual, 1, count, 0)
}

fn measure_each(rt: &HostRuntime, manual: &Manual) -> io::Result<()> {
    measure_trails(rt, 100_000)?;
    measure_all(rt, manual, 1_000)?;
    measure_all(rt, manual, 10_000)?;
    measure_all(rt, manual, 100_000)
}

fn main(rt: HostRuntime) -> io::Result<()> {
    let manual = two_pools(rt.alloc())?;
    let done = measure_each(&rt, &manual);
    drop(manual);
    done
}
P
(cd $program && rt run)
cd / && rm -r "$folder"
