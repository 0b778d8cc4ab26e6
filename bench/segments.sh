#!/bin/sh
# Measures how long calls on the segments take: the largest arena made; a block made in the lowest gap of a pool or in a new segment,
# and freed again; words copied, beside a copy between two vectors; references noted in summaries; and grey blocks found and blackened.
# It makes a program over a copy of the crates, proves it, and runs it.
home=$(cd "$(dirname "$0")/.." && pwd)
folder=$(mktemp -d)
cd "$folder" || exit 1
mkdir crates
for crate in mps_base mps_bits mps_gaps mps_arena mps_extents mps_marks mps_gen mps_seg; do
    mkdir "crates/$crate"
    for part in src specs proofs; do
        [ -d "$home/crates/$crate/$part" ] && cp -r "$home/crates/$crate/$part" "crates/$crate/$part"
    done
done
grep -E '^mps_(base|bits|gaps|arena|extents|marks|gen|seg):' "$home/crates.txt" > crates.txt
echo 'segment_times: mps_base mps_seg' >> crates.txt
program=crates/segment_times
mkdir -p $program/src $program/proofs/free_over
cat > $program/proofs/free_over/Answers.antt <<'P'
use Rattle.mps_base.specs.Address.{word_of}
use Rattle.mps_seg.proofs.BlockOver.{block_found}
use Rattle.segment_times.proofs.free_over.Goals as goal

pub block_words-words-requires : goal.block_words-words-requires
block_words-words-requires c = block_found c.args.segs.now.blocks (word_of c.args.n) c.in_ok-at.at c.in_ok-at.ensures
P
cat > $program/src/main.rt <<'P'
// How long calls on the segments take.
#![tactic(auto)]

ghost use Rattle.std.specs.Prelude.{◌<◌, ◌≤◌};
ghost use Rattle.mps_base.specs.Address.{max_grains, max_block_words};

use mps_base::{Addr, Rank, Refusal, Trail};
use mps_seg::Segs;
use std::alloc::Global;
use std::io;
use std::time::Instant;

/// The next pseudo-random number.
fn next(seed: u64) -> u64 {
    seed.wrapping_mul(6364136223846793005).wrapping_add(1442695040888963407)
}

/// Makes a block in the lowest gap of pool 0, or else at the base of a new segment.
fn fill_with(segs: &mut Segs, trail: &mut Trail, words: u32) -> Result<Addr, Refusal>
    requires nonzero { 0 < words }
    requires at_most { words ≤ max_block_words }
    requires fits { 0 < trail.old.spare }
{
    let at = segs.place(trail, 0, Rank::Exact, words)?;
    segs.commit_block(at, words);
    Ok(at)
}

/// Makes a block of 1 to 65,536 words with a trail of its own.
fn fill(alloc: Global, segs: &mut Segs, words: u32) -> Option<Addr> {
    if words == 0 || words > 65536 {
        return None;
    }
    let mut trail = Trail::new(alloc, 1).ok()?;
    fill_with(segs, &mut trail, words).ok()
}

/// Frees the block over a byte, and returns where it began.
fn free_over(segs: &mut Segs, n: u64) -> Option<Addr> {
    let at = segs.block_at(n)?;
    let words = segs.block_words(at);
    segs.drop_block(at, words);
    Some(at)
}

/// Makes blocks of `least` to `least` + `span` words until no block fits or there are `count`.
fn fill_all(alloc: Global, segs: &mut Segs, count: usize, least: u32, span: u32) -> io::Result<Vec<Addr>> {
    let mut addresses = Vec::new(alloc);
    let mut seed = 1u64;
    for _ in 0..count {
        seed = next(seed);
        let words = least.wrapping_add(((seed >> 33) % 65536) as u32 % span.max(1));
        match fill(alloc, segs, words) {
            Some(at) => addresses.push(at)?,
            None => return Ok(addresses),
        }
    }
    Ok(addresses)
}

fn free_all(segs: &mut Segs, addresses: &[Addr]) {
    for at in addresses {
        let _ = free_over(segs, at.0);
    }
}

fn time_blocks(rt: &HostRuntime, segs: &mut Segs, count: usize, least: u32, span: u32) -> io::Result<()> {
    let began = Instant::now(rt)?;
    let addresses = fill_all(rt.alloc(), segs, count, least, span)?;
    let filled = began.elapsed(rt)?.as_nanos();
    let grains = segs.committed();
    let began = Instant::now(rt)?;
    free_all(segs, &addresses);
    let freed = began.elapsed(rt)?.as_nanos();
    let blocks = addresses.len().max(1) as u128;
    println!(rt; "{blocks} blocks of {least} words and up to {span} more in {grains} grains: made in {} ns each, freed in {} ns each", filled / blocks, freed / blocks)
}

/// Makes the blocks grey where the arena has them.
fn make_grey(segs: &mut Segs, addresses: &[Addr]) {
    for at in addresses {
        if segs.has_word(*at) {
            segs.set_grey(*at);
        }
    }
}

/// Blackens grey blocks until none is left, and returns how many there were.
fn drain(segs: &mut Segs, most: usize) -> usize {
    let mut found = 0usize;
    for _ in 0..most {
        let Some(at) = segs.next_grey(Rank::Exact) else {
            return found;
        };
        if segs.has_word(at) {
            segs.blacken(at);
        }
        found = found.saturating_add(1);
    }
    found
}

fn time_grey(rt: &HostRuntime, segs: &mut Segs, count: usize) -> io::Result<()> {
    let addresses = fill_all(rt.alloc(), segs, count, 2, 15)?;
    let began = Instant::now(rt)?;
    make_grey(segs, &addresses);
    let made = began.elapsed(rt)?.as_nanos();
    let began = Instant::now(rt)?;
    let found = drain(segs, count);
    let drained = began.elapsed(rt)?.as_nanos();
    free_all(segs, &addresses);
    let blocks = found.max(1) as u128;
    println!(rt; "{found} grey blocks: grey in {} ns each, found and blackened in {} ns each", made / blocks, drained / blocks)
}

/// Notes references from and to pseudo-random words of the first 256 grains.
fn note(segs: &mut Segs, times: usize) {
    let mut seed = 1u64;
    for _ in 0..times {
        seed = next(seed);
        segs.note_write(Addr(8 * ((seed >> 20) % 131072)), Addr(8 * ((seed >> 40) % 131072)));
    }
}

/// The same numbers without the calls, to be taken off.
fn numbers(times: usize) -> u64 {
    let mut seed = 1u64;
    let mut sum = 0u64;
    for _ in 0..times {
        seed = next(seed);
        sum = sum.wrapping_add(8 * ((seed >> 20) % 131072)).wrapping_add(8 * ((seed >> 40) % 131072));
    }
    sum
}

fn time_notes(rt: &HostRuntime, segs: &mut Segs, times: usize) -> io::Result<()> {
    let addresses = fill_all(rt.alloc(), segs, 256, 512, 1)?;
    let began = Instant::now(rt)?;
    note(segs, times);
    let noted = began.elapsed(rt)?.as_nanos();
    let began = Instant::now(rt)?;
    let sum = numbers(times);
    let counted = began.elapsed(rt)?.as_nanos();
    free_all(segs, &addresses);
    println!(rt; "{times} references noted in {} segments: {} ps each, {} ps of it to choose them ({})", addresses.len(), 1000 * (noted % 1_000_000_000_000) / times.max(1) as u128, 1000 * (counted % 1_000_000_000_000) / times.max(1) as u128, sum % 10)
}

/// Copies words where the arena has them.
fn copy_once(segs: &mut Segs, from: Addr, to: Addr, words: u32) {
    let size = 512 * (segs.grains() as usize + 1);
    if from.word() + words as usize <= size && to.word() + words as usize <= size {
        segs.copy(from, to, words);
    }
}

/// Copies words from grain 1 on to grain 600 and those after it, and back.
fn copy_words(segs: &mut Segs, words: u32, times: usize) {
    for i in 0..times {
        if i % 2 == 0 {
            copy_once(segs, Addr(0x1000), Addr(0x258000), words);
        } else {
            copy_once(segs, Addr(0x258000), Addr(0x1000), words);
        }
    }
}

/// Copies words between two vectors, and back.
fn copy_slices(one: &mut [u64], other: &mut [u64], times: usize) {
    if one.len() != other.len() {
        return;
    }
    for i in 0..times {
        if i % 2 == 0 {
            other.copy_from_slice(one);
        } else {
            one.copy_from_slice(other);
        }
    }
}

fn time_copies(rt: &HostRuntime, segs: &mut Segs, words: u32, times: usize) -> io::Result<()> {
    let mut one = vec![in rt.alloc(); 1u64; words as usize]?;
    let mut other = vec![in rt.alloc(); 2u64; words as usize]?;
    copy_words(segs, words, 2);
    let began = Instant::now(rt)?;
    copy_words(segs, words, times);
    let copied = began.elapsed(rt)?.as_nanos();
    let began = Instant::now(rt)?;
    copy_slices(&mut one, &mut other, times);
    let plain = began.elapsed(rt)?.as_nanos();
    let times = times.max(1) as u128;
    println!(rt; "{words} words copied in {} ns; between two vectors in {} ns", copied / times, plain / times)
}

fn time_all(rt: &HostRuntime, segs: &mut Segs, began: Instant) -> io::Result<()> {
    let made = began.elapsed(rt)?.as_micros();
    println!(rt; "the largest arena made in {made} us")?;
    time_blocks(rt, segs, 1_000, 2, 15)?;
    time_blocks(rt, segs, 10_000, 2, 15)?;
    time_blocks(rt, segs, 100_000, 2, 15)?;
    time_blocks(rt, segs, 1_000_000, 2, 63)?;
    time_grey(rt, segs, 1_000)?;
    time_grey(rt, segs, 10_000)?;
    time_grey(rt, segs, 100_000)?;
    time_notes(rt, segs, 10_000_000)?;
    time_copies(rt, segs, 4, 1_000_000)?;
    time_copies(rt, segs, 64, 1_000_000)?;
    time_copies(rt, segs, 4096, 100_000)?;
    time_copies(rt, segs, 65536, 1_000)
}

fn main(rt: HostRuntime) -> io::Result<()> {
    let began = Instant::now(&rt)?;
    let mut segs = Segs::new(rt.alloc(), 2048, 2048)?;
    let done = time_all(&rt, &mut segs, began);
    drop(segs);
    done
}
P
(cd $program && rt run)
cd / && rm -r "$folder"
