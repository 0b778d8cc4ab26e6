#!/bin/sh
# Measures how long calls of the library's heap take, by a runtime that holds the heap itself, with no script and no log: `put`, `get` and
# `num` on objects of 8 words; objects of 8 words reserved and committed until the arena is full; manual blocks of 17 words allocated
# until it is full, and freed; 1,000 and 50,000 of them made in a frame of a pool, which is closed; a block allocated and freed again and
# again, and taken from a cache and put back; a word of a block loaded, beside a loan of the block; and `num`, `reserve` and `commit` by keys.
# It makes a program over a copy of the crates, proves it, and runs it.
home=$(cd "$(dirname "$0")/.." && pwd)
folder=$(mktemp -d)
cd "$folder" || exit 1
mkdir crates
# mps_heap and all crates of the repository that it stands on.
crates=$(awk -F: -v todo=mps_heap '
    { sub(/#.*/, "") }
    NF > 1 { split($1, part, " "); lows[part[1]] = $2 }
    END {
        while (split(todo, names, " ") > 0) {
            todo = ""
            for (i in names) if (names[i] in lows && !(names[i] in done)) {
                done[names[i]]
                print names[i]
                todo = todo " " lows[names[i]]
            }
        }
    }' "$home/crates.txt")
for crate in $crates; do
    mkdir "crates/$crate"
    for part in src specs proofs; do
        [ -d "$home/crates/$crate/$part" ] && cp -r "$home/crates/$crate/$part" "crates/$crate/$part"
    done
    grep "^$crate:" "$home/crates.txt" >> crates.txt
done
echo 'heap_times: mps_base mps_format mps_sac mps_heap' >> crates.txt
program=crates/heap_times
mkdir -p $program/src
cat > $program/src/main.rt <<'P'
// How long calls of the heap take.
#![tactic(auto)]

use mps_base::{Kind, Name, Rank, Refusal, Slot, Trail};
use mps_format::Front;
use mps_heap::{Heap, KeyedSlot, PointKey, TableKey};
use mps_sac::ClassSize;
use std::alloc::{AllocError, Global};
use std::io;
use std::marker::Model;
use std::time::Instant;

/// The head of an object of 8 words with 3 references.
const HEAD: u64 = 0x3_0000_0801;

/// The words of a manual block: 30 of them fill a grain but for two words.
const WORDS: u64 = 17;

/// How many places there are for blocks.
const PLACES: u32 = 65_000;

/// One more than a collection makes in the largest arena: the most that a call on an object asks for.
const MOST_MOVES: u32 = 2_097_153;

fn named(letter: u8) -> Name {
    Name { bytes: [letter, 0, 0, 0, 0, 0, 0, 0, 0, 0, 0, 0, 0, 0, 0, 0] }
}

fn slot(index: u64) -> Slot {
    Slot { name: named(b't'), index }
}

fn place(index: u64) -> Slot {
    Slot { name: named(b'b'), index }
}

/// A trail with room for the moves of any call but a collection, once it is emptied.
#[derive(Drop)]
struct Moves {
    trail: Trail,
}

impl Model for Moves {
    ghost use Rattle.std.specs.Prelude.{ℕ, ◌+◌, ◌^◌, ◌<◌, length};

    ghost Value = { ℕ };

    ghost view = { λ m. m.trail.spare + length m.trail.moves };

    ghost invariant = { λ m. 2 ^ 21 < m.trail.spare + length m.trail.moves };
}

impl Moves {
    fn new(alloc: Global) -> Result<Moves, AllocError> {
        Ok(Moves { trail: Trail::new(alloc, MOST_MOVES)? })
    }

    fn reserve(&mut self, heap: &mut Heap<Front>) -> Result<(), Refusal> {
        self.trail.clear();
        let _ = heap.most_moves(); // at most 2^21
        if !heap.can_collect() {
            return Err(Refusal::Running);
        }
        heap.reserve(&mut self.trail, named(b'x'), HEAD)
    }

    fn get(&mut self, heap: &mut Heap<Front>, into: Slot, from: Slot, cell: u64) -> Result<(), Refusal> {
        self.trail.clear();
        let _ = heap.most_moves(); // at most 2^21
        heap.get(&mut self.trail, into, from, cell)
    }

    fn commit(&mut self, heap: &mut Heap<Front>, into: Slot) -> Result<(), Refusal> {
        self.trail.clear();
        let _ = heap.commit(&mut self.trail, named(b'x'), into)?;
        Ok(())
    }

    fn reserve_by_key(&mut self, heap: &mut Heap<Front>, point: PointKey) -> Result<(), Refusal> {
        self.trail.clear();
        let _ = heap.most_moves(); // at most 2^21
        if !heap.can_collect() {
            return Err(Refusal::Running);
        }
        heap.reserve_by_key(&mut self.trail, point, HEAD)
    }

    fn commit_by_key(&mut self, heap: &mut Heap<Front>, point: PointKey, into: KeyedSlot) -> Result<(), Refusal> {
        self.trail.clear();
        let _ = heap.commit_by_key(&mut self.trail, point, into)?;
        Ok(())
    }

    fn alloc(&mut self, heap: &mut Heap<Front>, pool: u8, into: Slot) -> Result<(), Refusal> {
        self.trail.clear();
        heap.alloc(&mut self.trail, named(pool), WORDS, into)
    }

    fn pop(&mut self, heap: &mut Heap<Front>) -> Result<(), Refusal> {
        self.trail.clear();
        let pool = named(b's');
        let _ = heap.moves_of_pop(pool, 0); // at most `most_moves`
        let _ = heap.most_moves(); // at most 2^21
        heap.pop(&mut self.trail, pool, 0)
    }

    fn calloc(&mut self, heap: &mut Heap<Front>, into: Slot) -> Result<(), Refusal> {
        self.trail.clear();
        heap.calloc(&mut self.trail, named(b'q'), WORDS, into)
    }

    fn cfree(&mut self, heap: &mut Heap<Front>, from: Slot) -> Result<(), Refusal> {
        self.trail.clear();
        heap.cfree(&mut self.trail, named(b'q'), from)
    }

    fn free(&mut self, heap: &mut Heap<Front>, from: Slot) -> Result<(), Refusal> {
        self.trail.clear();
        heap.free(&mut self.trail, from)
    }
}

fn make(heap: &mut Heap<Front>) -> Result<(), Refusal> {
    heap.pool(named(b'p'), Kind::Amc, Front)?;
    heap.pool_mvff(named(b'v'))?;
    heap.pool_snc(named(b's'))?;
    heap.cache(named(b'q'), named(b'v'), &[ClassSize { words: 17, limit: 8 }])?;
    heap.table(named(b't'), 16)?;
    heap.blocks(named(b'b'), PLACES)?;
    heap.point(named(b'x'), named(b'p'), Rank::Exact)
}

fn object(heap: &mut Heap<Front>, moves: &mut Moves, into: Slot) -> Result<(), Refusal> {
    moves.reserve(heap)?;
    moves.commit(heap, into)
}

/// Puts a reference, reads it, and reads a number, a million times each; how many of these were refused.
fn access(heap: &mut Heap<Front>, times: u64) -> u64 {
    let mut refused = 0u64;
    for i in 0..times {
        let from = slot(i % 2);
        if heap.put(from, 1 + i % 3, slot(1 - i % 2)).is_err() {
            refused = refused.wrapping_add(1);
        }
    }
    refused
}

fn read(heap: &mut Heap<Front>, moves: &mut Moves, times: u64) -> u64 {
    let mut refused = 0u64;
    for i in 0..times {
        if moves.get(heap, slot(2), slot(i % 2), 1 + i % 3).is_err() {
            refused = refused.wrapping_add(1);
        }
    }
    refused
}

fn numbers(heap: &Heap<Front>, times: u64) -> u64 {
    let mut sum = 0u64;
    for i in 0..times {
        if let Ok(n) = heap.num(slot(i % 2), 4 + i % 4) {
            sum = sum.wrapping_add(n).wrapping_add(1);
        }
    }
    sum
}

fn numbers_by_key(heap: &Heap<Front>, table: TableKey, times: u64) -> u64 {
    let mut sum = 0u64;
    for i in 0..times {
        if let Ok(n) = heap.num_by_key(KeyedSlot { table, index: i % 2 }, 4 + i % 4) {
            sum = sum.wrapping_add(n).wrapping_add(1);
        }
    }
    sum
}

fn loads(heap: &Heap<Front>, times: u64) -> u64 {
    let mut sum = 0u64;
    for i in 0..times {
        if let Ok(n) = heap.load(place(0), i % WORDS) {
            sum = sum.wrapping_add(n).wrapping_add(1);
        }
    }
    sum
}

fn loans(heap: &Heap<Front>, times: u64) -> u64 {
    let mut sum = 0u64;
    for i in 0..times {
        if let Ok(words) = heap.lend(place(0)) {
            if let Some(n) = words.get((i % WORDS) as usize) {
                sum = sum.wrapping_add(*n).wrapping_add(1);
            }
        }
    }
    sum
}

fn writes(heap: &mut Heap<Front>, times: u64) -> u64 {
    let mut done = 0u64;
    for i in 0..times {
        if heap.lend_mut(place(0), |words: &mut [u64]| words.fill(i)).is_ok() {
            done = done.wrapping_add(1);
        }
    }
    done
}

fn fill_objects(heap: &mut Heap<Front>, moves: &mut Moves, most: u64) -> u64 {
    for i in 0..most {
        if object(heap, moves, slot(3)).is_err() {
            return i;
        }
    }
    most
}

fn fill_by_key(heap: &mut Heap<Front>, moves: &mut Moves, point: PointKey, into: KeyedSlot, most: u64) -> u64 {
    for i in 0..most {
        if moves.reserve_by_key(heap, point).is_err() || moves.commit_by_key(heap, point, into).is_err() {
            return i;
        }
    }
    most
}

fn fill_blocks(heap: &mut Heap<Front>, moves: &mut Moves, pool: u8, most: u64) -> u64 {
    for i in 0..most {
        if moves.alloc(heap, pool, place(i)).is_err() {
            return i;
        }
    }
    most
}

fn free_blocks(heap: &mut Heap<Front>, moves: &mut Moves, count: u64) -> u64 {
    for i in 0..count {
        if moves.free(heap, place(i)).is_err() {
            return i;
        }
    }
    count
}

fn come_and_go(heap: &mut Heap<Front>, moves: &mut Moves, times: u64) -> u64 {
    for i in 0..times {
        if moves.alloc(heap, b'v', place(1)).is_err() || moves.free(heap, place(1)).is_err() {
            return i;
        }
    }
    times
}

fn keep_and_take(heap: &mut Heap<Front>, moves: &mut Moves, times: u64) -> u64 {
    for i in 0..times {
        if moves.calloc(heap, place(1)).is_err() || moves.cfree(heap, place(1)).is_err() {
            return i;
        }
    }
    times
}

/// Frees all objects but those that slots refer to; false, and nothing is done, if the heap can't count one flip more.
fn collected(alloc: Global, heap: &mut Heap<Front>) -> io::Result<bool> {
    if !heap.can_collect() {
        return Ok(false);
    }
    let mut trail = Trail::new(alloc, 2 * heap.moves_needed())?;
    heap.collect(&mut trail);
    Ok(true)
}

fn show(rt: &HostRuntime, what: &str, count: u64, began: &Instant) -> io::Result<()> {
    let took = began.elapsed(rt)?.as_nanos();
    let count = u128::from(count.max(1));
    println!(rt; "{what}: {count} times, {}.{} ns each", took / count, 10 * (took % count) / count)
}

fn time_accesses(rt: &HostRuntime, heap: &mut Heap<Front>, moves: &mut Moves, times: u64) -> io::Result<()> {
    let began = Instant::now(rt)?;
    let refused = access(heap, times);
    show(rt, "put", times.saturating_sub(refused), &began)?;
    let began = Instant::now(rt)?;
    let refused = read(heap, moves, times);
    show(rt, "get", times.saturating_sub(refused), &began)?;
    let began = Instant::now(rt)?;
    show(rt, "num", numbers(heap, times), &began)
}

fn time_words(rt: &HostRuntime, heap: &mut Heap<Front>, times: u64) -> io::Result<()> {
    let began = Instant::now(rt)?;
    show(rt, "load", loads(heap, times), &began)?;
    let began = Instant::now(rt)?;
    show(rt, "lend and read a word", loans(heap, times), &began)?;
    let began = Instant::now(rt)?;
    show(rt, "lend_mut and fill 17 words", writes(heap, times), &began)
}

fn time_blocks(rt: &HostRuntime, heap: &mut Heap<Front>, moves: &mut Moves) -> io::Result<()> {
    let began = Instant::now(rt)?;
    let made = fill_blocks(heap, moves, b'v', u64::from(PLACES));
    show(rt, "alloc until the arena is full", made, &began)?;
    let began = Instant::now(rt)?;
    show(rt, "free, in ascending order", free_blocks(heap, moves, made), &began)
}

fn time_frame(rt: &HostRuntime, heap: &mut Heap<Front>, moves: &mut Moves, blocks: u64) -> io::Result<()> {
    if heap.push(named(b's')).is_err() {
        return println!(rt; "refused");
    }
    let began = Instant::now(rt)?;
    let made = fill_blocks(heap, moves, b's', blocks);
    show(rt, "alloc in a frame", made, &began)?;
    let began = Instant::now(rt)?;
    if moves.pop(heap).is_err() {
        return println!(rt; "refused");
    }
    show(rt, "pop, for each block of the frame", made, &began)
}

fn time_all(rt: &HostRuntime, heap: &mut Heap<Front>) -> io::Result<()> {
    let mut moves = Moves::new(rt.alloc())?;
    if make(heap).is_err() || object(heap, &mut moves, slot(0)).is_err() || object(heap, &mut moves, slot(1)).is_err() {
        return println!(rt; "refused");
    }
    time_accesses(rt, heap, &mut moves, 1_000_000)?;
    time_blocks(rt, heap, &mut moves)?;
    time_frame(rt, heap, &mut moves, 1_000)?;
    time_frame(rt, heap, &mut moves, 50_000)?;
    if moves.alloc(heap, b'v', place(0)).is_err() {
        return println!(rt; "refused");
    }
    time_words(rt, heap, 1_000_000)?;
    let began = Instant::now(rt)?;
    show(rt, "alloc and free", come_and_go(heap, &mut moves, 1_000_000), &began)?;
    let began = Instant::now(rt)?;
    show(rt, "calloc and cfree", keep_and_take(heap, &mut moves, 1_000_000), &began)?;
    let began = Instant::now(rt)?;
    show(rt, "reserve and commit until the arena is full", fill_objects(heap, &mut moves, 1_000_000), &began)
}

fn time_keys(rt: &HostRuntime, heap: &mut Heap<Front>) -> io::Result<()> {
    let mut moves = Moves::new(rt.alloc())?;
    if make(heap).is_err() || object(heap, &mut moves, slot(0)).is_err() || object(heap, &mut moves, slot(1)).is_err() {
        return println!(rt; "refused");
    }
    let Some(table) = heap.table_key(named(b't')) else {
        return println!(rt; "refused");
    };
    let Some(point) = heap.point_key(named(b'x')) else {
        return println!(rt; "refused");
    };
    let began = Instant::now(rt)?;
    show(rt, "num by key", numbers_by_key(heap, table, 1_000_000), &began)?;
    let into = KeyedSlot { table, index: 3 };
    let began = Instant::now(rt)?;
    show(rt, "reserve and commit by key until the arena is full", fill_by_key(heap, &mut moves, point, into, 1_000_000), &began)?;
    if !collected(rt.alloc(), heap)? {
        return println!(rt; "refused");
    }
    let began = Instant::now(rt)?;
    show(rt, "the same again, in the grains that a collection freed", fill_by_key(heap, &mut moves, point, into, 1_000_000), &began)
}

fn main(rt: HostRuntime) -> io::Result<()> {
    let mut heap = Heap::<Front>::new(rt.alloc(), 2048, 2048)?;
    let done = time_all(&rt, &mut heap);
    heap.finish();
    done?;
    let mut other = Heap::<Front>::new(rt.alloc(), 2048, 2048)?;
    let done = time_keys(&rt, &mut other);
    other.finish();
    done
}
P
(cd $program && rt run)
cd / && rm -r "$folder"
