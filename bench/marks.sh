#!/bin/sh
# Measures how long a grey block takes in the marks: made grey, found by next_grey and blackened, for 1,000, 10,000 and 100,000 blocks of
# ten words. There are 1,024 hints, so most of 100,000 blocks are found by a search. Then how long a segment without a grey block takes.
# It makes a program over a copy of the crates, proves it, and runs it.
home=$(cd "$(dirname "$0")/.." && pwd)
folder=$(mktemp -d)
cd "$folder" || exit 1
mkdir crates
for crate in mps_base mps_bits mps_marks; do
    mkdir "crates/$crate"
    for part in src specs proofs; do
        [ -d "$home/crates/$crate/$part" ] && cp -r "$home/crates/$crate/$part" "crates/$crate/$part"
    done
done
grep -E '^mps_(base|bits|marks):' "$home/crates.txt" > crates.txt
echo 'mark_times: mps_base mps_marks' >> crates.txt
program=crates/mark_times
mkdir -p $program/src
cat > $program/src/main.rt <<'P'
// How long a grey block takes in the marks.
#![tactic(auto)]

use mps_base::Rank;
use mps_marks::Marks;
use std::io;
use std::time::Instant;

/// Makes the blocks grey that begin at each tenth word.
fn make_grey(marks: &mut Marks, count: usize) {
    for block in 0..count {
        if block < 1_000_000 && 10 * block < marks.words() {
            marks.set_grey(10 * block, Rank::Exact);
        }
    }
}

/// Blackens grey blocks until none is left, and returns how many there were.
fn drain(marks: &mut Marks, most: usize) -> usize {
    let mut found = 0usize;
    for _ in 0..most {
        let Some(word) = marks.next_grey(Rank::Exact) else {
            return found;
        };
        if word < marks.words() {
            marks.blacken(word);
        }
        found = found.saturating_add(1);
    }
    found
}

/// Looks for a grey block in each segment of 16 grains, and returns how many have one.
fn look(marks: &Marks) -> usize {
    let mut found = 0usize;
    for segment in 0..127usize {
        let from = 8192 * segment;
        if from + 8192 <= marks.words() && marks.grey_in(Rank::Exact, from, from + 8192).is_some() {
            found = found.saturating_add(1);
        }
    }
    found
}

fn measure(rt: &HostRuntime, count: usize) -> io::Result<()> {
    let mut marks = Marks::new(rt.alloc(), 2049)?;
    let began = Instant::now(rt)?;
    make_grey(&mut marks, count);
    let made = began.elapsed(rt)?.as_nanos();
    let began = Instant::now(rt)?;
    let found = drain(&mut marks, count);
    let drained = began.elapsed(rt)?.as_nanos();
    let began = Instant::now(rt)?;
    let left = look(&marks);
    let looked = began.elapsed(rt)?.as_nanos();
    let blocks = found.max(1) as u128;
    println!(rt; "{found} blocks: grey in {} ns each, found and blackened in {} ns each; {left} left, {} ns a segment of 16 grains", made / blocks, drained / blocks, looked / 127)
}

fn main(rt: HostRuntime) -> io::Result<()> {
    for count in [1_000, 10_000, 100_000] {
        measure(&rt, count)?;
    }
    Ok(())
}
P
(cd $program && rt run)
cd / && rm -r "$folder"
