#!/bin/sh
# Shows that a loan of a block's words doesn't outlive a change of the segments: functions that read a block's words after the block was
# freed, or an object's after a collection, and one that writes words after another block was made, are refused before anything is proved,
# by the rules of borrows. Of the calls of `Manual`, and of those of a heap.
# Each line of the output is one case, with `wrong` before it where it isn't as expected; the status is then 1.
home=$(cd "$(dirname "$0")/.." && pwd)
folder=$(mktemp -d)
trap 'rm -rf "$folder"' EXIT
cd "$folder" || exit 1
mkdir crates
# mps_heap and all crates of the repository that it stands on.
crates=$(awk -F: -v todo=mps_heap '
    { sub(/#.*/, "") }
    NF > 1 { split($1, part, " "); lows[part[1]] = $2 }
    END {
        while (split(todo, names, " ") > 0) {
            todo = ""
            for (i in names) if (names[i] in lows && !(names[i] in done)) {
                done[names[i]]
                print names[i]
                todo = todo " " lows[names[i]]
            }
        }
    }' "$home/crates.txt")
for crate in $crates; do
    mkdir "crates/$crate"
    for part in src specs proofs; do
        [ -d "$home/crates/$crate/$part" ] && cp -r "$home/crates/$crate/$part" "crates/$crate/$part"
    done
    grep "^$crate:" "$home/crates.txt" >> crates.txt
done
echo 'late_loan: mps_base mps_format mps_seg mps_manual mps_heap' >> crates.txt
mkdir -p crates/late_loan/src
wrong=0

# Compiles a program with the function that is read, and says whether it is refused as expected.
try() {
    {
        printf '// A loan that comes too late.\n#![tactic(auto)]\n\n'
        cat
        printf '\nfn main(_rt: HostRuntime) {}\n'
    } > crates/late_loan/src/main.rt
    (cd crates/late_loan && rt try >../../out 2>&1)
    status=$?
    if [ "$status" -ne 0 ] && grep -q "$2" out; then
        echo "right  $1: $(grep -m 1 "$2" out)"
    else
        echo "wrong  $1: status $status"
        wrong=1
    fi
}

try "words read after their block was freed" "borrow-e0502" <<'P'
use mps_base::{Addr, Trail};
use mps_manual::Manual;
use mps_seg::Segs;

/// Reads the words of a block after it was freed.
pub fn read_late(manual: &Manual, segs: &mut Segs, trail: &mut Trail, at: Addr) -> usize {
    let words = Manual::lend(segs, at);
    manual.free(segs, trail, 0, at);
    words.len()
}
P

try "words written after another block was made" "borrow-e0499" <<'P'
use mps_base::{Addr, Trail};
use mps_manual::Manual;
use mps_seg::Segs;

/// Writes the words of a block after another was made.
pub fn write_late(manual: &Manual, segs: &mut Segs, trail: &mut Trail, at: Addr) {
    let words = Manual::lend_mut(segs, at);
    let _ = manual.alloc(segs, trail, 0, 8);
    words.fill(7);
}
P

try "words of a heap read after their block was freed" "borrow-e0502" <<'P'
use mps_base::{Refusal, Slot, Trail};
use mps_format::Front;
use mps_heap::Heap;

/// Reads the words of the block in a place after it was freed.
pub fn read_late(heap: &mut Heap<Front>, trail: &mut Trail, place: Slot) -> Result<usize, Refusal> {
    let words = heap.lend(place)?;
    heap.free(trail, place)?;
    Ok(words.len())
}
P

try "words of a heap read after one was stored" "borrow-e0502" <<'P'
use mps_base::{Refusal, Slot};
use mps_format::Front;
use mps_heap::Heap;

/// Reads the words of the block in a place after one of them was stored.
pub fn read_late(heap: &mut Heap<Front>, place: Slot) -> Result<usize, Refusal> {
    let words = heap.lend(place)?;
    heap.store(place, 0, 7)?;
    Ok(words.len())
}
P

try "words of a leaf object read after a collection" "borrow-e0502" <<'P'
use mps_base::{Refusal, Slot, Trail};
use mps_format::Front;
use mps_heap::Heap;

/// Reads the words of the object in a slot after a collection, which may have moved it.
pub fn read_late(heap: &mut Heap<Front>, trail: &mut Trail, slot: Slot) -> Result<usize, Refusal> {
    let words = heap.lend_leaf(slot)?;
    heap.collect(trail);
    Ok(words.len())
}
P
exit "$wrong"
