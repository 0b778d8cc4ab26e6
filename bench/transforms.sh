#!/bin/sh
# Measures how long a transform takes to apply: to 21,845, 109,225 and 305,830 objects of three words, of which two are references, with
# 1,000 pairs that lie equally far apart, and to the most objects with one pair and with 4,000. Each is applied five times.
# The summaries of all segments have all zones, so none is passed over: passing.py shows what that saves.
# It makes a program over a copy of the crates, proves it, and runs it.
home=$(cd "$(dirname "$0")/.." && pwd)
folder=$(mktemp -d)
cd "$folder" || exit 1
mkdir crates
for crate in base bits address_marks gaps numerals arena extents marks gen seg root format xform; do
    mkdir "crates/mps_$crate"
    for part in src specs proofs; do
        [ -d "$home/crates/mps_$crate/$part" ] && cp -r "$home/crates/mps_$crate/$part" "crates/mps_$crate/$part"
    done
    grep "^mps_$crate:" "$home/crates.txt" >> crates.txt
done
echo 'apply_times: mps_base mps_arena mps_format mps_seg mps_xform' >> crates.txt
mkdir crates/apply_times
cd crates/apply_times || exit 1
mkdir src specs proofs
for name in lay make fill_segment fill add_pairs apply time; do
    mkdir "proofs/$name"
done
cat > src/main.rt <<'P'
// How long a transform takes to apply.
#![tactic(auto)]

ghost use Rattle.std.specs.Prelude.{◌≡◌, ◌+◌, ◌*◌, ◌<◌, ◌≤◌, ◌%◌, ℕ, true, IfOk, OnOk};
ghost use Rattle.std.specs.List.{All};
ghost use Rattle.mps_base.specs.Address.{bytes_of_word, word_of};
ghost use Rattle.mps_format.specs.Front.{front_layout};
ghost use Rattle.mps_seg.specs.Segs.{new_segments};
ghost use Rattle.mps_xform.specs.Applying.{CanApply};
ghost use Rattle.mps_xform.specs.State.{is_live, no_transforms};
ghost use Rattle.apply_times.specs.Filled.{AreFull, begin, IsInSegment, IsLaid, IsFilled};

use mps_base::{Addr, Rank, Refusal, Trail, ZoneSet};
use mps_format::Front;
use mps_seg::Segs;
use mps_xform::{Pair, Transforms};
use std::io;
use std::time::Instant;

/// The head of an object of 3 words, of which the two after the head are references.
const HEAD: u64 = 0x2_0000_0301;

/// How many segments there are, each of 128 grains.
const SEGMENTS: u64 = 15;

/// How many objects lie in a segment.
const OBJECTS_OF_SEGMENT: u64 = 21_845;

/// The segments are taken, one after another, and their summaries get all zones.
fn lay(segs: &mut Segs, trail: &mut Trail) -> Result<(), Refusal>
    requires unused { segs.old ≡ new_segments 2048 2048 }
    requires fits { 15 ≤ trail.old.spare }
    ensures { OnOk result (IsLaid segs.new 15) }
{
    for index in 0..SEGMENTS {
        let _ = index;
        let base = segs.take(trail, 0, 65_536, 0, Rank::Exact)?;
        segs.set_summary(base, ZoneSet(u64::MAX));
    }
    Ok(())
}

/// Makes an object above all others, whose references lead to itself.
fn make(segs: &mut Segs, at: Addr)
    requires aligned { at.0 % bytes_of_word ≡ 0 }
    requires inside { IsInSegment (word_of at.0) }
    requires filled { IsFilled segs.old (word_of at.0) }
    ensures { IsFilled segs.new (word_of at.0 + 3) }
{
    segs.set_word(Addr(at.0 + 16), at.0);
    segs.set_word(Addr(at.0 + 8), at.0);
    segs.set_word(at, HEAD);
    segs.commit_block(at, 3);
}

/// Fills a segment.
fn fill_segment(segs: &mut Segs, index: u64)
    requires few { index < 15 }
    requires filled { IsFilled segs.old (begin index) }
    ensures { IsFilled segs.new (begin (index + 1)) }
{
    for number in 0..OBJECTS_OF_SEGMENT {
        make(segs, Addr(4096 * (1 + 128 * index) + 24 * number));
    }
}

/// Fills so many segments.
fn fill(segs: &mut Segs, count: u64)
    requires few { count ≤ 15 }
    requires filled { IsFilled segs.old 512 }
    ensures can { (pool : ℕ) → CanApply front_layout segs.new pool }
    ensures full { AreFull segs.new }
{
    for index in 0..count {
        fill_segment(segs, index);
    }
}

/// The address of an object, by its number.
fn object_at(number: u64) -> Addr
    requires { number < 327675 }
    ensures { result.0 % bytes_of_word ≡ 0 }
{
    Addr(4096 * (1 + 128 * (number / OBJECTS_OF_SEGMENT)) + 24 * (number % OBJECTS_OF_SEGMENT))
}

/// Adds pairs of objects that lie equally far apart, each with the object after it.
fn add_pairs(transforms: &mut Transforms, transform: u32, objects: u64, pairs: u64) -> u64
    requires many { objects ≤ 327675 }
    requires live { is_live transforms.old transform ≡ true }
    requires aligned { All (λ p. p.new.0 % bytes_of_word ≡ 0) transforms.old.pairs }
    ensures live { is_live transforms.new transform ≡ true }
    ensures aligned { All (λ p. p.new.0 % bytes_of_word ≡ 0) transforms.new.pairs }
{
    let mut added = 0u64;
    for number in 0..pairs {
        let index = (objects / pairs).wrapping_mul(number);
        if index < 327_674 {
            let pair = Pair { transform, old: object_at(index), new: object_at(index + 1), inside: false };
            if transforms.add(pair).is_ok() {
                added = added.wrapping_add(1);
            }
        }
    }
    added
}

fn apply(transforms: &mut Transforms, transform: u32, segs: &mut Segs)
    requires aligned { All (λ p. p.new.0 % bytes_of_word ≡ 0) transforms.old.pairs }
    requires can { (pool : ℕ) → CanApply front_layout segs.old pool }
    requires full { AreFull segs.old }
    ensures unchanged { transforms.new ≡ transforms.old }
    ensures can { (pool : ℕ) → CanApply front_layout segs.new pool }
    ensures full { AreFull segs.new }
{
    transforms.apply(transform, &Front, segs, 0);
}

/// Applies a transform to so many objects five times, and prints how long each took.
fn time(rt: &HostRuntime, transforms: &mut Transforms, transform: u32, segs: &mut Segs, objects: u64, added: u64) -> io::Result<()>
    requires aligned { All (λ p. p.new.0 % bytes_of_word ≡ 0) transforms.old.pairs }
    requires can { (pool : ℕ) → CanApply front_layout segs.old pool }
    requires full { AreFull segs.old }
{
    for _ in 0..5 {
        let began = Instant::now(rt)?;
        apply(transforms, transform, segs);
        let took = began.elapsed(rt)?.as_nanos() % 1_000_000_000_000;
        println!(rt; "{objects} objects, {added} pairs: applied in {} ps a reference", 1000 * took / (2 * u128::from(objects.max(1))))?;
    }
    Ok(())
}

/// Fills so many segments and applies a transform with so many pairs to them.
fn show_in(rt: &HostRuntime, transforms: &mut Transforms, segs: &mut Segs, count: u64, pairs: u64) -> io::Result<()>
    requires none { transforms.old ≡ no_transforms }
    requires few { count ≤ 15 }
    requires filled { IsFilled segs.old 512 }
{
    fill(segs, count);
    let objects = count * OBJECTS_OF_SEGMENT;
    let transform = transforms.make();
    let added = add_pairs(transforms, transform, objects, pairs);
    time(rt, transforms, transform, segs, objects, added)
}

fn show_with(rt: &HostRuntime, segs: &mut Segs, trail: &mut Trail, count: u64, pairs: u64) -> io::Result<()>
    requires few { count ≤ 15 }
    requires unused { segs.old ≡ new_segments 2048 2048 }
    requires fits { 15 ≤ trail.old.spare }
{
    if lay(segs, trail).is_err() {
        return Ok(());
    }
    let mut transforms = Transforms::new(rt.alloc())?;
    let done = show_in(rt, &mut transforms, segs, count, pairs);
    drop(transforms);
    done
}

fn show(rt: &HostRuntime, count: u64, pairs: u64) -> io::Result<()>
    requires few { count ≤ 15 }
{
    let mut trail = Trail::new(rt.alloc(), 15)?;
    let mut segs = Segs::new(rt.alloc(), 2048, 2048)?;
    let done = show_with(rt, &mut segs, &mut trail, count, pairs);
    drop(segs);
    done
}

fn main(rt: HostRuntime) -> io::Result<()> {
    show(&rt, 1, 1_000)?;
    show(&rt, 5, 1_000)?;
    show(&rt, 14, 1_000)?;
    show(&rt, 14, 1)?;
    show(&rt, 14, 4_000)
}
P
cat > specs/Lib.antt <<'P'
pub mod Filled
P
cat > specs/Filled.antt <<'P'
-- An arena that is filled with objects of three words, from its lowest word on.
use Rattle.std.specs.Prelude.{ℕ, zero, suc, ◌≡◌, ◌+◌, ◌*◌, ◌-◌, ◌^◌, ◌<◌, ◌≤◌, true, List, [], ◌∷◌, Contains, length, slice_index}
use Rattle.mps_base.specs.Address.{address_of_grain}
use Rattle.mps_base.specs.Run.{Run, IsAscending}
use Rattle.mps_base.specs.Segment.{Segment}
use Rattle.mps_base.specs.Zones.{zones_meet, zone_bit}
use Rattle.mps_base.specs.declared.names.Rank.TheVariants.{Exact}
use Rattle.mps_seg.specs.Collecting.{summary_at}
use Rattle.mps_seg.specs.Segs.{SegsState}

-- the head of an object of three words, of which the two after the head are references
abbrev pub head : ℕ
head = 0x200000301

-- a segment of 128 grains
abbrev pub segment_at : ℕ → Segment
segment_at grain = record { base = address_of_grain grain; grains = 128; pool = 0; generation = 0; rank = Exact }

-- segments one after another
abbrev pub laid : (from n : ℕ) → List Segment
laid from zero = []
laid from (suc n) = segment_at from ∷ laid (from + 128) n

-- the first word of a segment
abbrev pub begin : ℕ → ℕ
begin index = 512 * (1 + 128 * index)

-- three words from a word on lie in a segment
pub record IsInSegment (word : ℕ) : Type 0 where
  pub index : ℕ
  pub few : index < 15
  pub above : begin index ≤ word
  pub below : word + 3 ≤ begin (index + 1)

pub record IsObject (words : List ℕ) (r : Run) : Type 0 where
  pub count : r.count ≡ 3
  pub head : slice_index words r.from ≡ head
  pub inside : IsInSegment r.from

abbrev pub AreObjects : List ℕ → List Run → Type 0
AreObjects words [] = Unit {0}
AreObjects words (r ∷ rs) = IsObject words r × AreObjects words rs

-- each zone is in the summary of each segment
abbrev pub AreFull : SegsState → Type 0
AreFull s = (t : Segment) (zone : ℕ) → Contains s.segments t → zone < 64 → zones_meet (zone_bit zone) (summary_at s t.base) ≡ true

-- the summaries of the first segments have all zones
abbrev pub AreFullBelow : List ℕ → (n : ℕ) → Type 0
AreFullBelow summaries n = (index : ℕ) → index < n → slice_index summaries (1 + 128 * index) ≡ 2 ^ 64 - 1

-- the segments are there, and have no block yet
pub record IsLaid (s : SegsState) (n : ℕ) : Type 0 where
  pub grains : s.grains ≡ 2048
  pub limit : s.limit ≡ 2048
  pub segments : s.segments ≡ laid 1 n
  pub words : length s.words ≡ 512 * 2049
  pub covered : s.covered ≡ []
  pub blocks : s.blocks ≡ []
  pub sized : length s.summaries ≡ 2049
  pub full : AreFullBelow s.summaries n

-- objects lie below a word
pub record IsFilled (s : SegsState) (next : ℕ) : Type 0 where
  pub grains : s.grains ≡ 2048
  pub segments : s.segments ≡ laid 1 15
  pub words : length s.words ≡ 512 * 2049
  pub covered : s.covered ≡ s.blocks
  pub below : IsAscending 0 next s.blocks
  pub objects : AreObjects s.words s.blocks
  pub full : AreFullBelow s.summaries 15
P
cat > proofs/Lib.antt <<'P'
pub mod Laying
pub mod Filling
pub mod Made
pub mod Applying
pub mod Full
P
cat > proofs/Laying.antt <<'P'
-- The segments are laid one after another.
use Rattle.std.proofs.Common.{ℕ, Bool, zero, suc, ◌+◌, ◌*◌, ◌-◌, ◌^◌, ◌<◌, ◌≤◌, ◌≡◌, ◌%◌, List, [], ◌∷◌, ◌++◌, Contains, length, map, refl, sym, ap, ◌∙◌, subst, inl, inr, arith, Some}
use Rattle.std.proofs.lemmas.Bool.Decides.{nat_tests}
use Rattle.mps_base.specs.Address.{address_of_grain, grain_of, bytes_of_word, bytes_of_grain}
use Rattle.mps_base.specs.Placement.{Placement, NewSegment, run_placement}
use Rattle.mps_base.specs.Run.{Run, gaps, between, total, lowest_fitting}
use Rattle.mps_base.specs.Segment.{Segment, grains_of_segment, with_segment, end_of_segment}
use Rattle.mps_base.proofs.Runs.{between_some, between_none, total-cons}
use Rattle.std.proofs.lemmas.Bool.{cases_lt}
use Rattle.std.proofs.lemmas.List.{get_or-set_other, get_or-set_same, length-replicate, length-set}
use Rattle.std.specs.Prelude.{slice_index, slice_set, Result, Ok}
use Rattle.mps_arena.specs.Arena.{answer_of_placement}
use Rattle.mps_base.specs.Trail.{Moves}
use Rattle.mps_base.specs.declared.address.Addr.{Addr}
use Rattle.mps_base.specs.declared.refusal.Refusal.{Refusal}
use Rattle.mps_base.specs.declared.names.Rank.TheVariants.{Exact}
use Rattle.mps_seg.specs.Collecting.{summarizing}
use Rattle.mps_seg.specs.Segs.{SegsState, held_runs, moves_after, new_segments, noted_for, placement_for, segments_after}
use Rattle.mps_xform.specs.Applying.{AreSegmentsApart}
use Rattle.apply_times.specs.Filled.{AreFullBelow, segment_at, laid, IsLaid}

abbrev runs : (from n : ℕ) → List Run
runs from n = map grains_of_segment (laid from n)

grain_is : (g : ℕ) → grain_of (address_of_grain g) ≡ g
grain_is g = omega arith

total_is : (from n : ℕ) → total (runs from n) ≡ 128 * n
total_is from zero = refl
total_is from (suc n) =
    total-cons (grains_of_segment (segment_at from)) (runs (from + 128) n) ∙ ap (λ m. 128 + m) (total_is (from + 128) n) ∙ omega arith

gaps_are : (from n high : ℕ) → gaps from high (runs from n) ≡ between (from + 128 * n) high
gaps_are from zero high = ap (λ m. between m high) (omega arith)
gaps_are from (suc n) high =
    ap (λ m. between from m ++ gaps (m + 128) high (runs (from + 128) n)) (grain_is from)
    ∙ ap (λ (rs : List Run). rs ++ gaps (from + 128) high (runs (from + 128) n)) (between_none from from (omega arith))
    ∙ gaps_are (from + 128) n high
    ∙ ap (λ m. between m high) (omega arith)

-- the next segment follows those that are there
pub next_is : (n : ℕ) → n < 15 → run_placement 2048 2048 (runs 1 n) 128 ≡ NewSegment (1 + 128 * n) 128
next_is n few =
    let total = total_is 1 n in
    let free = gaps_are 1 n 2049 ∙ between_some (1 + 128 * n) 2049 (omega (arith, few)) in
    grind (arith, nat_tests, total, free, few)

laid_last : (from n : ℕ) → with_segment (segment_at (from + 128 * n)) (laid from n) ≡ laid from (suc n)
laid_last from zero = ap (λ m. segment_at m ∷ []) (omega arith)
laid_last from (suc n) =
    let rest = laid_last (from + 128) n in
    grind (arith, nat_tests, rest)

pub apart : (low from n : ℕ) → low ≤ address_of_grain from → AreSegmentsApart low (laid from n)
apart low from zero after = tt
apart low from (suc n) after =
    (after, omega arith, omega arith, apart (end_of_segment (segment_at from)) (from + 128) n (omega arith))

-- ---- the calls

placement_is : (s : SegsState) (n : ℕ) → IsLaid s n → n < 15 → placement_for s 65536 ≡ NewSegment (1 + 128 * n) 128
placement_is s n l few =
    ap (λ g. run_placement g s.limit (held_runs s) 128) l.grains
    ∙ ap (λ m. run_placement 2048 m (held_runs s) 128) l.limit
    ∙ ap (λ ss. run_placement 2048 2048 (map grains_of_segment ss) 128) l.segments
    ∙ next_is n few

one_more : (n : ℕ) → suc n ≡ n + 1
one_more n = omega arith

record IsTaken (s : SegsState) (n : ℕ) : Type 0 where
  pub grains : s.grains ≡ 2048
  pub limit : s.limit ≡ 2048
  pub segments : s.segments ≡ laid 1 n
  pub words : length s.words ≡ 512 * 2049
  pub covered : s.covered ≡ []
  pub blocks : s.blocks ≡ []

taken_next : (s t : SegsState) (n : ℕ) (condemned : List Bool) → IsLaid s n → n < 15
    → t ≡ record s {
      segments = segments_after (placement_for s 65536) 0 0 Exact s.segments;
      condemned = condemned;
      summaries = noted_for (placement_for s 65536) 0 s.summaries;
    }
    → IsTaken t (n + 1)
taken_next s t n condemned l few is = record {
  grains = ap (λ x. x.grains) is ∙ l.grains;
  limit = ap (λ x. x.limit) is ∙ l.limit;
  segments = ap (λ x. x.segments) is ∙ ap (λ p. segments_after p 0 0 Exact s.segments) (placement_is s n l few)
      ∙ ap (with_segment (segment_at (1 + 128 * n))) l.segments ∙ laid_last 1 n ∙ ap (laid 1) (one_more n);
  words = ap (λ x. length x.words) is ∙ l.words;
  covered = ap (λ x. x.covered) is ∙ l.covered;
  blocks = ap (λ x. x.blocks) is ∙ l.blocks;
}

-- where it begins
pub begins_at : (s : SegsState) (n : ℕ) (base : Addr) → IsLaid s n → n < 15 → Ok base ≡ answer_of_placement (placement_for s 65536)
    → base.0 ≡ address_of_grain (1 + 128 * n)
begins_at s n base l few is =
    let both : Ok base ≡ answer_of_placement (NewSegment (1 + 128 * n) 128) = is ∙ ap answer_of_placement (placement_is s n l few) in
    ap (λ (a : Addr). a.0) (ok_same base (record { 0 = address_of_grain (1 + 128 * n) }) both)
  where
    ok_same : (a b : Addr) → (let r : Result Addr Refusal = Ok a in r) ≡ Ok b → a ≡ b
    ok_same a b e = cc

one_full : (summaries : List ℕ) (n grain : ℕ) → 1 + 128 * n < length summaries → grain ≡ 1 + 128 * n → AreFullBelow summaries n
    → AreFullBelow (slice_set (slice_set summaries (1 + 128 * n) 0) grain (2 ^ 64 - 1)) (n + 1)
one_full summaries n grain within is full index below =
    let zeroed = slice_set summaries (1 + 128 * n) 0 in
    elim (cases_lt index n) [
      | inl before ↦
          get_or-set_other zeroed grain (1 + 128 * index) (2 ^ 64 - 1) 0 (λ same. omega (arith, same, is, before))
          ∙ get_or-set_other summaries (1 + 128 * n) (1 + 128 * index) 0 0 (λ same. omega (arith, same, before))
          ∙ full index before
      | inr last ↦
          let here : 1 + 128 * index ≡ grain = omega (arith, below, last, is) in
          ap (λ i. slice_index (slice_set zeroed grain (2 ^ 64 - 1)) i) here
          ∙ get_or-set_same zeroed grain (2 ^ 64 - 1) 0 (omega (arith, within, is, length-set summaries (1 + 128 * n) 0))
    ]

pub laid_next : (s u t : SegsState) (n base : ℕ) (condemned : List Bool) → IsLaid s n → n < 15 → base ≡ address_of_grain (1 + 128 * n)
    → u ≡ record s {
      segments = segments_after (placement_for s 65536) 0 0 Exact s.segments;
      condemned = condemned;
      summaries = noted_for (placement_for s 65536) 0 s.summaries;
    }
    → t ≡ summarizing u base (2 ^ 64 - 1) → IsLaid t (n + 1)
laid_next s u t n base condemned l few begins is summarized =
    let P : SegsState → Type 0 = λ x. IsLaid x (n + 1) in
    let laid = taken_next s u n condemned l few is in
    let grain : grain_of base ≡ 1 + 128 * n = omega (arith, begins) in
    let summaries : u.summaries ≡ slice_set s.summaries (1 + 128 * n) 0 =
    ap (λ x. x.summaries) is ∙ ap (λ p. noted_for p 0 s.summaries) (placement_is s n l few) in
    subst P (sym summarized) (record {
      grains = laid.grains;
      limit = laid.limit;
      segments = laid.segments;
      words = laid.words;
      covered = laid.covered;
      blocks = laid.blocks;
      sized = length-set u.summaries (grain_of base) (2 ^ 64 - 1) ∙ ap (λ (x : List ℕ). length x) summaries
          ∙ length-set s.summaries (1 + 128 * n) 0 ∙ l.sized;
      full = subst (λ (xs : List ℕ). AreFullBelow (slice_set xs (grain_of base) (2 ^ 64 - 1)) (n + 1)) (sym summaries)
          (one_full s.summaries n (grain_of base) (omega (arith, few, l.sized)) grain l.full);
    })

pub spare_next : (s : SegsState) (before after : Moves) (n : ℕ) → IsLaid s n → n < 15
    → after ≡ moves_after (placement_for s 65536) 0 0 before → after.spare ≡ before.spare - 1
spare_next s before after n l few is =
    ap (λ m. m.spare) is ∙ ap (λ p. (moves_after p 0 0 before).spare) (placement_is s n l few)

empty_words : (grains : ℕ) → length (new_segments grains grains).words ≡ 512 * (grains + 1)
empty_words grains = length-replicate {0} (512 * (grains + 1)) 0

pub none_laid : IsLaid (new_segments 2048 2048) 0
none_laid = record {
  grains = refl;
  limit = refl;
  segments = refl;
  words = empty_words 2048;
  covered = refl;
  blocks = refl;
  sized = length-replicate {A = ℕ} 2049 0;
  full = λ index below. absurd (omega (arith, below));
}
P
cat > proofs/Filling.antt <<'P'
-- One object more, above all others.
use Rattle.std.proofs.Common.{ℕ, zero, suc, ◌+◌, ◌*◌, ◌<◌, ◌≤◌, ◌≡◌, ◌≢◌, List, [], ◌∷◌, Contains, length, map, refl, sym, ap, ◌∙◌, subst, arith}
use Rattle.std.specs.Prelude.{slice_index, slice_set}
use Rattle.std.proofs.lemmas.List.{length-set, get_or-set_same, get_or-set_other}
use Rattle.mps_base.specs.Address.{address_of_grain, words_of_grain}
use Rattle.mps_base.specs.Run.{Run, end_of, IsAscending, with_run}
use Rattle.mps_base.specs.Segment.{grains_of_segment}
use Rattle.mps_base.proofs.Runs.{with_run_later, IsAscending-bounds, contains_first, contains_later}
use Rattle.mps_seg.specs.Segs.{SegsState, CanCover, held_runs}
use Rattle.apply_times.specs.Filled.{head, segment_at, laid, begin, IsInSegment, IsObject, AreObjects, IsFilled, IsLaid}

abbrev pub object_at : ℕ → Run
object_at word = record { from = word; count = 3 }

pub raised : (low p q : ℕ) (rs : List Run) → IsAscending low p rs → p ≤ q → IsAscending low q rs
raised low p q [] a le = omega (arith, a, le)
raised low p q (r ∷ rs) a le = (a.0, a.1, raised (end_of r) p q rs a.2 le)

last_is : (low p : ℕ) (r : Run) (rs : List Run) → IsAscending low p (r ∷ rs) → with_run (object_at p) (r ∷ rs) ≡ r ∷ with_run (object_at p) rs
last_is low p r rs a = with_run_later (object_at p) r rs (omega (arith, IsAscending-bounds (end_of r) p rs a.2))

-- a run put after all others
last_run : (low p high : ℕ) (rs : List Run) → IsAscending low p rs → p + 3 ≤ high → IsAscending low high (with_run (object_at p) rs)
last_run low p high [] a fits = (a, omega arith, fits)
last_run low p high (r ∷ rs) a fits =
    subst (IsAscending low high) (sym (last_is low p r rs a)) (a.0, a.1, last_run (end_of r) p high rs a.2 fits)

last_object : (words : List ℕ) (low p : ℕ) (rs : List Run) → IsAscending low p rs → AreObjects words rs → IsObject words (object_at p)
    → AreObjects words (with_run (object_at p) rs)
last_object words low p [] a objects new = (new, tt)
last_object words low p (r ∷ rs) a objects new =
    subst (AreObjects words) (sym (last_is low p r rs a)) (objects.0, last_object words (end_of r) p rs a.2 objects.1 new)

-- a write above the objects
unwritten : (words : List ℕ) (low p word value : ℕ) (rs : List Run) → IsAscending low p rs → p ≤ word → AreObjects words rs
    → AreObjects (slice_set words word value) rs
unwritten words low p word value [] a above objects = tt
unwritten words low p word value (r ∷ rs) a above objects =
    let lies = IsAscending-bounds (end_of r) p rs a.2 in
    let other : r.from ≢ word = λ same. omega (arith, same, lies, above, a.1) in
    let o : IsObject words r = objects.0 in
    (
      record {
        count = o.count;
        head = get_or-set_other words word r.from value 0 other ∙ o.head;
        inside = o.inside;
      },
      unwritten words (end_of r) p word value rs a.2 above objects.1,
    )

held_at : (from n i : ℕ) → i < n → Contains (map grains_of_segment (laid from n)) (record { from = from + 128 * i; count = 128 })
held_at from zero i few = absurd (omega (arith, few))
held_at from (suc n) zero few =
    let is : from ≡ from + 128 * 0 = omega arith in
    let there = contains_first (map grains_of_segment (laid (from + 128) n)) (grains_of_segment (segment_at from)) in
    let grain : (grains_of_segment (segment_at from)).from ≡ from + 128 * 0 = omega arith in
    subst (λ (m : ℕ). Contains (map grains_of_segment (laid from (suc n))) (record { from = m; count = 128 })) grain there
held_at from (suc n) (suc i) few =
    let rest = held_at (from + 128) n i (omega (arith, few)) in
    let is : from + 128 + 128 * i ≡ from + 128 * (suc i) = omega arith in
    let there = contains_later (map grains_of_segment (laid (from + 128) n)) (record { from = from + 128 + 128 * i; count = 128 })
            (grains_of_segment (segment_at from)) rest in
    subst (λ (m : ℕ). Contains (map grains_of_segment (laid from (suc n))) (record { from = m; count = 128 })) is there

pub can_cover : (s : SegsState) (p : ℕ) → IsFilled s p → IsInSegment p → CanCover s (object_at p)
can_cover s p filled lies =
    let fits : p + 3 ≤ words_of_grain * (2048 + 1) = omega (arith, lies.below, lies.few) in
    let free : IsAscending 0 (words_of_grain * (2048 + 1)) (with_run (object_at p) s.blocks) = last_run 0 p (words_of_grain * (2048 + 1)) s.blocks filled.below fits in
    let P : ℕ → List Run → Type 0 = λ grains covered. IsAscending 0 (words_of_grain * (grains + 1)) (with_run (object_at p) covered) in
    let free_here : P s.grains s.covered = subst (λ (g : ℕ). P g s.covered) (sym filled.grains) (subst (P 2048) (sym filled.covered) free) in
    record {
      free = free_here;
      inside = record {
        grains = record { from = 1 + 128 * lies.index; count = 128 };
        there = subst (λ ss. Contains (map grains_of_segment ss) (record { from = 1 + 128 * lies.index; count = 128 })) (sym filled.segments)
            (held_at 1 15 lies.index lies.few);
        after = lies.above;
        before = omega (arith, lies.below);
      };
    }

-- the segments with the words of an object, and the object as a block
abbrev pub with_object : SegsState → (p target : ℕ) → SegsState
with_object s p target = record s {
  words = slice_set (slice_set (slice_set s.words p head) (p + 1) target) (p + 2) target;
  covered = with_run (object_at p) s.covered;
  blocks = with_run (object_at p) s.blocks;
}

pub written : (s : SegsState) (p word value : ℕ) → IsFilled s p → p ≤ word → IsFilled (record s { words = slice_set s.words word value }) p
written s p word value filled above = record {
  grains = filled.grains;
  segments = filled.segments;
  words = length-set s.words word value ∙ filled.words;
  covered = filled.covered;
  below = filled.below;
  objects = unwritten s.words 0 p word value s.blocks filled.below above filled.objects;
  full = filled.full;
}

pub one_more : (s : SegsState) (p : ℕ) → IsFilled s p → IsInSegment p → slice_index s.words p ≡ head
    → IsFilled (record s { covered = with_run (object_at p) s.covered; blocks = with_run (object_at p) s.blocks }) (p + 3)
one_more s p filled lies is = record {
  grains = filled.grains;
  segments = filled.segments;
  words = filled.words;
  covered = ap (with_run (object_at p)) filled.covered;
  below = last_run 0 p (p + 3) s.blocks filled.below (omega arith);
  objects = last_object s.words 0 p s.blocks filled.below filled.objects (record { count = refl; head = is; inside = lies });
  full = filled.full;
}

pub later : (s : SegsState) (p q : ℕ) → IsFilled s p → p ≤ q → IsFilled s q
later s p q filled le = record {
  grains = filled.grains;
  segments = filled.segments;
  words = filled.words;
  covered = filled.covered;
  below = raised 0 p q s.blocks filled.below le;
  objects = filled.objects;
  full = filled.full;
}

pub none_yet : (s : SegsState) → IsLaid s 15 → IsFilled s 512
none_yet s l = record {
  grains = l.grains;
  segments = l.segments;
  words = l.words;
  covered = l.covered ∙ sym l.blocks;
  below = subst (IsAscending 0 512) (sym l.blocks) (omega arith);
  objects = subst (AreObjects s.words) (sym l.blocks) tt;
  full = l.full;
}
P
cat > proofs/Made.antt <<'P'
-- An object is written and becomes a block.
use Rattle.std.proofs.Common.{ℕ, ◌+◌, ◌<◌, ◌≤◌, ◌≡◌, List, length, sym, ap, ◌∙◌, subst, arith}
use Rattle.std.specs.Prelude.{slice_index, slice_set}
use Rattle.std.proofs.lemmas.List.{get_or-set_same}
use Rattle.mps_base.specs.Run.{with_run}
use Rattle.mps_seg.specs.Segs.{SegsState}
use Rattle.apply_times.specs.Filled.{head, IsInSegment, IsFilled}
use Rattle.apply_times.proofs.Filling.{written, object_at}

module _ (s t : SegsState) (p word value : ℕ) (is : t ≡ record s { words = slice_set s.words word value }) (filled : IsFilled s p) where
  pub after_write : p ≤ word → IsFilled t p
  after_write above = subst (λ x. IsFilled x p) (sym is) (written s p word value filled above)

  pub head_written : p ≡ word → value ≡ head → IsInSegment p → slice_index t.words p ≡ head
  head_written here is_head lies =
      ap (λ x. slice_index x.words p) is ∙ ap (λ i. slice_index (slice_set s.words word value) i) here
      ∙ get_or-set_same s.words word value 0 (omega (arith, here, lies.below, lies.few, filled.words)) ∙ is_head
P
cat > proofs/Applying.antt <<'P'
-- A transform can be applied to an arena that is filled with objects.
use Rattle.std.proofs.Common.{ℕ, zero, suc, ◌+◌, ◌*◌, ◌<◌, ◌≤◌, ◌≡◌, true, IsTrue, List, [], ◌∷◌, Contains, length, refl, sym, ap, ◌∙◌, subst, inl, inr, ◌⊎◌, arith}
use Rattle.std.specs.Prelude.{slice_index}
use Rattle.std.proofs.lemmas.Bool.{cases_order}
use Rattle.mps_base.specs.Address.{address_of_grain, word_of}
use Rattle.mps_base.specs.Run.{Run, end_of, IsAscending}
use Rattle.mps_base.specs.Segment.{Segment, end_of_segment}
use Rattle.mps_base.proofs.Runs.{contains_cases}
use Rattle.mps_format.specs.Front.{front_layout}
use Rattle.mps_seg.specs.Extents.{AreWhole}
use Rattle.mps_seg.specs.Segs.{SegsState}
use Rattle.mps_xform.specs.Applying.{AreSegmentsApart, CanApply}
use Rattle.apply_times.specs.Filled.{head, segment_at, laid, begin, IsInSegment, IsObject, AreObjects, IsFilled}
use Rattle.apply_times.proofs.Laying.{apart}
use Rattle.apply_times.proofs.Filling.{raised}

segment_cases : (ss : List Segment) (t s : Segment) → Contains (s ∷ ss) t → (s ≡ t) ⊎ Contains ss t
segment_cases ss t s (zero, within, is) = inl is
segment_cases ss t s (suc k, within, is) = inr (k, omega arith, is)

pub member : (from n : ℕ) (t : Segment) → Contains (laid from n) t → (i : ℕ) × (i < n) × (segment_at (from + 128 * i) ≡ t)
member from zero t (k, within, is) = absurd (omega (arith, within))
member from (suc n) t there =
    elim (segment_cases (laid (from + 128) n) t (segment_at from) there) [
      | inl same ↦ (0, omega arith, ap segment_at (omega arith) ∙ same)
      | inr rest ↦
          let m = member (from + 128) n t rest in
          (suc m.0, omega (arith, m.1), ap segment_at (omega arith) ∙ m.2)
    ]

-- an object lies in a segment, or outside it
whole_at : (index word : ℕ) → IsInSegment word
    → (begin index ≤ word → word < begin (index + 1) → word + 3 ≤ begin (index + 1)) × (word < begin index → word + 3 ≤ begin index)
whole_at index word lies = (
  λ above below. omega (arith, above, below, lies.above, lies.below),
  λ below. omega (arith, below, lies.above, lies.below),
)

are_whole : (index : ℕ) (words : List ℕ) (rs : List Run) → AreObjects words rs → AreWhole (begin index) (begin (index + 1)) rs
are_whole index words [] objects = tt
are_whole index words (r ∷ rs) objects =
    let o : IsObject words r = objects.0 in
    let w = whole_at index r.from o.inside in
    (
      (λ above below. omega (arith, w.0 above below, o.count), λ below. omega (arith, w.1 below, o.count)),
      are_whole index words rs objects.1,
    )

object_in : (words : List ℕ) (rs : List Run) (r : Run) → AreObjects words rs → Contains rs r → IsObject words r
object_in words [] r objects (k, within, is) = absurd (omega (arith, within))
object_in words (s ∷ rs) r objects there =
    elim (contains_cases rs r s there) [
      | inl same ↦ subst (IsObject words) same objects.0
      | inr rest ↦ object_in words rs r objects.1 rest
    ]

valid : IsTrue (front_layout.is_valid head)
valid = refl

pub can_apply : (s : SegsState) (p pool : ℕ) → IsFilled s p → p ≤ 512 * 2049 → CanApply front_layout s pool
can_apply s p pool filled fits = record {
  blocks = raised 0 p (length s.words) s.blocks filled.below (omega (arith, fits, filled.words));
  segments = subst (AreSegmentsApart 0) (sym filled.segments) (apart 0 1 15 (omega arith));
  in_arena = λ t there.
    let m = member 1 15 t (subst (λ ss. Contains ss t) filled.segments there) in
    let P : Segment → Type 0 = λ x. word_of (end_of_segment x) ≤ length s.words in
    subst P m.2 (omega (arith, m.1, filled.words));
  whole = λ t there.
    let m = member 1 15 t (subst (λ ss. Contains ss t) filled.segments there) in
    let P : Segment → Type 0 = λ x. AreWhole (word_of x.base) (word_of (end_of_segment x)) s.blocks in
    let low : begin m.0 ≡ word_of (segment_at (1 + 128 * m.0)).base = omega arith in
    let high : begin (m.0 + 1) ≡ word_of (end_of_segment (segment_at (1 + 128 * m.0))) = omega arith in
    let w = are_whole m.0 s.words s.blocks filled.objects in
    subst P m.2 (subst (λ h. AreWhole (word_of (segment_at (1 + 128 * m.0)).base) h s.blocks) high
      (subst (λ l. AreWhole l (begin (m.0 + 1)) s.blocks) low w));
  heads = λ t r there is within above below.
    let o = object_in s.words s.blocks r filled.objects within in (
      subst (λ h. IsTrue (front_layout.is_valid h)) (sym o.head) valid,
      ap front_layout.size o.head ∙ sym o.count,
    );
}
P
cat > proofs/Full.antt <<'P'
-- What a segment has is summed where the summaries have all zones, and they have all zones after a transform was applied.
use Rattle.std.proofs.Common.{ℕ, ◌+◌, ◌*◌, ◌-◌, ◌^◌, ◌<◌, ◌≡◌, true, Option, List, Contains, length, sym, ap, ◌∙◌, subst, arith}
use Rattle.std.specs.Prelude.{slice_index}
use Rattle.std.proofs.lemmas.Nat.Bits.{bit_at_ones}
use Rattle.mps_base.specs.Address.{Address, address_of_grain, grain_of, zone_of}
use Rattle.mps_base.specs.Segment.{Segment}
use Rattle.mps_base.specs.Zones.{zones_meet, zone_bit}
use Rattle.mps_format.specs.Layout.{Layout}
use Rattle.mps_seg.specs.Segs.{SegsState}
use Rattle.mps_xform.specs.Applying.{after_apply}
use Rattle.mps_xform.specs.Summed.{AreBlocksSummed}
use Rattle.mps_xform.proofs.Noting.{pass_keeps, same_segments}
use Rattle.mps_xform.proofs.Zones.{has_zone}
use Rattle.apply_times.specs.Filled.{AreFull, IsFilled, segment_at}
use Rattle.apply_times.proofs.Applying.{member}

pub are_full : (s : SegsState) (p : ℕ) → IsFilled s p → AreFull s
are_full s p filled t zone there low =
    let m = member 1 15 t (subst (λ ss. Contains ss t) filled.segments there) in
    let P : Segment → Type 0 = λ x. zones_meet (zone_bit zone) (slice_index s.summaries (grain_of x.base)) ≡ true in
    let grain : 1 + 128 * m.0 ≡ grain_of (address_of_grain (1 + 128 * m.0)) = omega arith in
    let is = sym (ap (λ g. slice_index s.summaries g) grain) ∙ filled.full m.0 m.1 in
    let Q : ℕ → Type 0 = λ zones. zones_meet (zone_bit zone) zones ≡ true in
    subst P m.2 (subst Q (sym is) (has_zone (2 ^ 64 - 1) zone (bit_at_ones 64 zone low)))

pub full_summed : (f : Layout) (s : SegsState) (pool : ℕ) → AreFull s → AreBlocksSummed f s pool
full_summed f s pool full t r there of_pool listed above below k few reference some =
    full t (zone_of (f.target (slice_index s.words (r.from + k)))) there (omega arith)

pub full_still : (f : Layout) (to : Address → Option Address) (s : SegsState) (pool : ℕ) → AreFull s → AreFull (after_apply f to s pool)
full_still f to s pool full t zone there low =
    let kept = pass_keeps f to s pool (length s.words) in
    let was = let P : List Segment → Type 0 = λ ts. Contains ts t in subst P (same_segments kept) there in
    kept.zones (grain_of t.base) zone (full t zone was low)
P
cat > proofs/lay/Invariants.antt <<'P'
use Rattle.std.proofs.Common.{◌+◌, ◌≤◌}
use Rattle.apply_times.specs.Filled.{IsLaid}
use Rattle.apply_times.proofs.lay.Given as goal

abbrev pub invariant-loop-index : goal.invariant-loop-index
invariant-loop-index l = record { laid : IsLaid l.segs l.index; fits : 15 ≤ l.trail.spare + l.index }
P
cat > proofs/lay/Answers.antt <<'P'
use Rattle.std.proofs.Common.{◌<◌, ap, sym, subst, arith}
use Rattle.apply_times.specs.Filled.{IsLaid}
use Rattle.apply_times.proofs.Laying.{begins_at, laid_next, none_laid, spare_next}
use Rattle.apply_times.proofs.lay.Goals as goal

pub set_summary-requires : goal.set_summary-requires
set_summary-requires c =
    let begins = begins_at c.loop-index.segs c.loop-index.index c.in_ok-base.base c.loop-index.invariant.laid c.loop-index-test.true c.in_ok-base.ensures.value in
    omega (arith, begins, c.loop-index-test.true, ap (λ x. x.grains) c.take.ensures.state, c.loop-index.invariant.laid.grains)

pub loop-index-init : goal.loop-index-init
loop-index-init c = record {
  laid = subst (λ s. IsLaid s 0) (sym c.requires.unused) none_laid;
  fits = omega (arith, c.requires.fits);
}

pub loop-index-preserved : goal.loop-index-preserved
loop-index-preserved c =
    let few : c.loop-index.index < 15 = c.loop-index-test.true in
    let spare = spare_next c.loop-index.segs c.loop-index.trail c.take.new.trail c.loop-index.index c.loop-index.invariant.laid few c.take.ensures.moves in
    record {
      laid = laid_next c.loop-index.segs c.take.new.self c.set_summary.new.self c.loop-index.index c.in_ok-base.base.0 _
          c.loop-index.invariant.laid few
          (begins_at c.loop-index.segs c.loop-index.index c.in_ok-base.base c.loop-index.invariant.laid few c.in_ok-base.ensures.value)
          c.take.ensures.state c.set_summary.ensures;
      fits = omega (arith, spare, few, c.loop-index.invariant.fits);
    }
P
cat > proofs/make/Answers.antt <<'P'
use Rattle.std.proofs.Common.{ℕ, ◌≡◌, ◌+◌, refl, sym, subst, arith}
use Rattle.std.specs.Prelude.{slice_index}
use Rattle.mps_base.specs.Address.{word_of}
use Rattle.apply_times.specs.Filled.{head, IsFilled}
use Rattle.apply_times.proofs.Filling.{can_cover, one_more}
use Rattle.apply_times.proofs.Made.{after_write, head_written}
use Rattle.apply_times.proofs.make.Goals as goal

pub commit_block-requires-clause-free : goal.commit_block-requires-clause-free
commit_block-requires-clause-free c =
    let p : ℕ = word_of c.args.at.0 in
    let one : IsFilled c.set_word.new.self p =
        after_write c.args.segs.now c.set_word.new.self p (word_of (c.args.at.0 + 16)) c.args.at.0 c.set_word.ensures c.requires.filled (omega arith) in
    let two : IsFilled c.set_word-2.new.self p =
        after_write c.set_word.new.self c.set_word-2.new.self p (word_of (c.args.at.0 + 8)) c.args.at.0 c.set_word-2.ensures one (omega arith) in
    let three : IsFilled c.set_word-3.new.self p =
        after_write c.set_word-2.new.self c.set_word-3.new.self p p head c.set_word-3.ensures two (omega arith) in
    can_cover c.set_word-3.new.self p three c.requires.inside

pub returns : goal.returns
returns c =
    let p : ℕ = word_of c.args.at.0 in
    let one : IsFilled c.set_word.new.self p =
        after_write c.args.segs.now c.set_word.new.self p (word_of (c.args.at.0 + 16)) c.args.at.0 c.set_word.ensures c.requires.filled (omega arith) in
    let two : IsFilled c.set_word-2.new.self p =
        after_write c.set_word.new.self c.set_word-2.new.self p (word_of (c.args.at.0 + 8)) c.args.at.0 c.set_word-2.ensures one (omega arith) in
    let three : IsFilled c.set_word-3.new.self p =
        after_write c.set_word-2.new.self c.set_word-3.new.self p p head c.set_word-3.ensures two (omega arith) in
    let has : slice_index c.set_word-3.new.self.words p ≡ head =
        head_written c.set_word-2.new.self c.set_word-3.new.self p p head c.set_word-3.ensures two refl refl c.requires.inside in
    subst (λ x. IsFilled x (p + 3)) (sym c.commit_block.ensures) (one_more c.set_word-3.new.self p three c.requires.inside has)
P
cat > proofs/fill_segment/Invariants.antt <<'P'
use Rattle.std.proofs.Common.{◌+◌, ◌*◌}
use Rattle.apply_times.specs.Filled.{begin, IsFilled}
use Rattle.apply_times.proofs.fill_segment.Given as goal

abbrev pub invariant-loop-number : goal.invariant-loop-number
invariant-loop-number l = IsFilled l.segs (begin l.fn.index + 3 * l.number)
P
cat > proofs/fill_segment/Answers.antt <<'P'
use Rattle.std.proofs.Common.{◌+◌, ◌*◌, arith}
use Rattle.apply_times.specs.Filled.{begin}
use Rattle.apply_times.proofs.Filling.{later}
use Rattle.apply_times.proofs.fill_segment.Goals as goal

pub make-requires-clause-inside : goal.make-requires-clause-inside
make-requires-clause-inside c = record {
  index = c.args.index;
  few = c.requires.few;
  above = omega arith;
  below = omega (arith, c.loop-number-test.true);
}

pub returns : goal.returns
returns c =
    later c.loop-number.segs (begin c.args.index + 3 * c.loop-number.number) (begin (c.args.index + 1)) c.loop-number.invariant
    (omega (arith, c.loop-number.auto.number-end))
P
cat > proofs/fill/Invariants.antt <<'P'
use Rattle.apply_times.specs.Filled.{begin, IsFilled}
use Rattle.apply_times.proofs.fill.Given as goal

abbrev pub invariant-loop-index : goal.invariant-loop-index
invariant-loop-index l = IsFilled l.segs (begin l.index)
P
cat > proofs/fill/Answers.antt <<'P'
use Rattle.std.proofs.Common.{arith}
use Rattle.apply_times.specs.Filled.{begin}
use Rattle.apply_times.proofs.Applying.{can_apply}
use Rattle.apply_times.proofs.Full.{are_full}
use Rattle.apply_times.proofs.fill.Goals as goal

pub returns-clause-can : goal.returns-clause-can
returns-clause-can c = λ pool.
    can_apply c.loop-index.segs (begin c.loop-index.index) pool c.loop-index.invariant
    (omega (arith, c.loop-index.auto.index-end, c.requires.few))

pub returns-clause-full : goal.returns-clause-full
returns-clause-full c = are_full c.loop-index.segs (begin c.loop-index.index) c.loop-index.invariant
P
cat > proofs/add_pairs/Invariants.antt <<'P'
use Rattle.std.proofs.Common.{◌≡◌, ◌%◌, true}
use Rattle.std.specs.List.{All}
use Rattle.mps_base.specs.Address.{bytes_of_word}
use Rattle.mps_xform.specs.State.{is_live}
use Rattle.apply_times.proofs.add_pairs.Given as goal

abbrev pub invariant-loop-number : goal.invariant-loop-number
invariant-loop-number l = record {
  live : is_live l.transforms l.fn.transform ≡ true;
  aligned : All (λ p. p.new.0 % bytes_of_word ≡ 0) l.transforms.pairs;
}
P
cat > proofs/apply/Answers.antt <<'P'
use Rattle.std.proofs.Common.{subst, sym}
use Rattle.mps_format.specs.Front.{front_layout}
use Rattle.mps_xform.specs.State.{new_address}
use Rattle.apply_times.specs.Filled.{AreFull}
use Rattle.apply_times.proofs.Full.{full_still, full_summed}
use Rattle.apply_times.proofs.apply.Goals as goal

pub apply-requires-clause-can : goal.apply-requires-clause-can
apply-requires-clause-can c = c.requires.can 0

pub apply-requires-clause-summed : goal.apply-requires-clause-summed
apply-requires-clause-summed c = full_summed front_layout c.args.segs.now 0 c.requires.full

pub returns-clause-full : goal.returns-clause-full
returns-clause-full c =
    subst AreFull (sym c.apply.ensures.state)
    (full_still front_layout (new_address c.args.transforms.now c.args.transform) c.args.segs.now 0 c.requires.full)

pub returns-clause-can : goal.returns-clause-can
returns-clause-can c = λ pool. c.apply.ensures.again front_layout pool (c.requires.can pool)
P
cat > proofs/time/Invariants.antt <<'P'
use Rattle.std.proofs.Common.{ℕ, ◌≡◌, ◌%◌}
use Rattle.std.specs.List.{All}
use Rattle.mps_base.specs.Address.{bytes_of_word}
use Rattle.mps_format.specs.Front.{front_layout}
use Rattle.mps_xform.specs.Applying.{CanApply}
use Rattle.apply_times.specs.Filled.{AreFull}
use Rattle.apply_times.proofs.time.Given as goal

abbrev pub invariant-loop : goal.invariant-loop
invariant-loop l = record {
  aligned : All (λ p. p.new.0 % bytes_of_word ≡ 0) l.transforms.pairs;
  can : (pool : ℕ) → CanApply front_layout l.segs pool;
  full : AreFull l.segs;
}
P
rt run
cd / && rm -r "$folder"
