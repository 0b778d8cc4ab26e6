#!/bin/sh
# Measures how long a registration for finalization takes that is taken away at once, for 1,000, 10,000 and 100,000 such pairs of calls,
# with no registration beside it and with 1,000. It makes a program over a copy of the crates, proves it, and runs it.
home=$(cd "$(dirname "$0")/.." && pwd)
folder=$(mktemp -d)
cd "$folder" || exit 1
mkdir crates
for crate in mps_base mps_final; do
    mkdir "crates/$crate"
    for part in src specs proofs; do
        [ -d "$home/crates/$crate/$part" ] && cp -r "$home/crates/$crate/$part" "crates/$crate/$part"
    done
done
grep -E '^mps_(base|final):' "$home/crates.txt" > crates.txt
echo 'final_times: mps_base mps_final' >> crates.txt
program=crates/final_times
mkdir -p $program/src
cat > $program/src/main.rt <<'P'
// How long a registration takes that is taken away at once.
#![tactic(auto)]

use mps_base::Addr;
use mps_final::Finals;
use std::io;
use std::time::Instant;

/// Registers the blocks at this many addresses, each once.
fn fill(finals: &mut Finals, count: u32) {
    for block in 0..count {
        let _ = finals.register(Addr(8 * (u64::from(block) + 1)));
    }
}

/// Registers a block and takes the registration away, `pairs` times. Returns how many times both were done.
fn register_in_turn(finals: &mut Finals, pairs: u32) -> u32 {
    let at = Addr(8_000_000);
    let mut done = 0u32;
    for _ in 0..pairs {
        if finals.register(at).is_ok() && finals.unregister(at).is_ok() {
            done = done.saturating_add(1);
        }
    }
    done
}

fn measure(rt: &HostRuntime, others: u32, pairs: u32) -> io::Result<()> {
    let mut finals = Finals::new(rt.alloc())?;
    fill(&mut finals, others);
    let began = Instant::now(rt)?;
    let done = register_in_turn(&mut finals, pairs);
    let took = began.elapsed(rt)?.as_nanos();
    println!(rt; "{done} pairs beside {others} registrations: {} ns each", took / u128::from(done.max(1)))
}

fn main(rt: HostRuntime) -> io::Result<()> {
    for pairs in [1_000, 10_000, 100_000] {
        measure(&rt, 0, pairs)?;
        measure(&rt, 1_000, pairs)?;
    }
    Ok(())
}
P
(cd $program && rt run)
cd / && rm -r "$folder"
