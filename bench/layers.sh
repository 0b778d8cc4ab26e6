#!/bin/sh
# Measures the small layers: how long the look-up of a name takes among 1,000, 10,000 and 100,000 names, and how long it takes to
# register 1,000, 10,000 and 65,536 blocks, to make messages of them in order, to take these, and to take registrations away.
# It makes a program over a copy of the crates, proves it, and runs it.
home=$(cd "$(dirname "$0")/.." && pwd)
folder=$(mktemp -d)
cd "$folder" || exit 1
mkdir crates
for crate in mps_base mps_keys mps_names mps_final; do
    mkdir "crates/$crate"
    for part in src specs proofs; do
        [ -d "$home/crates/$crate/$part" ] && cp -r "$home/crates/$crate/$part" "crates/$crate/$part"
    done
done
grep -E '^mps_(base|keys|names|final):' "$home/crates.txt" > crates.txt
echo 'layer_times: mps_base mps_names mps_final' >> crates.txt
program=crates/layer_times
mkdir -p $program/src
cat > $program/src/main.rt <<'P'
// How long the calls of the small layers take.
#![tactic(auto)]

use mps_base::{Addr, Name};
use mps_final::Finals;
use mps_names::{Names, Thing};
use std::io;
use std::time::Instant;

fn name_of(number: u32) -> Name {
    let mut bytes = [0; 16];
    let mut rest = number;
    for place in 0..8 {
        bytes[place] = 97 + (rest % 16) as u8;
        rest /= 16;
    }
    Name { bytes }
}

fn names(rt: &HostRuntime, count: u32) -> io::Result<()> {
    let mut names = Names::new(rt.alloc())?;
    let began = Instant::now(rt)?;
    for number in 0..count {
        names.make_room()?;
        let name = name_of(number);
        if names.refuse_taken(name).is_ok() {
            names.take(name, Thing::Pool(number));
        }
    }
    let taken = began.elapsed(rt)?.as_nanos();
    let began = Instant::now(rt)?;
    let mut found = 0u64;
    for number in 0..count {
        if names.get(name_of(number)).is_some() {
            found = found.wrapping_add(1);
        }
    }
    let looked = began.elapsed(rt)?.as_nanos();
    let each = count.max(1) as u128;
    println!(rt; "{} names: taken in {} ns each, looked up in {} ns each, {} found", count, taken / each, looked / each, found)
}

fn registrations(rt: &HostRuntime, count: u32) -> io::Result<()> {
    let mut finals = Finals::new(rt.alloc())?;
    let began = Instant::now(rt)?;
    for number in 0..count {
        let _ = finals.register(Addr(8 * (number as u64 + 1)));
    }
    let made = began.elapsed(rt)?.as_nanos();
    let began = Instant::now(rt)?;
    for _ in 0..count {
        if finals.registered() > 0 {
            finals.post(0);
        }
    }
    let posted = began.elapsed(rt)?.as_nanos();
    let began = Instant::now(rt)?;
    for _ in 0..count {
        let _ = finals.take();
    }
    let taken = began.elapsed(rt)?.as_nanos();
    for number in 0..count {
        let _ = finals.register(Addr(8 * (number as u64 + 1)));
    }
    let began = Instant::now(rt)?;
    for number in 0..count {
        let _ = finals.unregister(Addr(8 * (number as u64 + 1)));
    }
    let removed = began.elapsed(rt)?.as_nanos();
    let each = count.max(1) as u128;
    println!(rt; "{} registrations: made in {} ns each, posted in {} ns each, taken as messages in {} ns each, taken away in {} ns each", count, made / each, posted / each, taken / each, removed / each)
}

fn main(rt: HostRuntime) -> io::Result<()> {
    for count in [1_000, 10_000, 100_000] {
        names(&rt, count)?;
    }
    for count in [1_000, 10_000, 65_536] {
        registrations(&rt, count)?;
    }
    Ok(())
}
P
(cd $program && rt run)
cd / && rm -r "$folder"
