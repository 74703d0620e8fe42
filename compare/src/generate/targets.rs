//! Targets of requests and starts: ours, nearly ours, others, repeats.

use kajakulm::{Address, InstanceRow, Settings, Target};

use super::world::World;
use crate::prng::Random;

/// `known` is a row whose targets can be met.
pub fn targets(random: &mut Random, world: &World, known: Option<&InstanceRow>) -> Vec<Target> {
    let with_own = random.percent(45);
    let mut all: Vec<Target> = Vec::new();
    for _ in 0..count(random) {
        let target = match random.below(20) {
            0..=5 => from_row(random, world, known),
            6..=11 => whole_end(random, world),
            12 | 13 => prefix_end(random, world),
            14 | 15 => almost_own(random, &world.own),
            16 | 17 => repeat(random, world, &all),
            _ if with_own => own(random, &world.own),
            _ => from_row(random, world, known),
        };
        all.push(target);
    }
    if with_own && random.percent(60) {
        let target = own(random, &world.own);
        let place = random.below(all.len() + 1);
        all.insert(place, target);
    }
    all
}

fn count(random: &mut Random) -> usize {
    match random.below(20) {
        0..=12 => random.within(1, 3),
        13..=15 => random.within(4, 7),
        16..=18 => random.within(7, 9),
        _ => random.within(0, 13),
    }
}

fn whole(random: &mut Random, addr: Address) -> Target {
    Target {
        seq: random.octet(),
        plen: 0,
        addr,
    }
}

/// A prefix of the address, with anything in the spare bits.
fn prefix(random: &mut Random, mut addr: Address) -> Target {
    let plen = match random.percent(30) {
        true => random.pick(&[1, 7, 8, 9, 63, 64, 65, 119, 120, 121, 126, 127]),
        false => random.within(1, 127),
    };
    spoil_spare_bits(random, &mut addr, plen);
    Target {
        seq: random.octet(),
        plen: plen as u8,
        addr,
    }
}

fn spoil_spare_bits(random: &mut Random, addr: &mut Address, plen: usize) {
    let spare = u128::MAX >> plen;
    let noise = u128::from_be_bytes(random.array()) & spare;
    *addr = (u128::from_be_bytes(*addr) ^ noise).to_be_bytes();
}

fn whole_end(random: &mut Random, world: &World) -> Target {
    let addr = random.pick(&world.ends);
    whole(random, addr)
}

fn prefix_end(random: &mut Random, world: &World) -> Target {
    let addr = random.pick(&world.ends);
    prefix(random, addr)
}

fn from_row(random: &mut Random, world: &World, known: Option<&InstanceRow>) -> Target {
    let count = known.map_or(0, |row| usize::from(row.count).min(8));
    let Some(row) = known.filter(|_| count > 0) else {
        return whole_end(random, world);
    };
    let target = row.targets[random.below(count)];
    Target {
        seq: random.octet(),
        plen: target.plen & 0x7f,
        ..target
    }
}

fn own_address(random: &mut Random, own: &Settings) -> Address {
    match random.percent(60) {
        true => own.receiving,
        false => own.sending,
    }
}

pub fn own(random: &mut Random, own: &Settings) -> Target {
    let addr = own_address(random, own);
    match random.percent(60) {
        true => whole(random, addr),
        false => prefix(random, addr),
    }
}

/// One of our addresses, but for the last bit that counts.
fn almost_own(random: &mut Random, own: &Settings) -> Target {
    let addr = own_address(random, own);
    let mut target = match random.percent(50) {
        true => whole(random, addr),
        false => prefix(random, addr),
    };
    let last = match target.plen {
        0 => 127,
        plen => usize::from(plen) - 1,
    };
    target.addr[last / 8] ^= 0x80 >> (last % 8);
    target
}

/// An earlier target again, with another number and other spare bits.
fn repeat(random: &mut Random, world: &World, earlier: &[Target]) -> Target {
    if earlier.is_empty() {
        return whole_end(random, world);
    }
    let mut target = random.pick(earlier);
    target.seq = random.octet();
    if (1..=127).contains(&target.plen) {
        spoil_spare_bits(random, &mut target.addr, usize::from(target.plen));
    }
    target
}
