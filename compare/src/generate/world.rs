//! The addresses and numbers that one list is about. There are few of each, so
//! that calls meet rows of earlier calls.

use kajakulm::{Address, Settings};
use reference::address::is_unfit;

use crate::prng::Random;

#[derive(Clone, Debug)]
pub struct World {
    pub own: Settings,
    /// OrigNodes of requests.
    pub origins: Vec<Address>,
    /// TargNodes and other targets.
    pub ends: Vec<Address>,
    /// Addresses of vectors.
    pub hops: Vec<Address>,
    pub neighbours: Vec<Address>,
    pub instances: Vec<u8>,
    pub seq: u8,
}

impl World {
    pub fn new(random: &mut Random) -> Self {
        let receiving = base(random);
        let sending = sending(random, receiving);
        let mut several = |count: usize| -> Vec<Address> {
            let of = |random: &mut Random| match random.below(10) {
                0 => base(random),
                1 | 2 => usable_near(random, sending),
                _ => usable_near(random, receiving),
            };
            (0..count).map(|_| of(random)).collect()
        };
        let origins = several(3);
        let ends = several(4);
        let hops = several(8);
        World {
            own: Settings { receiving, sending },
            neighbours: neighbours(random, &hops, receiving),
            instances: instances(random),
            seq: seq_at_an_edge(random),
            origins,
            ends,
            hops,
        }
    }
}

/// An address that can be our own.
fn base(random: &mut Random) -> Address {
    let mut address: Address = match random.below(3) {
        0 => random.array(),
        _ => [0; 16],
    };
    address[0] = random.pick(&[0xfd, 0xfd, 0x20, 0x00, 0xfe]);
    if address[0] == 0xfe {
        address[1] = random.pick(&[0xc0, 0x7f]);
    }
    address[15] = random.octet() | 1;
    address
}

/// Equal to the receiving address, or different late, early or at once.
fn sending(random: &mut Random, receiving: Address) -> Address {
    let mut sending = receiving;
    let place = match random.below(10) {
        0..=4 => return receiving,
        5 | 6 => 15,
        7 | 8 => random.within(1, 15),
        _ => 0,
    };
    sending[place] ^= 1 << random.below(8);
    match is_unfit(&sending) {
        true => receiving,
        false => sending,
    }
}

/// The same address but for one octet, often the last.
pub fn near(random: &mut Random, address: Address) -> Address {
    let mut near = address;
    let place = match random.below(10) {
        0..=5 => 15,
        6 | 7 => random.within(8, 14),
        _ => random.below(16),
    };
    near[place] = match random.percent(50) {
        true => near[place] ^ 1 << random.below(8),
        false => random.octet(),
    };
    near
}

fn usable_near(random: &mut Random, address: Address) -> Address {
    let near = near(random, address);
    match is_unfit(&near) {
        true => address,
        false => near,
    }
}

fn neighbours(random: &mut Random, hops: &[Address], receiving: Address) -> Vec<Address> {
    let mut all: Vec<Address> = (1..4).map(link_local).collect();
    all.push(random.pick(hops));
    all.push(random.pick(&[[0; 16], receiving, [0xff; 16]]));
    all
}

/// fe80::`last`.
pub fn link_local(last: u8) -> Address {
    let mut address = [0; 16];
    address[0] = 0xfe;
    address[1] = 0x80;
    address[15] = last;
    address
}

/// An address that is neither a DODAGID nor our own.
pub fn unfit(random: &mut Random) -> Address {
    let mut address: Address = random.array();
    match random.below(4) {
        0 => return [0; 16],
        1 => address[0] = 0xff,
        _ => {
            address[0] = 0xfe;
            address[1] = 0x80 | address[1] & 0x3f;
        }
    }
    address
}

/// Neighbouring numbers, sometimes over the edge from 255 to 0.
fn instances(random: &mut Random) -> Vec<u8> {
    let first = match random.below(3) {
        0 => random.octet(),
        _ => random.pick(&[0, 1, 127, 128, 129, 192, 254, 255]),
    };
    vec![first, first, first.wrapping_add(1), first.wrapping_sub(1)]
}

pub fn seq_at_an_edge(random: &mut Random) -> u8 {
    let edges = [
        0, 1, 2, 15, 16, 111, 112, 126, 127, 128, 129, 143, 144, 239, 240, 241, 254, 255,
    ];
    match random.percent(70) {
        true => random.pick(&edges),
        false => random.octet(),
    }
}

/// A sequence number newer than this one, equal, older, or just not comparable.
pub fn seq_near(random: &mut Random, seq: u8) -> u8 {
    match random.below(20) {
        0..=6 => seq.wrapping_add(1),
        7..=11 => seq,
        12 => seq.wrapping_add(16),
        13 => seq.wrapping_add(17),
        14 => seq.wrapping_sub(1),
        15 => seq.wrapping_sub(16),
        16 => seq.wrapping_sub(17),
        17 => seq.wrapping_add(random.octet() % 16),
        18 => seq_at_an_edge(random),
        _ => random.octet(),
    }
}

/// How many first octets all three addresses share, 15 at most.
pub fn shared_octets(own: &Settings, dodagid: &Address) -> u8 {
    let differs = |place: &usize| {
        own.receiving[*place] != dodagid[*place] || own.sending[*place] != dodagid[*place]
    };
    (0..15).find(differs).unwrap_or(15) as u8
}

/// A Compr that fits these many shared octets, now and then one that does not.
pub fn compr(random: &mut Random, shared: u8) -> u8 {
    match random.below(20) {
        0..=7 => random.below(usize::from(shared) + 1) as u8,
        8..=12 => shared,
        13..=15 => 0,
        16 | 17 => (shared + 1).min(15),
        _ => random.below(16) as u8,
    }
}
