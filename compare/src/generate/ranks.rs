//! Configuration, rank, rank increase and RankLimit, which depend on each other.

use crate::prng::Random;

#[derive(Clone, Copy, Debug)]
pub struct Ranks {
    pub configuration: Option<[u8; 14]>,
    pub rank: u16,
    pub increase: u16,
    pub limit: u8,
}

/// `wanted`: what the own rank should come to.
pub fn ranks(random: &mut Random, wanted: Option<u16>) -> Ranks {
    let configuration = random.percent(45).then(|| configuration(random));
    let step = configuration.map_or(256, |octets| u16::from_be_bytes([octets[6], octets[7]]));
    let increase = increase(random, step);
    let rank = match wanted {
        Some(own) => own.saturating_sub(increase),
        None => rank(random, step, increase),
    };
    Ranks {
        configuration,
        rank,
        increase,
        limit: limit(random, rank.saturating_add(increase), step),
    }
}

fn configuration(random: &mut Random) -> [u8; 14] {
    let mut octets: [u8; 14] = random.array();
    let step = match random.below(20) {
        0..=9 => 256,
        10..=18 => random.pick(&[1u16, 2, 3, 100, 128, 255, 257, 300, 1000]),
        _ => random.pick(&[0x7fff, 0xfffe, 0xffff]),
    };
    let unit = random.pick(&[1u16, 1, 2, 60, 255, 256, 0xffff]);
    octets[6..8].copy_from_slice(&step.to_be_bytes());
    octets[11] = random.pick(&[1, 1, 2, 3, 10, 254, 255, 255]);
    octets[12..14].copy_from_slice(&unit.to_be_bytes());
    if random.one_in(25) {
        let zero = random.pick(&[6..8, 11..12, 12..14].map(|range| (range.start, range.end)));
        octets[zero.0..zero.1].fill(0);
    }
    octets
}

fn increase(random: &mut Random, step: u16) -> u16 {
    match random.below(25) {
        0..=12 => step,
        13..=15 => step.saturating_add(random.word() % step.max(1)),
        16..=18 => step.saturating_mul(2),
        19 => step.saturating_add(1),
        20 => step.wrapping_sub(1),
        21 => step.saturating_mul(3),
        22 => random.pick(&[0, 1, 0xfffe, 0xffff]),
        23 => random.word(),
        _ => step.saturating_add(random.word() % 8),
    }
}

fn rank(random: &mut Random, step: u16, increase: u16) -> u16 {
    match random.below(10) {
        0..=4 => step.saturating_mul(random.below(6) as u16),
        5..=7 => random.word() % 3000,
        8 => (0xffff - increase)
            .wrapping_add(random.below(4) as u16)
            .wrapping_sub(2),
        _ => random.word(),
    }
}

/// None, or around the own integer part.
fn limit(random: &mut Random, own: u16, step: u16) -> u8 {
    let part = own / step.max(1);
    let limit = match random.below(20) {
        0..=9 => 0,
        10 => part.wrapping_sub(1),
        11 | 12 => part,
        13 | 14 => part.saturating_add(1),
        15 => part.saturating_add(2),
        16 => part.saturating_add(7),
        17 => 127,
        18 => random.within(1, 12) as u16,
        _ => random.below(128) as u16,
    };
    limit.min(127) as u8
}
