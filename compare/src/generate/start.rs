//! Starts of our own discovery.

use kajakulm::{StartFields, Target};

use super::maker::{flag, Maker};
use super::targets::targets;
use super::world::{compr, shared_octets};
use crate::list::Event;
use crate::prng::Random;

pub fn start(maker: &mut Maker) -> Event {
    let Maker { random, world, .. } = maker;
    let shared = shared_octets(&world.own, &world.own.receiving);
    let mut fields = StartFields {
        instance: random.pick(&world.instances),
        h: flag(random, 50),
        compr: compr(random, shared),
        l: random.below(4) as u8,
        limit: random.pick(&[0, 0, 1, 5, 126, 127]),
    };
    let mut targets = targets(random, world, None);
    if random.percent(10) {
        spoil(random, &mut fields, &mut targets);
    }
    Event::Start { fields, targets }
}

/// What answer 1 names of a start, and what is just not it.
fn spoil(random: &mut Random, fields: &mut StartFields, targets: &mut Vec<Target>) {
    match random.below(8) {
        0 => fields.l = random.pick(&[4, 255]),
        1 => fields.compr = random.pick(&[15, 16, 255]),
        2 => fields.limit = random.pick(&[127, 128, 255]),
        3 => targets.clear(),
        4 => set_plen(random, targets),
        5 => nine(random, targets),
        6 => {
            nine(random, targets);
            targets.pop();
        }
        _ => {
            // Nine with a repeat are eight.
            nine(random, targets);
            targets[8] = targets[random.below(8)];
            targets[8].seq = random.octet();
        }
    }
}

fn set_plen(random: &mut Random, targets: &mut [Target]) {
    if targets.is_empty() {
        return;
    }
    let place = random.below(targets.len());
    targets[place].plen = random.pick(&[127, 128, 129, 255]);
}

/// Nine targets, all different.
fn nine(random: &mut Random, targets: &mut Vec<Target>) {
    let first = random.array();
    targets.clear();
    for place in 0..9 {
        let mut addr: [u8; 16] = first;
        addr[15] = place;
        let seq = random.octet();
        targets.push(Target { seq, plen: 0, addr });
    }
}
