//! Received requests.

use kajakulm::{Address, InstanceRow, Link};

use super::maker::{flag, Maker, Message, Whose};
use super::ranks::{ranks, Ranks};
use super::targets::targets;
use super::world::{compr, seq_near, shared_octets, unfit};
use crate::prng::Random;
use crate::wire::{most_addresses, Draft, MODE, RREQ};

pub fn request(maker: &mut Maker, time: u64) -> Message {
    let known = match maker.random.percent(70) {
        true => maker.request_row(time, Whose::Others),
        false => None,
    };
    let (instance, dodagid) = key(maker, known.as_ref());
    let mut draft = Draft::new(RREQ, instance, dodagid);
    let Maker { random, world, .. } = maker;
    draft.third = match &known {
        Some(row) => seq_near(random, row.seq),
        None => seq_near(random, world.seq),
    };
    draft.targets = targets(random, world, known.as_ref());
    draft.flag = random.percent(75);
    draft.h = match &known {
        Some(row) if random.percent(80) => row.h != 0,
        _ => random.percent(50),
    };
    let wanted = wanted_rank(random, known.as_ref());
    let ranks = ranks(random, wanted);
    set_ranks(&mut draft, &ranks);
    set_route(maker, &mut draft);
    set_rest(&mut maker.random, &mut draft);
    let random = &mut maker.random;
    let link = Link {
        neighbour: random.pick(&maker.world.neighbours),
        upward: flag(random, 94),
        downward: flag(random, 75),
        increase: ranks.increase,
        group: flag(random, 85),
    };
    Message { draft, link }
}

/// RPLInstanceID and DODAGID.
fn key(maker: &mut Maker, known: Option<&InstanceRow>) -> (u8, Address) {
    let Maker { random, world, .. } = maker;
    let (instance, dodagid) = match known {
        Some(row) => (row.instance, row.dodagid),
        None => (random.pick(&world.instances), random.pick(&world.origins)),
    };
    match random.below(60) {
        0 => (instance, world.own.receiving),
        1 => (instance, world.own.sending),
        2 => (instance, unfit(random)),
        3 => (instance.wrapping_add(1), dodagid),
        4 => (instance, random.pick(&world.ends)),
        _ => (instance, dodagid),
    }
}

/// An own rank just under, at or over the row's; often well under it.
pub fn wanted_rank(random: &mut Random, known: Option<&InstanceRow>) -> Option<u16> {
    let rank = known?.rank;
    match random.below(10) {
        0 | 1 => Some(rank.saturating_sub(1)),
        2 => Some(rank),
        3 => Some(rank.saturating_add(1)),
        4..=6 => Some(rank.saturating_sub(rank / 4)),
        _ => None,
    }
}

pub fn set_ranks(draft: &mut Draft, ranks: &Ranks) {
    draft.configuration = ranks.configuration;
    draft.rank = ranks.rank;
    draft.limit = ranks.limit;
}

/// Compr and vector.
fn set_route(maker: &mut Maker, draft: &mut Draft) {
    let Maker { random, world, .. } = maker;
    draft.compr = compr(random, shared_octets(&world.own, &draft.dodagid));
    if draft.h {
        return;
    }
    draft.vector = hops(random, &world.hops, draft.compr);
    if random.one_in(15) {
        let own = random.pick(&[world.own.receiving, world.own.sending]);
        insert(random, &mut draft.vector, own, draft.compr);
    }
}

/// Some hops, now and then as many as fit, and more than 16.
pub fn hops(random: &mut Random, hops: &[Address], compr: u8) -> Vec<Address> {
    let most = most_addresses(compr);
    let count = match random.below(20) {
        0..=11 => random.below(5),
        12..=14 => most.min(16).saturating_sub(random.below(4)),
        15 | 16 => random.within(13, 18),
        17 => most,
        _ => random.below(17),
    };
    (0..count.min(most)).map(|_| random.pick(hops)).collect()
}

/// Puts an address somewhere into the vector, in the place of another if there
/// is no more room.
pub fn insert(random: &mut Random, vector: &mut Vec<Address>, address: Address, compr: u8) {
    let place = random.below(vector.len() + 1);
    vector.insert(place, address);
    if vector.len() > most_addresses(compr) {
        vector.pop();
    }
}

/// The fields that are copied or ignored.
pub fn set_rest(random: &mut Random, draft: &mut Draft) {
    draft.l = random.below(4) as u8;
    if random.percent(40) {
        draft.version = random.octet();
        draft.mode = MODE | random.octet() & 0xc7;
        draft.ignored = random.array();
        draft.x = random.percent(50);
        draft.art_x = random.percent(50);
    }
}
