//! Received replies, most of them to request rows that are there.

use kajakulm::{Address, InstanceRow, Link, Target};

use super::maker::{flag, Maker, Message, Whose};
use super::ranks::ranks;
use super::request::{hops, insert, set_ranks, set_rest, wanted_rank};
use super::world::{compr, near, seq_near, shared_octets};
use crate::prng::Random;
use crate::rows;
use crate::wire::{Draft, RREP};

/// Which request row is answered, and which reply row may be met.
struct Pair {
    partner: InstanceRow,
    delta: u8,
    known: Option<InstanceRow>,
}

pub fn reply(maker: &mut Maker, time: u64) -> Message {
    let pair = pair(maker, time);
    let partner = pair.partner;
    let instance = partner.instance.wrapping_add(pair.delta);
    let dodagid = match &pair.known {
        Some(row) => row.dodagid,
        None => targ_node(maker, &partner),
    };
    let mut draft = Draft::new(RREP, instance, dodagid);
    let Maker { random, world, .. } = maker;
    draft.third = pair.delta << 2;
    draft.flag = random.percent(20);
    draft.h = (partner.h != 0) != random.one_in(14);
    let seq = pair.known.map_or(world.seq, |row| row.seq);
    draft.targets = vec![Target {
        seq: seq_near(random, seq),
        plen: 0,
        addr: partner.dodagid,
    }];
    let link = Link {
        neighbour: random.pick(&world.neighbours),
        upward: flag(random, 60),
        downward: flag(random, 90),
        increase: 0,
        group: flag(random, 45),
    };
    let mut message = Message { draft, link };
    set_reply_ranks(maker, &mut message, pair.known.as_ref());
    set_route(maker, &mut message, &partner);
    set_rest(&mut maker.random, &mut message.draft);
    mislead(maker, &mut message.draft);
    message
}

fn set_reply_ranks(maker: &mut Maker, message: &mut Message, known: Option<&InstanceRow>) {
    let random = &mut maker.random;
    let wanted = wanted_rank(random, known);
    let mut ranks = ranks(random, wanted);
    // A symmetric reply's own rank is the advertised one.
    if let (0, Some(rank)) = (message.link.group, wanted) {
        ranks.rank = rank;
    }
    set_ranks(&mut message.draft, &ranks);
    message.link.increase = ranks.increase;
}

/// A partner, and often a reply row that is there already.
fn pair(maker: &mut Maker, time: u64) -> Pair {
    let (first, then) = match maker.random.percent(45) {
        true => (Whose::Ours, Whose::Others),
        false => (Whose::Others, Whose::Ours),
    };
    let found = maker.request_row(time, first);
    let found = found.or_else(|| maker.request_row(time, then));
    let partner = found.unwrap_or_else(|| invented(maker));
    let receiving = maker.world.own.receiving;
    let known = match maker.random.percent(55) {
        true => maker.one_row(|row| {
            row.kind == rows::REPLY
                && row.instance.wrapping_sub(partner.instance) <= 63
                && row.dodagid != receiving
        }),
        false => None,
    };
    let delta = match &known {
        Some(row) => row.instance.wrapping_sub(partner.instance),
        None => delta(&mut maker.random),
    };
    Pair {
        partner,
        delta,
        known,
    }
}

fn delta(random: &mut Random) -> u8 {
    match random.below(10) {
        0..=5 => 0,
        6 | 7 => random.within(1, 3) as u8,
        8 => 63,
        _ => random.below(64) as u8,
    }
}

fn invented(maker: &mut Maker) -> InstanceRow {
    let Maker { random, world, .. } = maker;
    InstanceRow {
        kind: rows::REQUEST,
        instance: random.pick(&world.instances),
        dodagid: random.pick(&world.origins),
        h: random.below(2) as u8,
        s: random.below(2) as u8,
        ..InstanceRow::default()
    }
}

/// The reply's DODAGID: a target of the request, or another end.
fn targ_node(maker: &mut Maker, partner: &InstanceRow) -> Address {
    let Maker { random, world, .. } = maker;
    let count = usize::from(partner.count).min(8);
    match random.below(20) {
        0..=8 if count > 0 => partner.targets[random.below(count)].addr,
        19 => random.pick(&[world.own.receiving, world.own.sending]),
        _ => random.pick(&world.ends),
    }
}

/// Compr and vector: our receiving address stands in a symmetric reply's.
fn set_route(maker: &mut Maker, message: &mut Message, partner: &InstanceRow) {
    let Maker { random, world, .. } = maker;
    let draft = &mut message.draft;
    draft.compr = compr(random, shared_octets(&world.own, &draft.dodagid));
    if draft.h {
        return;
    }
    draft.vector = hops(random, &world.hops, draft.compr);
    let is_symmetric = partner.s != 0 && message.link.group == 0;
    let is_ours = [world.own.receiving, world.own.sending].contains(&partner.dodagid);
    let own = &world.own;
    if is_symmetric && !is_ours && random.percent(88) {
        insert(random, &mut draft.vector, own.receiving, draft.compr);
        if random.percent(10) {
            let again = random.pick(&[own.receiving, own.sending]);
            insert(random, &mut draft.vector, again, draft.compr);
        }
    } else if random.one_in(15) {
        let again = random.pick(&[own.receiving, own.sending]);
        insert(random, &mut draft.vector, again, draft.compr);
    }
}

/// Now and then the partner is just missed.
fn mislead(maker: &mut Maker, draft: &mut Draft) {
    let Maker { random, .. } = maker;
    draft.third |= random.octet() & random.pick(&[0, 0, 3]);
    match random.below(40) {
        0 => draft.third ^= 4 << random.below(6),
        1 => draft.instance = draft.instance.wrapping_add(1),
        2 => draft.targets[0].addr = near(random, draft.targets[0].addr),
        3 => draft.targets[0].plen = random.within(1, 127) as u8,
        _ => {}
    }
}
