//! States that a host hands in: good ones, bad ones, rows of any octets.

use kajakulm::{InstanceRow, RouteRow, Target};

use super::maker::{flag, Maker};
use super::targets::targets;
use super::time::LAST_TIME;
use super::world::{near, seq_at_an_edge};
use crate::list::Step;
use crate::prng::Random;
use crate::rows::{self, REPLY, REQUEST, ROUTE};

const LAST_DEADLINE: u64 = 1 << 41;

/// A row with any octets in it.
pub fn any_row(random: &mut Random) -> InstanceRow {
    InstanceRow {
        kind: random.octet(),
        instance: random.octet(),
        seq: random.octet(),
        s: random.octet(),
        h: random.octet(),
        replied: random.octet(),
        endless: random.octet(),
        count: random.octet(),
        rank: random.word(),
        dodagid: random.array(),
        neighbour: random.array(),
        targets: core::array::from_fn(|_| any_target(random)),
        deadline: random.draw() >> random.below(64),
    }
}

fn any_target(random: &mut Random) -> Target {
    Target {
        seq: random.octet(),
        plen: random.octet(),
        addr: random.array(),
    }
}

pub fn any_route(random: &mut Random) -> RouteRow {
    RouteRow {
        kind: random.octet(),
        instance: random.octet(),
        seq: random.octet(),
        endless: random.octet(),
        source: random.array(),
        destination: random.array(),
        next: random.array(),
        deadline: random.draw() >> random.below(64),
    }
}

/// Clock and own number, then rows; no two of the same key.
pub fn hand_in_good(maker: &mut Maker) {
    let clock = clock(&mut maker.random);
    maker.add(Step::Clock(clock));
    let seq = seq_at_an_edge(&mut maker.random).max(1);
    maker.add(Step::Seq(seq));
    for place in 0..maker.list.instances {
        if maker.random.percent(70) {
            hand_in_row(maker, place);
        }
    }
    for place in 0..maker.list.routes {
        if maker.random.percent(70) {
            hand_in_route(maker, place);
        }
    }
}

/// Rows of which most have a key of their own.
pub fn hand_in_crowd(maker: &mut Maker) {
    let clock = clock(&mut maker.random);
    maker.add(Step::Clock(clock));
    for place in 0..maker.list.instances {
        let mut row = sensible_row(maker);
        row.dodagid[9..11].copy_from_slice(&(place as u16).to_be_bytes());
        if maker.random.percent(90) {
            maker.add(Step::Row(place, Box::new(row)));
        }
    }
    for place in 0..maker.list.routes {
        let mut row = sensible_route(maker);
        row.destination[9..11].copy_from_slice(&(place as u16).to_be_bytes());
        if maker.random.percent(90) {
            maker.add(Step::Route(place, Box::new(row)));
        }
    }
    // Two rows and two routes that the calls can meet.
    for place in 0..2 {
        hand_in_row(maker, place);
        hand_in_route(maker, place);
    }
}

fn clock(random: &mut Random) -> u64 {
    match random.below(12) {
        0..=2 => 0,
        3..=8 => random.below(1_000_000) as u64,
        9 => LAST_TIME - random.below(300_000) as u64,
        10 => LAST_TIME - random.below(3) as u64,
        _ => match random.below(10) {
            0 => LAST_TIME + 1,
            _ => random.draw() & (LAST_TIME - 1),
        },
    }
}

fn hand_in_row(maker: &mut Maker, place: usize) {
    let row = sensible_row(maker);
    let same = |other: &InstanceRow| {
        (other.kind, other.instance, other.dodagid) == (row.kind, row.instance, row.dodagid)
    };
    if !maker.host.instances.iter().any(same) {
        maker.add(Step::Row(place, Box::new(row)));
    }
}

fn hand_in_route(maker: &mut Maker, place: usize) {
    let row = sensible_route(maker);
    let same = |other: &RouteRow| {
        (other.source, other.destination, other.instance)
            == (row.source, row.destination, row.instance)
    };
    if !maker.host.routes.iter().any(same) {
        maker.add(Step::Route(place, Box::new(row)));
    }
}

/// Just dead, just alive, or with some time left.
fn deadline(random: &mut Random, clock: u64) -> u64 {
    let deadline = match random.below(12) {
        0..=3 => (clock + random.below(5) as u64).saturating_sub(2),
        4..=9 => clock + random.below(100_000) as u64,
        10 => LAST_DEADLINE,
        _ => random.below(1000) as u64,
    };
    deadline.min(LAST_DEADLINE)
}

fn sensible_row(maker: &mut Maker) -> InstanceRow {
    let clock = maker.host.clock.min(LAST_TIME);
    let Maker { random, world, .. } = maker;
    let is_request = random.percent(65);
    let own = &world.own;
    let dodagid = match random.below(10) {
        0 | 1 => own.receiving,
        2 => own.sending,
        _ if is_request => random.pick(&world.origins),
        _ => random.pick(&world.ends),
    };
    let mut row = InstanceRow {
        kind: if is_request { REQUEST } else { REPLY },
        instance: random.pick(&world.instances),
        seq: seq_at_an_edge(random),
        s: flag(random, 60),
        h: flag(random, 50),
        replied: flag(random, 30),
        endless: flag(random, 30),
        count: 0,
        rank: random.word() % 4000,
        dodagid,
        neighbour: random.pick(&world.neighbours),
        targets: [Target::default(); 8],
        deadline: deadline(random, clock),
    };
    let given = targets(random, world, None);
    row.count = given.len().min(8) as u8;
    for (place, target) in row.targets.iter_mut().zip(given) {
        *place = target;
    }
    row
}

fn sensible_route(maker: &mut Maker) -> RouteRow {
    let clock = maker.host.clock.min(LAST_TIME);
    let Maker { random, world, .. } = maker;
    let (source, destination) = match random.percent(60) {
        true => (world.own.receiving, random.pick(&world.origins)),
        false => (random.pick(&world.origins), random.pick(&world.ends)),
    };
    RouteRow {
        kind: ROUTE,
        instance: random.pick(&world.instances),
        seq: seq_at_an_edge(random),
        endless: flag(random, 40),
        source,
        destination,
        next: random.pick(&world.neighbours),
        deadline: deadline(random, clock),
    }
}

/// Hands in something that answer 2 names, or that is just not it.
pub fn hand_in_defect(maker: &mut Maker) {
    match maker.random.below(8) {
        0 => maker.add(Step::Seq(0)),
        1 | 2 => twin_row(maker),
        3 => twin_route(maker),
        4 => defect_in_route(maker),
        _ => defect_in_row(maker),
    }
}

fn some_place(maker: &mut Maker, count: usize) -> Option<usize> {
    (count > 0).then(|| maker.random.below(count))
}

fn defect_in_row(maker: &mut Maker) {
    let Some(place) = some_place(maker, maker.list.instances) else {
        return;
    };
    let mut row = maker.host.instances[place];
    let random = &mut maker.random;
    match random.below(6) {
        0 => row.count = random.pick(&[8, 9, 9, 255]),
        1 => row.targets[random.below(8)].plen = random.pick(&[127, 128, 128, 255]),
        2 => row.deadline = late_deadline(random),
        3 => row = any_row(random),
        4 => row.kind = random.pick(&[0, 1, 2, 3, 255]),
        _ => {
            row.count = 8;
            row.kind = REQUEST;
            row.targets[random.below(8)].plen = 128;
            row.deadline = 0;
            row.endless = 0;
        }
    }
    maker.add(Step::Row(place, Box::new(row)));
}

fn late_deadline(random: &mut Random) -> u64 {
    random.pick(&[
        LAST_DEADLINE,
        LAST_DEADLINE + 1,
        LAST_DEADLINE + 1,
        u64::MAX,
    ])
}

fn defect_in_route(maker: &mut Maker) {
    let Some(place) = some_place(maker, maker.list.routes) else {
        return;
    };
    let mut row = maker.host.routes[place];
    let random = &mut maker.random;
    match random.below(4) {
        0 => row = any_route(random),
        1 => row.kind = random.pick(&[0, 1, 2, 255]),
        _ => row.deadline = late_deadline(random),
    }
    maker.add(Step::Route(place, Box::new(row)));
}

/// The same key twice, or nearly; live at the clock, or nearly.
fn twin_row(maker: &mut Maker) {
    let count = maker.list.instances;
    let clock = maker.host.clock;
    let used = |row: &InstanceRow| rows::is_used(row);
    let (Some(place), Some(mut row)) = (some_place(maker, count), maker.one_row(used)) else {
        return;
    };
    let random = &mut maker.random;
    match random.below(10) {
        0 => row.kind = REQUEST + REPLY - row.kind,
        1 => row.instance ^= 1 << random.below(8),
        2 => row.dodagid = near(random, row.dodagid),
        3 => row.deadline = clock,
        4 => row.deadline = clock.saturating_add(1),
        5 => row.endless = 1,
        _ => {}
    }
    maker.add(Step::Row(place, Box::new(row)));
}

fn twin_route(maker: &mut Maker) {
    let count = maker.list.routes;
    let clock = maker.host.clock;
    let (Some(from), Some(place)) = (some_place(maker, count), some_place(maker, count)) else {
        return;
    };
    let mut row = maker.host.routes[from];
    let random = &mut maker.random;
    match random.below(10) {
        0 => row.instance ^= 1 << random.below(8),
        1 => row.source = near(random, row.source),
        2 => row.destination = near(random, row.destination),
        3 => row.deadline = clock,
        4 => row.deadline = clock.saturating_add(1),
        5 => row.endless = 1,
        _ => {}
    }
    maker.add(Step::Route(place, Box::new(row)));
}
