//! The kinds of lists.

use kajakulm::InstanceRow;

use super::calls::{add_calls, Habits};
use super::damage::damaged;
use super::maker::{Maker, Message};
use super::reply::reply;
use super::request::request;
use super::state::{any_route, any_row, hand_in_crowd, hand_in_defect, hand_in_good};
use super::targets;
use super::time::{next_time, LAST_TIME};
use super::world::unfit;
use crate::list::{Call, List, Step};
use crate::node;
use crate::prng::Random;
use crate::rows::{REPLY, REQUEST, ROUTE};

/// The list of this seed.
pub fn list(seed: u64) -> List {
    let mut random = Random::new(seed);
    match random.below(100) {
        0..=47 => fresh(random),
        48 | 49 => crowded(random),
        50..=74 => handed_in(random),
        75..=86 => bad_state(random),
        87..=90 => late(random),
        91 | 92 => flood(random),
        93 | 94 => full_of_replies(random),
        95 | 96 => every_cut(random),
        97 | 98 => every_octet(random),
        _ => unfit_own(random),
    }
}

fn few(random: &mut Random) -> usize {
    random.pick(&[0, 1, 2, 2, 3, 3, 4, 4, 5, 6, 6, 12])
}

fn small_maker(mut random: Random) -> Maker {
    let (instances, routes) = (few(&mut random), few(&mut random));
    Maker::new(random, instances, routes)
}

fn habits(random: &mut Random, other_own: bool) -> Habits {
    Habits {
        starts: random.pick(&[5, 10, 20]),
        replies: random.pick(&[20, 40, 55]),
        other_own,
    }
}

/// A fresh node, with anything in its rows, which are not in use.
fn fresh(random: Random) -> List {
    let mut maker = small_maker(random);
    if maker.random.percent(30) {
        fill_unused(&mut maker);
    }
    let habits = habits(&mut maker.random, false);
    let count = maker.random.within(5, 60);
    add_calls(&mut maker, habits, count);
    maker.list
}

fn fill_unused(maker: &mut Maker) {
    for place in 0..maker.list.instances {
        let mut row = any_row(&mut maker.random);
        if row.kind == REQUEST || row.kind == REPLY {
            row.kind = 0;
        }
        maker.add(Step::Row(place, Box::new(row)));
    }
    for place in 0..maker.list.routes {
        let mut row = any_route(&mut maker.random);
        if row.kind == ROUTE {
            row.kind = 0;
        }
        maker.add(Step::Route(place, Box::new(row)));
    }
}

/// Rows and numbers handed in; now and then more of them between the calls.
fn handed_in(random: Random) -> List {
    let mut maker = small_maker(random);
    hand_in_good(&mut maker);
    if maker.random.percent(10) {
        hand_in_tally(&mut maker);
    }
    let habits = habits(&mut maker.random, true);
    for _ in 0..maker.random.within(1, 4) {
        let count = maker.random.within(3, 15);
        add_calls(&mut maker, habits, count);
        defect_and_repair(&mut maker, habits);
    }
    maker.list
}

/// Many rows in use, now and then a gateway's; often two of the same key.
fn crowded(mut random: Random) -> List {
    let rows = match random.one_in(20) {
        true => random.within(2_100, 4_000),
        false => random.within(15, 90),
    };
    let routes = random.within(rows / 2, rows);
    let mut maker = Maker::new(random, rows, routes);
    hand_in_crowd(&mut maker);
    let habits = habits(&mut maker.random, true);
    for _ in 0..4 {
        defect_and_repair(&mut maker, habits);
        add_calls(&mut maker, habits, 2);
    }
    maker.list
}

/// Counts that are about to pass 2^32.
fn hand_in_tally(maker: &mut Maker) {
    for answer in 0..18 {
        let count = u32::MAX - maker.random.below(3) as u32;
        maker.add(Step::Tally(answer, count));
    }
}

/// A defect, a call, and the state as it was.
fn defect_and_repair(maker: &mut Maker, habits: Habits) {
    let before = maker.host.clone();
    hand_in_defect(maker);
    add_calls(maker, habits, 1);
    maker.restore(&before);
}

/// Few calls from a state with one defect or more, or from any octets at all.
fn bad_state(random: Random) -> List {
    let mut maker = small_maker(random);
    hand_in_good(&mut maker);
    if maker.random.one_in(8) {
        hand_in_anything(&mut maker);
    }
    for _ in 0..maker.random.within(1, 2) {
        hand_in_defect(&mut maker);
    }
    let habits = habits(&mut maker.random, true);
    let count = maker.random.within(1, 4);
    add_calls(&mut maker, habits, count);
    maker.list
}

fn hand_in_anything(maker: &mut Maker) {
    for place in 0..maker.list.instances {
        let row = any_row(&mut maker.random);
        maker.add(Step::Row(place, Box::new(row)));
    }
    for place in 0..maker.list.routes {
        let row = any_route(&mut maker.random);
        maker.add(Step::Route(place, Box::new(row)));
    }
}

/// A node whose clock nears 2^40.
fn late(random: Random) -> List {
    let mut maker = small_maker(random);
    let left = maker.random.pick(&[0, 1, 2, 16_000, 64_001, 300_000]);
    maker.add(Step::Clock(LAST_TIME - left));
    let habits = habits(&mut maker.random, true);
    let count = maker.random.within(5, 40);
    add_calls(&mut maker, habits, count);
    maker.list
}

/// A request for us with our target alone, endless, on a good link.
fn for_us(maker: &mut Maker, instance: u8, seq: u8) -> Message {
    let time = maker.host.clock;
    let mut message = request(maker, time);
    let Maker { random, world, .. } = maker;
    let draft = &mut message.draft;
    draft.instance = instance;
    draft.third = seq;
    draft.l = random.pick(&[0, 0, 0, 3]);
    draft.rank = 256;
    draft.limit = 0;
    draft.configuration = None;
    draft.h = false;
    draft.vector.clear();
    draft.compr = 0;
    draft.targets = vec![targets::own(random, &world.own)];
    message.link.upward = 1;
    message.link.increase = 256;
    message
}

/// One request, newer each time, until no Delta or no row is free.
fn flood(mut random: Random) -> List {
    let rows = random.within(60, 75);
    let mut maker = Maker::new(random, rows, 2);
    let instance = maker.random.pick(&maker.world.instances);
    let origins = maker.world.origins.clone();
    let first = maker.world.seq;
    for number in 0..maker.random.within(64, 80) {
        let mut message = for_us(&mut maker, instance, first.wrapping_add(number as u8));
        message.draft.dodagid = origins[number % origins.len()];
        let octets = message.draft.octets();
        let time = maker.host.clock + number as u64 % 2;
        maker.add_call(Call::new(time, message.event(octets)));
    }
    let habits = habits(&mut maker.random, false);
    add_calls(&mut maker, habits, 10);
    maker.list
}

/// Reply rows with consecutive numbers handed in, 64 or nearly.
fn full_of_replies(mut random: Random) -> List {
    let rows = random.within(64, 72);
    let mut maker = Maker::new(random, rows, 2);
    let first = maker.random.pick(&maker.world.instances);
    let receiving = maker.world.own.receiving;
    for place in 0..64 {
        let row = InstanceRow {
            kind: REPLY,
            instance: first.wrapping_add(place as u8),
            dodagid: receiving,
            seq: 1,
            rank: 256,
            endless: u8::from(maker.random.percent(90)),
            deadline: 500 + place as u64 % 3,
            ..InstanceRow::default()
        };
        maker.add(Step::Row(place, Box::new(row)));
    }
    if maker.random.percent(60) {
        leave_one_free(&mut maker);
    }
    for _ in 0..8 {
        let instance = first.wrapping_add(maker.random.pick(&[0, 0, 0, 1, 255, 63]));
        let seq = maker.world.seq;
        let message = for_us(&mut maker, instance, seq);
        let octets = message.draft.octets();
        let time = maker.host.clock + maker.random.pick(&[0, 0, 1, 499, 500, 501]);
        maker.add_call(Call::new(time, message.event(octets)));
    }
    maker.list
}

/// One of the numbers is free after all.
fn leave_one_free(maker: &mut Maker) {
    let place = maker.random.below(64);
    let mut row = maker.host.instances[place];
    let random = &mut maker.random;
    match random.below(4) {
        0 => row.kind = REQUEST,
        1 => row.kind = 0,
        2 => row.dodagid[15] ^= 1,
        _ => (row.endless, row.deadline) = (0, random.pick(&[0, 1, 499, 500])),
    }
    maker.add(Step::Row(place, Box::new(row)));
}

/// A state with rows, and a message that it accepts, if one is found soon.
fn with_message(random: Random) -> (Maker, u64, Message) {
    let mut maker = small_maker(random);
    hand_in_good(&mut maker);
    for _ in 0..30 {
        let (time, message) = some_message(&mut maker);
        let call = Call::new(time, message.event(message.draft.octets()));
        let mut host = maker.host.clone();
        if host.call(node::second, &call, 0).answer == 0 {
            return (maker, time, message);
        }
    }
    let (time, message) = some_message(&mut maker);
    (maker, time, message)
}

fn some_message(maker: &mut Maker) -> (u64, Message) {
    let time = next_time(maker);
    let message = match maker.random.percent(50) {
        true => request(maker, time),
        false => reply(maker, time),
    };
    (time, message)
}

/// A message cut at each of its lengths.
fn every_cut(random: Random) -> List {
    let (mut maker, time, message) = with_message(random);
    let octets = message.draft.octets();
    for length in 0..=octets.len() {
        let call = Call::new(time, message.event(octets[..length].to_vec()));
        call_and_restore(&mut maker, call);
    }
    maker.list
}

/// A message with each of its octets damaged in turn.
fn every_octet(random: Random) -> List {
    let (mut maker, time, message) = with_message(random);
    let octets = message.draft.octets();
    for place in 0..octets.len() {
        let mut changed = octets.clone();
        changed[place] = match maker.random.percent(50) {
            true => maker.random.octet(),
            false => changed[place] ^ 1 << maker.random.below(8),
        };
        call_and_restore(&mut maker, Call::new(time, message.event(changed)));
    }
    for _ in 0..5 {
        let changed = damaged(&mut maker.random, octets.clone());
        call_and_restore(&mut maker, Call::new(time, message.event(changed)));
    }
    maker.list
}

/// A call, and then the state before it.
fn call_and_restore(maker: &mut Maker, call: Call) {
    let before = maker.host.clone();
    maker.add_call(call);
    maker.restore(&before);
}

/// Own addresses that no call can use.
fn unfit_own(random: Random) -> List {
    let mut maker = small_maker(random);
    let mut own = maker.list.own;
    match maker.random.percent(50) {
        true => own.receiving = unfit(&mut maker.random),
        false => own.sending = unfit(&mut maker.random),
    }
    maker.list.own = own;
    maker.host.own = own;
    let habits = habits(&mut maker.random, false);
    add_calls(&mut maker, habits, 4);
    maker.list
}
