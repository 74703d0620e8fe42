//! One call: what happens, when, and with which buffers and addresses.

use kajakulm::{InstanceRow, Settings};

use super::damage::octets_of;
use super::maker::Maker;
use super::reply::reply;
use super::request::request;
use super::start::start;
use super::time::{next_time, LAST_TIME};
use super::world::unfit;
use crate::list::{Call, Event};
use crate::rows::{is_live, REQUEST};

/// How calls of a list are made.
#[derive(Clone, Copy)]
pub struct Habits {
    /// Of 100 calls, how many start a discovery, and how many are replies.
    pub starts: usize,
    pub replies: usize,
    /// May a call have other addresses than the list's?
    pub other_own: bool,
}

pub fn add_calls(maker: &mut Maker, habits: Habits, count: usize) {
    for _ in 0..count {
        let call = call(maker, habits);
        maker.add_call(call);
    }
}

fn call(maker: &mut Maker, habits: Habits) -> Call {
    let time = next_time(maker);
    let event = event(maker, habits, time);
    let mut call = Call::new(time, event);
    if maker.random.percent(4) {
        spoil(maker, &mut call);
    }
    if habits.other_own && maker.random.percent(3) {
        call.own = Some(other_own(maker));
    }
    call
}

fn event(maker: &mut Maker, habits: Habits, time: u64) -> Event {
    let choice = maker.random.below(100);
    // Replies to nobody are rare.
    let has_partner = |row: &InstanceRow| row.kind == REQUEST && is_live(row, time);
    let may_reply = maker.host.instances.iter().any(has_partner) || maker.random.one_in(8);
    if choice < habits.starts {
        return start(maker);
    }
    let message = match choice < habits.starts + habits.replies && may_reply {
        true => reply(maker, time),
        false => request(maker, time),
    };
    let octets = octets_of(&mut maker.random, &message);
    message.event(octets)
}

/// A bad time, or a buffer that is too short or longer than it need be.
fn spoil(maker: &mut Maker, call: &mut Call) {
    let clock = maker.host.clock;
    let random = &mut maker.random;
    match random.below(8) {
        0 | 1 => call.time = clock.saturating_sub(1),
        2 => call.time = random.pick(&[LAST_TIME + 1, u64::MAX]),
        3 => call.forward_size = random.pick(&[0, 1, 1235, 1235]),
        4 => call.reply_size = random.pick(&[0, 1, 1235, 1235]),
        5 => call.forward_size = random.pick(&[1237, 2000]),
        6 => call.reply_size = random.pick(&[1237, 2000]),
        _ => overlong(call),
    }
}

/// A message over 1,236 octets, or exactly so many.
fn overlong(call: &mut Call) {
    let size = 1236 + (call.time % 2) as usize;
    if let Event::Message { octets, .. } = &mut call.event {
        octets.resize(size, 0);
    }
}

fn other_own(maker: &mut Maker) -> Settings {
    let Maker { random, world, .. } = maker;
    let mut own = world.own;
    match random.below(6) {
        0 => own.receiving = unfit(random),
        1 => own.sending = unfit(random),
        2 => (own.receiving, own.sending) = (own.sending, own.receiving),
        3 => own.receiving = random.pick(&world.origins),
        4 => own.sending = random.pick(&world.ends),
        _ => own.sending = random.pick(&world.hops),
    }
    own
}
