//! Single situations that a run must have met.

use kajakulm::{InstanceRow, NEIGHBOUR};
use reference::wire::{self, Message};

use crate::list::Event;
use crate::lockstep::Seen;
use crate::rows;

pub type Mark = (&'static str, fn(&Seen) -> bool);

const LAST_TIME: u64 = 1 << 40;

pub const MARKS: &[Mark] = &[
    ("time one before a deadline", |seen| at_deadline(seen, -1)),
    ("time at a deadline", |seen| at_deadline(seen, 0)),
    ("time one after a deadline", |seen| at_deadline(seen, 1)),
    ("time before the clock", |seen| {
        seen.call.time.checked_add(1) == Some(seen.before.clock)
    }),
    ("time again", |seen| {
        is_done(seen) && seen.call.time == seen.before.clock
    }),
    ("time 2^40", |seen| {
        is_done(seen) && seen.call.time == LAST_TIME
    }),
    ("time over 2^40", |seen| seen.call.time == LAST_TIME + 1),
    ("own number from 127 to 1", |seen| steps(seen, 127)),
    ("own number from 255 to 1", |seen| steps(seen, 255)),
    ("a count of the tally from 2^32 - 1 to 0", |seen| {
        let answer = usize::from(seen.outcome.answer);
        seen.before.tally.counts[answer] == u32::MAX && seen.after.tally.counts[answer] == 0
    }),
    ("forward buffer of 1,235", |seen| {
        seen.call.forward_size == 1235
    }),
    ("reply buffer of 1,235", |seen| seen.call.reply_size == 1235),
    ("message of 1,236 octets, done", |seen| {
        is_done(seen) && octets(seen).is_some_and(|octets| octets.len() == 1236)
    }),
    ("message of 1,237 octets", |seen| {
        octets(seen).is_some_and(|octets| octets.len() == 1237)
    }),
    ("start with 9 targets, done", |seen| {
        is_done(seen)
            && matches!(&seen.call.event, Event::Start { targets, .. } if targets.len() == 9)
    }),
    ("no instance row at all: 17", |seen| {
        seen.outcome.answer == 17 && seen.before.instances.is_empty()
    }),
    ("no route row at all: 17", |seen| {
        let is_free = |row: &&InstanceRow| !rows::is_live(row, seen.call.time);
        let free = seen.before.instances.iter().filter(is_free).count();
        seen.outcome.answer == 17 && seen.before.routes.is_empty() && free >= 2
    }),
    ("more than 64 rows in use: 2", |seen| {
        seen.outcome.answer == 2 && used(seen) > 64
    }),
    ("more than 2,000 rows in use, done", |seen| {
        is_done(seen) && used(seen) > 2_000
    }),
    ("own addresses that differ at once, done", |seen| {
        is_done(seen) && seen.before.own.receiving[0] != seen.before.own.sending[0]
    }),
    ("symmetric reply to our own sending address", |seen| {
        let own = seen.call.own.unwrap_or(seen.before.own);
        seen.outcome.forward_way == NEIGHBOUR && seen.outcome.forward_neighbour == own.sending
    }),
    ("endless by Default Lifetime 255, done", |seen| {
        of_done(seen, |message| {
            let lifetime = message.configuration.map(|known| known.default_lifetime());
            message.h && lifetime == Some(255)
        })
    }),
    ("odd MinHopRankIncrease, done", |seen| {
        of_done(seen, |message| {
            message.min_hop_rank_increase().get() % 2 == 1
        })
    }),
    ("RREP with G 1, done", |seen| {
        of_done(seen, |message| {
            message.kind == wire::Kind::Rrep && message.flag
        })
    }),
    ("vector of 16 addresses, done", |seen| {
        of_done(seen, |message| message.vector.len() == 16)
    }),
    ("8 targets, done", |seen| {
        of_done(seen, |message| message.targets.len() == 8)
    }),
];

fn used(seen: &Seen) -> usize {
    let rows = seen.before.instances.iter();
    rows.filter(|row| rows::is_used(row)).count()
}

fn is_done(seen: &Seen) -> bool {
    seen.outcome.answer == 0
}

fn octets<'a>(seen: &'a Seen) -> Option<&'a [u8]> {
    match &seen.call.event {
        Event::Message { octets, .. } => Some(octets),
        Event::Start { .. } => None,
    }
}

/// Does this hold of the message of an accepted call?
fn of_done(seen: &Seen, holds: fn(&Message) -> bool) -> bool {
    let message = || octets(seen).and_then(|octets| wire::read(octets).ok());
    is_done(seen) && message().is_some_and(|message| holds(&message))
}

/// An accepted call so many ms after the deadline of a row in use.
fn at_deadline(seen: &Seen, after: i64) -> bool {
    let is_meant = |endless: u8, deadline: u64| {
        endless == 0 && deadline.checked_add_signed(after) == Some(seen.call.time)
    };
    let instances = seen.before.instances.iter();
    let routes = seen.before.routes.iter();
    is_done(seen)
        && (instances
            .filter(|row| rows::is_used(row))
            .any(|row| is_meant(row.endless, row.deadline))
            || routes
                .filter(|row| rows::is_used_route(row))
                .any(|row| is_meant(row.endless, row.deadline)))
}

fn steps(seen: &Seen, from: u8) -> bool {
    seen.before.seq == from && seen.after.seq == 1
}
