//! What a run has met. A run that misses one of the things named here fails.

use std::collections::BTreeMap;
use std::fmt;

use kajakulm::{CALLER, GROUP, NEIGHBOUR, NOWHERE};
use reference::wire::{self, Kind, Message};

use crate::list::Event;
use crate::lockstep::Seen;
use crate::marks::MARKS;
use crate::rows::{self, REPLY, REQUEST};

pub const ANSWERS: usize = 18;

/// What a call was about. The answers 3 to 6 come before a message is known
/// as a request or a reply.
#[derive(Clone, Copy, Debug, PartialEq, Eq, PartialOrd, Ord)]
pub enum About {
    Request,
    Reply,
    Unread,
    Start,
}

const ABOUTS: [About; 4] = [About::Request, About::Reply, About::Unread, About::Start];

/// What was done with a row.
#[derive(Clone, Copy, Debug, PartialEq, Eq, PartialOrd, Ord)]
pub enum Change {
    /// A row that was not in use.
    New,
    /// A row that had died.
    OverDead,
    /// A live row with another sequence number.
    Newer,
    /// A live row with the same sequence number.
    Update,
}

const CHANGES: [Change; 4] = [Change::New, Change::OverDead, Change::Newer, Change::Update];

#[derive(Clone, Copy, Debug, PartialEq, Eq, PartialOrd, Ord)]
pub enum Table {
    Requests,
    Replies,
    Routes,
}

const TABLES: [Table; 3] = [Table::Requests, Table::Replies, Table::Routes];

/// What an accepted call sends: H, way of the forward buffer, of the reply.
type Ways = (About, bool, u8, u8);

#[derive(Clone, Debug, Default)]
pub struct Histogram {
    pub calls: u64,
    answers: BTreeMap<(About, u8), u64>,
    ways: BTreeMap<Ways, u64>,
    changes: BTreeMap<(About, Table, Change), u64>,
    comprs: BTreeMap<u8, u64>,
    lives: BTreeMap<u8, u64>,
    deltas: BTreeMap<u8, u64>,
    marks: BTreeMap<usize, u64>,
}

impl Histogram {
    pub fn count(&mut self, seen: &Seen) {
        self.calls += 1;
        let message = match &seen.call.event {
            Event::Message { octets, .. } => wire::read(octets).ok(),
            Event::Start { .. } => None,
        };
        let about = about(&seen.call.event, message.as_ref());
        raise(&mut self.answers, (about, seen.outcome.answer));
        for (place, (_, holds)) in MARKS.iter().enumerate() {
            if holds(seen) {
                raise(&mut self.marks, place);
            }
        }
        if seen.outcome.answer == 0 {
            self.count_ways(seen, about, message.as_ref());
            self.count_changes(seen, about);
        }
    }

    fn count_ways(&mut self, seen: &Seen, about: About, message: Option<&Message>) {
        let (h, compr, l) = match (&seen.call.event, message) {
            (Event::Start { fields, .. }, _) => (fields.h != 0, fields.compr, fields.l),
            (_, Some(message)) => (message.h, message.compr, message.l),
            // An accepted message can be read.
            (_, None) => return,
        };
        let outcome = seen.outcome;
        raise(
            &mut self.ways,
            (about, h, outcome.forward_way, outcome.reply_way),
        );
        raise(&mut self.lives, l);
        if !h {
            raise(&mut self.comprs, compr);
        }
        if outcome.reply_length > 0 {
            let octets = &seen.after.reply[..outcome.reply_length as usize];
            let delta = wire::read(octets).map(|reply| reply.number);
            // What we send can be read; 255 stands for a Delta that cannot.
            raise(&mut self.deltas, delta.unwrap_or(255));
        }
    }

    fn count_changes(&mut self, seen: &Seen, about: About) {
        let time = seen.call.time;
        let pairs = seen.before.instances.iter().zip(&seen.after.instances);
        for (old, new) in pairs.filter(|(old, new)| rows::meaning(old) != rows::meaning(new)) {
            let table = match new.kind {
                REPLY => Table::Replies,
                _ => Table::Requests,
            };
            let is_used = old.kind == REQUEST || old.kind == REPLY;
            let change = change(is_used, rows::is_live(old, time), old.seq == new.seq);
            raise(&mut self.changes, (about, table, change));
        }
        let pairs = seen.before.routes.iter().zip(&seen.after.routes);
        for (old, new) in pairs.filter(|(old, new)| old != new) {
            let is_live = rows::is_live_route(old, time);
            let change = change(rows::is_used_route(old), is_live, old.seq == new.seq);
            raise(&mut self.changes, (about, Table::Routes, change));
        }
    }

    /// What 01 makes possible and the run has not met.
    pub fn missing(&self) -> Vec<String> {
        let mut missing = Vec::new();
        for key in possible_answers() {
            if !self.answers.contains_key(&key) {
                missing.push(format!("answer {} of {:?}", key.1, key.0));
            }
        }
        for key in possible_ways() {
            if !self.ways.contains_key(&key) {
                missing.push(format!("answer 0 of {}", ways_text(&key)));
            }
        }
        for key in possible_changes() {
            if !self.changes.contains_key(&key) {
                missing.push(format!("{:?}: {:?} {:?}", key.0, key.1, key.2));
            }
        }
        for (place, (name, _)) in MARKS.iter().enumerate() {
            if !self.marks.contains_key(&place) {
                missing.push(name.to_string());
            }
        }
        missing.extend(self.missing_numbers());
        missing
    }

    fn missing_numbers(&self) -> Vec<String> {
        let mut missing = Vec::new();
        let absent = |found: &BTreeMap<u8, u64>, all: std::ops::Range<u8>, name: &str| {
            let keys = all.filter(|key| !found.contains_key(key));
            keys.map(|key| format!("{name} {key}")).collect::<Vec<_>>()
        };
        missing.extend(absent(&self.comprs, 0..16, "an accepted Compr"));
        missing.extend(absent(&self.lives, 0..4, "an accepted L"));
        missing.extend(absent(&self.deltas, 0..64, "a Delta of ours"));
        missing
    }

    /// What the run has met and 01 does not make possible.
    pub fn impossible(&self) -> Vec<String> {
        let (answers, ways) = (possible_answers(), possible_ways());
        let changes = possible_changes();
        let mut wrong = Vec::new();
        for key in self.answers.keys().filter(|key| !answers.contains(key)) {
            wrong.push(format!("answer {} of {:?}", key.1, key.0));
        }
        for key in self.ways.keys().filter(|key| !ways.contains(key)) {
            wrong.push(format!("answer 0 of {}", ways_text(key)));
        }
        for key in self.changes.keys().filter(|key| !changes.contains(key)) {
            wrong.push(format!("{:?}: {:?} {:?}", key.0, key.1, key.2));
        }
        wrong
    }
}

fn raise<K: Ord>(counts: &mut BTreeMap<K, u64>, key: K) {
    *counts.entry(key).or_insert(0) += 1;
}

fn about(event: &Event, message: Option<&Message>) -> About {
    match (event, message.map(|message| message.kind)) {
        (Event::Start { .. }, _) => About::Start,
        (_, Some(Kind::Rreq)) => About::Request,
        (_, Some(Kind::Rrep)) => About::Reply,
        (_, None) => About::Unread,
    }
}

fn change(was_used: bool, was_live: bool, same_seq: bool) -> Change {
    match (was_used, was_live, same_seq) {
        (false, _, _) => Change::New,
        (true, false, _) => Change::OverDead,
        (true, true, false) => Change::Newer,
        (true, true, true) => Change::Update,
    }
}

fn possible_answers() -> Vec<(About, u8)> {
    let of = |about: About, answers: &[u8]| -> Vec<(About, u8)> {
        answers.iter().map(|&answer| (about, answer)).collect()
    };
    [
        of(
            About::Request,
            &[0, 1, 2, 7, 9, 10, 11, 12, 13, 14, 15, 16, 17],
        ),
        of(
            About::Reply,
            &[0, 1, 2, 7, 8, 9, 10, 11, 12, 13, 14, 16, 17],
        ),
        of(About::Unread, &[1, 2, 3, 4, 5, 6]),
        of(About::Start, &[0, 1, 2, 10, 14, 17]),
    ]
    .concat()
}

fn possible_ways() -> Vec<Ways> {
    let mut ways = Vec::new();
    for h in [false, true] {
        for forward in [NOWHERE, GROUP] {
            for reply in [NOWHERE, GROUP, NEIGHBOUR] {
                ways.push((About::Request, h, forward, reply));
            }
        }
        for forward in [NOWHERE, GROUP, NEIGHBOUR] {
            ways.push((About::Reply, h, forward, NOWHERE));
        }
        ways.push((About::Start, h, GROUP, NOWHERE));
    }
    // A path for the caller: H 0 at OrigNode.
    ways.push((About::Reply, false, CALLER, NOWHERE));
    ways
}

fn possible_changes() -> Vec<(About, Table, Change)> {
    use {About::*, Change::*, Table::*};
    let of = |about: About, table: Table, changes: &[Change]| -> Vec<(About, Table, Change)> {
        let one = |&change: &Change| (about, table, change);
        changes.iter().map(one).collect()
    };
    [
        of(Request, Requests, &CHANGES),
        of(Request, Replies, &[New, OverDead]),
        of(Request, Routes, &CHANGES),
        of(Reply, Replies, &CHANGES),
        of(Reply, Routes, &CHANGES),
        of(Start, Requests, &[New, OverDead]),
    ]
    .concat()
}

fn way_name(way: u8) -> &'static str {
    match way {
        NOWHERE => "nowhere",
        GROUP => "to the group",
        NEIGHBOUR => "to a neighbour",
        CALLER => "path for the caller",
        _ => "no way at all",
    }
}

fn ways_text(ways: &Ways) -> String {
    let (about, h, forward, reply) = *ways;
    format!(
        "{about:?}, H {}: forward {}, reply {}",
        u8::from(h),
        way_name(forward),
        way_name(reply)
    )
}

impl fmt::Display for Histogram {
    fn fmt(&self, out: &mut fmt::Formatter<'_>) -> fmt::Result {
        writeln!(out, "answer    request      reply     unread      start")?;
        for answer in 0..ANSWERS as u8 {
            write!(out, "{answer:6}")?;
            for about in ABOUTS {
                let count = self.answers.get(&(about, answer)).unwrap_or(&0);
                write!(out, " {count:10}")?;
            }
            writeln!(out)?;
        }
        for (ways, count) in &self.ways {
            writeln!(out, "{count:10}  answer 0 of {}", ways_text(ways))?;
        }
        self.write_changes(out)?;
        for (place, (name, _)) in MARKS.iter().enumerate() {
            let count = self.marks.get(&place).unwrap_or(&0);
            writeln!(out, "{count:10}  {name}")?;
        }
        write_counts(out, "Compr", &self.comprs)?;
        write_counts(out, "L", &self.lives)?;
        write_counts(out, "Delta", &self.deltas)
    }
}

impl Histogram {
    fn write_changes(&self, out: &mut fmt::Formatter<'_>) -> fmt::Result {
        for about in ABOUTS {
            for table in TABLES {
                for change in CHANGES {
                    if let Some(count) = self.changes.get(&(about, table, change)) {
                        writeln!(out, "{count:10}  {about:?}: {table:?} {change:?}")?;
                    }
                }
            }
        }
        Ok(())
    }
}

fn write_counts(
    out: &mut fmt::Formatter<'_>,
    name: &str,
    counts: &BTreeMap<u8, u64>,
) -> fmt::Result {
    let all: Vec<String> = counts
        .iter()
        .map(|(key, count)| format!("{key}:{count}"))
        .collect();
    writeln!(out, "{name}, answered 0: {}", all.join(" "))
}
