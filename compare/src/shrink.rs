//! A failing list made as short as it gets: delta debugging.

use std::time::{Duration, Instant};

use kajakulm::{InstanceRow, RouteRow, Target};

use crate::list::{Call, Event, List, Step, MOST_OCTETS};

/// So many tries and so much time at most.
const MOST_TRIES: usize = 50_000;
const MOST_TIME: Duration = Duration::from_secs(60);

/// A list that fails, and how to find out whether another one does.
pub struct Shrinker<'a> {
    list: List,
    fails: &'a mut dyn FnMut(&List) -> bool,
    tries: usize,
    begin: Instant,
}

/// Makes a failing list shorter and simpler as long as it still fails.
pub fn shrink(list: &List, fails: &mut dyn FnMut(&List) -> bool) -> List {
    let mut shrinker = Shrinker {
        list: list.clone(),
        fails,
        tries: 0,
        begin: Instant::now(),
    };
    loop {
        let before = shrinker.list.clone();
        shrinker.drop_steps();
        shrinker.shrink_tables();
        shrinker.simplify_steps();
        if shrinker.list == before || shrinker.is_over() {
            return shrinker.list;
        }
    }
}

impl Shrinker<'_> {
    fn is_over(&self) -> bool {
        self.tries >= MOST_TRIES || self.begin.elapsed() >= MOST_TIME
    }

    /// Keeps the other list if it fails, too.
    fn attempt(&mut self, other: List) -> bool {
        if other == self.list || self.is_over() {
            return false;
        }
        self.tries += 1;
        let is_failing = (self.fails)(&other);
        if is_failing {
            self.list = other;
        }
        is_failing
    }

    fn drop_steps(&mut self) {
        let steps = self.list.steps.clone();
        drop_parts(steps, &mut |steps| {
            let mut other = self.list.clone();
            other.steps = steps.to_vec();
            self.attempt(other)
        });
    }

    fn shrink_tables(&mut self) {
        for size in 0..self.list.instances {
            let mut other = self.list.clone();
            other.instances = size;
            other
                .steps
                .retain(|step| !matches!(step, Step::Row(place, _) if *place >= size));
            if self.attempt(other) {
                break;
            }
        }
        for size in 0..self.list.routes {
            let mut other = self.list.clone();
            other.routes = size;
            other
                .steps
                .retain(|step| !matches!(step, Step::Route(place, _) if *place >= size));
            if self.attempt(other) {
                break;
            }
        }
    }

    fn simplify_steps(&mut self) {
        for place in 0..self.list.steps.len() {
            self.drop_octets(place);
            self.zero_octets(place);
            self.simplify_step(place);
        }
    }

    /// Tries each way to make the step simpler on what the ways before left.
    fn simplify_step(&mut self, place: usize) {
        let mut way = 0;
        while let Some(step) = simpler_steps(&self.list.steps[place]).into_iter().nth(way) {
            self.try_step(place, step);
            way += 1;
        }
    }

    fn zero_octets(&mut self, place: usize) {
        for octet in 0.. {
            let Some(mut call) = self.call_at(place) else {
                return;
            };
            match &mut call.event {
                Event::Message { octets, .. } if octet < octets.len() => octets[octet] = 0,
                _ => return,
            }
            self.try_step(place, Step::Call(call));
        }
    }

    fn call_at(&self, place: usize) -> Option<Box<Call>> {
        match &self.list.steps[place] {
            Step::Call(call) => Some(call.clone()),
            _ => None,
        }
    }

    fn try_step(&mut self, place: usize, step: Step) -> bool {
        let mut other = self.list.clone();
        other.steps[place] = step;
        self.attempt(other)
    }

    /// Shorter messages: fewer options, then fewer octets. Shorter starts.
    fn drop_octets(&mut self, place: usize) {
        let Some(call) = self.call_at(place) else {
            return;
        };
        let with = |event: Event| {
            let mut call = call.clone();
            call.event = event;
            Step::Call(call)
        };
        match call.event.clone() {
            Event::Message { octets, link } => {
                let options = options_of(&octets);
                let left = drop_parts(options, &mut |options| {
                    let octets = options.concat();
                    self.try_step(place, with(Event::Message { octets, link }))
                });
                drop_parts(left.concat(), &mut |octets| {
                    let octets = octets.to_vec();
                    self.try_step(place, with(Event::Message { octets, link }))
                });
            }
            Event::Start { fields, targets } => {
                drop_parts(targets, &mut |targets| {
                    let targets = targets.to_vec();
                    self.try_step(place, with(Event::Start { fields, targets }))
                });
            }
        }
    }
}

/// Drops runs of items, long ones first, as long as `keeps` agrees.
fn drop_parts<T: Clone>(mut items: Vec<T>, keeps: &mut dyn FnMut(&[T]) -> bool) -> Vec<T> {
    let mut size = items.len();
    while size > 0 {
        let mut end = items.len();
        while end > 0 {
            let start = end.saturating_sub(size);
            let mut fewer = items.clone();
            fewer.drain(start..end);
            if keeps(&fewer) {
                items = fewer;
            }
            end = start;
        }
        size /= 2;
    }
    items
}

/// The base and each option, as long as they can be told apart.
fn options_of(octets: &[u8]) -> Vec<Vec<u8>> {
    let (base, mut rest) = octets.split_at(octets.len().min(24));
    let mut parts = vec![base.to_vec()];
    while !rest.is_empty() {
        let size = match rest {
            [0, ..] | [_] => 1,
            [_, length, ..] => 2 + usize::from(*length),
            [] => 0,
        };
        let (option, after) = rest.split_at(size.min(rest.len()));
        parts.push(option.to_vec());
        rest = after;
    }
    parts
}

/// The same step with one thing in it made 0 or usual.
fn simpler_steps(step: &Step) -> Vec<Step> {
    match step {
        Step::Clock(clock) => [0, clock / 2, clock.saturating_sub(1)]
            .map(Step::Clock)
            .to_vec(),
        Step::Seq(_) => vec![Step::Seq(240)],
        Step::Tally(answer, _) => vec![Step::Tally(*answer, 0)],
        Step::Row(place, row) => {
            let rows = simpler_rows(row).into_iter();
            rows.map(|row| Step::Row(*place, Box::new(row))).collect()
        }
        Step::Route(place, row) => {
            let rows = simpler_routes(row).into_iter();
            rows.map(|row| Step::Route(*place, Box::new(row))).collect()
        }
        Step::Call(call) => {
            let calls = simpler_calls(call).into_iter();
            calls.map(|call| Step::Call(Box::new(call))).collect()
        }
    }
}

/// Variants of one value: each closure changes one thing in a copy.
fn variants<T: Clone>(value: &T, changes: &[&dyn Fn(&mut T)]) -> Vec<T> {
    let with = |change: &&dyn Fn(&mut T)| {
        let mut other = value.clone();
        change(&mut other);
        other
    };
    changes.iter().map(with).collect()
}

fn simpler_rows(row: &InstanceRow) -> Vec<InstanceRow> {
    variants(
        row,
        &[
            &|row| row.targets = [Target::default(); 8],
            &|row| row.count = 0,
            &|row| row.count = row.count.saturating_sub(1),
            &|row| row.s = 0,
            &|row| row.h = 0,
            &|row| row.replied = 0,
            &|row| (row.endless, row.deadline) = (1, 0),
            &|row| row.endless = row.endless.min(1),
            &|row| row.rank = 0,
            &|row| row.neighbour = [0; 16],
            &|row| row.instance = 0,
            &|row| row.seq = 0,
            &|row| row.deadline = 0,
        ],
    )
}

fn simpler_routes(row: &RouteRow) -> Vec<RouteRow> {
    variants(
        row,
        &[
            &|row| (row.endless, row.deadline) = (1, 0),
            &|row| row.endless = row.endless.min(1),
            &|row| row.next = [0; 16],
            &|row| row.source = [0; 16],
            &|row| row.destination = [0; 16],
            &|row| row.instance = 0,
            &|row| row.seq = 0,
            &|row| row.deadline = 0,
        ],
    )
}

fn simpler_calls(call: &Call) -> Vec<Call> {
    let mut calls = variants(
        call,
        &[
            &|call| call.own = None,
            &|call| call.forward_size = MOST_OCTETS,
            &|call| call.reply_size = MOST_OCTETS,
            &|call| call.time = 0,
            &|call| call.time /= 2,
            &|call| call.time = call.time.saturating_sub(1),
        ],
    );
    let events = match &call.event {
        Event::Message { .. } => simpler_messages(&call.event),
        Event::Start { .. } => simpler_starts(&call.event),
    };
    calls.extend(events.into_iter().map(|event| Call {
        event,
        ..call.clone()
    }));
    calls
}

fn simpler_messages(event: &Event) -> Vec<Event> {
    let Event::Message { octets, link } = event else {
        return Vec::new();
    };
    let with = |link| Event::Message {
        octets: octets.clone(),
        link,
    };
    let links = variants(
        link,
        &[
            &|link| link.neighbour = [0; 16],
            &|link| link.upward = link.upward.min(1),
            &|link| link.downward = link.downward.min(1),
            &|link| link.group = link.group.min(1),
            &|link| link.group = 1,
            &|link| link.increase = 256,
            &|link| link.increase = 0,
        ],
    );
    links.into_iter().map(with).collect()
}

fn simpler_starts(event: &Event) -> Vec<Event> {
    let Event::Start { fields, targets } = event else {
        return Vec::new();
    };
    let fields = variants(
        fields,
        &[
            &|fields| fields.instance = 0,
            &|fields| fields.h = fields.h.min(1),
            &|fields| fields.h = 0,
            &|fields| fields.compr = 0,
            &|fields| fields.l = 0,
            &|fields| fields.limit = 0,
        ],
    );
    let with = |fields| Event::Start {
        fields,
        targets: targets.clone(),
    };
    fields.into_iter().map(with).collect()
}

#[cfg(test)]
mod tests;
