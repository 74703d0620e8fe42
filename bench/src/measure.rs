//! The same call again and again, by both programs in turn.

use std::hint::black_box;
use std::time::{Duration, Instant};

use reference::Destination;

use crate::cases::{Case, Kind};
use crate::ours::Ours;
use crate::second::Second;

/// A program over the tables of one case.
pub trait Node {
    fn call(&mut self);
    /// Makes the tables, the clock and the own number what they were.
    fn undo(&mut self);
}

/// Least times of a call, in ns: means over the tables.
pub struct Point {
    pub kind: Kind,
    pub rows: usize,
    pub ours: f64,
    pub second: f64,
}

impl Point {
    pub fn ratio(&self) -> f64 {
        self.ours / self.second
    }
}

/// A round is this long, so that a switch to another process spoils few.
const ROUND: Duration = Duration::from_micros(400);
const ROUNDS: usize = 200;

pub fn point(draws: &[Case]) -> Point {
    let times: Vec<_> = draws.iter().map(least).collect();
    let mean = |sum: f64| sum / draws.len() as f64;
    Point {
        kind: draws[0].kind,
        rows: draws[0].rows,
        ours: mean(times.iter().map(|time| time.0).sum()),
        second: mean(times.iter().map(|time| time.1).sum()),
    }
}

/// Our least time over one table, and the second program's.
fn least(case: &Case) -> (f64, f64) {
    check(case);
    let (ours, second) = (&mut Ours::new(case), &mut Second::new(case));
    let (many, many_second) = (calls_of(ours), calls_of(second));
    let mut least = (f64::MAX, f64::MAX);
    for _ in 0..ROUNDS {
        least.0 = least.0.min(round(ours, many));
        least.1 = least.1.min(round(second, many_second));
    }
    least
}

/// How many calls fill a round.
fn calls_of(node: &mut impl Node) -> usize {
    let least = (0..20).map(|_| round(node, 1)).fold(f64::MAX, f64::min);
    (ROUND.as_nanos() as f64 / least).ceil() as usize
}

/// The mean of the calls of a round, in ns; one call before them brings the
/// program's tables into the cache.
fn round(node: &mut impl Node, calls: usize) -> f64 {
    repeat(node, 1);
    let from = Instant::now();
    repeat(node, calls);
    from.elapsed().as_nanos() as f64 / calls as f64
}

pub fn repeat(node: &mut impl Node, calls: usize) {
    for _ in 0..calls {
        let node = black_box(&mut *node);
        node.call();
        node.undo();
    }
}

/// Both programs must give the wanted answer, the same lengths, destinations
/// and octets, and the same again after `undo`.
fn check(case: &Case) {
    let (ours, second) = (&mut Ours::new(case), &mut Second::new(case));
    for _ in 0..2 {
        let (a, b) = (ours.outcome(), second.outcome());
        let name = format!("{} at {} rows", case.kind.name(), case.rows);
        assert_eq!(a.answer, case.kind.answer(), "answer of {name}");
        assert_eq!(a.answer, b.answer, "answer of the second program, {name}");
        assert_eq!(a.forward_length, b.forward_length as u64, "{name}");
        assert_eq!(a.reply_length, b.reply_length as u64, "{name}");
        assert_eq!(a.forward_length > 0, a.answer == 0, "{name}");
        assert_eq!(a.forward_way, way(&b.forward_to), "{name}");
        assert_eq!(a.reply_way, way(&b.reply_to), "{name}");
        assert_eq!((a.clock, a.seq), (second.clock, second.seq), "{name}");
        assert_eq!(ours.forward, second.forward, "forward buffer, {name}");
        assert_eq!(ours.reply, second.reply, "reply buffer, {name}");
        ours.undo();
        second.undo();
    }
}

fn way(destination: &Destination) -> u8 {
    match destination {
        Destination::Nowhere => kajakulm::NOWHERE,
        Destination::Group => kajakulm::GROUP,
        Destination::Neighbour(_) => kajakulm::NEIGHBOUR,
        Destination::Caller => kajakulm::CALLER,
    }
}
