//! Whole runs: lists of one seed, one after the other.

use std::time::Instant;

use crate::demand3;
use crate::generate;
use crate::histogram::Histogram;
use crate::list::List;
use crate::lockstep::{self, Difference};
use crate::node::{self, Node};
use crate::prng::Random;
use crate::shrink::shrink;

/// How a list is checked.
#[derive(Clone, Copy, Debug, PartialEq, Eq)]
pub enum Check {
    /// Against the second program.
    Lockstep,
    /// Against itself with tables larger by these many rows, and that again
    /// against the second program.
    MoreMemory(usize, usize),
}

/// A list that a check refused.
#[derive(Clone, Debug)]
pub struct Failure {
    pub list: List,
    pub check: Check,
    pub difference: Difference,
    /// Of the list as it was made.
    pub seed: u64,
}

#[derive(Debug, Default)]
pub struct Totals {
    pub histogram: Histogram,
    pub lists: u64,
    /// Demand 3: lists, calls struck out, calls of the second runs.
    pub fresh_lists: u64,
    pub struck: u64,
    pub again: u64,
}

/// How often a line of progress is printed, in calls.
const PROGRESS: u64 = 20_000;

/// The seed of one list of a run.
pub fn list_seed(seed: u64, number: u64) -> u64 {
    Random::new(seed ^ number.wrapping_mul(0xd134_2543_de82_ef95)).draw()
}

/// Runs lists of this seed until so many calls are made.
pub fn run(seed: u64, calls: u64, totals: &mut Totals) -> Result<(), Box<Failure>> {
    let begin = Instant::now();
    let (first, mut printed) = (totals.histogram.calls, 0);
    for number in 0.. {
        let done = totals.histogram.calls - first;
        if done / PROGRESS > printed || done >= calls {
            printed = done / PROGRESS;
            let speed = done as f64 / begin.elapsed().as_secs_f64();
            eprintln!("seed {seed}: {done} calls, {speed:.0} a second");
        }
        if done >= calls {
            break;
        }
        one_list(list_seed(seed, number), totals)?;
    }
    Ok(())
}

/// Makes the list of this seed and checks it.
pub fn one_list(seed: u64, totals: &mut Totals) -> Result<(), Box<Failure>> {
    let list = generate::list(seed);
    totals.lists += 1;
    let failure = |check: Check| {
        let list = list.clone();
        move |difference: Difference| {
            Box::new(Failure {
                list,
                check,
                difference,
                seed,
            })
        }
    };
    let histogram = &mut totals.histogram;
    lockstep::run(&list, node::proved, node::second, &mut |seen| {
        histogram.count(seen)
    })
    .map_err(failure(Check::Lockstep))?;
    if list.is_fresh() {
        let (instances, routes) = more_rows(seed);
        let check = Check::MoreMemory(instances, routes);
        let struck =
            more_memory(&list, node::proved, (instances, routes)).map_err(failure(check))?;
        totals.fresh_lists += 1;
        totals.struck += struck as u64;
        totals.again += (list.calls().count() - struck) as u64;
    }
    Ok(())
}

/// Mostly some rows more; sometimes none, now and then a gateway's 4,000.
fn more_rows(seed: u64) -> (usize, usize) {
    let mut random = Random::new(!seed);
    let mut one = || match random.below(200) {
        0 => 4_000,
        1..=20 => 0,
        21..=60 => 70,
        _ => random.within(1, 6),
    };
    (one(), one())
}

/// Demand 3. Gives the number of calls struck out.
fn more_memory(list: &List, node: Node, more: (usize, usize)) -> Result<usize, Difference> {
    let larger = demand3::check(list, node, more)?;
    lockstep::run(&larger.list, node, node::second, &mut |_| ())?;
    Ok(larger.struck)
}

/// What the check finds in the list.
pub fn check(list: &List, check: Check) -> Result<(), Difference> {
    match check {
        Check::Lockstep => lockstep::run(list, node::proved, node::second, &mut |_| ()),
        Check::MoreMemory(instances, routes) => {
            more_memory(list, node::proved, (instances, routes)).map(|_| ())
        }
    }
}

/// Few rows more, if they show the difference, too.
fn fewest_rows(list: &List, found: Check) -> Check {
    let mut fewer = Vec::new();
    if let Check::MoreMemory(instances, routes) = found {
        let few = |size: usize| Check::MoreMemory(instances.min(size), routes.min(size));
        fewer = [0, 1, 6, 70].map(few).to_vec();
    }
    let shows = |kind: &Check| check(list, *kind).is_err();
    fewer.into_iter().find(shows).unwrap_or(found)
}

impl Failure {
    /// The shortest list found that still fails.
    pub fn shrunk(&self) -> Failure {
        let kind = fewest_rows(&self.list, self.check);
        let mut fails = |list: &List| match kind {
            Check::MoreMemory(..) if !list.is_fresh() => false,
            _ => check(list, kind).is_err(),
        };
        let list = shrink(&self.list, &mut fails);
        let difference = check(&list, kind).err();
        Failure {
            difference: difference.unwrap_or_else(|| self.difference.clone()),
            list,
            check: kind,
            seed: self.seed,
        }
    }
}
