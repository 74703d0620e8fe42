//! "More memory never changes an answer": a fresh list, its calls answered 17
//! struck out, through a node with larger tables.

use std::fmt::Debug;

use kajakulm::{InstanceRow, Outcome, RouteRow};

use crate::list::{List, Step};
use crate::lockstep::Difference;
use crate::node::{Host, Node};
use crate::prng::Random;
use crate::rows;

/// What demand 3 names of a call: outcome (clock and own number are in it),
/// both buffers up to the lengths, the live rows by number and fields.
#[derive(Clone, Debug, PartialEq, Eq)]
struct Shown {
    outcome: Outcome,
    forward: Vec<u8>,
    reply: Vec<u8>,
    instances: Vec<(usize, InstanceRow)>,
    routes: Vec<(usize, RouteRow)>,
}

/// The list of the second run, and how many calls were struck out for it.
#[derive(Clone, Debug)]
pub struct Larger {
    pub list: List,
    pub struck: usize,
}

/// Runs the list with its own tables and, without the calls answered 17, with
/// tables larger by these many rows.
pub fn check(list: &List, node: Node, more: (usize, usize)) -> Result<Larger, Difference> {
    let small = shown(list, node, 0x00);
    let (larger, kept) = enlarged(list, &small, more);
    let large = shown(&larger, node, 0xff);
    for ((step, left), right) in kept.iter().zip(&large) {
        if let Some(what) = unlike(left, right) {
            return Err(Difference { step: *step, what });
        }
    }
    Ok(Larger {
        list: larger,
        struck: small.len() - kept.len(),
    })
}

fn unlike(left: &Shown, right: &Shown) -> Option<String> {
    let part = |name: &str, left: &dyn Debug, right: &dyn Debug| {
        let (left, right) = (format!("{left:?}"), format!("{right:?}"));
        let what = format!("{name}: {left}, with larger tables {right}");
        (left != right).then_some(what)
    };
    if left == right {
        return None;
    }
    part("answer", &left.outcome.answer, &right.outcome.answer)
        .or_else(|| part("outcome", &left.outcome, &right.outcome))
        .or_else(|| part("forward", &left.forward, &right.forward))
        .or_else(|| part("reply", &left.reply, &right.reply))
        .or_else(|| part("live rows", &left.instances, &right.instances))
        .or_else(|| part("live routes", &left.routes, &right.routes))
}

/// The list without the calls answered 17, and what the others showed, each
/// with its place in the first list.
fn enlarged(list: &List, small: &[Shown], more: (usize, usize)) -> (List, Vec<(usize, Shown)>) {
    let mut larger = List::new(list.own, list.instances + more.0, list.routes + more.1);
    larger.steps = garbage(larger.instances, larger.routes);
    let mut kept = Vec::new();
    let mut shown = small.iter();
    for (place, step) in list.steps.iter().enumerate() {
        if !matches!(step, Step::Call(_)) {
            continue;
        }
        match shown.next() {
            Some(one) if one.outcome.answer != 17 => {
                kept.push((place, one.clone()));
                larger.steps.push(step.clone());
            }
            _ => {}
        }
    }
    (larger, kept)
}

/// "Whatever stood in buffers and in rows not in use": octets at random in the
/// first rows of either table, none of them in use.
fn garbage(instances: usize, routes: usize) -> Vec<Step> {
    let mut random = Random::new(3);
    let mut steps = Vec::new();
    for place in 0..instances.min(8) {
        let mut row = crate::generate::any_row(&mut random);
        row.kind = random.pick(&[0, 3, 129, 255]);
        steps.push(Step::Row(place, Box::new(row)));
    }
    for place in 0..routes.min(8) {
        let mut row = crate::generate::any_route(&mut random);
        row.kind = random.pick(&[0, 2, 255]);
        steps.push(Step::Route(place, Box::new(row)));
    }
    steps
}

fn shown(list: &List, node: Node, fill: u8) -> Vec<Shown> {
    let mut host = Host::fresh(list);
    let mut all = Vec::new();
    for step in &list.steps {
        match step {
            Step::Call(call) => {
                let outcome = host.call(node, call, fill);
                all.push(show(&host, outcome));
            }
            _ => host.hand_in(step),
        }
    }
    all
}

fn show(host: &Host, outcome: Outcome) -> Shown {
    let part = |buffer: &[u8], length: u64| buffer[..(length as usize).min(buffer.len())].to_vec();
    let clock = host.clock;
    let instances = host.instances.iter().enumerate();
    let routes = host.routes.iter().enumerate();
    Shown {
        outcome,
        forward: part(&host.forward, outcome.forward_length),
        reply: part(&host.reply, outcome.reply_length),
        instances: instances
            .filter(|(_, row)| rows::is_live(row, clock))
            .map(|(place, row)| (place, rows::meaning(row)))
            .collect(),
        routes: routes
            .filter(|(_, row)| rows::is_live_route(row, clock))
            .map(|(place, row)| (place, rows::meaning_of_route(row)))
            .collect(),
    }
}

#[cfg(test)]
mod tests {
    use super::*;
    use crate::generate;
    use crate::list::Call;
    use crate::node::second;
    use kajakulm::Settings;

    /// A 17 moves the clock.
    fn clock_by_17(host: &mut Host, own: Settings, call: &Call) -> Outcome {
        let mut outcome = second(host, own, call);
        if outcome.answer == 17 {
            outcome.clock = call.time;
        }
        outcome
    }

    /// A start's number depends on the size of the table.
    fn number_by_size(host: &mut Host, own: Settings, call: &Call) -> Outcome {
        let size = host.instances.len() as u8;
        let mut outcome = second(host, own, call);
        if outcome.seq != host.seq {
            outcome.seq = outcome.seq.wrapping_add(size) | 1;
        }
        outcome
    }

    fn fresh_lists() -> impl Iterator<Item = List> {
        (0..200).map(generate::list).filter(List::is_fresh)
    }

    #[test]
    fn the_second_program_passes() {
        let mut struck = 0;
        for list in fresh_lists() {
            for more in [(0, 0), (1, 2), (30, 0)] {
                let larger = check(&list, second, more).expect("alike");
                struck += larger.struck;
                let calls = list.calls().count() - larger.struck;
                assert_eq!(larger.list.calls().count(), calls);
                assert!(larger.list.is_fresh());
            }
        }
        assert!(struck > 0);
    }

    #[test]
    fn faults_are_found() {
        let finds = |node: Node| fresh_lists().any(|list| check(&list, node, (3, 3)).is_err());
        assert!(finds(clock_by_17));
        assert!(finds(number_by_size));
    }
}
