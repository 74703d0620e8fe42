//! One list through two nodes, compared after every call.

use std::fmt;

use kajakulm::Outcome;

use crate::list::{Call, List, Step};
use crate::node::{Host, Node};
use crate::rows::{meaning, meaning_of_route};

/// Where two nodes differ: the place in the list's steps, and in what.
#[derive(Clone, Debug, PartialEq, Eq)]
pub struct Difference {
    pub step: usize,
    pub what: String,
}

impl fmt::Display for Difference {
    fn fmt(&self, formatter: &mut fmt::Formatter<'_>) -> fmt::Result {
        write!(formatter, "step {}: {}", self.step + 1, self.what)
    }
}

/// A call as the node beside saw it, for counting.
pub struct Seen<'a> {
    pub before: &'a Host,
    pub call: &'a Call,
    pub outcome: &'a Outcome,
    pub after: &'a Host,
}

/// What stands in the buffers before a call: another octet each time.
pub fn fill_of(step: usize) -> u8 {
    (step as u8).wrapping_mul(37) ^ 0xa5
}

/// Runs the list through `node` and through `beside`, and shows `watch` each
/// call on which they agree.
pub fn run(
    list: &List,
    node: Node,
    beside: Node,
    watch: &mut dyn FnMut(&Seen),
) -> Result<(), Difference> {
    let mut host = Host::fresh(list);
    let mut other = host.clone();
    for (step, item) in list.steps.iter().enumerate() {
        let Step::Call(call) = item else {
            host.hand_in(item);
            other.hand_in(item);
            continue;
        };
        let (before, other_before) = (host.clone(), other.clone());
        let outcome = host.call(node, call, fill_of(step));
        let expected = other.call(beside, call, fill_of(step));
        let found = unlike_outcome(&outcome, &expected)
            .or_else(|| unlike_hosts(&host, &other))
            .or_else(|| changed_by_refusal(&outcome, &before, &host, fill_of(step)));
        if let Some(what) = found {
            return Err(Difference { step, what });
        }
        watch(&Seen {
            before: &other_before,
            call,
            outcome: &expected,
            after: &other,
        });
    }
    Ok(())
}

fn unlike<T: PartialEq + fmt::Debug>(name: &str, ours: &T, second: &T) -> Option<String> {
    (ours != second).then(|| format!("{name}: ours {ours:?}, second {second:?}"))
}

fn unlike_outcome(ours: &Outcome, second: &Outcome) -> Option<String> {
    let (a, b) = (ours, second);
    unlike("answer", &a.answer, &b.answer)
        .or_else(|| unlike("forward length", &a.forward_length, &b.forward_length))
        .or_else(|| unlike("reply length", &a.reply_length, &b.reply_length))
        .or_else(|| unlike("forward way", &a.forward_way, &b.forward_way))
        .or_else(|| unlike("reply way", &a.reply_way, &b.reply_way))
        .or_else(|| unlike("outcome", a, b))
}

fn unlike_hosts(ours: &Host, second: &Host) -> Option<String> {
    unlike("clock", &ours.clock, &second.clock)
        .or_else(|| unlike("own number", &ours.seq, &second.seq))
        .or_else(|| unlike("tally", &ours.tally, &second.tally))
        .or_else(|| unlike_octets("forward", &ours.forward, &second.forward))
        .or_else(|| unlike_octets("reply", &ours.reply, &second.reply))
        .or_else(|| unlike_instances(ours, second))
        .or_else(|| unlike_routes(ours, second))
}

fn unlike_octets(name: &str, ours: &[u8], second: &[u8]) -> Option<String> {
    let length = unlike(
        &format!("{name} buffer's length"),
        &ours.len(),
        &second.len(),
    );
    length.or_else(|| {
        let place = (0..ours.len()).find(|&place| ours[place] != second[place])?;
        let name = format!("{name} buffer at {place}");
        unlike(&name, &ours[place], &second[place])
    })
}

fn unlike_instances(ours: &Host, second: &Host) -> Option<String> {
    (0..ours.instances.len()).find_map(|place| {
        let (a, b) = (&ours.instances[place], &second.instances[place]);
        unlike(&format!("row {place}"), &meaning(a), &meaning(b))
    })
}

fn unlike_routes(ours: &Host, second: &Host) -> Option<String> {
    (0..ours.routes.len()).find_map(|place| {
        let (a, b) = (&ours.routes[place], &second.routes[place]);
        let name = format!("route {place}");
        unlike(&name, &meaning_of_route(a), &meaning_of_route(b))
    })
}

/// "1 to 17 change nothing but the tally": not even what has no meaning.
fn changed_by_refusal(outcome: &Outcome, before: &Host, after: &Host, fill: u8) -> Option<String> {
    if outcome.answer == 0 {
        return None;
    }
    let is_touched = after.forward.iter().any(|&octet| octet != fill)
        || after.reply.iter().any(|&octet| octet != fill);
    unlike("clock after a refusal", &after.clock, &before.clock)
        .or_else(|| unlike("own number after a refusal", &after.seq, &before.seq))
        .or_else(|| unlike("rows after a refusal", &after.instances, &before.instances))
        .or_else(|| unlike("routes after a refusal", &after.routes, &before.routes))
        .or_else(|| is_touched.then(|| "a buffer after a refusal".to_string()))
}
