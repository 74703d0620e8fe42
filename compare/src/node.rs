//! A host with its memory, and the nodes that it can call.

use kajakulm::{InstanceRow, Lent, Now, Outcome, RouteRow, Settings, Tally};

use crate::list::{Call, Event, List, Step};
pub use crate::second::second;

/// What a host keeps between calls, and lends.
#[derive(Clone, Debug, PartialEq, Eq)]
pub struct Host {
    pub own: Settings,
    pub clock: u64,
    pub seq: u8,
    pub instances: Vec<InstanceRow>,
    pub routes: Vec<RouteRow>,
    pub forward: Vec<u8>,
    pub reply: Vec<u8>,
    pub tally: Tally,
}

/// One node: it handles the call over the host's memory. Clock and own number
/// are in the outcome; the host stores them.
pub type Node = fn(&mut Host, Settings, &Call) -> Outcome;

impl Host {
    pub fn fresh(list: &List) -> Self {
        Host {
            own: list.own,
            clock: 0,
            seq: 240,
            instances: vec![InstanceRow::default(); list.instances],
            routes: vec![RouteRow::default(); list.routes],
            forward: Vec::new(),
            reply: Vec::new(),
            tally: Tally::default(),
        }
    }

    /// Makes a call, with buffers full of `fill`.
    pub fn call(&mut self, node: Node, call: &Call, fill: u8) -> Outcome {
        refill(&mut self.forward, call.forward_size, fill);
        refill(&mut self.reply, call.reply_size, fill);
        let own = call.own.unwrap_or(self.own);
        let outcome = node(self, own, call);
        self.clock = outcome.clock;
        self.seq = outcome.seq;
        outcome
    }

    /// Writes what the host hands in. What has no place is left out.
    pub fn hand_in(&mut self, step: &Step) {
        match step {
            Step::Clock(clock) => self.clock = *clock,
            Step::Seq(seq) => self.seq = *seq,
            Step::Tally(answer, count) => {
                if let Some(known) = self.tally.counts.get_mut(*answer) {
                    *known = *count;
                }
            }
            Step::Row(place, row) => {
                if let Some(known) = self.instances.get_mut(*place) {
                    *known = **row;
                }
            }
            Step::Route(place, row) => {
                if let Some(known) = self.routes.get_mut(*place) {
                    *known = **row;
                }
            }
            Step::Call(_) => {}
        }
    }
}

fn refill(buffer: &mut Vec<u8>, size: usize, fill: u8) {
    buffer.clear();
    buffer.resize(size, fill);
}

/// The proved node, through the C interface.
pub fn proved(host: &mut Host, own: Settings, call: &Call) -> Outcome {
    let now = Now {
        own,
        clock: host.clock,
        seq: host.seq,
        time: call.time,
    };
    let lent = Lent {
        instances: &mut host.instances,
        routes: &mut host.routes,
        forward: &mut host.forward,
        reply: &mut host.reply,
        tally: &mut host.tally,
    };
    match &call.event {
        Event::Message { octets, link } => kajakulm::message(lent, now, octets, *link),
        Event::Start { fields, targets } => kajakulm::start(lent, now, targets, *fields),
    }
}
