//! The proved node over a case's tables, through the C interface.

use std::hint::black_box;

use kajakulm::{Lent, Now, Outcome, Tally};

use crate::cases::{Case, Event, CLOCK, SEQ, TIME};
use crate::measure::Node;

pub struct Ours<'a> {
    case: &'a Case,
    instances: Vec<kajakulm::InstanceRow>,
    routes: Vec<kajakulm::RouteRow>,
    pub forward: Vec<u8>,
    pub reply: Vec<u8>,
    tally: Tally,
}

impl<'a> Ours<'a> {
    pub fn new(case: &'a Case) -> Self {
        Ours {
            case,
            instances: case.instances.clone(),
            routes: case.routes.clone(),
            forward: vec![0x55; 1236],
            reply: vec![0x55; 1236],
            tally: Tally::default(),
        }
    }

    /// The call, and its outcome.
    pub fn outcome(&mut self) -> Outcome {
        let now = Now {
            own: self.case.own,
            clock: CLOCK,
            seq: SEQ,
            time: TIME,
        };
        let lent = Lent {
            instances: &mut self.instances,
            routes: &mut self.routes,
            forward: &mut self.forward,
            reply: &mut self.reply,
            tally: &mut self.tally,
        };
        match &self.case.event {
            Event::Message { octets, link } => kajakulm::message(lent, now, octets, *link),
            Event::Start { fields, targets } => kajakulm::start(lent, now, targets, *fields),
        }
    }
}

impl Node for Ours<'_> {
    fn call(&mut self) {
        black_box(self.outcome());
    }

    fn undo(&mut self) {
        if self.case.frees_row {
            self.instances[self.case.rows - 1].kind = 0;
        }
        if self.case.frees_route {
            self.routes[self.case.rows - 1].kind = 0;
        }
    }
}
