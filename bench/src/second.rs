//! The second program over a case's tables.

use std::hint::black_box;

use kajakulm::{InstanceRow, Link, RouteRow, StartFields};
use reference::{Buffers, Outcome, Received, Settings, Start, State, Tally, Target};

use crate::cases::{Case, Event, CLOCK, SEQ, TIME};
use crate::measure::Node;

pub struct Second<'a> {
    case: &'a Case,
    settings: Settings,
    instances: Vec<reference::InstanceRow>,
    routes: Vec<reference::RouteRow>,
    targets: Vec<Target>,
    pub forward: Vec<u8>,
    pub reply: Vec<u8>,
    pub clock: u64,
    pub seq: u8,
    tally: Tally,
}

impl<'a> Second<'a> {
    pub fn new(case: &'a Case) -> Self {
        let targets = match &case.event {
            Event::Start { targets, .. } => targets.iter().map(target).collect(),
            Event::Message { .. } => Vec::new(),
        };
        Second {
            case,
            settings: Settings {
                receiving: case.own.receiving,
                sending: case.own.sending,
            },
            instances: case.instances.iter().map(instance).collect(),
            routes: case.routes.iter().map(route).collect(),
            targets,
            forward: vec![0x55; 1236],
            reply: vec![0x55; 1236],
            clock: CLOCK,
            seq: SEQ,
            tally: Tally::default(),
        }
    }

    /// The call, and its outcome.
    pub fn outcome(&mut self) -> Outcome {
        let (settings, tally) = (&self.settings, &mut self.tally);
        let state = &mut State {
            clock: &mut self.clock,
            own_seq: &mut self.seq,
            instances: &mut self.instances,
            routes: &mut self.routes,
        };
        let buffers = &mut Buffers {
            forward: &mut self.forward,
            reply: &mut self.reply,
        };
        match &self.case.event {
            Event::Message { octets, link } => {
                let received = received(octets, link);
                reference::receive(settings, TIME, &received, state, buffers, tally)
            }
            Event::Start { fields, .. } => {
                let start = start(fields, &self.targets);
                reference::start(settings, TIME, &start, state, buffers, tally)
            }
        }
    }
}

fn received<'a>(octets: &'a [u8], link: &Link) -> Received<'a> {
    Received {
        octets,
        neighbour: link.neighbour,
        upward_good: link.upward != 0,
        downward_good: link.downward != 0,
        rank_increase: link.increase,
        to_group: link.group != 0,
    }
}

fn start<'a>(fields: &StartFields, targets: &'a [Target]) -> Start<'a> {
    Start {
        instance: fields.instance,
        h: fields.h,
        compr: fields.compr,
        l: fields.l,
        rank_limit: fields.limit,
        targets,
    }
}

impl Node for Second<'_> {
    fn call(&mut self) {
        black_box(self.outcome());
    }

    fn undo(&mut self) {
        self.clock = CLOCK;
        self.seq = SEQ;
        if self.case.frees_row {
            self.instances[self.case.rows - 1].kind = 0;
        }
        if self.case.frees_route {
            self.routes[self.case.rows - 1].used = 0;
        }
    }
}

fn target(target: &kajakulm::Target) -> Target {
    Target {
        seq: target.seq,
        prefix_length: target.plen,
        address: target.addr,
    }
}

fn instance(row: &InstanceRow) -> reference::InstanceRow {
    reference::InstanceRow {
        kind: row.kind,
        instance: row.instance,
        dodagid: row.dodagid,
        seq: row.seq,
        s: row.s,
        h: row.h,
        rank: row.rank,
        neighbour: row.neighbour,
        count: row.count,
        targets: core::array::from_fn(|place| target(&row.targets[place])),
        replied: row.replied,
        endless: row.endless,
        deadline: row.deadline,
    }
}

fn route(row: &RouteRow) -> reference::RouteRow {
    reference::RouteRow {
        used: row.kind,
        source: row.source,
        destination: row.destination,
        instance: row.instance,
        next_hop: row.next,
        seq: row.seq,
        endless: row.endless,
        deadline: row.deadline,
    }
}
