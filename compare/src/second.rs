//! The second program as a node of a host.

use kajakulm::{InstanceRow, Link, Outcome, RouteRow, Settings, StartFields, Target};
use kajakulm::{CALLER, GROUP, NEIGHBOUR, NOWHERE};
use reference::{Buffers, Destination, State};

use crate::list::{Call, Event};
use crate::node::Host;

/// The second program, over copies of the host's tables.
pub fn second(host: &mut Host, own: Settings, call: &Call) -> Outcome {
    let settings = reference::Settings {
        receiving: own.receiving,
        sending: own.sending,
    };
    let mut instances: Vec<_> = host.instances.iter().map(to_second).collect();
    let mut routes: Vec<_> = host.routes.iter().map(route_to_second).collect();
    let (mut clock, mut seq) = (host.clock, host.seq);
    let mut tally = reference::Tally {
        counts: host.tally.counts,
    };
    let state = &mut State {
        clock: &mut clock,
        own_seq: &mut seq,
        instances: &mut instances,
        routes: &mut routes,
    };
    let buffers = &mut Buffers {
        forward: &mut host.forward,
        reply: &mut host.reply,
    };
    let outcome = dispatch(&settings, call, state, buffers, &mut tally);
    host.instances = instances.iter().map(from_second).collect();
    host.routes = routes.iter().map(route_from_second).collect();
    host.tally.counts = tally.counts;
    outcome_of(&outcome, clock, seq)
}

fn dispatch(
    settings: &reference::Settings,
    call: &Call,
    state: &mut State,
    buffers: &mut Buffers,
    tally: &mut reference::Tally,
) -> reference::Outcome {
    match &call.event {
        Event::Message { octets, link } => {
            let received = received(octets, link);
            reference::receive(settings, call.time, &received, state, buffers, tally)
        }
        Event::Start { fields, targets } => {
            let targets: Vec<_> = targets.iter().map(target_to_second).collect();
            let start = start(fields, &targets);
            reference::start(settings, call.time, &start, state, buffers, tally)
        }
    }
}

fn received<'a>(octets: &'a [u8], link: &Link) -> reference::Received<'a> {
    reference::Received {
        octets,
        neighbour: link.neighbour,
        upward_good: link.upward != 0,
        downward_good: link.downward != 0,
        rank_increase: link.increase,
        to_group: link.group != 0,
    }
}

fn start<'a>(fields: &StartFields, targets: &'a [reference::Target]) -> reference::Start<'a> {
    reference::Start {
        instance: fields.instance,
        h: fields.h,
        compr: fields.compr,
        l: fields.l,
        rank_limit: fields.limit,
        targets,
    }
}

fn outcome_of(outcome: &reference::Outcome, clock: u64, seq: u8) -> Outcome {
    let (forward_way, forward_neighbour) = way(&outcome.forward_to);
    let (reply_way, reply_neighbour) = way(&outcome.reply_to);
    Outcome {
        answer: outcome.answer,
        seq,
        forward_way,
        reply_way,
        forward_length: outcome.forward_length as u64,
        reply_length: outcome.reply_length as u64,
        clock,
        forward_neighbour,
        reply_neighbour,
    }
}

/// The neighbour is all zero unless the way is to one.
fn way(destination: &Destination) -> (u8, [u8; 16]) {
    match destination {
        Destination::Nowhere => (NOWHERE, [0; 16]),
        Destination::Group => (GROUP, [0; 16]),
        Destination::Neighbour(address) => (NEIGHBOUR, *address),
        Destination::Caller => (CALLER, [0; 16]),
    }
}

fn target_to_second(target: &Target) -> reference::Target {
    reference::Target {
        seq: target.seq,
        prefix_length: target.plen,
        address: target.addr,
    }
}

fn target_from_second(target: &reference::Target) -> Target {
    Target {
        seq: target.seq,
        plen: target.prefix_length,
        addr: target.address,
    }
}

fn to_second(row: &InstanceRow) -> reference::InstanceRow {
    reference::InstanceRow {
        kind: row.kind,
        instance: row.instance,
        dodagid: row.dodagid,
        seq: row.seq,
        s: row.s,
        h: row.h,
        rank: row.rank,
        neighbour: row.neighbour,
        count: row.count,
        targets: core::array::from_fn(|place| target_to_second(&row.targets[place])),
        replied: row.replied,
        endless: row.endless,
        deadline: row.deadline,
    }
}

fn from_second(row: &reference::InstanceRow) -> InstanceRow {
    InstanceRow {
        kind: row.kind,
        instance: row.instance,
        seq: row.seq,
        s: row.s,
        h: row.h,
        replied: row.replied,
        endless: row.endless,
        count: row.count,
        rank: row.rank,
        dodagid: row.dodagid,
        neighbour: row.neighbour,
        targets: core::array::from_fn(|place| target_from_second(&row.targets[place])),
        deadline: row.deadline,
    }
}

fn route_to_second(row: &RouteRow) -> reference::RouteRow {
    reference::RouteRow {
        used: row.kind,
        source: row.source,
        destination: row.destination,
        instance: row.instance,
        next_hop: row.next,
        seq: row.seq,
        endless: row.endless,
        deadline: row.deadline,
    }
}

fn route_from_second(row: &reference::RouteRow) -> RouteRow {
    RouteRow {
        kind: row.used,
        instance: row.instance,
        seq: row.seq,
        endless: row.endless,
        source: row.source,
        destination: row.destination,
        next: row.next_hop,
        deadline: row.deadline,
    }
}
