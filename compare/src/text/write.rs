//! A list as text.

use std::fmt::Write;
use std::net::Ipv6Addr;

use kajakulm::{Address, InstanceRow, Link, RouteRow, StartFields, Target};

use crate::list::{Call, Event, List, Step, MOST_OCTETS};

pub fn write(list: &List) -> String {
    let own = &list.own;
    let mut text = format!(
        "own {} {}\n",
        address(&own.receiving),
        address(&own.sending)
    );
    text += &format!("tables {} {}\n", list.instances, list.routes);
    for step in &list.steps {
        text += &step_line(step);
        text.push('\n');
    }
    text
}

pub fn step_line(step: &Step) -> String {
    match step {
        Step::Clock(clock) => format!("clock {clock}"),
        Step::Seq(seq) => format!("seq {seq}"),
        Step::Tally(answer, count) => format!("tally {answer} {count}"),
        Step::Row(place, row) => row_line(*place, row),
        Step::Route(place, row) => route_line(*place, row),
        Step::Call(call) => call_line(call),
    }
}

fn row_line(place: usize, row: &InstanceRow) -> String {
    let numbers = format!(
        "kind={} instance={} seq={} s={} h={} replied={} rank={} endless={} deadline={} count={}",
        row.kind,
        row.instance,
        row.seq,
        row.s,
        row.h,
        row.replied,
        row.rank,
        row.endless,
        row.deadline,
        row.count
    );
    let dodagid = address(&row.dodagid);
    let neighbour = address(&row.neighbour);
    let targets = row_targets(&row.targets);
    format!("row {place} {numbers} dodagid={dodagid} neighbour={neighbour} targets={targets}")
}

fn route_line(place: usize, row: &RouteRow) -> String {
    format!(
        "route {place} kind={} instance={} seq={} endless={} deadline={} source={} destination={} next={}",
        row.kind,
        row.instance,
        row.seq,
        row.endless,
        row.deadline,
        address(&row.source),
        address(&row.destination),
        address(&row.next)
    )
}

pub fn call_line(call: &Call) -> String {
    let (name, event) = match &call.event {
        Event::Message { octets, link } => ("message", message(octets, link)),
        Event::Start { fields, targets } => ("start", start(fields, targets)),
    };
    let mut line = format!("{name} time={}", call.time);
    if call.forward_size != MOST_OCTETS {
        line += &format!(" forward={}", call.forward_size);
    }
    if call.reply_size != MOST_OCTETS {
        line += &format!(" reply={}", call.reply_size);
    }
    if let Some(own) = &call.own {
        line += &format!(" receiving={}", address(&own.receiving));
        line += &format!(" sending={}", address(&own.sending));
    }
    line + &event
}

fn message(octets: &[u8], link: &Link) -> String {
    format!(
        " neighbour={} upward={} downward={} increase={} group={} octets={}",
        address(&link.neighbour),
        link.upward,
        link.downward,
        link.increase,
        link.group,
        hexadecimal(octets)
    )
}

fn start(fields: &StartFields, targets: &[Target]) -> String {
    format!(
        " instance={} h={} compr={} l={} limit={} targets={}",
        fields.instance,
        fields.h,
        fields.compr,
        fields.l,
        fields.limit,
        target_list(targets)
    )
}

fn address(address: &Address) -> String {
    Ipv6Addr::from(*address).to_string()
}

pub fn hexadecimal(octets: &[u8]) -> String {
    let mut text = String::new();
    for octet in octets {
        // Writing to a string does not fail.
        let _ = write!(text, "{octet:02x}");
    }
    text
}

fn target_list(targets: &[Target]) -> String {
    let one = |target: &Target| format!("{}/{}/{}", target.seq, target.plen, address(&target.addr));
    targets.iter().map(one).collect::<Vec<_>>().join(",")
}

/// Blank targets at the end are left out.
fn row_targets(targets: &[Target; 8]) -> String {
    let is_blank = |target: &Target| *target == Target::default();
    let last = targets.iter().rposition(|target| !is_blank(target));
    target_list(&targets[..last.map_or(0, |last| last + 1)])
}
