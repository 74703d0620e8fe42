//! What is measured: kinds of calls, each at several sizes of the tables.

use kajakulm::{Address, InstanceRow, Link, RouteRow, Settings, StartFields, Target};

use crate::rows::{self, Random};
use crate::wire::{self, Draft};

pub const SIZES: [usize; 4] = [4, 64, 512, 4000];
pub const CLOCK: u64 = 999_000;
pub const TIME: u64 = 1_000_000;
pub const SEQ: u8 = 240;

#[derive(Clone, Copy, Debug, PartialEq, Eq)]
pub enum Kind {
    Request,
    Known,
    Reply,
    Start,
    Garbage,
    VectorRequest,
    VectorReply,
}

pub const KINDS: [Kind; 7] = [
    Kind::Request,
    Kind::Known,
    Kind::Reply,
    Kind::Start,
    Kind::Garbage,
    Kind::VectorRequest,
    Kind::VectorReply,
];

impl Kind {
    pub fn tag(self) -> &'static str {
        match self {
            Kind::Request => "request",
            Kind::Known => "known",
            Kind::Reply => "reply",
            Kind::Start => "start",
            Kind::Garbage => "garbage",
            Kind::VectorRequest => "vector-request",
            Kind::VectorReply => "vector-reply",
        }
    }

    pub fn name(self) -> &'static str {
        match self {
            Kind::Request => "request forwarded",
            Kind::Known => "request answered 14",
            Kind::Reply => "reply forwarded",
            Kind::Start => "start",
            Kind::Garbage => "garbage answered 3",
            Kind::VectorRequest => "request forwarded, H 0",
            Kind::VectorReply => "reply forwarded, H 0",
        }
    }

    pub fn answer(self) -> u8 {
        match self {
            Kind::Known => 14,
            Kind::Garbage => 3,
            _ => 0,
        }
    }

    /// Does the call write a new instance row?
    fn takes_row(self) -> bool {
        self.answer() == 0
    }

    /// Does the call write a new route?
    fn takes_route(self) -> bool {
        matches!(self, Kind::Request | Kind::Reply)
    }

    fn h(self) -> bool {
        !matches!(self, Kind::VectorRequest | Kind::VectorReply)
    }
}

pub enum Event {
    Message {
        octets: Vec<u8>,
        link: Link,
    },
    Start {
        fields: StartFields,
        targets: Vec<Target>,
    },
}

/// One call over given tables. Where it writes a new row, the last row of the
/// table is the only one that is not live.
pub struct Case {
    pub kind: Kind,
    pub rows: usize,
    pub own: Settings,
    pub instances: Vec<InstanceRow>,
    pub routes: Vec<RouteRow>,
    pub frees_row: bool,
    pub frees_route: bool,
    pub event: Event,
}

/// So many tables are drawn for a point. In a long table it is luck how many rows
/// our filter cannot tell from an earlier one.
const DRAWS: u64 = 5;

/// Every kind at every number of rows, each over some tables.
pub fn all() -> Vec<Vec<Case>> {
    let points = KINDS
        .into_iter()
        .flat_map(|kind| SIZES.map(|rows| (kind, rows)));
    let draws = |(kind, rows)| (0..DRAWS).map(|draw| case(kind, rows, draw)).collect();
    points.map(draws).collect()
}

/// OrigNode of the message; TargNode of a reply; others on the way.
struct World {
    receiving: Address,
    orig: Address,
    targ: Address,
    neighbour: Address,
    others: [Address; 6],
}

fn case(kind: Kind, rows: usize, draw: u64) -> Case {
    let random = &mut Random((draw << 32) + rows as u64);
    let world = World {
        receiving: random.address(),
        orig: random.address(),
        targ: random.address(),
        neighbour: random.address(),
        others: core::array::from_fn(|_| random.address()),
    };
    let mut case = Case {
        kind,
        rows,
        own: Settings {
            receiving: world.receiving,
            sending: world.receiving,
        },
        instances: (0..rows).map(|_| rows::instance(random, TIME)).collect(),
        routes: (0..rows)
            .map(|_| rows::route(random, TIME, world.receiving))
            .collect(),
        frees_row: kind.takes_row(),
        frees_route: kind.takes_route(),
        event: event(kind, &world, random),
    };
    special_row(&mut case, &world);
    if case.frees_row {
        case.instances[rows - 1].kind = 0;
    }
    if case.frees_route {
        case.routes[rows - 1].kind = 0;
    }
    case
}

/// The live row that the call is about: at the table's end, where a search
/// from the front comes last. A reply's partner has a free row behind it.
fn special_row(case: &mut Case, world: &World) {
    let place = match case.kind {
        Kind::Known => case.rows - 1,
        Kind::Reply | Kind::VectorReply => case.rows - 2,
        _ => return,
    };
    let row = &mut case.instances[place];
    row.kind = rows::REQUEST;
    row.instance = wire::INSTANCE;
    row.dodagid = world.orig;
    row.s = 1;
    row.h = u8::from(case.kind.h());
    row.neighbour = world.neighbour;
    row.count = 1;
    row.targets[0].addr = world.targ;
    row.targets[0].plen = 0;
}

fn event(kind: Kind, world: &World, random: &mut Random) -> Event {
    let octets = match kind {
        Kind::Start => return start(world),
        Kind::Garbage => (0..96).map(|_| random.next() as u8).collect(),
        Kind::Request | Kind::Known | Kind::VectorRequest => request(kind, world),
        Kind::Reply | Kind::VectorReply => reply(kind, world),
    };
    let link = Link {
        neighbour: world.neighbour,
        upward: 1,
        downward: 1,
        increase: 256,
        group: u8::from(!matches!(kind, Kind::Reply | Kind::VectorReply)),
    };
    Event::Message { octets, link }
}

fn request(kind: Kind, world: &World) -> Vec<u8> {
    wire::octets(&Draft {
        kind: wire::RREQ,
        h: kind.h(),
        dodagid: world.orig,
        third: 240,
        vector: if kind.h() { &[] } else { &world.others },
        targets: &[world.targ, world.others[0]],
    })
}

fn reply(kind: Kind, world: &World) -> Vec<u8> {
    let mut vector = world.others;
    vector[3] = world.receiving;
    wire::octets(&Draft {
        kind: wire::RREP,
        h: kind.h(),
        dodagid: world.targ,
        third: 0,
        vector: if kind.h() { &[] } else { &vector },
        targets: &[world.orig],
    })
}

fn start(world: &World) -> Event {
    let target = |addr| Target {
        seq: 0,
        plen: 0,
        addr,
    };
    Event::Start {
        fields: StartFields {
            instance: wire::INSTANCE,
            h: 1,
            compr: 0,
            l: 1,
            limit: 7,
        },
        targets: vec![target(world.targ), target(world.others[0])],
    }
}
