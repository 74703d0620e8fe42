//! A list of calls: a node's settings and tables, and what happens to it.

use kajakulm::{InstanceRow, Link, RouteRow, Settings, StartFields, Target};

/// The greatest message and the least buffer.
pub const MOST_OCTETS: usize = 1236;

/// Fresh: clock 0, own number 240, rows of the two tables all zero.
#[derive(Clone, Debug, PartialEq, Eq)]
pub struct List {
    pub own: Settings,
    pub instances: usize,
    pub routes: usize,
    pub steps: Vec<Step>,
}

/// A call, or something that the host writes into the state.
#[derive(Clone, Debug, PartialEq, Eq)]
pub enum Step {
    Clock(u64),
    Seq(u8),
    /// The count of one answer, 0 to 17.
    Tally(usize, u32),
    Row(usize, Box<InstanceRow>),
    Route(usize, Box<RouteRow>),
    Call(Box<Call>),
}

#[derive(Clone, Debug, PartialEq, Eq)]
pub struct Call {
    /// Other addresses than the list's, for this call alone.
    pub own: Option<Settings>,
    pub time: u64,
    pub forward_size: usize,
    pub reply_size: usize,
    pub event: Event,
}

#[derive(Clone, Debug, PartialEq, Eq)]
pub enum Event {
    Message {
        octets: Vec<u8>,
        link: Link,
    },
    Start {
        fields: StartFields,
        targets: Vec<Target>,
    },
}

impl Call {
    /// A call with buffers of the least length.
    pub fn new(time: u64, event: Event) -> Self {
        Call {
            own: None,
            time,
            forward_size: MOST_OCTETS,
            reply_size: MOST_OCTETS,
            event,
        }
    }
}

impl List {
    pub fn new(own: Settings, instances: usize, routes: usize) -> Self {
        List {
            own,
            instances,
            routes,
            steps: Vec::new(),
        }
    }

    pub fn calls(&self) -> impl Iterator<Item = &Call> {
        self.steps.iter().filter_map(|step| match step {
            Step::Call(call) => Some(&**call),
            _ => None,
        })
    }

    /// Does it start with a fresh node that nobody else writes to? Rows not in
    /// use may hold anything, and so may be handed in before the first call.
    pub fn is_fresh(&self) -> bool {
        let first_call = self
            .steps
            .iter()
            .position(|step| matches!(step, Step::Call(_)));
        self.steps
            .iter()
            .enumerate()
            .all(|(place, step)| match step {
                Step::Call(call) => call.own.is_none(),
                Step::Row(_, row) => !crate::rows::is_used(row) && Some(place) < first_call,
                Step::Route(_, row) => !crate::rows::is_used_route(row) && Some(place) < first_call,
                Step::Clock(_) | Step::Seq(_) => false,
                // "It is no part of the node's state."
                Step::Tally(..) => true,
            })
    }
}
