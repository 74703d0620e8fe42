//! A list in the making, with the second program beside it, so that the next
//! call can be about rows that are really there.

use kajakulm::{InstanceRow, Link};

use super::world::World;
use crate::list::{Call, Event, List, Step};
use crate::node::{self, Host};
use crate::prng::Random;
use crate::rows;
use crate::wire::Draft;

pub struct Maker {
    pub random: Random,
    pub world: World,
    pub list: List,
    pub host: Host,
}

impl Maker {
    pub fn new(mut random: Random, instances: usize, routes: usize) -> Self {
        let world = World::new(&mut random);
        let list = List::new(world.own, instances, routes);
        Maker {
            random,
            world,
            host: Host::fresh(&list),
            list,
        }
    }

    /// Adds a step, and does it.
    pub fn add(&mut self, step: Step) {
        match &step {
            Step::Call(call) => {
                self.host.call(node::second, call, 0);
            }
            handed => self.host.hand_in(handed),
        }
        self.list.steps.push(step);
    }

    pub fn add_call(&mut self, call: Call) {
        self.add(Step::Call(Box::new(call)));
    }

    /// Hands in whatever is not as it was before.
    pub fn restore(&mut self, before: &Host) {
        if self.host.clock != before.clock {
            self.add(Step::Clock(before.clock));
        }
        if self.host.seq != before.seq {
            self.add(Step::Seq(before.seq));
        }
        for (place, row) in before.instances.iter().enumerate() {
            if self.host.instances[place] != *row {
                self.add(Step::Row(place, Box::new(*row)));
            }
        }
        for (place, row) in before.routes.iter().enumerate() {
            if self.host.routes[place] != *row {
                self.add(Step::Route(place, Box::new(*row)));
            }
        }
    }

    /// One of the request rows, most often one that is live.
    pub fn request_row(&mut self, time: u64, whose: Whose) -> Option<InstanceRow> {
        let with_dead = self.random.percent(8);
        let own = self.world.own;
        let is_meant = |row: &InstanceRow| {
            let is_ours = [own.receiving, own.sending].contains(&row.dodagid);
            row.kind == rows::REQUEST
                && (is_ours == (whose == Whose::Ours))
                && (with_dead || rows::is_live(row, time))
        };
        self.one_row(is_meant)
    }

    pub fn one_row(&mut self, is_meant: impl Fn(&InstanceRow) -> bool) -> Option<InstanceRow> {
        let rows = self.host.instances.iter();
        let all: Vec<InstanceRow> = rows.filter(|row| is_meant(row)).copied().collect();
        (!all.is_empty()).then(|| self.random.pick(&all))
    }
}

/// Whose discovery a request row is of.
#[derive(Clone, Copy, PartialEq, Eq)]
pub enum Whose {
    Ours,
    Others,
}

/// A message in the making: its fields and its link facts.
pub struct Message {
    pub draft: Draft,
    pub link: Link,
}

impl Message {
    pub fn event(&self, octets: Vec<u8>) -> Event {
        Event::Message {
            octets,
            link: self.link,
        }
    }
}

/// A flag that is on; any value but 0 will do.
pub fn on(random: &mut Random) -> u8 {
    random.pick(&[1, 1, 1, 1, 2, 0x80, 0xff])
}

pub fn flag(random: &mut Random, chance: usize) -> u8 {
    match random.percent(chance) {
        true => on(random),
        false => 0,
    }
}
