//! Tables full of live rows with distinct keys.

use kajakulm::{Address, InstanceRow, RouteRow, Target};

pub const REQUEST: u8 = 1;
pub const REPLY: u8 = 2;

/// The same numbers in each run (splitmix64).
pub struct Random(pub u64);

impl Random {
    pub fn next(&mut self) -> u64 {
        self.0 = self.0.wrapping_add(0x9e37_79b9_7f4a_7c15);
        let mut z = self.0;
        z = (z ^ (z >> 30)).wrapping_mul(0xbf58_476d_1ce4_e5b9);
        z = (z ^ (z >> 27)).wrapping_mul(0x94d0_49bb_1331_11eb);
        z ^ (z >> 31)
    }

    /// fd00::/64 and eight octets of any value: distinct in practice.
    pub fn address(&mut self) -> Address {
        let mut address = [0; 16];
        address[0] = 0xfd;
        address[8..].copy_from_slice(&self.next().to_be_bytes());
        address
    }

    fn target(&mut self) -> Target {
        Target {
            seq: 0,
            plen: 0,
            addr: self.address(),
        }
    }
}

/// One row in four has no deadline; the others last at least 10 s.
fn deadline(random: &mut Random, time: u64) -> (u8, u64) {
    match random.next() % 4 {
        0 => (1, 0),
        _ => (0, time + 10_000 + random.next() % 200_000),
    }
}

/// A request row with one to four targets or, as often, a reply row.
pub fn instance(random: &mut Random, time: u64) -> InstanceRow {
    let (endless, deadline) = deadline(random, time);
    let mut row = InstanceRow {
        kind: REPLY,
        instance: 0x80 + (random.next() % 4) as u8,
        seq: 240,
        rank: 512,
        dodagid: random.address(),
        endless,
        deadline,
        ..InstanceRow::default()
    };
    if random.next() & 1 == 0 {
        row.kind = REQUEST;
        row.s = 1;
        row.h = 1;
        row.neighbour = random.address();
        row.count = 1 + (random.next() % 4) as u8;
        for target in &mut row.targets[..usize::from(row.count)] {
            *target = random.target();
        }
    }
    row
}

/// Half of the routes start at our own address.
pub fn route(random: &mut Random, time: u64, receiving: Address) -> RouteRow {
    let (endless, deadline) = deadline(random, time);
    let source = match random.next() % 2 {
        0 => receiving,
        _ => random.address(),
    };
    RouteRow {
        kind: 1,
        instance: 0x80 + (random.next() % 4) as u8,
        seq: 240,
        endless,
        source,
        destination: random.address(),
        next: random.address(),
        deadline,
    }
}
