//! What the tests share: messages put together octet by octet, and a node
//! with its tables and buffers.
#![allow(dead_code)]

use reference::{
    Address, Buffers, InstanceRow, Outcome, Received, RouteRow, Settings, Start, State, Tally,
    Target,
};

/// fd00::`last`.
pub fn fd(last: u8) -> Address {
    let mut address = [0; 16];
    address[0] = 0xfd;
    address[15] = last;
    address
}

/// fe80::`last`.
pub fn fe80(last: u8) -> Address {
    let mut address = fd(last);
    address[0] = 0xfe;
    address[1] = 0x80;
    address
}

/// Octets from hexadecimal digits; spaces do not count.
pub fn hex(text: &str) -> Vec<u8> {
    let digits: Vec<u32> = text.chars().filter_map(|c| c.to_digit(16)).collect();
    digits
        .chunks(2)
        .map(|pair| (pair[0] * 16 + pair[1]) as u8)
        .collect()
}

pub fn base(instance: u8, rank: u16, dodagid: Address) -> Vec<u8> {
    let mut octets = vec![instance, 0];
    octets.extend(rank.to_be_bytes());
    octets.extend([0x20, 0, 0, 0]);
    octets.extend(dodagid);
    octets
}

pub fn option(kind: u8, body: &[u8]) -> Vec<u8> {
    let mut octets = vec![kind, body.len() as u8];
    octets.extend(body);
    octets
}

/// The body of an RREQ or RREP: the first three octets, then the vector.
pub struct Fields {
    pub flag: u8,
    pub h: u8,
    pub compr: u8,
    pub l: u8,
    pub limit: u8,
    pub third: u8,
    pub vector: Vec<Address>,
}

impl Fields {
    pub fn body(&self) -> Vec<u8> {
        let mut body = vec![
            self.flag << 7 | self.h << 6 | self.compr << 1 | self.l >> 1,
            (self.l & 1) << 7 | self.limit,
            self.third,
        ];
        for address in &self.vector {
            body.extend(&address[usize::from(self.compr)..]);
        }
        body
    }
}

pub fn rreq(fields: &Fields) -> Vec<u8> {
    option(0x0b, &fields.body())
}

pub fn rrep(fields: &Fields) -> Vec<u8> {
    option(0x0c, &fields.body())
}

/// An ART with a whole address.
pub fn art(seq: u8, address: Address) -> Vec<u8> {
    let mut body = vec![seq, 0];
    body.extend(address);
    option(0x0d, &body)
}

/// An ART with a prefix.
pub fn art_prefix(seq: u8, prefix_length: u8, address: Address) -> Vec<u8> {
    let mut body = vec![seq, prefix_length];
    body.extend(&address[..usize::from(prefix_length).div_ceil(8)]);
    option(0x0d, &body)
}

pub fn configuration(step: u16, lifetime: u8, unit: u16) -> Vec<u8> {
    let mut body = vec![0x11, 0x22, 0x33, 0x44, 0x55, 0x66];
    body.extend(step.to_be_bytes());
    body.extend([0x77, 0x88, 0x99, lifetime]);
    body.extend(unit.to_be_bytes());
    option(0x04, &body)
}

pub fn whole(address: Address) -> Target {
    target(0, 0, address)
}

pub fn target(seq: u8, prefix_length: u8, address: Address) -> Target {
    Target {
        seq,
        prefix_length,
        address,
    }
}

/// The "Whole" message of the bench examples.
pub fn bench_whole() -> Vec<u8> {
    let mut octets = hex("81 00 03 00 20 00 00 00");
    octets.extend(fd(1));
    octets.extend(hex("0B 03 C0 87 F0 0D 12 00 00"));
    octets.extend(fd(9));
    octets
}

/// A small generator (splitmix64) with a fixed seed.
pub struct Random(pub u64);

impl Random {
    pub fn next(&mut self) -> u64 {
        self.0 = self.0.wrapping_add(0x9e37_79b9_7f4a_7c15);
        let mut z = self.0;
        z = (z ^ (z >> 30)).wrapping_mul(0xbf58_476d_1ce4_e5b9);
        z = (z ^ (z >> 27)).wrapping_mul(0x94d0_49bb_1331_11eb);
        z ^ (z >> 31)
    }

    pub fn below(&mut self, bound: u64) -> u64 {
        self.next() % bound
    }

    pub fn octet(&mut self) -> u8 {
        self.next() as u8
    }

    pub fn flag(&mut self) -> bool {
        self.next() & 1 == 1
    }

    pub fn octets<const N: usize>(&mut self) -> [u8; N] {
        core::array::from_fn(|_| self.octet())
    }
}

/// What stands in a buffer where nothing was written.
pub const UNTOUCHED: u8 = 0xa5;

#[derive(Clone, PartialEq, Debug)]
pub struct Node {
    pub settings: Settings,
    pub clock: u64,
    pub own_seq: u8,
    pub instances: Vec<InstanceRow>,
    pub routes: Vec<RouteRow>,
    pub forward: Vec<u8>,
    pub reply: Vec<u8>,
    pub tally: Tally,
}

impl Node {
    pub fn new(last: u8) -> Node {
        Node {
            settings: Settings {
                receiving: fd(last),
                sending: fd(last),
            },
            clock: 0,
            own_seq: 240,
            instances: vec![InstanceRow::default(); 4],
            routes: vec![RouteRow::default(); 4],
            forward: vec![UNTOUCHED; 1236],
            reply: vec![UNTOUCHED; 1236],
            tally: Tally::default(),
        }
    }

    pub fn receive(&mut self, time: u64, received: &Received) -> Outcome {
        self.forward.fill(UNTOUCHED);
        self.reply.fill(UNTOUCHED);
        let before = self.clone();
        let outcome = reference::receive(
            &self.settings,
            time,
            received,
            &mut State {
                clock: &mut self.clock,
                own_seq: &mut self.own_seq,
                instances: &mut self.instances,
                routes: &mut self.routes,
            },
            &mut Buffers {
                forward: &mut self.forward,
                reply: &mut self.reply,
            },
            &mut self.tally,
        );
        self.check(&before, time, &outcome);
        outcome
    }

    pub fn start(&mut self, time: u64, start: &Start) -> Outcome {
        self.forward.fill(UNTOUCHED);
        self.reply.fill(UNTOUCHED);
        let before = self.clone();
        let outcome = reference::start(
            &self.settings,
            time,
            start,
            &mut State {
                clock: &mut self.clock,
                own_seq: &mut self.own_seq,
                instances: &mut self.instances,
                routes: &mut self.routes,
            },
            &mut Buffers {
                forward: &mut self.forward,
                reply: &mut self.reply,
            },
            &mut self.tally,
        );
        self.check(&before, time, &outcome);
        outcome
    }

    /// What holds of every call.
    fn check(&self, before: &Node, time: u64, outcome: &Outcome) {
        use reference::Destination::Nowhere;
        let mut expected = before.clone();
        let count = &mut expected.tally.counts[usize::from(outcome.answer)];
        *count = count.wrapping_add(1);
        if outcome.answer != 0 {
            // "1 to 17 change nothing but the tally."
            assert_eq!(*self, expected);
            assert_eq!((outcome.forward_length, outcome.reply_length), (0, 0));
        } else {
            assert_eq!(self.tally, expected.tally);
            assert_eq!(self.clock, time);
            assert_eq!(self.settings, before.settings);
            // "Octets past the reported lengths keep what they held."
            assert_eq!(
                self.forward[outcome.forward_length..],
                before.forward[outcome.forward_length..]
            );
            assert_eq!(
                self.reply[outcome.reply_length..],
                before.reply[outcome.reply_length..]
            );
        }
        assert_eq!(outcome.forward_length == 0, outcome.forward_to == Nowhere);
        assert_eq!(outcome.reply_length == 0, outcome.reply_to == Nowhere);
    }

    pub fn forwarded(&self, outcome: &Outcome) -> Vec<u8> {
        self.forward[..outcome.forward_length].to_vec()
    }

    pub fn replied(&self, outcome: &Outcome) -> Vec<u8> {
        self.reply[..outcome.reply_length].to_vec()
    }
}

/// Good links, increase 256, to the group, from fe80::5.
pub fn good(octets: &[u8]) -> Received<'_> {
    Received {
        octets,
        neighbour: fe80(5),
        upward_good: true,
        downward_good: true,
        rank_increase: 256,
        to_group: true,
    }
}
