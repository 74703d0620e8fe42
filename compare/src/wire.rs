//! Messages put together octet by octet, right ones and wrong ones.

use kajakulm::{Address, Target};

use crate::prng::Random;

pub const CONFIGURATION: u8 = 0x04;
pub const RREQ: u8 = 0x0b;
pub const RREP: u8 = 0x0c;
pub const ART: u8 = 0x0d;

/// All fields of a request or a reply, each as it will be sent.
#[derive(Clone, Debug)]
pub struct Draft {
    /// `RREQ` or `RREP`.
    pub kind: u8,
    pub instance: u8,
    pub version: u8,
    pub rank: u16,
    /// G, a bit that is ignored, MOP and Prf.
    pub mode: u8,
    /// DTSN, Flags and Reserved.
    pub ignored: [u8; 3],
    pub dodagid: Address,
    pub configuration: Option<[u8; 14]>,
    /// S of a request, G of a reply.
    pub flag: bool,
    pub h: bool,
    pub x: bool,
    pub compr: u8,
    pub l: u8,
    pub limit: u8,
    /// Orig SeqNo; or Delta and two bits that are ignored.
    pub third: u8,
    pub vector: Vec<Address>,
    pub targets: Vec<Target>,
    /// The X bits of the ARTs.
    pub art_x: bool,
}

/// MOP 4, no other bit.
pub const MODE: u8 = 0x20;

impl Draft {
    pub fn new(kind: u8, instance: u8, dodagid: Address) -> Self {
        Draft {
            kind,
            instance,
            version: 0,
            rank: 256,
            mode: MODE,
            ignored: [0; 3],
            dodagid,
            configuration: None,
            flag: true,
            h: false,
            x: false,
            compr: 0,
            l: 0,
            limit: 0,
            third: 0,
            vector: Vec::new(),
            targets: Vec::new(),
            art_x: false,
        }
    }

    pub fn base(&self) -> Vec<u8> {
        let mut octets = vec![self.instance, self.version];
        octets.extend(self.rank.to_be_bytes());
        octets.push(self.mode);
        octets.extend(self.ignored);
        octets.extend(self.dodagid);
        octets
    }

    fn route_option(&self) -> Vec<u8> {
        let bits = u8::from(self.flag) << 7 | u8::from(self.h) << 6 | u8::from(self.x) << 5;
        let mut body = vec![
            bits | self.compr << 1 | self.l >> 1,
            self.l << 7 | self.limit & 0x7f,
            self.third,
        ];
        for address in &self.vector {
            body.extend(&address[usize::from(self.compr)..]);
        }
        option(self.kind, &body)
    }

    /// Configuration, RREQ or RREP, ARTs.
    pub fn options(&self) -> Vec<Vec<u8>> {
        let mut options = Vec::new();
        if let Some(configuration) = &self.configuration {
            options.push(option(CONFIGURATION, configuration));
        }
        options.push(self.route_option());
        options.extend(self.targets.iter().map(|target| art(target, self.art_x)));
        options
    }

    pub fn octets(&self) -> Vec<u8> {
        [self.base(), self.options().concat()].concat()
    }

    /// With the options in another order and others between them.
    pub fn noisy_octets(&self, random: &mut Random) -> Vec<u8> {
        let mut options = self.options();
        if random.percent(50) {
            random.shuffle(&mut options);
        }
        let mut octets = self.base();
        for option in options {
            octets.extend(filler(random));
            octets.extend(option);
        }
        octets.extend(filler(random));
        octets
    }
}

/// How many addresses a vector can have in 252 octets.
pub fn most_addresses(compr: u8) -> usize {
    252 / (16 - usize::from(compr))
}

/// A body over 255 octets is cut, so that the length octet is right.
pub fn option(kind: u8, body: &[u8]) -> Vec<u8> {
    let length = body.len().min(255);
    [&[kind, length as u8], &body[..length]].concat()
}

pub fn art(target: &Target, x: bool) -> Vec<u8> {
    let plen = target.plen & 0x7f;
    let size = match plen {
        0 => 16,
        _ => usize::from(plen).div_ceil(8),
    };
    let head = [target.seq, plen | u8::from(x) << 7];
    option(ART, &[&head[..], &target.addr[..size]].concat())
}

/// Pad1, PadN, an unknown option or, mostly, nothing.
pub fn filler(random: &mut Random) -> Vec<u8> {
    match random.below(8) {
        0 => vec![0; random.within(1, 4)],
        1 => option(0x01, &vec![0; random.below(6)]),
        2 => {
            let kind = random.pick(&[0x02, 0x03, 0x05, 0x0a, 0x0e, 0x42, 0xff]);
            let size = random.below(20);
            option(kind, &random.octets(size))
        }
        _ => Vec::new(),
    }
}
