//! The messages that are measured, octet by octet.

use kajakulm::Address;

pub const RREQ: u8 = 0x0b;
pub const RREP: u8 = 0x0c;

pub const INSTANCE: u8 = 0x81;

/// What differs between the messages.
pub struct Draft<'a> {
    pub kind: u8,
    pub h: bool,
    pub dodagid: Address,
    /// Orig SeqNo, or Delta in the upper six bits.
    pub third: u8,
    pub vector: &'a [Address],
    pub targets: &'a [Address],
}

/// Step 256, rank 768, S (or G) 1, L 1, RankLimit 7; Compr 8 with H 0.
pub fn octets(draft: &Draft) -> Vec<u8> {
    let mut octets = vec![INSTANCE, 0, 3, 0, 0x20, 0, 0, 0];
    octets.extend(draft.dodagid);
    let (first, compr) = match draft.h {
        true => (0xc0, 0),
        false => (0x80 | 8 << 1, 8),
    };
    let mut body = vec![first, 0x87, draft.third];
    for address in draft.vector {
        body.extend(&address[compr..]);
    }
    option(&mut octets, draft.kind, &body);
    for address in draft.targets {
        let mut body = vec![240, 0];
        body.extend(address);
        option(&mut octets, 0x0d, &body);
    }
    octets
}

fn option(octets: &mut Vec<u8>, kind: u8, body: &[u8]) {
    octets.extend([kind, body.len() as u8]);
    octets.extend(body);
}
