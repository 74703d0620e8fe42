//! Writes a fixed run of records for `octets` to read: good messages, cut and
//! damaged ones, long ones. The same run each time. Prints on standard error
//! how many records have which answer.

use std::io::{self, Write};

use reference::wire;
use reference::Address;

fn main() -> io::Result<()> {
    let records = all_records();
    let mut counts = [0; 7];
    let mut output = Vec::new();
    for record in &records {
        let answer = wire::read(record).err().unwrap_or(0);
        counts[usize::from(answer)] += 1;
        output.extend((record.len() as u16).to_be_bytes());
        output.extend(record);
    }
    io::stdout().lock().write_all(&output)?;
    eprintln!("records {}", records.len());
    for answer in [0, 3, 4, 5, 6] {
        eprintln!("answer {answer}: {}", counts[answer]);
    }
    Ok(())
}

fn all_records() -> Vec<Vec<u8>> {
    let mut records = Vec::new();
    bench(&mut records);
    good_requests(&mut records, &mut Random(1));
    good_replies(&mut records, &mut Random(2));
    targets(&mut records, &mut Random(3));
    too_many(&mut records, &mut Random(4));
    wrong_counts(&mut records, &mut Random(5));
    unfit_dodagids(&mut records, &mut Random(6));
    malformed(&mut records, &mut Random(7));
    cut(&mut records);
    damaged(&mut records, &mut Random(8));
    long(&mut records, &mut Random(9));
    records
}

/// splitmix64.
struct Random(u64);

impl Random {
    fn next(&mut self) -> u64 {
        self.0 = self.0.wrapping_add(0x9e37_79b9_7f4a_7c15);
        let mut z = self.0;
        z = (z ^ (z >> 30)).wrapping_mul(0xbf58_476d_1ce4_e5b9);
        z = (z ^ (z >> 27)).wrapping_mul(0x94d0_49bb_1331_11eb);
        z ^ (z >> 31)
    }

    fn below(&mut self, bound: usize) -> usize {
        (self.next() % bound as u64) as usize
    }

    fn octet(&mut self) -> u8 {
        (self.next() >> 11) as u8
    }

    fn one_in(&mut self, bound: usize) -> bool {
        self.below(bound) == 0
    }

    fn octets(&mut self, count: usize) -> Vec<u8> {
        (0..count).map(|_| self.octet()).collect()
    }

    fn address(&mut self) -> Address {
        core::array::from_fn(|_| self.octet())
    }

    /// An address that can be a DODAGID.
    fn dodagid(&mut self) -> Address {
        let mut address = self.address();
        address[0] = match self.below(4) {
            0 => 0xfd,
            1 => 0x20,
            2 => 0x00,
            _ => address[0] & 0x7f,
        };
        address[15] |= 1;
        address
    }
}

/// fd00::`last`.
fn fd(last: u8) -> Address {
    let mut address = [0; 16];
    address[0] = 0xfd;
    address[15] = last;
    address
}

fn option(kind: u8, body: &[u8]) -> Vec<u8> {
    [&[kind, body.len() as u8], body].concat()
}

/// A base with MOP 4 and anything in the other fields.
fn base(random: &mut Random, dodagid: Address) -> Vec<u8> {
    let mut octets = random.octets(8);
    octets[4] = octets[4] & 0xc7 | 0x20;
    octets.extend(dodagid);
    octets
}

/// An RREQ (0x0B) or RREP (0x0C) with `count` addresses, which fit in 252
/// octets. With H 1 Compr is there, too, but no vector.
fn route_option(random: &mut Random, kind: u8, h: u8, compr: u8, count: usize) -> Vec<u8> {
    let l = random.below(4) as u8;
    let limit = random.below(128) as u8;
    let flag = random.below(2) as u8;
    let x = random.below(2) as u8;
    let mut body = vec![
        flag << 7 | h << 6 | x << 5 | compr << 1 | l >> 1,
        l << 7 | limit,
        random.octet(),
    ];
    if h == 0 {
        body.extend(random.octets(count * (16 - usize::from(compr))));
    }
    option(kind, &body)
}

fn most_addresses(compr: u8) -> usize {
    (252 / (16 - usize::from(compr))).min(16)
}

/// An ART with any spare bits and any X bit.
fn art_of(random: &mut Random, prefix_length: u8, address: Address) -> Vec<u8> {
    let octets = match prefix_length {
        0 => 16,
        length => usize::from(length).div_ceil(8),
    };
    let mut body = vec![random.octet(), prefix_length | random.octet() & 0x80];
    body.extend(&address[..octets]);
    option(0x0d, &body)
}

fn art(random: &mut Random) -> Vec<u8> {
    let prefix_length = match random.below(3) {
        0 => 0,
        _ => random.below(128) as u8,
    };
    let address = random.address();
    art_of(random, prefix_length, address)
}

fn configuration(random: &mut Random) -> Vec<u8> {
    let mut body = random.octets(14);
    for place in [6, 11, 13] {
        body[place] |= 1;
    }
    if random.one_in(4) {
        body[11] = 255;
    }
    option(0x04, &body)
}

/// Pad1, PadN, an unknown option or, mostly, nothing.
fn filler(random: &mut Random) -> Vec<u8> {
    match random.below(8) {
        0 => vec![0; 1 + random.below(4)],
        1 => option(0x01, &vec![0; random.below(6)]),
        2 => {
            let kinds = [0x02, 0x03, 0x05, 0x0a, 0x0e, 0x42, 0xff];
            let kind = kinds[random.below(kinds.len())];
            let length = random.below(20);
            option(kind, &random.octets(length))
        }
        _ => vec![],
    }
}

/// Options in any order with fillers between them.
fn put_together(random: &mut Random, base: Vec<u8>, mut options: Vec<Vec<u8>>) -> Vec<u8> {
    if random.one_in(2) {
        for place in (1..options.len()).rev() {
            options.swap(place, random.below(place + 1));
        }
    }
    let mut octets = base;
    for option in options {
        octets.extend(filler(random));
        octets.extend(option);
    }
    octets.extend(filler(random));
    octets
}

fn bench(records: &mut Vec<Vec<u8>>) {
    let base = [&[0x81, 0, 3, 0, 0x20, 0, 0, 0][..], &fd(1)].concat();
    let art = option(0x0d, &[&[0, 0][..], &fd(9)].concat());
    let rreq = vec![0x0b, 3, 0xc0, 0x87, 0xf0];
    let prefix = vec![0x0d, 5, 0xf1, 0x14, 0x20, 0x01, 0xd0];
    // The whole message, and the one it is forwarded as, downward bad or good.
    let whole = [&base[..], &rreq, &art].concat();
    let mut forwarded = whole.clone();
    forwarded[2] = 4;
    let mut downward_bad = forwarded.clone();
    downward_bad[26] = 0x40;
    records.extend([whole, forwarded, downward_bad]);
    // S 1, H 0, Compr 8, L 2, RankLimit 5; a 20-bit prefix.
    records.push([&base[..], &[0x0b, 3, 0x91, 0x05, 0xf0], &art].concat());
    records.push([&base[..], &rreq, &prefix].concat());
    // 15 addresses at Compr 0 fill 240 octets.
    let addresses: Vec<u8> = (20..35).flat_map(fd).collect();
    let full = option(0x0b, &[&[0x80, 0x07, 0xf0][..], &addresses].concat());
    records.push([&base[..], &full, &art].concat());
    // 252 plus 6 is 2.
    let mut reply = [&base[..], &[0x0c, 3, 0x40, 0x80, 6 << 2], &art].concat();
    reply[0] = 2;
    records.push(reply);
}

fn good_requests(records: &mut Vec<Vec<u8>>, random: &mut Random) {
    for compr in 0..=15 {
        for round in 0..8 {
            let h = u8::from(round >= 6);
            let count = match round {
                0 => 0,
                1 => most_addresses(compr),
                _ => random.below(most_addresses(compr) + 1),
            };
            let dodagid = random.dodagid();
            let mut options = vec![route_option(random, 0x0b, h, compr, count)];
            if round % 2 == 1 {
                options.insert(0, configuration(random));
            }
            for _ in 0..1 + random.below(8) {
                options.push(art(random));
            }
            let base = base(random, dodagid);
            records.push(put_together(random, base, options));
        }
    }
}

fn good_replies(records: &mut Vec<Vec<u8>>, random: &mut Random) {
    for compr in 0..=15 {
        for round in 0..5 {
            let h = u8::from(round == 4);
            let count = match round {
                0 => 0,
                1 => most_addresses(compr),
                _ => random.below(most_addresses(compr) + 1),
            };
            let dodagid = random.dodagid();
            let orig_node = random.address();
            let mut options = vec![
                route_option(random, 0x0c, h, compr, count),
                art_of(random, 0, orig_node),
            ];
            if round % 2 == 1 {
                options.insert(0, configuration(random));
            }
            let base = base(random, dodagid);
            records.push(put_together(random, base, options));
        }
    }
}

/// Every eighth prefix length and its neighbours, repeats, spare bits.
fn targets(records: &mut Vec<Vec<u8>>, random: &mut Random) {
    let request = |random: &mut Random, arts: Vec<Vec<u8>>| {
        let dodagid = random.dodagid();
        let compr = random.below(16) as u8;
        let count = random.below(4);
        let mut options = vec![route_option(random, 0x0b, 0, compr, count)];
        options.extend(arts);
        let base = base(random, dodagid);
        put_together(random, base, options)
    };
    for length in (1..=127).filter(|length| matches!(length % 8, 0 | 1 | 7)) {
        let address = [0xff; 16];
        let arts = vec![art_of(random, length, address)];
        records.push(request(random, arts));
    }
    // Repeats with other Dest SeqNos and, in spare bits, other octets.
    for round in 0..24 {
        let lengths = [0, 1, 9, 20, 63, 64, 65, 127];
        let mut arts = Vec::new();
        for place in 0..1 + random.below(5) {
            let length = lengths[(round + place) % lengths.len()];
            let address = random.address();
            for _ in 0..1 + random.below(4) {
                let mut same = address;
                let spare = match length {
                    0 => 128,
                    length => usize::from(length),
                };
                for bit in spare..128 {
                    if random.one_in(2) {
                        same[bit / 8] ^= 0x80 >> (bit % 8);
                    }
                }
                arts.push(art_of(random, length, same));
            }
        }
        records.push(request(random, arts));
    }
    // 8 targets in many ARTs; the same bits with lengths 0 and 127; a target
    // that differs from another in its last meaningful bit.
    for round in 0..10 {
        let mut arts = Vec::new();
        for place in 0..9 + random.below(20) {
            arts.push(art_of(random, 0, fd((place % 8) as u8)));
        }
        if round >= 5 {
            arts.truncate(7);
            arts.push(art_of(random, 127, fd(round as u8)));
            arts.push(art_of(random, 127, fd(round as u8 ^ 1)));
        }
        records.push(request(random, arts));
        let mut other = fd(9);
        other[2] = 0x10;
        let near = vec![art_of(random, 20, fd(9)), art_of(random, 20, other)];
        records.push(request(random, near));
    }
}

fn too_many(records: &mut Vec<Vec<u8>>, random: &mut Random) {
    // 17 addresses and more, which need a Compr of 2 or more.
    for compr in 2..=15 {
        for kind in [0x0b, 0x0c] {
            let most = 252 / (16 - usize::from(compr));
            let count = match kind {
                0x0b => 17,
                _ => 17 + random.below(most - 16),
            };
            let dodagid = random.dodagid();
            let target = random.address();
            let options = vec![
                route_option(random, kind, 0, compr, count),
                art_of(random, 0, target),
            ];
            let base = base(random, dodagid);
            records.push(put_together(random, base, options));
        }
    }
    // 9 targets and more.
    for round in 0..16 {
        let dodagid = random.dodagid();
        let mut options = vec![route_option(random, 0x0b, round % 2, 3, 2)];
        for place in 0..9 + usize::from(round / 4) {
            let prefix_length = match round {
                0..=7 => 0,
                _ => 120,
            };
            let mut address = fd(place as u8);
            address[14] = place as u8;
            options.push(art_of(random, prefix_length, address));
        }
        let base = base(random, dodagid);
        records.push(put_together(random, base, options));
    }
}

fn wrong_counts(records: &mut Vec<Vec<u8>>, random: &mut Random) {
    // Every MOP but 4.
    for mop in [0, 1, 2, 3, 5, 6, 7] {
        for kind in [0x0b, 0x0c] {
            let dodagid = random.dodagid();
            let mut base = base(random, dodagid);
            base[4] = base[4] & 0xc7 | mop << 3;
            let options = vec![
                route_option(random, kind, 0, 4, 3),
                art_of(random, 0, fd(1)),
            ];
            records.push(put_together(random, base, options));
        }
    }
    // RREQs, RREPs, ARTs with a whole address, ARTs with a prefix.
    let wrong = [
        [0, 0, 0, 0],
        [0, 0, 1, 0],
        [0, 0, 0, 2],
        [1, 0, 0, 0],
        [0, 1, 0, 0],
        [1, 1, 1, 0],
        [1, 1, 0, 1],
        [2, 0, 1, 0],
        [2, 0, 0, 3],
        [0, 2, 1, 0],
        [0, 2, 0, 1],
        [0, 1, 2, 0],
        [0, 1, 1, 1],
        [0, 1, 0, 2],
        [2, 1, 3, 0],
        [0, 1, 9, 0],
    ];
    for counts in wrong {
        for h in [0, 1] {
            let dodagid = random.dodagid();
            let mut options = Vec::new();
            for _ in 0..counts[0] {
                options.push(route_option(random, 0x0b, h, 6, 2));
            }
            for _ in 0..counts[1] {
                options.push(route_option(random, 0x0c, h, 6, 2));
            }
            for _ in 0..counts[2] {
                options.push(art_of(random, 0, fd(1)));
            }
            for _ in 0..counts[3] {
                options.push(art_of(random, 20, fd(1)));
            }
            let base = base(random, dodagid);
            records.push(put_together(random, base, options));
        }
    }
}

fn unfit_dodagids(records: &mut Vec<Vec<u8>>, random: &mut Random) {
    for round in 0..40 {
        let mut dodagid = random.address();
        match round % 8 {
            0 => dodagid = [0; 16],
            1 => dodagid[..2].copy_from_slice(&[0xfe, 0x80]),
            2 => dodagid[..2].copy_from_slice(&[0xfe, 0xbf]),
            3 => dodagid[0] = 0xff,
            4 => dodagid[..2].copy_from_slice(&[0xff, 0x02]),
            // These two are none of them.
            5 => dodagid[..2].copy_from_slice(&[0xfe, 0xc0]),
            6 => dodagid[..2].copy_from_slice(&[0xfe, 0x7f]),
            _ => {
                dodagid = [0; 16];
                dodagid[random.below(16)] = 1;
            }
        }
        let (kind, count) = match round % 3 {
            0 => (0x0b, 2),
            1 => (0x0c, 2),
            // 17 addresses as well: 5 comes before 6.
            _ => (0x0b, 17),
        };
        let options = vec![
            route_option(random, kind, 0, 8, count),
            art_of(random, 0, fd(1)),
        ];
        let base = base(random, dodagid);
        records.push(put_together(random, base, options));
    }
}

fn malformed(records: &mut Vec<Vec<u8>>, random: &mut Random) {
    let mut bad: Vec<Vec<u8>> = Vec::new();
    for place in [6, 11, 12] {
        let mut configuration = configuration(random);
        let zeros = if place == 11 { 1 } else { 2 };
        configuration[2 + place..2 + place + zeros].fill(0);
        bad.push(configuration);
    }
    bad.push([configuration(random), configuration(random)].concat());
    for length in [0, 1, 13, 15] {
        bad.push(option(0x04, &vec![1; length]));
    }
    for kind in [0x0b, 0x0c] {
        for length in 0..3 {
            bad.push(option(kind, &vec![0x80; length]));
        }
        // A vector with H 1; a vector of no whole number of addresses.
        bad.push(option(kind, &[0x40, 0, 1, 7]));
        bad.push(option(kind, &[&[0x40, 0, 1][..], &[7; 16]].concat()));
        bad.push(option(kind, &[&[0x00, 0, 1][..], &[7; 15]].concat()));
        bad.push(option(kind, &[&[0x1c, 0, 1][..], &[7; 3]].concat()));
    }
    for (prefix_length, octets) in [
        (0, 15),
        (0, 0),
        (0, 17),
        (20, 2),
        (20, 4),
        (1, 16),
        (127, 15),
    ] {
        bad.push(option(
            0x0d,
            &[&[9, prefix_length][..], &vec![7; octets]].concat(),
        ));
    }
    bad.push(option(0x0d, &[]));
    bad.push(option(0x0d, &[9]));
    // Cut options at the end.
    bad.push(vec![0x01]);
    bad.push(vec![0x42]);
    bad.push(vec![0x0d]);
    bad.push(vec![0x01, 1]);
    bad.push(vec![0xff, 255, 0]);
    for (index, part) in bad.into_iter().enumerate() {
        let dodagid = match index % 4 {
            // 3 comes before 5.
            3 => [0xff; 16],
            _ => random.dodagid(),
        };
        let kind = 0x0b + (index % 2) as u8;
        let options = vec![
            route_option(random, kind, 0, 10, 2),
            art_of(random, 0, fd(1)),
        ];
        let base = base(random, dodagid);
        let mut octets = put_together(random, base, options);
        octets.extend(part);
        records.push(octets);
    }
    // A reply with a prefix.
    for prefix_length in [1, 8, 20, 64, 127] {
        let dodagid = random.dodagid();
        let mut base = base(random, dodagid);
        if prefix_length == 64 {
            // 3 comes before 4.
            base[4] = 0;
        }
        let options = vec![
            route_option(random, 0x0c, 0, 10, 2),
            art_of(random, prefix_length, fd(1)),
        ];
        records.push(put_together(random, base, options));
    }
}

fn whole_request() -> Vec<u8> {
    let mut octets = vec![0x81, 4, 3, 0, 0xa3, 1, 2, 3];
    octets.extend(fd(1));
    octets.extend(option(4, &[1, 2, 3, 4, 5, 6, 1, 0, 9, 10, 11, 12, 0, 60]));
    let vector = [&fd(20)[12..], &fd(21)[12..]].concat();
    octets.extend(option(0x0b, &[&[0x99, 0x09, 0xf0][..], &vector].concat()));
    octets.extend(option(0x0d, &[&[7, 0][..], &fd(9)].concat()));
    octets.extend([0x0d, 5, 0xf1, 0x14, 0x20, 0x01, 0xd0]);
    octets
}

fn whole_reply() -> Vec<u8> {
    let mut octets = vec![0x83, 0, 1, 0, 0x20, 0, 0, 0];
    octets.extend(fd(9));
    octets.extend(option(4, &[1, 2, 3, 4, 5, 6, 1, 0, 9, 10, 11, 12, 0, 60]));
    let vector = [&fd(20)[10..], &fd(21)[10..]].concat();
    octets.extend(option(0x0c, &[&[0x95, 0x09, 2 << 2][..], &vector].concat()));
    octets.extend(option(0x0d, &[&[241, 0][..], &fd(1)].concat()));
    octets
}

fn cut(records: &mut Vec<Vec<u8>>) {
    for octets in [whole_request(), whole_reply()] {
        for length in 0..=octets.len() {
            records.push(octets[..length].to_vec());
        }
    }
}

/// Where the lengths of the options stand in a whole message.
fn length_places(octets: &[u8]) -> Vec<usize> {
    let mut places = Vec::new();
    let mut at = 24;
    while at + 1 < octets.len() {
        places.push(at + 1);
        at += 2 + usize::from(octets[at + 1]);
    }
    places
}

fn damaged(records: &mut Vec<Vec<u8>>, random: &mut Random) {
    for octets in [whole_request(), whole_reply()] {
        for place in 0..octets.len() {
            let mut one = octets.clone();
            one[place] ^= 1 + random.below(255) as u8;
            records.push(one);
        }
        for place in length_places(&octets) {
            let length = octets[place];
            for other in [0, 2, 3, length - 1, length + 1, length + 4, 255] {
                let mut one = octets.clone();
                one[place] = other;
                records.push(one);
            }
        }
    }
}

/// Up to 1,300 octets.
fn long(records: &mut Vec<Vec<u8>>, random: &mut Random) {
    for (length, round) in [1235, 1236, 1237, 1300, 1300, 1300].into_iter().zip(0..) {
        let dodagid = random.dodagid();
        let kind = 0x0b + round % 2;
        let mut octets = base(random, dodagid);
        octets.extend(route_option(random, kind, 0, 15, 16));
        octets.extend(art_of(random, 0, fd(1)));
        match round {
            // Many ARTs with the same target.
            4 => {
                while octets.len() < 1250 {
                    octets.extend(art_of(random, 0, fd(1)));
                }
            }
            // Many different ones.
            5 => {
                octets = whole_request();
                for last in 0..55 {
                    octets.extend(art_of(random, 0, fd(last)));
                }
            }
            _ => {
                while octets.len() + 257 < length {
                    let body = random.octets(255);
                    octets.extend(option(0x42, &body));
                }
            }
        }
        octets.resize(length, 0);
        records.push(octets);
    }
}
