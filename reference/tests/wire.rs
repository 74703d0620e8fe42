//! Reading and writing the octets.

mod common;

use common::*;
use reference::wire::{self, Kind};

fn request(parts: &[Vec<u8>]) -> Vec<u8> {
    let mut octets = base(5, 256, fd(1));
    for part in parts {
        octets.extend(part);
    }
    octets
}

fn plain() -> Fields {
    Fields {
        flag: 1,
        h: 0,
        compr: 0,
        l: 1,
        limit: 9,
        third: 200,
        vector: vec![],
    }
}

#[test]
fn bench_rreq_hop_by_hop() {
    let octets = request(&[hex("0B 03 C0 87 F0"), art(0, fd(9))]);
    let message = wire::read(&octets).unwrap();
    assert_eq!(message.kind, Kind::Rreq);
    assert!(message.flag && message.h);
    assert_eq!((message.l, message.rank_limit, message.number), (1, 7, 240));
    let mut out = [0; 100];
    let length = wire::write(&message, &mut out).unwrap();
    assert_eq!(out[..length], octets[..]);
}

#[test]
fn bench_rreq_source_route() {
    let octets = request(&[hex("0B 03 91 05 01"), art(0, fd(9))]);
    let message = wire::read(&octets).unwrap();
    assert!(message.flag && !message.h);
    assert_eq!((message.compr, message.l, message.rank_limit), (8, 2, 5));
    let mut out = [0; 100];
    let length = wire::write(&message, &mut out).unwrap();
    assert_eq!(out[..length], octets[..]);
}

#[test]
fn bench_art_prefix() {
    let octets = request(&[hex("0B 03 C0 87 F0"), hex("0D 05 F1 14 20 01 D0")]);
    let message = wire::read(&octets).unwrap();
    let mut address = [0; 16];
    address[..3].copy_from_slice(&[0x20, 0x01, 0xd0]);
    assert_eq!(*message.targets, [target(0xf1, 20, address)]);
    // The four spare bits are ignored, and sent as zero.
    let spare = request(&[hex("0B 03 C0 87 F0"), hex("0D 05 F1 94 20 01 DF")]);
    assert_eq!(wire::read(&spare), Ok(message));
    let mut out = [0; 100];
    let length = wire::write(&message, &mut out).unwrap();
    assert_eq!(out[..length], octets[..]);
}

#[test]
fn cut_and_malformed() {
    let good = request(&[rreq(&plain()), art(0, fd(9))]);
    assert!(wire::read(&good).is_ok());
    for length in 0..good.len() {
        // The cut after the RREQ leaves a whole message without an ART.
        let expected = match length {
            24 | 29 => 4,
            _ => 3,
        };
        assert_eq!(wire::read(&good[..length]), Err(expected), "{length}");
    }
    let with = |part: Vec<u8>| wire::read(&request(&[rreq(&plain()), art(0, fd(9)), part]));
    assert!(with(vec![0, 0, 0]).is_ok());
    assert!(with(hex("01 00")).is_ok());
    assert!(with(hex("01 03 00 00 00")).is_ok());
    assert!(with(hex("02 01 04")).is_ok());
    assert_eq!(with(hex("01")), Err(3));
    assert_eq!(with(hex("01 01")), Err(3));
    assert_eq!(with(hex("ff 02 00")), Err(3));
    // Configuration.
    assert!(with(configuration(1, 1, 1)).is_ok());
    assert_eq!(with(configuration(0, 1, 1)), Err(3));
    assert_eq!(with(configuration(1, 0, 1)), Err(3));
    assert_eq!(with(configuration(1, 1, 0)), Err(3));
    assert_eq!(with(option(4, &[1; 13])), Err(3));
    assert_eq!(with(option(4, &[1; 15])), Err(3));
    assert!(with(option(4, &[1; 14])).is_ok());
    let two = [configuration(1, 1, 1), configuration(1, 1, 1)].concat();
    assert_eq!(with(two), Err(3));
    // ART.
    assert_eq!(with(option(0x0d, &[])), Err(3));
    assert_eq!(with(option(0x0d, &[1])), Err(3));
    assert_eq!(with(option(0x0d, &[1, 0])), Err(3));
    for octets in 0..20usize {
        for length in 0..=127u8 {
            let mut body = vec![1, length | 0x80];
            body.extend(vec![0xff; octets]);
            let fits = octets
                == match length {
                    0 => 16,
                    _ => usize::from(length).div_ceil(8),
                };
            assert_eq!(with(option(0x0d, &body)).is_ok(), fits);
        }
    }
    // RREQ and RREP: too short, even where the counts are wrong, too.
    for kind in [0x0b, 0x0c] {
        for length in 0..3 {
            assert_eq!(with(option(kind, &vec![0; length])), Err(3));
        }
        assert_eq!(with(option(kind, &[0; 3])), Err(4));
        assert_eq!(with(option(kind, &[0x40, 0, 0, 0])), Err(3));
    }
}

#[test]
fn vector_sizes() {
    for compr in 0..=15u8 {
        let size = 16 - usize::from(compr);
        for length in 0..=252usize {
            let body = [vec![compr << 1, 0, 1], vec![0x77; length]].concat();
            let answer = wire::read(&request(&[option(0x0b, &body), art(0, fd(9))]));
            if length % size != 0 {
                assert_eq!(answer, Err(3));
            } else if length / size > 16 {
                assert_eq!(answer, Err(6));
            } else {
                let message = answer.unwrap();
                let mut address = [0x77; 16];
                address[..16 - size].copy_from_slice(&fd(1)[..16 - size]);
                assert_eq!(*message.vector, vec![address; length / size]);
            }
        }
    }
    // With H 1, Compr is ignored.
    let message = wire::read(&request(&[hex("0B 03 5E 00 01"), art(0, fd(9))])).unwrap();
    assert_eq!(message.compr, 0);
}

#[test]
fn counts() {
    let q = || rreq(&plain());
    let p = || rrep(&plain());
    let t = || art(0, fd(9));
    let pre = || art_prefix(0, 20, fd(9));
    let answer = |parts: &[Vec<u8>]| wire::read(&request(parts)).err().unwrap_or(0);
    assert_eq!(answer(&[]), 4);
    assert_eq!(answer(&[t()]), 4);
    assert_eq!(answer(&[q()]), 4);
    assert_eq!(answer(&[p()]), 4);
    assert_eq!(answer(&[q(), p(), t()]), 4);
    assert_eq!(answer(&[q(), q(), t()]), 4);
    assert_eq!(answer(&[p(), p(), t()]), 4);
    assert_eq!(answer(&[p(), t(), t()]), 4);
    assert_eq!(answer(&[p(), t(), pre()]), 4);
    assert_eq!(answer(&[p(), pre()]), 3);
    assert_eq!(answer(&[p(), t()]), 0);
    assert_eq!(answer(&[t(), p()]), 0);
    assert_eq!(answer(&[q(), t(), t()]), 0);
    assert_eq!(answer(&[pre(), q(), t()]), 0);
}

#[test]
fn base_fields() {
    let octets = |flags: u8, dodagid| {
        let mut octets = base(7, 0x1234, dodagid);
        octets[1] = 0x99;
        octets[4] = flags;
        octets[5..8].fill(0xff);
        octets.extend(rreq(&plain()));
        octets.extend(art(0, fd(9)));
        octets
    };
    for flags in 0..=255u8 {
        let answer = wire::read(&octets(flags, fd(1)));
        if flags >> 3 & 7 != 4 {
            assert_eq!(answer, Err(4));
            // 4 comes before 5.
            assert_eq!(wire::read(&octets(flags, [0; 16])), Err(4));
            continue;
        }
        let base = answer.unwrap().base;
        assert_eq!((base.instance, base.version, base.rank), (7, 0x99, 0x1234));
        assert_eq!((base.g, base.prf), (flags >> 7 == 1, flags & 7));
        assert_eq!(base.dodagid, fd(1));
    }
    assert_eq!(wire::read(&octets(0x20, [0; 16])), Err(5));
    assert_eq!(wire::read(&octets(0x20, fe80(1))), Err(5));
    assert_eq!(wire::read(&octets(0x20, [0xff; 16])), Err(5));
}

#[test]
fn targets_and_repeats() {
    let mut parts = vec![rreq(&plain())];
    for last in 1..=8 {
        parts.push(art(last, fd(last)));
        parts.push(art(99, fd(1)));
        parts.push(vec![0]);
    }
    let message = wire::read(&request(&parts)).unwrap();
    let expected: Vec<_> = (1..=8).map(|last| target(last, 0, fd(last))).collect();
    assert_eq!(*message.targets, *expected);
    // The same bits with another prefix length are another target.
    parts.push(art_prefix(1, 127, fd(1)));
    assert_eq!(wire::read(&request(&parts)), Err(6));
}

#[test]
fn lifetimes() {
    let with = |configuration: Vec<u8>| {
        wire::read(&request(&[configuration, rreq(&plain()), art(0, fd(9))])).unwrap()
    };
    assert_eq!(with(vec![]).route_lifetime(), None);
    assert_eq!(with(vec![]).min_hop_rank_increase().get(), 256);
    let message = with(configuration(0x0102, 3, 0x0405));
    assert_eq!(message.min_hop_rank_increase().get(), 0x0102);
    assert_eq!(message.route_lifetime(), Some(3 * 0x0405 * 1000));
    assert_eq!(with(configuration(1, 255, 9)).route_lifetime(), None);
    assert_eq!(
        with(configuration(1, 254, 65_535)).route_lifetime(),
        Some(254 * 65_535 * 1000)
    );
    let seconds = [None, Some(16_000), Some(64_000), Some(256_000)];
    for l in 0..=3u8 {
        assert_eq!(wire::instance_lifetime(l), seconds[usize::from(l)]);
    }
}

/// What is read and written again reads the same.
#[test]
fn written_and_read_again() {
    let mut random = Random(11);
    let mut out = [0; 457];
    for _ in 0..3000 {
        let h = random.below(4) == 0;
        let compr = random.below(16) as u8;
        let most = (252 / (16 - u64::from(compr))).min(16);
        let count = if h { 0 } else { random.below(most + 1) };
        let fields = Fields {
            flag: random.below(2) as u8,
            h: u8::from(h),
            compr,
            l: random.below(4) as u8,
            limit: random.below(128) as u8,
            third: random.octet(),
            vector: (0..count).map(|_| random.octets()).collect(),
        };
        let mut dodagid: [u8; 16] = random.octets();
        dodagid[0] = 0x20;
        let mut octets = base(random.octet(), random.next() as u16, dodagid);
        if random.flag() {
            octets.extend(configuration(random.next() as u16 | 1, 7, 9));
        }
        if random.flag() {
            octets.extend(rreq(&fields));
            for _ in 0..1 + random.below(8) {
                let length = random.below(128) as u8;
                octets.extend(match length {
                    0 => art(random.octet(), random.octets()),
                    _ => art_prefix(random.octet(), length, random.octets()),
                });
            }
        } else {
            octets.extend(rrep(&fields));
            octets.extend(art(random.octet(), random.octets()));
        }
        let message = wire::read(&octets).unwrap();
        let length = wire::write(&message, &mut out).unwrap();
        assert_eq!(wire::read(&out[..length]), Ok(message));
        assert_eq!(wire::write(&message, &mut out[..length - 1]), None);
    }
}

/// Fields that do not fit their bits are not written.
#[test]
fn fields_out_of_range() {
    let message = wire::read(&request(&[rreq(&plain()), art(0, fd(9))])).unwrap();
    let mut out = [0; 457];
    assert!(wire::write(&message, &mut out).is_some());
    let mut refused = |change: &dyn Fn(&mut wire::Message)| {
        let mut changed = message;
        change(&mut changed);
        assert_eq!(wire::write(&changed, &mut out), None);
    };
    refused(&|m| m.base.prf = 8);
    refused(&|m| m.compr = 16);
    refused(&|m| m.compr = 255);
    refused(&|m| (m.h, m.compr) = (true, 1));
    refused(&|m| m.l = 4);
    refused(&|m| m.rank_limit = 128);
    refused(&|m| (m.kind, m.number) = (Kind::Rrep, 64));
    refused(&|m| while m.vector.push(fd(3)) {});
    refused(&|m| {
        m.h = true;
        assert!(m.vector.push(fd(3)));
    });
    refused(&|m| assert!(m.targets.push(target(0, 128, fd(3)))));
}
