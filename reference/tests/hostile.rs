//! Hostile input: cut and damaged messages, tables full of any octets, times
//! at the edge. `Node::receive` and `Node::start` check of every call that a
//! refusal changes nothing, and that nothing is written past the lengths.

mod common;

use common::*;
use reference::wire;
use reference::{InstanceRow, Outcome, Received, RouteRow, Start, Target};

fn whole_request() -> Vec<u8> {
    let fields = Fields {
        flag: 1,
        h: 0,
        compr: 8,
        l: 1,
        limit: 9,
        third: 100,
        vector: vec![fd(20), fd(21)],
    };
    [
        base(0x81, 300, fd(1)),
        configuration(256, 3, 4),
        rreq(&fields),
        art(1, fd(2)),
        vec![0],
        art_prefix(2, 20, fd(9)),
    ]
    .concat()
}

fn whole_reply() -> Vec<u8> {
    let fields = Fields {
        flag: 0,
        h: 0,
        compr: 8,
        l: 1,
        limit: 9,
        third: 2 << 2,
        vector: vec![fd(20), fd(2), fd(21)],
    };
    [
        base(0x83, 300, fd(9)),
        configuration(256, 3, 4),
        rrep(&fields),
        art(1, fd(1)),
    ]
    .concat()
}

/// A node that is TargNode of the request and between the ends of the reply.
fn ready_node() -> Node {
    let mut node = Node::new(2);
    node.instances[2] = InstanceRow {
        kind: 1,
        instance: 0x81,
        dodagid: fd(1),
        seq: 99,
        s: 1,
        h: 0,
        rank: 1000,
        endless: 1,
        ..InstanceRow::default()
    };
    node
}

/// What holds after an accepted call: the state is sound and what was written
/// can be read.
fn check_accepted(node: &mut Node, time: u64, outcome: &Outcome) {
    if outcome.answer != 0 {
        return;
    }
    use reference::Destination::Caller;
    let forwarded = node.forwarded(outcome);
    if outcome.forward_to != Caller && outcome.forward_length > 0 {
        assert!(wire::read(&forwarded).is_ok());
    }
    if outcome.reply_length > 0 {
        assert!(wire::read(&node.replied(outcome)).is_ok());
    }
    assert_eq!(node.receive(time, &good(&[])).answer, 3);
}

#[test]
fn every_cut_length() {
    for (octets, to_group) in [(whole_request(), true), (whole_reply(), false)] {
        for length in 0..=octets.len() {
            let mut node = ready_node();
            let received = Received {
                to_group,
                ..good(&octets[..length])
            };
            let outcome = node.receive(0, &received);
            if length == octets.len() {
                assert_eq!(outcome.answer, 0);
            } else if length < 24 {
                assert_eq!(outcome.answer, 3);
            } else {
                assert!(matches!(outcome.answer, 0 | 3 | 4), "{length}");
            }
            check_accepted(&mut node, 0, &outcome);
        }
    }
}

#[test]
fn every_octet_damaged() {
    let mut seen = [0u32; 18];
    for (octets, to_group) in [(whole_request(), true), (whole_reply(), false)] {
        for place in 0..octets.len() {
            for value in 0..=255 {
                let mut damaged = octets.clone();
                damaged[place] = value;
                let mut node = ready_node();
                let received = Received {
                    to_group,
                    ..good(&damaged)
                };
                let outcome = node.receive(0, &received);
                seen[usize::from(outcome.answer)] += 1;
                check_accepted(&mut node, 0, &outcome);
            }
        }
    }
    for answer in [0, 3, 4, 5, 7, 8, 9, 10, 12, 13] {
        assert!(seen[answer] > 0, "{answer}: {seen:?}");
    }
}

#[test]
fn every_option_length_at_every_place() {
    for octets in [whole_request(), whole_reply()] {
        for place in 24..octets.len() {
            for length in 0..=255u8 {
                for kind in [0x04, 0x0b, 0x0c, 0x0d] {
                    let mut damaged = octets.clone();
                    damaged[place] = kind;
                    if let Some(next) = damaged.get_mut(place + 1) {
                        *next = length;
                    }
                    let _ = wire::read(&damaged);
                }
            }
        }
    }
}

fn random_address(random: &mut Random) -> [u8; 16] {
    match random.below(12) {
        0 => random.octets(),
        1 => [0; 16],
        2 => fe80(random.below(4) as u8),
        _ => fd(random.below(6) as u8),
    }
}

/// Now and then any octet, else one of the first few numbers.
fn random_small(random: &mut Random, bound: u64) -> u8 {
    match random.below(40) {
        0 => random.octet(),
        _ => random.below(bound) as u8,
    }
}

fn random_time(random: &mut Random) -> u64 {
    match random.below(12) {
        0 => 1 << 40,
        1 => (1 << 40) - random.below(300_000),
        2 if random.below(20) == 0 => random.next(),
        3 if random.below(20) == 0 => u64::MAX,
        _ => random.below(1000),
    }
}

fn random_deadline(random: &mut Random) -> u64 {
    match random.below(30) {
        0 => 1 << 41,
        1 if random.below(40) == 0 => (1 << 41) + 1,
        2 if random.below(40) == 0 => random.next(),
        _ => random.below(1200),
    }
}

fn random_target(random: &mut Random) -> Target {
    Target {
        seq: random.octet(),
        prefix_length: match random.below(200) {
            0 => random.octet(),
            1..=100 => 0,
            _ => random.below(128) as u8,
        },
        address: random_address(random),
    }
}

fn random_instance_row(random: &mut Random) -> InstanceRow {
    InstanceRow {
        kind: random_small(random, 3),
        instance: random_small(random, 4),
        dodagid: random_address(random),
        seq: random.below(30) as u8,
        s: random_small(random, 2),
        h: random_small(random, 2),
        rank: random.below(3000) as u16,
        neighbour: random_address(random),
        count: random_small(random, 9),
        targets: core::array::from_fn(|_| random_target(random)),
        replied: random_small(random, 2),
        endless: random_small(random, 2),
        deadline: random_deadline(random),
    }
}

fn random_route_row(random: &mut Random) -> RouteRow {
    RouteRow {
        used: random_small(random, 2),
        source: random_address(random),
        destination: random_address(random),
        instance: random_small(random, 4),
        next_hop: random_address(random),
        seq: random.below(30) as u8,
        endless: random_small(random, 2),
        deadline: random_deadline(random),
    }
}

fn random_message(random: &mut Random) -> Vec<u8> {
    if random.below(50) == 0 {
        return (0..random.below(200)).map(|_| random.octet()).collect();
    }
    let h = random.below(2) as u8;
    let compr = match h {
        1 => 0,
        _ => random.below(16) as u8,
    };
    let count = match (h, random.below(3)) {
        (1, _) => 0,
        (_, 0) => 13 + random.below(5),
        _ => random.below(13),
    };
    let fields = Fields {
        flag: random.below(2) as u8,
        h,
        compr,
        l: random.below(4) as u8,
        limit: random.below(14) as u8,
        third: random.below(30) as u8,
        vector: (0..count.min(252 / u64::from(16 - compr)))
            .map(|_| match random.below(60) {
                0 => random_address(random),
                _ => fd(20 + random.below(40) as u8),
            })
            .collect(),
    };
    let mut octets = base(
        random.below(4) as u8,
        random.below(1500) as u16,
        random_address(random),
    );
    if random.below(3) == 0 {
        octets.extend(configuration(random.below(300) as u16, 3, 9));
    }
    if random.flag() {
        octets.extend(rreq(&fields));
        for _ in 0..random.below(14) {
            let target = random_target(random);
            octets.extend(match target.prefix_length & 0x7f {
                0 => art(target.seq, target.address),
                length => art_prefix(target.seq, length, target.address),
            });
        }
    } else {
        octets.extend(rrep(&fields));
        octets.extend(art(random.below(30) as u8, random_address(random)));
    }
    if random.below(10) == 0 {
        let place = random.below(octets.len() as u64) as usize;
        octets[place] = random.octet();
    }
    octets
}

fn random_event(random: &mut Random, node: &mut Node) -> Outcome {
    let mut time = node.clock.saturating_add(random.below(200));
    if random.below(100) == 0 {
        time = random_time(random);
    }
    let outcome = if random.below(5) == 0 {
        let targets: Vec<Target> = (0..random.below(12))
            .map(|_| random_target(random))
            .collect();
        let start = Start {
            instance: random_small(random, 4),
            h: random_small(random, 2),
            compr: random_small(random, 16),
            l: random_small(random, 4),
            rank_limit: random_small(random, 128),
            targets: &targets,
        };
        node.start(time, &start)
    } else {
        let octets = random_message(random);
        let received = Received {
            octets: &octets,
            neighbour: random_address(random),
            upward_good: random.below(8) != 0,
            downward_good: random.below(4) != 0,
            rank_increase: 200 + random.below(400) as u16,
            to_group: random.flag(),
        };
        node.receive(time, &received)
    };
    check_accepted(node, time, &outcome);
    outcome
}

#[test]
fn random_states_and_events() {
    let mut random = Random(2026);
    let mut seen = [0u32; 18];
    for round in 0..20_000u64 {
        let rows = match round % 50 {
            0 => random.below(300),
            _ => random.below(7),
        };
        let mut node = Node::new(2);
        node.settings.receiving = fd(2 + random.below(2) as u8);
        node.settings.sending = fd(2 + random.below(2) as u8);
        if random.below(200) == 0 {
            node.settings.sending = random_address(&mut random);
        }
        node.clock = random_time(&mut random);
        node.own_seq = random_small(&mut random, 255) | 1;
        node.instances = (0..rows)
            .map(|_| random_instance_row(&mut random))
            .collect();
        node.routes = (0..random.below(rows + 1))
            .map(|_| random_route_row(&mut random))
            .collect();
        for _ in 0..10 {
            let outcome = random_event(&mut random, &mut node);
            seen[usize::from(outcome.answer)] += 1;
        }
    }
    println!("{seen:?}");
    for (answer, count) in seen.iter().enumerate() {
        // 15 needs 64 reply rows; tests/request.rs has it.
        assert!(answer == 15 || *count > 20, "{answer}: {seen:?}");
    }
}

/// Tables of octets without any order: rows of every field at random.
#[test]
fn tables_full_of_random_octets() {
    let mut random = Random(7);
    let octets = whole_request();
    for round in 0..20_000 {
        let mut node = Node::new(2);
        node.clock = random.next() >> random.below(64);
        node.own_seq = random.octet();
        node.instances = (0..random.below(40))
            .map(|_| InstanceRow {
                kind: random.octet(),
                instance: random.octet(),
                dodagid: random.octets(),
                seq: random.octet(),
                s: random.octet(),
                h: random.octet(),
                rank: random.next() as u16,
                neighbour: random.octets(),
                count: random.octet(),
                targets: core::array::from_fn(|_| Target {
                    seq: random.octet(),
                    prefix_length: random.octet(),
                    address: random.octets(),
                }),
                replied: random.octet(),
                endless: random.octet(),
                deadline: random.next() >> random.below(64),
            })
            .collect();
        node.routes = (0..random.below(40))
            .map(|_| RouteRow {
                used: random.octet(),
                source: random.octets(),
                destination: random.octets(),
                instance: random.octet(),
                next_hop: random.octets(),
                seq: random.octet(),
                endless: random.octet(),
                deadline: random.next() >> random.below(64),
            })
            .collect();
        let time = random.next() >> random.below(64);
        let outcome = match round % 2 {
            0 => node.receive(time, &good(&octets)),
            _ => node.start(
                time,
                &Start {
                    instance: random.octet(),
                    h: random.octet(),
                    compr: random.octet(),
                    l: random.octet(),
                    rank_limit: random.octet(),
                    targets: &[whole(random.octets())],
                },
            ),
        };
        check_accepted(&mut node, time, &outcome);
    }
}

/// A large table: the call still finds the one repeated key, and no other.
#[test]
fn large_tables() {
    let mut node = Node::new(2);
    node.instances = (0..10_000u32)
        .map(|number| {
            let mut dodagid = fd(0);
            dodagid[4..8].copy_from_slice(&number.to_be_bytes());
            InstanceRow {
                kind: 1,
                dodagid,
                endless: 1,
                ..InstanceRow::default()
            }
        })
        .collect();
    node.instances[9_998].kind = 0;
    let octets = bench_whole();
    assert_eq!(node.receive(0, &good(&octets)).answer, 0);
    assert_eq!(node.instances[9_998].instance, 0x81);
    node.instances[7_000] = node.instances[9_998];
    assert_eq!(node.receive(0, &good(&octets)).answer, 2);
    node.instances[7_000].kind = 2;
    assert_eq!(node.receive(0, &good(&octets)).answer, 14);
}
