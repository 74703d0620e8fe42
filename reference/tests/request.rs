//! Received requests and starts.

mod common;

use common::*;
use reference::Destination::{Group, Neighbour, Nowhere};
use reference::{InstanceRow, Received, RouteRow, Start};

fn fields(h: u8) -> Fields {
    Fields {
        flag: 1,
        h,
        compr: 0,
        l: 1,
        limit: 0,
        third: 100,
        vector: vec![],
    }
}

fn message(rank: u16, fields: &Fields, arts: &[Vec<u8>]) -> Vec<u8> {
    [base(0x81, rank, fd(1)), rreq(fields), arts.concat()].concat()
}

#[test]
fn bench_whole_message() {
    let mut node = Node::new(2);
    let octets = bench_whole();
    let outcome = node.receive(0, &good(&octets));
    assert_eq!(outcome.answer, 0);
    assert_eq!((outcome.forward_length, outcome.reply_length), (49, 0));
    assert_eq!((outcome.forward_to, outcome.reply_to), (Group, Nowhere));
    let mut expected = octets.clone();
    expected[..8].copy_from_slice(&hex("81 00 04 00 20 00 00 00"));
    assert_eq!(node.forwarded(&outcome), expected);

    let mut row = InstanceRow {
        kind: 1,
        instance: 0x81,
        dodagid: fd(1),
        seq: 240,
        s: 1,
        h: 1,
        rank: 1024,
        neighbour: fe80(5),
        count: 1,
        deadline: 16_000,
        ..InstanceRow::default()
    };
    row.targets[0] = whole(fd(9));
    let none = InstanceRow::default();
    assert_eq!(node.instances, [row, none, none, none]);
    let route = RouteRow {
        used: 1,
        source: fd(2),
        destination: fd(1),
        instance: 0x81,
        next_hop: fe80(5),
        seq: 240,
        endless: 1,
        deadline: 0,
    };
    let none = RouteRow::default();
    assert_eq!(node.routes, [route, none, none, none]);
    assert_eq!(node.own_seq, 240);
}

#[test]
fn bench_whole_message_downward_bad() {
    let mut node = Node::new(2);
    let octets = bench_whole();
    let outcome = node.receive(
        0,
        &Received {
            downward_good: false,
            ..good(&octets)
        },
    );
    let mut expected = octets.clone();
    expected[2] = 4;
    assert_eq!(expected[26], 0xc0);
    expected[26] = 0x40;
    assert_eq!(node.forwarded(&outcome), expected);
    assert_eq!(node.instances[0].s, 0);
}

/// Bench: "15 addresses at Compr 0 fill 240 octets; none may be added."
#[test]
fn bench_vector() {
    let mut with = fields(0);
    with.vector = (20..35).map(fd).collect();
    let octets = message(256, &with, &[art(0, fd(9))]);
    assert_eq!(Node::new(2).receive(0, &good(&octets)).answer, 16);
    with.vector.pop();
    let octets = message(256, &with, &[art(0, fd(9))]);
    let mut node = Node::new(2);
    let outcome = node.receive(0, &good(&octets));
    assert_eq!(outcome.answer, 0);
    with.vector.push(fd(2));
    assert_eq!(
        node.forwarded(&outcome),
        message(512, &with, &[art(0, fd(9))])
    );
    // Two addresses of ours do not fit in the place of one.
    with.vector.pop();
    let octets = message(256, &with, &[art(0, fd(9))]);
    let mut node = Node::new(2);
    node.settings.sending = fd(3);
    assert_eq!(node.receive(0, &good(&octets)).answer, 16);
    // "16 only when forwarding."
    with.vector.push(fd(40));
    let octets = message(256, &with, &[art(0, fd(2))]);
    assert_eq!(Node::new(2).receive(0, &good(&octets)).answer, 0);
    // Where we forward and reply, 16 refuses both; at the limit we only reply.
    let octets = message(256, &with, &[art(0, fd(2)), art(0, fd(9))]);
    assert_eq!(Node::new(2).receive(0, &good(&octets)).answer, 16);
    with.limit = 2;
    let octets = message(256, &with, &[art(0, fd(2)), art(0, fd(9))]);
    assert_eq!(Node::new(2).receive(0, &good(&octets)).answer, 0);
}

#[test]
fn sixteen_addresses() {
    let mut with = fields(0);
    with.compr = 8;
    with.vector = (20..36).map(fd).collect();
    let octets = message(256, &with, &[art(0, fd(9))]);
    assert_eq!(Node::new(2).receive(0, &good(&octets)).answer, 16);
    with.vector.pop();
    let octets = message(256, &with, &[art(0, fd(9))]);
    assert_eq!(Node::new(2).receive(0, &good(&octets)).answer, 0);
    let mut node = Node::new(2);
    node.settings.sending = fd(3);
    assert_eq!(node.receive(0, &good(&octets)).answer, 16);
    with.vector.pop();
    let octets = message(256, &with, &[art(0, fd(9))]);
    let outcome = node.receive(0, &good(&octets));
    with.vector.extend([fd(2), fd(3)]);
    assert_eq!(
        node.forwarded(&outcome),
        message(512, &with, &[art(0, fd(9))])
    );
}

/// Each refusal, and the lower number first where several hold.
#[test]
fn refusals() {
    let answer = |octets: &[u8], change: &dyn Fn(&mut Node, &mut Received)| {
        let mut node = Node::new(2);
        let mut received = good(octets);
        change(&mut node, &mut received);
        node.receive(0, &received).answer
    };
    let octets = message(256, &fields(0), &[art(0, fd(9))]);
    assert_eq!(answer(&octets, &|_, _| ()), 0);
    // 7.
    assert_eq!(answer(&octets, &|n, _| n.settings.receiving = fd(1)), 7);
    assert_eq!(answer(&octets, &|n, _| n.settings.sending = fd(1)), 7);
    // 9, with restored addresses.
    let mut with = fields(0);
    with.compr = 15;
    with.vector = vec![fd(30), fd(2), fd(31)];
    let in_vector = message(256, &with, &[art(0, fd(9))]);
    assert_eq!(answer(&in_vector, &|_, _| ()), 9);
    assert_eq!(answer(&in_vector, &|n, _| n.settings.receiving = fd(4)), 9);
    assert_eq!(answer(&in_vector, &|n, _| n.settings.sending = fd(4)), 9);
    // 10.
    let mut other = fd(2);
    other[7] = 1;
    with.vector = vec![fd(30)];
    for (compr, expected) in [(7, 0), (8, 10), (15, 10)] {
        with.compr = compr;
        let octets = message(256, &with, &[art(0, fd(9))]);
        assert_eq!(
            answer(&octets, &|n, _| n.settings.receiving = other),
            expected
        );
        assert_eq!(
            answer(&octets, &|n, _| n.settings.sending = other),
            expected
        );
    }
    // Not asked with H 1.
    let mut hop = message(256, &fields(1), &[art(0, fd(9))]);
    hop[26] |= 0x1e;
    assert_eq!(answer(&hop, &|n, _| n.settings.sending = other), 0);
    // 10 before 11, 11 before 12.
    let octets = message(65_535, &with, &[art(0, fd(9))]);
    assert_eq!(
        answer(&octets, &|n, r| {
            n.settings.sending = other;
            r.upward_good = false;
        }),
        10
    );
    assert_eq!(answer(&octets, &|_, r| r.upward_good = false), 11);
    assert_eq!(answer(&octets, &|_, _| ()), 12);
    let octets = message(256, &fields(0), &[art(0, fd(9))]);
    assert_eq!(answer(&octets, &|_, r| r.rank_increase = 255), 12);
    // 17.
    assert_eq!(answer(&octets, &|n, _| n.instances.clear()), 17);
    assert_eq!(answer(&octets, &|n, _| n.routes.clear()), 0);
    let hop = message(256, &fields(1), &[art(0, fd(9))]);
    assert_eq!(answer(&hop, &|n, _| n.routes.clear()), 17);
}

#[test]
fn rank_limit_of_targ_node() {
    let mut with = fields(0);
    with.limit = 4;
    let to_us = message(768, &with, &[art(0, fd(2)), art(0, fd(9))]);
    let to_other = message(768, &with, &[art(0, fd(9))]);
    assert_eq!(Node::new(2).receive(0, &good(&to_other)).answer, 12);
    // TargNode at the limit replies, but does not forward.
    let mut node = Node::new(2);
    let outcome = node.receive(0, &good(&to_us));
    assert_eq!(outcome.answer, 0);
    assert_eq!(outcome.forward_length, 0);
    assert!(outcome.reply_length > 0);
    assert_eq!(node.instances[0].own_targets(), [whole(fd(9))]);
    with.limit = 5;
    let to_us = message(768, &with, &[art(0, fd(2)), art(0, fd(9))]);
    let mut node = Node::new(2);
    let outcome = node.receive(0, &good(&to_us));
    with.vector = vec![fd(2)];
    assert_eq!(
        node.forwarded(&outcome),
        message(1024, &with, &[art(0, fd(9))])
    );
}

#[test]
fn symmetric_reply_of_targ_node() {
    let mut with = fields(0);
    with.compr = 4;
    with.limit = 9;
    with.vector = vec![fd(30), fd(31)];
    let mut octets = [
        base(0xff, 300, fd(1)),
        configuration(100, 2, 3),
        rreq(&with),
        art(7, fd(2)),
        art(8, fd(9)),
    ]
    .concat();
    // Version, G, the ignored bit, Prf, DTSN, Flags and Reserved.
    octets[1] = 0x33;
    octets[4] |= 0xc3;
    octets[5..8].fill(0xee);
    let mut node = Node::new(2);
    let mut other_reply = InstanceRow {
        kind: 2,
        instance: 0xff,
        dodagid: fd(2),
        endless: 1,
        ..InstanceRow::default()
    };
    node.instances[1] = other_reply;
    other_reply.instance = 1;
    node.instances[3] = other_reply;
    let outcome = node.receive(
        77,
        &Received {
            rank_increase: 100,
            ..good(&octets)
        },
    );
    assert_eq!(outcome.answer, 0);

    with.vector.push(fd(2));
    let mut forward = [
        base(0xff, 400, fd(1)),
        configuration(100, 2, 3),
        rreq(&with),
        art(8, fd(9)),
    ]
    .concat();
    forward[1] = 0x33;
    forward[4] = 0xa3;
    assert_eq!(node.forwarded(&outcome), forward);
    assert_eq!(outcome.forward_to, Group);

    // 0xff is in use by a reply row of ours, so Delta is 1: instance 0.
    let reply_fields = Fields {
        flag: 0,
        limit: 0,
        third: 1 << 2,
        vector: vec![fd(30), fd(31)],
        ..with
    };
    let reply = [
        base(0, 100, fd(2)),
        configuration(100, 2, 3),
        rrep(&reply_fields),
        art(241, fd(1)),
    ]
    .concat();
    assert_eq!(node.replied(&outcome), reply);
    assert_eq!(outcome.reply_to, Neighbour(fe80(5)));
    assert_eq!(node.own_seq, 241);

    let mut row = InstanceRow {
        kind: 1,
        instance: 0xff,
        dodagid: fd(1),
        seq: 100,
        s: 1,
        rank: 400,
        neighbour: fe80(5),
        count: 1,
        replied: 1,
        deadline: 16_077,
        ..InstanceRow::default()
    };
    row.targets[0] = target(8, 0, fd(9));
    assert_eq!(node.instances[0], row);
    let reply_row = InstanceRow {
        kind: 2,
        instance: 0,
        dodagid: fd(2),
        seq: 241,
        rank: 100,
        deadline: 16_077,
        ..InstanceRow::default()
    };
    assert_eq!(node.instances[2], reply_row);
}

#[test]
fn asymmetric_reply_of_targ_node() {
    let mut with = fields(0);
    with.compr = 4;
    with.vector = vec![fd(30), fd(31)];
    let octets = message(256, &with, &[art(7, fd(2))]);
    let mut node = Node::new(2);
    let outcome = node.receive(
        0,
        &Received {
            downward_good: false,
            ..good(&octets)
        },
    );
    let reply_fields = Fields {
        flag: 0,
        third: 0,
        vector: vec![],
        ..with
    };
    let reply = [base(0x81, 256, fd(2)), rrep(&reply_fields), art(241, fd(1))].concat();
    assert_eq!(node.replied(&outcome), reply);
    assert_eq!(outcome.reply_to, Group);
    assert_eq!((outcome.forward_length, outcome.forward_to), (0, Nowhere));
    assert_eq!(node.instances[0].s, 0);
    assert_eq!(node.instances[0].count, 0);
}

#[test]
fn prefixes_make_targ_node() {
    let mut node = Node::new(2);
    node.settings.sending = fd(0x83);
    // fd(0x80)/121 shares its bits with the sending address alone.
    let octets = message(
        256,
        &fields(1),
        &[
            art_prefix(1, 121, fd(0xff)),
            art_prefix(2, 126, fd(0x87)),
            art_prefix(3, 1, fd(9)),
        ],
    );
    let outcome = node.receive(0, &good(&octets));
    assert_eq!(outcome.answer, 0);
    assert!(outcome.reply_length > 0);
    // fd(0x87)/126 is fd00::84/126, which does not hold fd00::83.
    assert_eq!(
        node.forwarded(&outcome),
        message(512, &fields(1), &[art_prefix(2, 126, fd(0x84))])
    );
}

#[test]
fn no_delta_free() {
    let octets = message(256, &fields(1), &[art(0, fd(2))]);
    let mut node = Node::new(2);
    node.instances = (0..64)
        .map(|delta: u8| InstanceRow {
            kind: 2,
            instance: 0x81u8.wrapping_add(delta),
            dodagid: fd(2),
            endless: 1,
            ..InstanceRow::default()
        })
        .collect();
    // 15 before 17.
    assert_eq!(node.receive(0, &good(&octets)).answer, 15);
    node.instances.resize(66, InstanceRow::default());
    assert_eq!(node.receive(0, &good(&octets)).answer, 15);
    // A row that is no reply row, that is not live or has another DODAGID.
    let changes: [&dyn Fn(&mut InstanceRow); 3] = [
        &|row| row.kind = 1,
        &|row| (row.endless, row.deadline) = (0, 5),
        &|row| row.dodagid = fd(3),
    ];
    for change in changes {
        let mut node = node.clone();
        change(&mut node.instances[63]);
        node.clock = 5;
        let outcome = node.receive(5, &good(&octets));
        assert_eq!(outcome.answer, 0);
        assert_eq!(node.reply[0], 0xc0);
        assert_eq!(node.reply[28], 63 << 2);
    }
    // Not asked where there is no reply.
    let octets = message(256, &fields(1), &[art(0, fd(9))]);
    assert_eq!(node.receive(0, &good(&octets)).answer, 0);
}

#[test]
fn freshness() {
    let send = |node: &mut Node, time: u64, seq: u8, rank: u16, arts: &[Vec<u8>]| {
        let mut with = fields(0);
        with.third = seq;
        let octets = message(rank, &with, arts);
        node.receive(time, &good(&octets)).answer
    };
    let mut node = Node::new(2);
    let three = [art(1, fd(7)), art(2, fd(8)), art(3, fd(9))];
    assert_eq!(send(&mut node, 0, 100, 1000, &three), 0);
    assert_eq!(send(&mut node, 1, 99, 256, &three), 13);
    assert_eq!(send(&mut node, 1, 84, 256, &three), 13);
    assert_eq!(send(&mut node, 1, 117, 256, &three), 13);
    assert_eq!(send(&mut node, 1, 100, 1000, &three), 14);
    assert_eq!(send(&mut node, 1, 100, 1001, &three), 14);
    assert_eq!(node.clock, 0);
    // An update: the message's order and numbers, the row's targets, no reply,
    // and the deadline stays.
    let others = [art(5, fd(9)), art(6, fd(2)), art(7, fd(6)), art(8, fd(7))];
    assert_eq!(send(&mut node, 2, 100, 999, &others), 0);
    assert_eq!(node.own_seq, 240);
    let row = node.instances[0];
    assert_eq!((row.rank, row.replied, row.deadline), (1255, 0, 16_000));
    assert_eq!(
        row.own_targets(),
        [target(5, 0, fd(9)), target(8, 0, fd(7))]
    );
    assert_eq!(row.targets[2..], [target(0, 0, [0; 16]); 6]);
    // An update to nothing.
    assert_eq!(send(&mut node, 3, 100, 998, &[art(1, fd(8))]), 0);
    assert_eq!(node.instances[0].count, 0);
    // Newer starts afresh in the same row, and replies.
    assert_eq!(send(&mut node, 4, 101, 2000, &others), 0);
    let row = node.instances[0];
    assert_eq!((row.rank, row.replied, row.deadline), (2256, 1, 16_004));
    assert_eq!(row.own_targets().len(), 3);
    assert_eq!((node.instances[1].kind, node.instances[1].seq), (2, 241));
    assert_eq!(node.instances[2].kind, 0);
    // We replied, so a lower rank is nothing new.
    assert_eq!(send(&mut node, 5, 101, 300, &others), 14);
    // After the deadline the row is not live any more.
    assert_eq!(send(&mut node, 16_003, 90, 3000, &three), 13);
    assert_eq!(send(&mut node, 16_004, 90, 3000, &three), 0);
    assert_eq!(node.instances[0].seq, 90);
}

#[test]
fn update_takes_new_neighbour_and_flags() {
    let mut node = Node::new(2);
    let octets = message(1000, &fields(0), &[art(1, fd(7))]);
    assert_eq!(node.receive(0, &good(&octets)).answer, 0);
    let octets = message(900, &fields(1), &[art(1, fd(7))]);
    let received = Received {
        neighbour: fe80(6),
        downward_good: false,
        ..good(&octets)
    };
    let outcome = node.receive(10, &received);
    assert_eq!(outcome.answer, 0);
    let row = node.instances[0];
    assert_eq!((row.s, row.h, row.rank), (0, 1, 1156));
    assert_eq!((row.neighbour, row.deadline), (fe80(6), 16_000));
    assert_eq!(node.routes[0].next_hop, fe80(6));
    let mut with = fields(1);
    with.flag = 0;
    assert_eq!(
        node.forwarded(&outcome),
        message(1156, &with, &[art(1, fd(7))])
    );
}

/// The row's targets are compared by their meaningful bits.
#[test]
fn update_ignores_spare_bits_of_a_row() {
    let mut node = Node::new(2);
    let octets = message(1000, &fields(0), &[art_prefix(1, 20, [0x25; 16])]);
    assert_eq!(node.receive(0, &good(&octets)).answer, 0);
    node.instances[0].targets[0].address[2..].fill(0x2f);
    let octets = message(900, &fields(0), &[art_prefix(9, 20, [0x25; 16])]);
    let outcome = node.receive(0, &good(&octets));
    assert!(outcome.forward_length > 0);
    assert_eq!(node.instances[0].own_targets()[0].address[2], 0x20);
    assert_eq!(node.instances[0].own_targets()[0].seq, 9);
}

#[test]
fn route_freshness() {
    let octets = message(256, &fields(1), &[art(0, fd(9))]);
    let route = RouteRow {
        used: 1,
        source: fd(2),
        destination: fd(1),
        instance: 0x81,
        next_hop: fe80(9),
        seq: 100,
        endless: 0,
        deadline: 50,
    };
    let with_seq = |seq: u8| {
        let mut node = Node::new(2);
        node.routes[1] = RouteRow { seq, ..route };
        let answer = node.receive(49, &good(&octets)).answer;
        (answer, node)
    };
    assert_eq!(with_seq(101).0, 13);
    assert_eq!(with_seq(116).0, 13);
    assert_eq!(with_seq(117).0, 13);
    assert_eq!(with_seq(83).0, 13);
    for seq in [100, 99, 84] {
        let (answer, node) = with_seq(seq);
        assert_eq!(answer, 0);
        assert_eq!(node.routes[0].used, 0);
        assert_eq!(node.routes[1].next_hop, fe80(5));
        assert_eq!(node.routes[1].seq, 100);
        assert_eq!((node.routes[1].endless, node.routes[1].deadline), (1, 0));
    }
    // A dead route is not asked.
    let mut node = Node::new(2);
    node.routes[1] = RouteRow { seq: 101, ..route };
    assert_eq!(node.receive(50, &good(&octets)).answer, 0);
    assert_eq!(node.routes[0].seq, 100);
    assert_eq!(node.routes[1].seq, 101);
    // 13 of the route comes before 14 of the row.
    assert_eq!(node.receive(50, &good(&octets)).answer, 14);
    node.routes[0].seq = 110;
    assert_eq!(node.receive(50, &good(&octets)).answer, 13);
}

#[test]
fn route_lifetime() {
    let octets = [
        base(1, 256, fd(1)),
        rreq(&fields(1)),
        configuration(256, 20, 60),
        art(0, fd(9)),
    ]
    .concat();
    let mut node = Node::new(2);
    assert_eq!(node.receive(1 << 40, &good(&octets)).answer, 0);
    assert_eq!(node.routes[0].endless, 0);
    assert_eq!(node.routes[0].deadline, (1 << 40) + 1_200_000);
    assert_eq!(node.instances[0].deadline, (1 << 40) + 16_000);
}

/// Both rows are needed at once; dead rows are free.
#[test]
fn rows_for_request_and_reply() {
    let octets = message(256, &fields(0), &[art(0, fd(2))]);
    let mut node = Node::new(2);
    for (index, row) in node.instances.iter_mut().enumerate() {
        *row = InstanceRow {
            kind: 1,
            instance: index as u8,
            dodagid: fd(50),
            deadline: 10 * (index as u64 + 1),
            ..InstanceRow::default()
        };
    }
    assert_eq!(node.receive(9, &good(&octets)).answer, 17);
    assert_eq!(node.receive(10, &good(&octets)).answer, 17);
    assert_eq!(node.clock, 0);
    assert_eq!(node.receive(20, &good(&octets)).answer, 0);
    assert_eq!((node.instances[0].kind, node.instances[1].kind), (1, 2));
}

#[test]
fn start_of_our_own() {
    let mut node = Node::new(2);
    let targets = [
        target(4, 20, [0xff; 16]),
        target(5, 0, fd(9)),
        target(6, 20, [0xff; 16]),
    ];
    let outcome = node.start(
        500,
        &Start {
            instance: 0x85,
            h: 0,
            compr: 8,
            l: 2,
            rank_limit: 5,
            targets: &targets,
        },
    );
    assert_eq!(outcome.answer, 0);
    assert_eq!((outcome.forward_to, outcome.reply_to), (Group, Nowhere));
    let expected = [
        base(0x85, 256, fd(2)),
        hex("0B 03 91 05 F1"),
        hex("0D 05 04 14 FF FF F0"),
        art(5, fd(9)),
    ]
    .concat();
    assert_eq!(node.forwarded(&outcome), expected);
    assert_eq!(node.own_seq, 241);
    let mut prefix = [0; 16];
    prefix[..3].copy_from_slice(&[0xff, 0xff, 0xf0]);
    let mut row = InstanceRow {
        kind: 1,
        instance: 0x85,
        dodagid: fd(2),
        seq: 241,
        s: 1,
        rank: 256,
        count: 2,
        deadline: 64_500,
        ..InstanceRow::default()
    };
    row.targets[0] = target(4, 20, prefix);
    row.targets[1] = target(5, 0, fd(9));
    assert_eq!(node.instances[0], row);
}

#[test]
fn start_refusals() {
    let targets = [whole(fd(9))];
    let start = Start {
        instance: 1,
        h: 1,
        compr: 15,
        l: 1,
        rank_limit: 0,
        targets: &targets,
    };
    let mut node = Node::new(2);
    assert_eq!(node.start(0, &start).answer, 0);
    // H 1: Compr is sent as 0.
    assert_eq!(node.forward[26], 0xc0);
    assert_eq!(node.start(15_999, &start).answer, 14);
    let other = Start {
        instance: 2,
        ..start
    };
    assert_eq!(node.start(15_999, &other).answer, 0);
    assert_eq!(node.start(16_000, &start).answer, 0);
    assert_eq!(node.own_seq, 243);
    node.instances.truncate(1);
    assert_eq!(node.start(16_000, &other).answer, 17);
    assert_eq!(node.start(16_000, &start).answer, 14);
    // 10: the sending address differs from the receiving one.
    let mut node = Node::new(2);
    node.settings.sending[3] = 1;
    assert_eq!(node.start(0, &Start { h: 0, ..start }).answer, 10);
    assert_eq!(node.start(0, &start).answer, 0);
    // A reply row of the same numbers does not matter.
    let mut node = Node::new(2);
    node.instances[0] = InstanceRow {
        kind: 2,
        instance: 1,
        dodagid: fd(2),
        endless: 1,
        ..InstanceRow::default()
    };
    assert_eq!(node.start(0, &start).answer, 0);
    assert_eq!(node.instances[1].kind, 1);
}

#[test]
fn own_number_steps() {
    let targets = [whole(fd(9))];
    for (before, after) in [(127, 1), (255, 1), (1, 2), (126, 127), (254, 255)] {
        let mut node = Node::new(2);
        node.own_seq = before;
        let start = Start {
            instance: 1,
            h: 0,
            compr: 0,
            l: 0,
            rank_limit: 0,
            targets: &targets,
        };
        assert_eq!(node.start(0, &start).answer, 0);
        assert_eq!(node.own_seq, after);
        assert_eq!(node.forward[28], after);
        assert_eq!(
            (node.instances[0].endless, node.instances[0].deadline),
            (1, 0)
        );
    }
}
