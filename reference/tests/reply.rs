//! Received replies.

mod common;

use common::*;
use reference::Destination::{Caller, Group, Neighbour, Nowhere};
use reference::{InstanceRow, Outcome, Received, RouteRow};

/// OrigNode is fd00::1, TargNode fd00::9, the request's number 252, Delta 6.
fn fields(h: u8, vector: Vec<[u8; 16]>) -> Fields {
    Fields {
        flag: 1,
        h,
        compr: if h == 1 { 0 } else { 8 },
        l: 3,
        limit: 0,
        third: 6 << 2,
        vector,
    }
}

fn message(rank: u16, fields: &Fields, seq: u8) -> Vec<u8> {
    [base(2, rank, fd(9)), rrep(fields), art(seq, fd(1))].concat()
}

/// A node with a partner row in row 1.
fn node(last: u8, s: u8, h: u8) -> Node {
    let mut node = Node::new(last);
    node.instances[1] = InstanceRow {
        kind: 1,
        instance: 252,
        dodagid: fd(1),
        seq: 30,
        s,
        h,
        rank: 700,
        neighbour: fe80(44),
        deadline: 5000,
        ..InstanceRow::default()
    };
    node
}

fn alone(octets: &[u8]) -> Received<'_> {
    Received {
        to_group: false,
        // Neither 11 nor 12 is asked of a symmetric reply.
        upward_good: false,
        downward_good: false,
        rank_increase: 0,
        ..good(octets)
    }
}

fn sent(node: &Node, outcome: &Outcome) -> Vec<u8> {
    assert_eq!((outcome.answer, outcome.reply_length), (0, 0));
    assert_eq!(outcome.reply_to, Nowhere);
    node.forwarded(outcome)
}

/// Bench: "252 plus 6 is 2."
#[test]
fn partner_row() {
    let octets = message(256, &fields(1, vec![]), 20);
    let answer = |change: &dyn Fn(&mut InstanceRow)| {
        let mut node = node(2, 1, 1);
        change(&mut node.instances[1]);
        node.receive(100, &good(&octets)).answer
    };
    assert_eq!(answer(&|_| ()), 0);
    assert_eq!(answer(&|row| row.instance = 2), 8);
    assert_eq!(answer(&|row| row.instance = 251), 8);
    assert_eq!(answer(&|row| row.dodagid = fd(3)), 8);
    assert_eq!(answer(&|row| row.kind = 2), 8);
    assert_eq!(answer(&|row| row.kind = 0), 8);
    assert_eq!(answer(&|row| row.h = 0), 8);
    assert_eq!(answer(&|row| row.h = 200), 0);
    assert_eq!(answer(&|row| row.deadline = 100), 8);
    assert_eq!(answer(&|row| row.deadline = 101), 0);
    assert_eq!(answer(&|row| (row.deadline, row.endless) = (100, 3)), 0);
    // 7 before 8, 8 before 9.
    let mut targ_node = Node::new(9);
    assert_eq!(targ_node.receive(0, &good(&octets)).answer, 7);
    let octets = message(256, &fields(0, vec![fd(2), fd(2)]), 20);
    assert_eq!(Node::new(2).receive(0, &good(&octets)).answer, 8);
}

#[test]
fn symmetric_source_route() {
    let path = vec![fd(20), fd(21), fd(2), fd(22)];
    let octets = message(300, &fields(0, path.clone()), 20);
    let mut first = node(2, 1, 0);
    let outcome = first.receive(100, &alone(&octets));
    assert_eq!(sent(&first, &outcome), octets);
    assert_eq!(outcome.forward_to, Neighbour(fd(21)));
    let row = InstanceRow {
        kind: 2,
        instance: 2,
        dodagid: fd(9),
        seq: 20,
        rank: 300,
        deadline: 256_100,
        ..InstanceRow::default()
    };
    assert_eq!(first.instances[0], row);
    assert_eq!(first.instances[1], node(2, 1, 0).instances[1]);
    assert!(first.routes.iter().all(|row| row.used == 0));

    // The first in the vector sends to OrigNode.
    let mut at_front = node(20, 1, 0);
    let outcome = at_front.receive(100, &alone(&octets));
    assert_eq!(outcome.forward_to, Neighbour(fd(1)));
    // Not in the vector, or twice.
    assert_eq!(node(3, 1, 0).receive(0, &alone(&octets)).answer, 9);
    let twice = message(300, &fields(0, vec![fd(2), fd(5), fd(2)]), 20);
    assert_eq!(node(2, 1, 0).receive(0, &alone(&twice)).answer, 9);
    // The sending address does not count.
    let mut two = node(2, 1, 0);
    two.settings.sending = fd(22);
    assert_eq!(
        two.receive(0, &alone(&octets)).forward_to,
        Neighbour(fd(21))
    );
    let mut two = node(3, 1, 0);
    two.settings.sending = fd(2);
    assert_eq!(two.receive(0, &alone(&octets)).answer, 9);
    // 10 is asked all the same.
    let mut far = node(2, 1, 0);
    far.settings.sending[7] = 1;
    assert_eq!(far.receive(0, &alone(&octets)).answer, 10);
}

/// The partner's S decides, and whether it came to us alone.
#[test]
fn symmetric_or_not() {
    let octets = message(300, &fields(0, vec![fd(2)]), 20);
    assert_eq!(node(2, 1, 0).receive(0, &alone(&octets)).answer, 0);
    assert_eq!(node(2, 99, 0).receive(0, &alone(&octets)).answer, 0);
    assert_eq!(node(2, 0, 0).receive(0, &alone(&octets)).answer, 9);
    assert_eq!(node(2, 1, 0).receive(0, &good(&octets)).answer, 9);
}

#[test]
fn symmetric_hop_by_hop() {
    let octets = message(300, &fields(1, vec![]), 20);
    let mut node = node(2, 1, 1);
    let outcome = node.receive(100, &alone(&octets));
    assert_eq!(sent(&node, &outcome), octets);
    assert_eq!(outcome.forward_to, Neighbour(fe80(44)));
    let route = RouteRow {
        used: 1,
        source: fd(1),
        destination: fd(9),
        instance: 252,
        next_hop: fe80(5),
        seq: 20,
        endless: 1,
        deadline: 0,
    };
    assert_eq!(node.routes[0], route);
}

#[test]
fn asymmetric_source_route() {
    let octets = message(300, &fields(0, vec![fd(22), fd(21)]), 20);
    let mut first = node(2, 0, 0);
    let outcome = first.receive(100, &good(&octets));
    let expected = message(556, &fields(0, vec![fd(22), fd(21), fd(2)]), 20);
    assert_eq!(sent(&first, &outcome), expected);
    assert_eq!(outcome.forward_to, Group);
    assert_eq!(first.instances[0].rank, 556);

    let mut two = node(2, 0, 0);
    two.settings.sending = fd(3);
    let outcome = two.receive(100, &good(&octets));
    let expected = message(556, &fields(0, vec![fd(22), fd(21), fd(2), fd(3)]), 20);
    assert_eq!(sent(&two, &outcome), expected);
    two.settings.sending = fd(22);
    assert_eq!(two.receive(100, &good(&octets)).answer, 9);

    let bad = Received {
        downward_good: false,
        ..good(&octets)
    };
    assert_eq!(node(2, 0, 0).receive(0, &bad).answer, 11);
    // The upward link does not matter.
    let up = Received {
        upward_good: false,
        ..good(&octets)
    };
    assert_eq!(node(2, 0, 0).receive(0, &up).answer, 0);
    let low = Received {
        rank_increase: 255,
        ..good(&octets)
    };
    assert_eq!(node(2, 0, 0).receive(0, &low).answer, 12);
    let full = message(300, &fields(0, (20..36).map(fd).collect()), 20);
    assert_eq!(node(2, 0, 0).receive(0, &good(&full)).answer, 16);
    let mut no_rows = node(2, 0, 0);
    no_rows.instances = vec![no_rows.instances[1]];
    assert_eq!(no_rows.receive(0, &good(&full)).answer, 16);
    assert_eq!(no_rows.receive(0, &good(&octets)).answer, 17);
}

#[test]
fn rank_limit_of_orig_node() {
    let mut with = fields(1, vec![]);
    with.limit = 4;
    let octets = message(768, &with, 20);
    assert_eq!(node(2, 0, 1).receive(0, &good(&octets)).answer, 12);
    assert_eq!(node(1, 0, 1).receive(0, &good(&octets)).answer, 0);
    // Not asked of a symmetric reply.
    let octets = message(65_535, &with, 20);
    assert_eq!(node(2, 1, 1).receive(0, &alone(&octets)).answer, 0);
}

#[test]
fn orig_node_path() {
    let path = vec![fd(20), fd(21), fd(22)];
    let octets = message(300, &fields(0, path.clone()), 20);
    let mut symmetric = node(1, 1, 0);
    let outcome = symmetric.receive(100, &alone(&octets));
    assert_eq!(outcome.forward_to, Caller);
    assert_eq!(sent(&symmetric, &outcome), path.concat());
    assert_eq!(symmetric.instances[0].kind, 2);

    let mut asymmetric = node(1, 0, 0);
    let outcome = asymmetric.receive(100, &good(&octets));
    assert_eq!(outcome.forward_to, Caller);
    assert_eq!(
        sent(&asymmetric, &outcome),
        [fd(22), fd(21), fd(20)].concat()
    );

    // OrigNode by the sending address.
    let mut by_sending = node(2, 1, 0);
    by_sending.settings.sending = fd(1);
    let outcome = by_sending.receive(100, &alone(&octets));
    assert_eq!(outcome.forward_to, Caller);

    // Our address in the vector is a loop only if asymmetric.
    let looped = message(300, &fields(0, vec![fd(20), fd(1)]), 20);
    assert_eq!(node(1, 1, 0).receive(0, &alone(&looped)).answer, 0);
    assert_eq!(node(1, 0, 0).receive(0, &good(&looped)).answer, 9);

    // An empty vector: nothing for the caller.
    let empty = message(300, &fields(0, vec![]), 20);
    let outcome = node(1, 1, 0).receive(0, &alone(&empty));
    assert_eq!((outcome.answer, outcome.forward_to), (0, Nowhere));
    let outcome = node(1, 0, 0).receive(0, &good(&empty));
    assert_eq!((outcome.answer, outcome.forward_to), (0, Nowhere));

    // A full vector is no hindrance, as nothing is added.
    let full = message(300, &fields(0, (20..36).map(fd).collect()), 20);
    let mut asymmetric = node(1, 0, 0);
    let outcome = asymmetric.receive(0, &good(&full));
    assert_eq!(outcome.forward_length, 256);
}

#[test]
fn orig_node_route() {
    let octets = [
        base(2, 300, fd(9)),
        configuration(256, 3, 4),
        rrep(&fields(1, vec![])),
        art(20, fd(1)),
    ]
    .concat();
    for s in [0, 1] {
        let mut node = node(1, s, 1);
        let received = match s {
            0 => good(&octets),
            _ => alone(&octets),
        };
        let outcome = node.receive(100, &received);
        assert_eq!((outcome.answer, outcome.forward_to), (0, Nowhere));
        let route = RouteRow {
            used: 1,
            source: fd(1),
            destination: fd(9),
            instance: 252,
            next_hop: fe80(5),
            seq: 20,
            endless: 0,
            deadline: 12_100,
        };
        assert_eq!(node.routes[0], route);
    }
}

#[test]
fn base_and_configuration_go_on() {
    let with = fields(1, vec![]);
    let mut octets = [
        vec![],
        base(2, 300, fd(9)),
        hex("00 01 02 00 00 02 01 07 00"),
        art(20, fd(1)),
        rrep(&with),
        configuration(10, 3, 4),
    ]
    .concat();
    octets[1] = 0x44;
    octets[4] |= 0xc5;
    octets[5..8].fill(0x77);
    let mut node = node(2, 0, 1);
    let outcome = node.receive(0, &good(&octets));
    let mut expected = [
        base(2, 556, fd(9)),
        configuration(10, 3, 4),
        rrep(&with),
        art(20, fd(1)),
    ]
    .concat();
    expected[1] = 0x44;
    expected[4] |= 0x85;
    assert_eq!(sent(&node, &outcome), expected);
}

#[test]
fn freshness() {
    let send = |node: &mut Node, time: u64, seq: u8, rank: u16, l: u8| {
        let mut with = fields(0, vec![]);
        with.l = l;
        node.receive(time, &good(&message(rank, &with, seq))).answer
    };
    let mut node = node(2, 0, 0);
    assert_eq!(send(&mut node, 0, 250, 1000, 1), 0);
    assert_eq!(send(&mut node, 1, 249, 300, 1), 13);
    assert_eq!(send(&mut node, 1, 200, 300, 1), 13);
    assert_eq!(send(&mut node, 1, 11, 300, 1), 13);
    assert_eq!(send(&mut node, 1, 250, 1000, 1), 14);
    // "replied" is no field of a reply row.
    node.instances[0].replied = 1;
    assert_eq!(send(&mut node, 2, 250, 999, 3), 0);
    assert_eq!(
        (node.instances[0].rank, node.instances[0].deadline),
        (1255, 16_000)
    );
    // Newer starts afresh in the same row.
    assert_eq!(send(&mut node, 3, 10, 5000, 2), 0);
    assert_eq!(
        (node.instances[0].rank, node.instances[0].deadline),
        (5256, 64_003)
    );
    assert_eq!((node.instances[0].seq, node.instances[0].replied), (10, 0));
    assert_eq!(node.instances[2].kind, 0);
}

#[test]
fn route_freshness() {
    let octets = message(300, &fields(1, vec![]), 20);
    let with_seq = |seq: u8, instance: u8| {
        let mut node = node(2, 1, 1);
        node.routes[2] = RouteRow {
            used: 1,
            source: fd(1),
            destination: fd(9),
            instance,
            next_hop: fe80(9),
            seq,
            endless: 1,
            deadline: 0,
        };
        let answer = node.receive(49, &alone(&octets)).answer;
        (answer, node.routes)
    };
    assert_eq!(with_seq(21, 252).0, 13);
    assert_eq!(with_seq(37, 252).0, 13);
    assert_eq!(with_seq(3, 252).0, 13);
    let (answer, routes) = with_seq(4, 252);
    assert_eq!((answer, routes[0].used, routes[2].seq), (0, 0, 20));
    // The partner's number, not the reply's.
    let (answer, routes) = with_seq(21, 2);
    assert_eq!((answer, routes[0].seq, routes[2].seq), (0, 20, 21));
    // 17 in the route table.
    let mut node = node(2, 1, 1);
    node.routes.clear();
    assert_eq!(node.receive(0, &alone(&octets)).answer, 17);
}
