//! Answers 1 and 2, the tally and the clock.

mod common;

use common::*;
use reference::{InstanceRow, RouteRow, Start, Target};

#[test]
fn times_and_lengths() {
    let octets = bench_whole();
    let at = |clock: u64, time: u64| {
        let mut node = Node::new(2);
        node.clock = clock;
        node.receive(time, &good(&octets)).answer
    };
    assert_eq!(at(0, 0), 0);
    assert_eq!(at(10, 10), 0);
    assert_eq!(at(10, 9), 1);
    assert_eq!(at(0, 1 << 40), 0);
    assert_eq!(at(0, (1 << 40) + 1), 1);
    assert_eq!(at(0, u64::MAX), 1);
    assert_eq!(at(u64::MAX, u64::MAX), 1);
    assert_eq!(at(u64::MAX, 0), 1);

    let with_buffers = |forward: usize, reply: usize| {
        let mut node = Node::new(2);
        node.forward.resize(forward, UNTOUCHED);
        node.reply.resize(reply, UNTOUCHED);
        node.receive(0, &good(&octets)).answer
    };
    assert_eq!(with_buffers(1236, 1236), 0);
    assert_eq!(with_buffers(1235, 1236), 1);
    assert_eq!(with_buffers(1236, 1235), 1);
    assert_eq!(with_buffers(0, 0), 1);
    assert_eq!(with_buffers(4000, 4000), 0);

    let mut long = octets.clone();
    long.resize(1236, 0);
    assert_eq!(Node::new(2).receive(0, &good(&long)).answer, 0);
    long.push(0);
    assert_eq!(Node::new(2).receive(0, &good(&long)).answer, 1);
    long.resize(70_000, 0xff);
    assert_eq!(Node::new(2).receive(0, &good(&long)).answer, 1);
}

#[test]
fn own_addresses() {
    let octets = bench_whole();
    for unfit in [[0; 16], fe80(2), [0xff; 16]] {
        let mut node = Node::new(2);
        node.settings.receiving = unfit;
        assert_eq!(node.receive(0, &good(&octets)).answer, 1);
        let mut node = Node::new(2);
        node.settings.sending = unfit;
        assert_eq!(node.receive(0, &good(&octets)).answer, 1);
    }
}

#[test]
fn start_arguments() {
    let targets = [whole(fd(9))];
    let good = Start {
        instance: 1,
        h: 0,
        compr: 15,
        l: 3,
        rank_limit: 127,
        targets: &targets,
    };
    let answer = |start: &Start| Node::new(2).start(0, start).answer;
    assert_eq!(answer(&good), 0);
    assert_eq!(answer(&Start { h: 255, ..good }), 0);
    assert_eq!(answer(&Start { l: 4, ..good }), 1);
    assert_eq!(answer(&Start { compr: 16, ..good }), 1);
    assert_eq!(
        answer(&Start {
            compr: 16,
            h: 1,
            ..good
        }),
        1
    );
    assert_eq!(
        answer(&Start {
            rank_limit: 128,
            ..good
        }),
        1
    );
    assert_eq!(
        answer(&Start {
            targets: &[],
            ..good
        }),
        1
    );
    let with = |targets: &[Target]| answer(&Start { targets, ..good });
    assert_eq!(with(&[target(0, 127, fd(9))]), 0);
    assert_eq!(with(&[target(0, 128, fd(9))]), 1);
    let mut many: Vec<Target> = (1..=8).map(|last| whole(fd(last))).collect();
    assert_eq!(with(&many), 0);
    // Repeats do not count, however many.
    many.extend(vec![whole(fd(3)); 10_000]);
    assert_eq!(with(&many), 0);
    many.push(target(0, 200, fd(3)));
    assert_eq!(with(&many), 1);
    many.pop();
    many.push(whole(fd(9)));
    assert_eq!(with(&many), 1);
}

/// 1 before 2 before 3.
#[test]
fn state_before_message() {
    let mut node = Node::new(2);
    node.own_seq = 0;
    assert_eq!(node.receive(0, &good(&[])).answer, 2);
    assert_eq!(node.receive(u64::MAX, &good(&[])).answer, 1);
    node.own_seq = 1;
    assert_eq!(node.receive(0, &good(&[])).answer, 3);
    assert_eq!(node.tally.counts[1..4], [1, 1, 1]);
}

/// Rows count as live "at the last accepted time", not at the call's.
#[test]
fn repeats_at_the_last_time() {
    let row = InstanceRow {
        kind: 1,
        instance: 9,
        dodagid: fd(8),
        deadline: 50,
        ..InstanceRow::default()
    };
    let octets = bench_whole();
    let mut node = Node::new(2);
    node.instances[0] = row;
    node.instances[3] = row;
    node.clock = 49;
    assert_eq!(node.receive(60, &good(&octets)).answer, 2);
    node.clock = 50;
    assert_eq!(node.receive(60, &good(&octets)).answer, 0);

    let route = RouteRow {
        used: 1,
        instance: 9,
        source: fd(8),
        destination: fd(7),
        endless: 1,
        ..RouteRow::default()
    };
    let mut node = Node::new(2);
    node.routes[1] = route;
    node.routes[2] = route;
    assert_eq!(node.receive(60, &good(&octets)).answer, 2);
    node.routes[2].instance = 10;
    assert_eq!(node.receive(60, &good(&octets)).answer, 0);
}

#[test]
fn tally_counts_each_call() {
    let octets = bench_whole();
    let mut node = Node::new(2);
    node.tally.counts[14] = u32::MAX;
    assert_eq!(node.receive(0, &good(&octets)).answer, 0);
    assert_eq!(node.receive(0, &good(&octets)).answer, 14);
    assert_eq!(node.receive(0, &good(&octets)).answer, 14);
    assert_eq!(node.tally.counts[0], 1);
    assert_eq!(node.tally.counts[14], 1);
}
