use super::*;
use std::mem::{align_of, offset_of, size_of};

#[test]
fn sizes() {
    assert_eq!(size_of::<Settings>(), 32);
    assert_eq!(size_of::<Target>(), 18);
    assert_eq!(size_of::<Link>(), 22);
    assert_eq!(size_of::<StartFields>(), 5);
    assert_eq!(size_of::<InstanceRow>(), 200);
    assert_eq!(size_of::<RouteRow>(), 64);
    assert_eq!(size_of::<Tally>(), 72);
    assert_eq!(size_of::<Outcome>(), 64);
    assert_eq!(align_of::<InstanceRow>(), 8);
    assert_eq!(align_of::<RouteRow>(), 8);
    assert_eq!(align_of::<Outcome>(), 8);
}

#[test]
fn offsets_in_rows() {
    assert_eq!(offset_of!(InstanceRow, count), 7);
    assert_eq!(offset_of!(InstanceRow, rank), 8);
    assert_eq!(offset_of!(InstanceRow, dodagid), 10);
    assert_eq!(offset_of!(InstanceRow, neighbour), 26);
    assert_eq!(offset_of!(InstanceRow, targets), 42);
    assert_eq!(offset_of!(InstanceRow, deadline), 192);
    assert_eq!(offset_of!(RouteRow, endless), 3);
    assert_eq!(offset_of!(RouteRow, source), 4);
    assert_eq!(offset_of!(RouteRow, destination), 20);
    assert_eq!(offset_of!(RouteRow, next), 36);
    assert_eq!(offset_of!(RouteRow, deadline), 56);
    assert_eq!(offset_of!(Target, plen), 1);
    assert_eq!(offset_of!(Target, addr), 2);
}

#[test]
fn offsets_in_facts_and_outcome() {
    assert_eq!(offset_of!(Link, upward), 16);
    assert_eq!(offset_of!(Link, downward), 17);
    assert_eq!(offset_of!(Link, increase), 18);
    assert_eq!(offset_of!(Link, group), 20);
    assert_eq!(offset_of!(StartFields, limit), 4);
    assert_eq!(offset_of!(Outcome, seq), 1);
    assert_eq!(offset_of!(Outcome, reply_way), 3);
    assert_eq!(offset_of!(Outcome, forward_length), 8);
    assert_eq!(offset_of!(Outcome, clock), 24);
    assert_eq!(offset_of!(Outcome, forward_neighbour), 32);
    assert_eq!(offset_of!(Outcome, reply_neighbour), 48);
}

fn fd(last: u8) -> Address {
    let mut address = [0; 16];
    address[0] = 0xfd;
    address[15] = last;
    address
}

/// "Whole" of 01's bench examples.
fn whole() -> Vec<u8> {
    let mut octets = vec![0x81, 0, 3, 0, 0x20, 0, 0, 0];
    octets.extend(fd(1));
    octets.extend([0x0b, 3, 0xc0, 0x87, 0xf0, 0x0d, 0x12, 0, 0]);
    octets.extend(fd(9));
    octets
}

/// fe80::5.
fn neighbour() -> Address {
    let mut address = fd(5);
    address[..2].copy_from_slice(&[0xfe, 0x80]);
    address
}

fn fresh() -> Now {
    Now {
        own: Settings {
            receiving: fd(2),
            sending: fd(2),
        },
        clock: 0,
        seq: 240,
        time: 0,
    }
}

#[test]
fn whole_example() {
    let mut instances = [InstanceRow::default(); 4];
    let mut routes = [RouteRow::default(); 4];
    let (mut forward, mut reply) = (vec![7; 1236], vec![8; 1236]);
    let mut tally = Tally::default();
    let lent = Lent {
        instances: &mut instances,
        routes: &mut routes,
        forward: &mut forward,
        reply: &mut reply,
        tally: &mut tally,
    };
    let link = Link {
        neighbour: neighbour(),
        upward: 1,
        downward: 1,
        increase: 256,
        group: 1,
    };
    let outcome = message(lent, fresh(), &whole(), link);
    assert_eq!((outcome.answer, outcome.seq, outcome.clock), (0, 240, 0));
    assert_eq!((outcome.forward_length, outcome.forward_way), (49, GROUP));
    assert_eq!((outcome.reply_length, outcome.reply_way), (0, NOWHERE));
    let mut expected = whole();
    expected[2] = 4;
    assert_eq!(forward[..49], expected);
    assert_eq!((instances[0].kind, instances[0].rank), (1, 1024));
    assert_eq!((routes[0].kind, routes[0].next), (1, neighbour()));
    assert_eq!(tally.counts[0], 1);
}

#[test]
fn whole_start() {
    let mut instances = [InstanceRow::default(); 1];
    let (mut forward, mut reply) = (vec![7; 1236], vec![8; 1236]);
    let mut tally = Tally::default();
    let lent = Lent {
        instances: &mut instances,
        routes: &mut [],
        forward: &mut forward,
        reply: &mut reply,
        tally: &mut tally,
    };
    let fields = StartFields {
        instance: 0x81,
        h: 1,
        compr: 0,
        l: 1,
        limit: 7,
    };
    let targets = [Target {
        seq: 0,
        plen: 0,
        addr: fd(9),
    }];
    let outcome = start(lent, fresh(), &targets, fields);
    assert_eq!((outcome.answer, outcome.seq), (0, 241));
    assert_eq!((outcome.forward_length, outcome.forward_way), (49, GROUP));
    let mut expected = vec![0x81, 0, 1, 0, 0x20, 0, 0, 0];
    expected.extend(fd(2));
    expected.extend([0x0b, 3, 0xc0, 0x87, 241, 0x0d, 0x12, 0, 0]);
    expected.extend(fd(9));
    assert_eq!(forward[..49], expected);
    assert_eq!((instances[0].kind, instances[0].deadline), (1, 16_000));
    assert_eq!(tally.counts[0], 1);
}
