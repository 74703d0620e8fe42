use super::*;
use crate::generate;
use crate::lockstep;
use crate::node::{second, Host};
use kajakulm::{Outcome, Settings};

/// The second program with a fault: after a call with L 2 its own number is wrong.
fn faulty(host: &mut Host, own: Settings, call: &Call) -> Outcome {
    let mut outcome = second(host, own, call);
    if let Event::Start { fields, .. } = &call.event {
        if outcome.answer == 0 && fields.l == 2 {
            outcome.seq ^= 1;
        }
    }
    outcome
}

fn differs(list: &List) -> bool {
    lockstep::run(list, faulty, second, &mut |_| ()).is_err()
}

#[test]
fn a_fault_comes_down_to_one_call() {
    let failing = (0..1000).map(generate::list).find(differs);
    let failing = failing.expect("a list with such a start");
    assert!(failing.steps.len() > 1);
    let least = shrink(&failing, &mut |list| differs(list));
    assert!(differs(&least));
    let [Step::Call(call)] = &least.steps[..] else {
        panic!("{least:?}");
    };
    assert_eq!((least.instances, least.routes), (1, 0));
    assert!(matches!(&call.event, Event::Start { targets, fields }
        if targets.len() == 1 && fields.l == 2 && fields.h == 0 && fields.instance == 0));
    assert_eq!((call.time, call.forward_size), (0, 1236));
}

#[test]
fn parts_are_dropped_in_any_place() {
    let needed = [3, 17, 18];
    let left = drop_parts((0..40).collect(), &mut |items| {
        needed.iter().all(|need| items.contains(need))
    });
    assert_eq!(left, needed);
    assert_eq!(drop_parts(vec![1, 2, 3], &mut |_| true), []);
    assert_eq!(drop_parts(vec![1, 2, 3], &mut |_| false), [1, 2, 3]);
}

#[test]
fn options_told_apart() {
    let mut octets = vec![7; 24];
    octets.extend([0x0b, 3, 1, 2, 3, 0, 0x0d, 9, 1]);
    let parts = options_of(&octets);
    assert_eq!(parts.concat(), octets);
    let sizes: Vec<usize> = parts.iter().map(Vec::len).collect();
    assert_eq!(sizes, [24, 5, 1, 3]);
    assert_eq!(options_of(&[]), [[0u8; 0]]);
    assert_eq!(options_of(&octets[..25])[1], [0x0b]);
}

#[test]
fn what_is_needed_is_kept() {
    let list = generate::list(5);
    let calls = list.calls().count();
    let same = shrink(&list, &mut |other| other.calls().count() == calls);
    assert_eq!(same.calls().count(), calls);
    assert!(same.steps.len() <= list.steps.len());
}
