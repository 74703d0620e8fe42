use super::*;
use crate::generate;
use crate::list::{Event, Step};

#[test]
fn round_trip_of_generated_lists() {
    let mut kinds = [0; 6];
    for seed in 0..300 {
        let list = generate::list(seed);
        for step in &list.steps {
            let kind = match step {
                Step::Clock(_) => 0,
                Step::Seq(_) => 1,
                Step::Row(..) => 2,
                Step::Route(..) => 3,
                Step::Call(_) => 4,
                Step::Tally(..) => 5,
            };
            kinds[kind] += 1;
        }
        assert_eq!(read(&write(&list)), Ok(list), "seed {seed}");
    }
    assert!(kinds.iter().all(|&count| count > 0), "{kinds:?}");
}

#[test]
fn what_is_left_out_has_a_value() {
    let text = "# a comment\n\n  own fd00::2 fd00::2\ntables 4 3\nmessage time=7 group=1\nstart\n";
    let list = read(text).expect("the form");
    assert_eq!((list.instances, list.routes), (4, 3));
    let calls: Vec<_> = list.calls().collect();
    assert_eq!((calls[0].time, calls[0].forward_size), (7, 1236));
    assert_eq!(calls[0].own, None);
    assert!(matches!(&calls[0].event, Event::Message { octets, link }
        if octets.is_empty() && link.group == 1 && link.upward == 0));
    assert!(matches!(&calls[1].event, Event::Start { targets, .. } if targets.is_empty()));
}

#[test]
fn wrong_lines() {
    for (line, why) in [
        ("call time=1", "not the name of a line"),
        ("own fd00::2", "lacks a word"),
        ("tables 4 x", "not a number"),
        ("seq 256", "not a number that fits"),
        ("clock", "lacks a word"),
        ("row kind=1", "lacks a word"),
        ("row 0 kind=1 colour=2", "has no meaning"),
        (
            "row 0 targets=0/0/::,0/0/::,0/0/::,0/0/::,0/0/::,0/0/::,0/0/::,0/0/::,0/0/::",
            "more than 8",
        ),
        ("route 0 source=fd00", "not an address"),
        ("message octets=123", "not a run of hexadecimal"),
        ("message octets=1g", "not a run of hexadecimal"),
        ("message octets=\u{e4}", "not a run of hexadecimal"),
        ("message receiving=fd00::2", "go together"),
        ("start targets=1/2", "not SEQ/LENGTH/ADDRESS"),
        ("start time=1 time=2", "has no meaning"),
    ] {
        let text = format!("tables 1 1\n{line}\n");
        let malformed = read(&text).expect_err(line);
        assert_eq!(malformed.line, 2);
        assert!(malformed.why.contains(why), "{line}: {}", malformed.why);
    }
}
