//! What a row means: every value of every field has a meaning, and several
//! values can have the same one.

use kajakulm::{InstanceRow, RouteRow, Target};

pub const REQUEST: u8 = 1;
pub const REPLY: u8 = 2;
pub const ROUTE: u8 = 1;
pub const MOST_TARGETS: usize = 8;

pub fn is_used(row: &InstanceRow) -> bool {
    row.kind == REQUEST || row.kind == REPLY
}

pub fn is_used_route(row: &RouteRow) -> bool {
    row.kind == ROUTE
}

fn lasts(endless: u8, deadline: u64, time: u64) -> bool {
    endless != 0 || deadline > time
}

pub fn is_live(row: &InstanceRow, time: u64) -> bool {
    is_used(row) && lasts(row.endless, row.deadline, time)
}

pub fn is_live_route(row: &RouteRow, time: u64) -> bool {
    is_used_route(row) && lasts(row.endless, row.deadline, time)
}

fn flag(value: u8) -> u8 {
    u8::from(value != 0)
}

fn deadline(endless: u8, deadline: u64) -> u64 {
    match endless {
        0 => deadline,
        _ => 0,
    }
}

/// The first `count` targets, and blank ones.
fn own_targets(row: &InstanceRow) -> [Target; MOST_TARGETS] {
    let mut targets = [Target::default(); MOST_TARGETS];
    let count = usize::from(row.count).min(MOST_TARGETS);
    targets[..count].copy_from_slice(&row.targets[..count]);
    targets
}

/// The fields that 01 names for the row's kind, in one form; all else is 0.
pub fn meaning(row: &InstanceRow) -> InstanceRow {
    let both = InstanceRow {
        kind: row.kind,
        instance: row.instance,
        dodagid: row.dodagid,
        seq: row.seq,
        rank: row.rank,
        endless: flag(row.endless),
        deadline: deadline(row.endless, row.deadline),
        ..InstanceRow::default()
    };
    match row.kind {
        REQUEST => InstanceRow {
            s: flag(row.s),
            h: flag(row.h),
            replied: flag(row.replied),
            neighbour: row.neighbour,
            count: row.count,
            targets: own_targets(row),
            ..both
        },
        REPLY => both,
        _ => InstanceRow::default(),
    }
}

pub fn meaning_of_route(row: &RouteRow) -> RouteRow {
    match row.kind {
        ROUTE => RouteRow {
            endless: flag(row.endless),
            deadline: deadline(row.endless, row.deadline),
            ..*row
        },
        _ => RouteRow::default(),
    }
}

#[cfg(test)]
mod tests {
    use super::*;

    #[test]
    fn rows_of_one_meaning() {
        let row = InstanceRow {
            kind: REQUEST,
            s: 1,
            endless: 1,
            ..InstanceRow::default()
        };
        let mut other = InstanceRow {
            s: 9,
            endless: 200,
            deadline: 77,
            ..row
        };
        other.targets[0].seq = 5;
        assert_eq!(meaning(&row), meaning(&other));
        other.count = 1;
        assert_ne!(meaning(&row), meaning(&other));
    }

    #[test]
    fn a_reply_row_has_no_neighbour() {
        let row = InstanceRow {
            kind: REPLY,
            rank: 5,
            ..InstanceRow::default()
        };
        let mut other = row;
        other.neighbour[3] = 1;
        assert_eq!(meaning(&row), meaning(&other));
        other.rank = 6;
        assert_ne!(meaning(&row), meaning(&other));
    }

    #[test]
    fn rows_not_in_use_are_alike() {
        let row = InstanceRow {
            kind: 3,
            seq: 9,
            ..InstanceRow::default()
        };
        assert_eq!(meaning(&row), InstanceRow::default());
        let route = RouteRow {
            kind: 2,
            seq: 9,
            ..RouteRow::default()
        };
        assert_eq!(meaning_of_route(&route), RouteRow::default());
    }
}
