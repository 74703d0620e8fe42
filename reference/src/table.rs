//! The instance rows and the route rows, as the host lends them.
//!
//! Rows hold plain numbers that a host could write: any value may stand in
//! any field. Flags are on when not 0.

use crate::address::{self, Address};
use crate::list::List;

pub const MAX_TARGETS: usize = 8;
pub const MAX_PREFIX_LENGTH: u8 = 127;
pub const MAX_DEADLINE: u64 = 1 << 41;

/// `kind` of a request row and of a reply row; any other value: not in use.
pub const REQUEST: u8 = 1;
pub const REPLY: u8 = 2;
/// `used` of a route row in use.
pub const USED: u8 = 1;

/// A target: Dest SeqNo, Prefix Length (0: a whole address) and address.
#[derive(Clone, Copy, Debug, Default, PartialEq, Eq)]
pub struct Target {
    pub seq: u8,
    pub prefix_length: u8,
    pub address: Address,
}

pub type Targets = List<Target, MAX_TARGETS>;

impl Target {
    /// "same prefix length and meaningful bits"; the Dest SeqNo does not matter.
    pub fn is_same(&self, other: &Target) -> bool {
        self.prefix_length == other.prefix_length
            && address::share_bits(&self.address, &other.address, self.prefix_length)
    }

    /// "equals one of our addresses, or shares its first Prefix Length bits".
    pub fn matches(&self, own: &Address) -> bool {
        address::share_bits(&self.address, own, self.prefix_length)
    }
}

#[derive(Clone, Copy, Debug, Default, PartialEq, Eq)]
pub struct InstanceRow {
    pub kind: u8,
    pub instance: u8,
    pub dodagid: Address,
    pub seq: u8,
    pub s: u8,
    pub h: u8,
    pub rank: u16,
    pub neighbour: Address,
    pub count: u8,
    pub targets: [Target; MAX_TARGETS],
    pub replied: u8,
    pub endless: u8,
    pub deadline: u64,
}

#[derive(Clone, Copy, Debug, Default, PartialEq, Eq)]
pub struct RouteRow {
    pub used: u8,
    pub source: Address,
    pub destination: Address,
    pub instance: u8,
    pub next_hop: Address,
    pub seq: u8,
    pub endless: u8,
    pub deadline: u64,
}

/// What both kinds of rows have.
pub trait Row {
    type Key: Key;

    fn is_in_use(&self) -> bool;
    fn key(&self) -> Self::Key;
    fn endless(&self) -> u8;
    fn deadline(&self) -> u64;

    /// "A row is live at a call if in use and its deadline is later than the
    /// call's time, or it has none."
    fn is_live(&self, time: u64) -> bool {
        self.is_in_use() && (self.endless() != 0 || self.deadline() > time)
    }

    /// "a deadline above 2^41"; an endless row has no deadline.
    fn has_late_deadline(&self) -> bool {
        self.endless() == 0 && self.deadline() > MAX_DEADLINE
    }
}

impl InstanceRow {
    /// Only the first `count` targets are a request row's.
    pub fn own_targets(&self) -> &[Target] {
        &self.targets[..usize::from(self.count).min(MAX_TARGETS)]
    }

    /// Replaces the row's targets; places past them become zero.
    pub fn set_targets(&mut self, targets: &Targets) {
        self.targets = [Target::default(); MAX_TARGETS];
        self.targets[..targets.len()].copy_from_slice(targets);
        self.count = targets.len() as u8;
    }
}

impl Row for InstanceRow {
    type Key = InstanceKey;

    fn is_in_use(&self) -> bool {
        self.kind == REQUEST || self.kind == REPLY
    }

    fn key(&self) -> InstanceKey {
        InstanceKey {
            kind: self.kind,
            instance: self.instance,
            dodagid: self.dodagid,
        }
    }

    fn endless(&self) -> u8 {
        self.endless
    }

    fn deadline(&self) -> u64 {
        self.deadline
    }
}

impl Row for RouteRow {
    type Key = RouteKey;

    fn is_in_use(&self) -> bool {
        self.used == USED
    }

    fn key(&self) -> RouteKey {
        RouteKey {
            source: self.source,
            destination: self.destination,
            instance: self.instance,
        }
    }

    fn endless(&self) -> u8 {
        self.endless
    }

    fn deadline(&self) -> u64 {
        self.deadline
    }
}

pub trait Key: Copy + Eq {
    fn hash(&self) -> u64;
}

/// "Row key: RPLInstanceID and DODAGID", for request rows and for reply rows.
#[derive(Clone, Copy, Debug, PartialEq, Eq)]
pub struct InstanceKey {
    pub kind: u8,
    pub instance: u8,
    pub dodagid: Address,
}

/// A route's key: source, destination and RPLInstanceID.
#[derive(Clone, Copy, Debug, PartialEq, Eq)]
pub struct RouteKey {
    pub source: Address,
    pub destination: Address,
    pub instance: u8,
}

impl Key for InstanceKey {
    fn hash(&self) -> u64 {
        let head = u64::from(self.kind) << 8 | u64::from(self.instance);
        finish(mix_address(head, &self.dodagid))
    }
}

impl Key for RouteKey {
    fn hash(&self) -> u64 {
        let head = mix_address(u64::from(self.instance), &self.source);
        finish(mix_address(head, &self.destination))
    }
}

fn mix(hash: u64, word: u64) -> u64 {
    (hash.rotate_left(23) ^ word).wrapping_mul(0x9e37_79b9_7f4a_7c15)
}

fn mix_address(hash: u64, address: &Address) -> u64 {
    let whole = u128::from_be_bytes(*address);
    mix(mix(hash, (whole >> 64) as u64), whole as u64)
}

/// Spreads the product's high bits over the whole word.
fn finish(hash: u64) -> u64 {
    let hash = (hash ^ (hash >> 32)).wrapping_mul(0xd6e8_feb8_6659_fd93);
    hash ^ (hash >> 32)
}

/// Is the state free of what answer 2 names?
pub fn is_sound(own_seq: u8, clock: u64, instances: &[InstanceRow], routes: &[RouteRow]) -> bool {
    own_seq != 0
        && instances.iter().all(is_sound_instance)
        && routes
            .iter()
            .all(|row| !row.is_in_use() || !row.has_late_deadline())
        && !has_repeated_key(instances, clock)
        && !has_repeated_key(routes, clock)
}

/// "a row in use with over 8 targets, a target prefix over 127 or a deadline
/// above 2^41". A row in use is looked at whether it is live or not; only
/// request rows have targets.
fn is_sound_instance(row: &InstanceRow) -> bool {
    match row.kind {
        REQUEST => {
            usize::from(row.count) <= MAX_TARGETS
                && !row.has_late_deadline()
                && row
                    .own_targets()
                    .iter()
                    .all(|target| target.prefix_length <= MAX_PREFIX_LENGTH)
        }
        REPLY => !row.has_late_deadline(),
        _ => true,
    }
}

/// Up to this many rows every pair is compared.
const PAIRS_UP_TO: usize = 16;
const FILTER_WORDS: usize = 1024;
/// About this many keys go through the filter at a time; larger tables take
/// more rounds, so that the filter never fills.
const KEYS_PER_ROUND: usize = 2048;

/// Have two rows the same key, "both live at the last accepted time"?
pub fn has_repeated_key<R: Row>(rows: &[R], clock: u64) -> bool {
    if rows.len() <= PAIRS_UP_TO {
        return rows
            .iter()
            .enumerate()
            .any(|(index, row)| row.is_live(clock) && stands_before(rows, index, clock));
    }
    let rounds = rows.len().div_ceil(KEYS_PER_ROUND) as u64;
    (0..rounds).any(|round| has_repeated_key_in_round(rows, clock, round, rounds))
}

/// A Bloom filter, with all bits of a key in one word. Only where it says
/// "maybe" are the rows before compared.
fn has_repeated_key_in_round<R: Row>(rows: &[R], clock: u64, round: u64, rounds: u64) -> bool {
    let mut filter = [0u64; FILTER_WORDS];
    for (index, row) in rows.iter().enumerate() {
        if !row.is_live(clock) {
            continue;
        }
        let hash = row.key().hash();
        // The hash's upper half chooses the round.
        if ((hash >> 32) * rounds) >> 32 != round {
            continue;
        }
        let bits = 1u64 << (hash & 63) | 1 << (hash >> 6 & 63) | 1 << (hash >> 12 & 63);
        let word = &mut filter[(hash >> 18) as usize % FILTER_WORDS];
        if *word & bits == bits && stands_before(rows, index, clock) {
            return true;
        }
        *word |= bits;
    }
    false
}

/// Has a live row before `index` the same key as the row there?
fn stands_before<R: Row>(rows: &[R], index: usize, clock: u64) -> bool {
    let key = rows[index].key();
    rows[..index]
        .iter()
        .any(|row| row.is_live(clock) && row.key() == key)
}

/// The lowest-numbered rows that are not live; two are the most a call needs.
pub type FreeRows = List<usize, 2>;

/// One walk over a table: shows each live row to `visit`, and gathers the
/// lowest-numbered rows that are not live.
pub fn survey<R: Row>(rows: &[R], time: u64, mut visit: impl FnMut(usize, &R)) -> FreeRows {
    let mut free = FreeRows::new();
    for (index, row) in rows.iter().enumerate() {
        if row.is_live(time) {
            visit(index, row);
        } else {
            // A full list is enough.
            let _ = free.push(index);
        }
    }
    free
}

#[cfg(test)]
mod tests {
    use super::*;

    fn request(instance: u8, last: u8) -> InstanceRow {
        let mut dodagid = [0xfd; 16];
        dodagid[15] = last;
        InstanceRow {
            kind: REQUEST,
            instance,
            dodagid,
            deadline: 100,
            ..InstanceRow::default()
        }
    }

    #[test]
    fn live_until_the_deadline() {
        let mut row = request(1, 1);
        assert!(row.is_live(99));
        assert!(!row.is_live(100));
        assert!(!row.is_live(u64::MAX));
        row.endless = 7;
        assert!(row.is_live(u64::MAX));
        for kind in 0..=255 {
            row.kind = kind;
            assert_eq!(row.is_live(5), kind == 1 || kind == 2);
        }
        let mut route = RouteRow::default();
        for used in 0..=255 {
            route.used = used;
            route.endless = 1;
            assert_eq!(route.is_live(5), used == 1);
        }
    }

    #[test]
    fn same_targets() {
        let target = |prefix_length, address| Target {
            seq: 0,
            prefix_length,
            address,
        };
        let (a, b) = ([0xaa; 16], {
            let mut b = [0xaa; 16];
            b[2] ^= 0x08;
            b
        });
        assert!(target(20, a).is_same(&target(20, b)));
        assert!(!target(21, a).is_same(&target(21, b)));
        assert!(!target(20, a).is_same(&target(19, a)));
        assert!(!target(0, a).is_same(&target(0, b)));
        assert!(target(0, a).is_same(&Target {
            seq: 9,
            ..target(0, a)
        }));
    }

    #[test]
    fn what_answer_2_names() {
        let sound = |row: InstanceRow| is_sound(240, 0, &[row], &[]);
        assert!(sound(request(1, 1)));
        assert!(!is_sound(0, 0, &[], &[]));
        assert!(is_sound(1, 0, &[], &[]));

        let mut row = request(1, 1);
        row.count = 8;
        assert!(sound(row));
        row.count = 9;
        assert!(!sound(row));
        row.kind = 0;
        assert!(sound(row));
        // A reply row has no targets, whatever stands there.
        row.kind = REPLY;
        row.targets[0].prefix_length = 255;
        assert!(sound(row));
        row.deadline = (1 << 41) + 1;
        assert!(!sound(row));

        let mut row = request(1, 1);
        row.count = 2;
        row.targets[2].prefix_length = 128;
        assert!(sound(row));
        row.targets[1].prefix_length = 127;
        assert!(sound(row));
        row.targets[1].prefix_length = 128;
        assert!(!sound(row));
        // Not live, but in use.
        row.deadline = 0;
        assert!(!sound(row));

        let mut row = request(1, 1);
        row.deadline = 1 << 41;
        assert!(sound(row));
        row.deadline += 1;
        assert!(!sound(row));
        row.endless = 1;
        assert!(sound(row));

        let mut route = RouteRow {
            used: 1,
            deadline: (1 << 41) + 1,
            ..RouteRow::default()
        };
        assert!(!is_sound(1, 0, &[], &[route]));
        route.used = 2;
        assert!(is_sound(1, 0, &[], &[route]));
    }

    #[test]
    fn keys_of_two_kinds_do_not_meet() {
        let a = request(1, 1);
        let mut b = a;
        assert!(!is_sound(1, 0, &[a, b], &[]));
        assert!(!is_sound(1, 99, &[a, b], &[]));
        assert!(is_sound(1, 100, &[a, b], &[]));
        b.kind = REPLY;
        assert!(is_sound(1, 0, &[a, b], &[]));
        assert!(!is_sound(1, 0, &[a, b, b], &[]));
    }

    /// The filter must say what comparing all pairs says.
    #[test]
    fn filter_agrees_with_pairs() {
        let mut state = 1u64;
        let mut next = || {
            state = state
                .wrapping_mul(6_364_136_223_846_793_005)
                .wrapping_add(99);
            state >> 33
        };
        let mut seen = [0, 0];
        for round in 0..400usize {
            let count = if round % 100 == 99 { 5000 } else { 17 + round };
            let mut rows: Vec<InstanceRow> = (0..count)
                .map(|index| {
                    let mut row = request((index % 256) as u8, (index / 256) as u8);
                    row.dodagid[7] = next() as u8;
                    row.kind = 1 + (next() % 2) as u8;
                    row.deadline = 50 + next() % 100;
                    row
                })
                .collect();
            if round % 2 == 0 {
                let (from, to) = (next() as usize % count, next() as usize % count);
                rows[to] = rows[from];
            }
            let clock = 90;
            let expected = rows
                .iter()
                .enumerate()
                .any(|(index, row)| row.is_live(clock) && stands_before(&rows, index, clock));
            assert_eq!(has_repeated_key(&rows, clock), expected);
            seen[usize::from(expected)] += 1;
        }
        assert!(seen[0] > 100 && seen[1] > 50, "{seen:?}");
    }

    #[test]
    fn lowest_rows_that_are_not_live() {
        let mut rows = [request(1, 1); 5];
        rows[0].deadline = 200;
        rows[2].endless = 1;
        let mut live = Vec::new();
        let free = survey(&rows, 100, |index, _| live.push(index));
        assert_eq!(live, [0, 2]);
        assert_eq!(*free, [1, 3]);
    }
}
