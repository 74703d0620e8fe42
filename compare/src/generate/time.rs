//! The times of calls: mostly soon, often at the edge of a row's life.

use super::maker::Maker;
use crate::rows;

pub const LAST_TIME: u64 = 1 << 40;

/// A good time: not before the clock, 2^40 at most.
pub fn next_time(maker: &mut Maker) -> u64 {
    let clock = maker.host.clock;
    let random = &mut maker.random;
    let time = match random.below(40) {
        0..=16 => clock,
        17..=22 => clock.saturating_add(random.below(20) as u64),
        23..=30 => return at_a_deadline(maker),
        31 | 32 => {
            let life = random.pick(&[16_000, 64_000, 256_000]);
            around(clock.saturating_add(life), random.below(3))
        }
        33 => clock.saturating_add(random.below(300_000) as u64),
        _ => clock.saturating_add(1),
    };
    time.min(LAST_TIME).max(clock)
}

/// One before, at or one after a deadline that is to come.
fn at_a_deadline(maker: &mut Maker) -> u64 {
    let clock = maker.host.clock;
    let of_rows = maker.host.instances.iter();
    let of_routes = maker.host.routes.iter();
    let mut deadlines: Vec<u64> = of_rows
        .filter(|row| row.endless == 0 && rows::is_used(row))
        .map(|row| row.deadline)
        .collect();
    deadlines.extend(
        of_routes
            .filter(|row| row.endless == 0 && rows::is_used_route(row))
            .map(|row| row.deadline),
    );
    deadlines.retain(|deadline| (clock..=LAST_TIME + 1).contains(deadline));
    if deadlines.is_empty() {
        return clock;
    }
    let deadline = maker.random.pick(&deadlines);
    let time = around(deadline, maker.random.below(3));
    time.min(LAST_TIME).max(clock)
}

fn around(time: u64, choice: usize) -> u64 {
    time.saturating_add(choice as u64).saturating_sub(1)
}
