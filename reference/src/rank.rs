//! Rank and RankLimit.

use core::num::NonZeroU16;

/// MinHopRankIncrease of a message without a Configuration, and the rank of
/// a start.
pub const DEFAULT_MIN_HOP_RANK_INCREASE: NonZeroU16 = match NonZeroU16::new(256) {
    Some(value) => value,
    None => unreachable!(),
};

/// "Integer part: rank divided by MinHopRankIncrease, rounded down."
pub fn integer_part(rank: u16, min_hop_rank_increase: NonZeroU16) -> u16 {
    rank / min_hop_rank_increase
}

/// Is this rank's integer part under RankLimit? A limit of 0 is no limit.
pub fn is_under_limit(rank: u16, min_hop_rank_increase: NonZeroU16, rank_limit: u8) -> bool {
    rank_limit == 0 || integer_part(rank, min_hop_rank_increase) < u16::from(rank_limit)
}

/// "Own rank is advertised rank plus increase"; `None` where the answer is 12.
pub fn own_rank(
    advertised: u16,
    increase: u16,
    min_hop_rank_increase: NonZeroU16,
    rank_limit: u8,
    is_end_node: bool,
) -> Option<u16> {
    if increase < min_hop_rank_increase.get() {
        return None;
    }
    let own = advertised.checked_add(increase)?;
    if own == u16::MAX {
        return None;
    }
    if rank_limit != 0 {
        let limit = u16::from(rank_limit);
        let own_part = integer_part(own, min_hop_rank_increase);
        if integer_part(advertised, min_hop_rank_increase) >= limit
            || own_part > limit
            || (own_part == limit && !is_end_node)
        {
            return None;
        }
    }
    Some(own)
}

#[cfg(test)]
mod tests {
    use super::*;

    fn step(value: u16) -> NonZeroU16 {
        NonZeroU16::new(value).unwrap()
    }

    /// Bench: "Step 256: rank 767 is 2, 768 is 3."
    #[test]
    fn bench_integer_part() {
        assert_eq!(integer_part(767, step(256)), 2);
        assert_eq!(integer_part(768, step(256)), 3);
    }

    /// Bench: "Rank 768, increase 256: limit 3 refuses; limit 4 admits TargNode
    /// only; limit 5 all."
    #[test]
    fn bench_limits() {
        for (limit, intermediate, end_node) in
            [(3, false, false), (4, false, true), (5, true, true)]
        {
            assert_eq!(
                own_rank(768, 256, step(256), limit, false).is_some(),
                intermediate
            );
            assert_eq!(
                own_rank(768, 256, step(256), limit, true).is_some(),
                end_node
            );
        }
    }

    #[test]
    fn increase_and_top() {
        assert_eq!(own_rank(0, 255, step(256), 0, true), None);
        assert_eq!(own_rank(0, 256, step(256), 0, true), Some(256));
        assert_eq!(own_rank(65_278, 256, step(256), 0, false), Some(65_534));
        assert_eq!(own_rank(65_279, 256, step(256), 0, false), None);
        assert_eq!(own_rank(65_535, 65_535, step(1), 0, true), None);
        assert_eq!(own_rank(0, 65_534, step(65_534), 1, true), Some(65_534));
    }

    /// Our own integer part can pass the limit though the advertised one is under it.
    #[test]
    fn own_part_over_the_limit() {
        assert_eq!(own_rank(256, 1024, step(256), 4, true), None);
        assert_eq!(own_rank(256, 768, step(256), 4, true), Some(1024));
        assert_eq!(own_rank(256, 768, step(256), 4, false), None);
        assert_eq!(own_rank(256, 767, step(256), 4, false), Some(1023));
    }
}
