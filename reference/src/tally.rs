//! The tally: how many calls had each answer, modulo 2^32.

/// Eighteen counts, one for each answer 0 to 17.
#[derive(Clone, Copy, Debug, Default, PartialEq, Eq)]
pub struct Tally {
    pub counts: [u32; 18],
}

impl Tally {
    /// Counts one call with this answer.
    pub fn raise(&mut self, answer: u8) {
        if let Some(count) = self.counts.get_mut(usize::from(answer)) {
            *count = count.wrapping_add(1);
        }
    }
}

#[cfg(test)]
mod tests {
    use super::*;

    #[test]
    fn counts_wrap() {
        let mut tally = Tally::default();
        tally.counts[17] = u32::MAX;
        tally.raise(17);
        tally.raise(3);
        tally.raise(3);
        tally.raise(200);
        let mut expected = [0; 18];
        expected[3] = 2;
        assert_eq!(tally.counts, expected);
    }
}
