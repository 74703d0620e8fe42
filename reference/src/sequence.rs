//! Lollipop sequence numbers: RFC 6550 section 7.2 with a window of 16.

const WINDOW: u16 = 16;

/// What the first of two numbers is to the second.
#[derive(Clone, Copy, Debug, PartialEq, Eq)]
pub enum Order {
    Equal,
    Newer,
    Older,
    NotComparable,
}

/// Is `a` newer or older than `b`?
pub fn compare(a: u8, b: u8) -> Order {
    let newer_if = |holds: bool| if holds { Order::Newer } else { Order::Older };
    let (wide_a, wide_b) = (u16::from(a), u16::from(b));
    match (a >= 128, b >= 128) {
        // "A in 128..255, B in 0..127: B is newer if 256 + B - A is at most 16, else A."
        (true, false) => newer_if(256 + wide_b - wide_a > WINDOW),
        (false, true) => newer_if(256 + wide_a - wide_b <= WINDOW),
        // "Both on the same side: differing by at most 16, the larger is newer".
        _ if a == b => Order::Equal,
        _ if a.abs_diff(b) > WINDOW as u8 => Order::NotComparable,
        _ => newer_if(a > b),
    }
}

/// "127 and 255 both step to 1 (house rule; RFC 6550 goes to 0)."
pub fn step(number: u8) -> u8 {
    match number {
        127 | 255 => 1,
        _ => number + 1,
    }
}

#[cfg(test)]
mod tests {
    use super::*;

    /// Bench: "250, 5: 5 newer. 240, 0: 0 newer. 240, 5: 240 newer. 10, 26: 26
    /// newer. 10, 27: not comparable."
    #[test]
    fn bench_orders() {
        assert_eq!(compare(250, 5), Order::Older);
        assert_eq!(compare(240, 0), Order::Older);
        assert_eq!(compare(240, 5), Order::Newer);
        assert_eq!(compare(10, 26), Order::Older);
        assert_eq!(compare(10, 27), Order::NotComparable);
    }

    #[test]
    fn turned_round() {
        for a in 0..=255u8 {
            for b in 0..=255u8 {
                let turned = match compare(b, a) {
                    Order::Newer => Order::Older,
                    Order::Older => Order::Newer,
                    other => other,
                };
                assert_eq!(compare(a, b), turned);
                assert_eq!(compare(a, b) == Order::Equal, a == b);
            }
        }
    }

    #[test]
    fn every_step_is_newer_but_from_the_middle() {
        for number in 1..=255u8 {
            let next = step(number);
            assert_ne!(next, 0);
            let order = compare(next, number);
            // 127 to 1 differs by 126: RFC 6550 would say "not comparable", too.
            let expected = if number == 127 {
                Order::NotComparable
            } else {
                Order::Newer
            };
            assert_eq!(order, expected);
        }
        assert_eq!(step(240), 241);
        assert_eq!(step(255), 1);
        assert_eq!(step(127), 1);
        assert_eq!(step(126), 127);
        assert_eq!(step(0), 1);
    }
}
