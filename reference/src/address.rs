//! IPv6 addresses and their leading octets and bits.

pub type Address = [u8; 16];

pub const ALL_ZERO: Address = [0; 16];

/// fe80::/10.
pub fn is_link_local(address: &Address) -> bool {
    address[0] == 0xfe && address[1] & 0xc0 == 0x80
}

/// ff00::/8.
pub fn is_multicast(address: &Address) -> bool {
    address[0] == 0xff
}

/// "link-local, multicast or all zero": neither a DODAGID nor an own address.
pub fn is_unfit(address: &Address) -> bool {
    is_link_local(address) || is_multicast(address) || *address == ALL_ZERO
}

/// Do both addresses have the same first `count` octets?
pub fn share_octets(a: &Address, b: &Address, count: u8) -> bool {
    let count = usize::from(count).min(16);
    a[..count] == b[..count]
}

/// The meaningful bits of a target. "Length 0 means a whole 16-octet address";
/// lengths above 127 do not occur in a target and are read as whole, too.
fn meaningful(prefix_length: u8) -> u128 {
    match prefix_length {
        1..=127 => u128::MAX << (128 - u32::from(prefix_length)),
        _ => u128::MAX,
    }
}

/// Do the meaningful bits of a target agree with this address?
pub fn share_bits(a: &Address, b: &Address, prefix_length: u8) -> bool {
    let differing = u128::from_be_bytes(*a) ^ u128::from_be_bytes(*b);
    differing & meaningful(prefix_length) == 0
}

/// "spare bits ignored, stored and sent as zero".
pub fn without_spare_bits(address: &Address, prefix_length: u8) -> Address {
    (u128::from_be_bytes(*address) & meaningful(prefix_length)).to_be_bytes()
}

#[cfg(test)]
mod tests {
    use super::*;

    fn address(head: &[u8]) -> Address {
        let mut whole = ALL_ZERO;
        whole[..head.len()].copy_from_slice(head);
        whole
    }

    #[test]
    fn unfit_addresses() {
        assert!(is_unfit(&ALL_ZERO));
        assert!(is_unfit(&address(&[0xfe, 0x80])));
        assert!(is_unfit(&address(&[0xfe, 0xbf, 9])));
        assert!(is_unfit(&address(&[0xff])));
        assert!(is_unfit(&address(&[0xff, 0x02, 1])));
        assert!(!is_unfit(&address(&[0xfe, 0xc0])));
        assert!(!is_unfit(&address(&[0xfe, 0x7f])));
        assert!(!is_unfit(&address(&[0xfd])));
        let mut one = ALL_ZERO;
        one[15] = 1;
        assert!(!is_unfit(&one));
    }

    #[test]
    fn leading_octets() {
        let a = [7; 16];
        for place in 0..16 {
            let mut b = a;
            b[place] ^= 1;
            for count in 0..=20u8 {
                assert_eq!(share_octets(&a, &b, count), usize::from(count) <= place);
            }
        }
    }

    #[test]
    fn leading_bits() {
        let a = [0x5a; 16];
        for place in 0..128usize {
            let mut b = a;
            b[place / 8] ^= 0x80 >> (place % 8);
            for length in 1..=127u8 {
                let meant = usize::from(length) > place;
                assert_eq!(share_bits(&a, &b, length), !meant);
                let same = without_spare_bits(&a, length) == without_spare_bits(&b, length);
                assert_eq!(same, !meant);
            }
            assert!(!share_bits(&a, &b, 0));
        }
        assert!(share_bits(&a, &a, 0));
        assert_eq!(without_spare_bits(&a, 0), a);
        assert_eq!(
            without_spare_bits(&[0xff; 16], 20),
            address(&[0xff, 0xff, 0xf0])
        );
    }
}
