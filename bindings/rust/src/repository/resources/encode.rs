//! Resources in DER (RFC 3779 2.2.3, 3.2.3).

use super::choice::ResourcesChoice;
use super::numbers::Ends;
use crate::encode::{value, BIT_STRING, INTEGER, NULL, SEQUENCE};
use bytes::Bytes;

/// NULL for those of the issuer, or a SEQUENCE of blocks, as the function writes them; `None` where there are none.
pub(super) fn choice<T>(choice: &ResourcesChoice<T>, blocks: impl FnOnce(&T) -> Vec<Bytes>) -> Option<Bytes> {
    match choice {
        ResourcesChoice::Missing => None,
        ResourcesChoice::Inherit => Some(value(NULL, &[])),
        ResourcesChoice::Blocks(found) => Some(value(SEQUENCE, &blocks(found).concat())),
    }
}

/// An AS number: an INTEGER in as few octets as it needs, of which the first bit is 0 (X.690 8.3).
pub(super) fn number(number: u128) -> Bytes {
    let octets = number.to_be_bytes();
    let unused = (number.leading_zeros() as usize).saturating_sub(1) / 8;
    value(INTEGER, &octets[unused.min(octets.len() - 1)..])
}

/// So many first bits of an address (RFC 3779 2.1.1).
fn first_bits(address: u128, count: u32) -> Bytes {
    let size = (count as usize + 7) / 8;
    let mut contents = vec![(8 * size - count as usize) as u8];
    contents.extend_from_slice(&address.to_be_bytes()[..size]);
    value(BIT_STRING, &contents)
}

/// A block of addresses of so many bits: as a prefix where it is one, else as a range, of which
/// zeros at the end of the lowest address and ones at the end of the highest are left out (RFC 3779
/// 2.2.3.7 to 2.2.3.9). The bits after those of an address are 0 in the lowest, and 1 in the
/// highest.
pub(super) fn addresses((low, high): Ends, width: u8) -> Bytes {
    let (zeros, ones) = (low.trailing_zeros().min(128), high.trailing_ones().min(128));
    let shared = (low ^ high).leading_zeros();
    if 128 - shared <= zeros.min(ones) {
        return first_bits(low, shared.min(width.into()));
    }
    // What follows the first bits of the highest address is 0 in a BIT STRING.
    let cleared = high & !1u128.checked_shl(ones).map_or(u128::MAX, |part| part - 1);
    value(SEQUENCE, &[first_bits(low, 128 - zeros), first_bits(cleared, 128 - ones)].concat())
}
