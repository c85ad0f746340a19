//! Resources of the RPKI: IP addresses and AS numbers (RFC 3779).
//!
//! The contents of the extensions are read by proved calls, in exactly their canonical form; [ip_encompass] and
//! [as_encompass] are proved calls too. What is made of values that were read is in Rust.

mod asn;
mod choice;
mod encode;
mod ip;
mod numbers;
mod set;

pub use asn::{AsBlock, AsBlocks, AsBlocksBuilder, AsRange, AsResources, AsResourcesBuilder, Asn, ParseAsnError};
pub use choice::{InheritedResources, ResourcesChoice};
pub use ip::{
    Addr, AddressFamily, AddressRange, FromStrError, IpBlock, IpBlocks, IpBlocksBuilder, IpResources,
    IpResourcesBuilder, Ipv4Blocks, Ipv6Blocks, OtherFamily, Prefix,
};
pub use set::{ParseResourcesError, ResourceSet};

use crate::ffi;
use crate::view::DecodeError;

#[cfg(feature = "serde")]
crate::texts::serialized_as_text! {
    AsBlock, "a block of AS numbers";
    AsBlocks, "a list of blocks of AS numbers";
    Ipv4Blocks, "a list of blocks of IPv4 addresses";
    Ipv6Blocks, "a list of blocks of IPv6 addresses";
}

/// The error of a call on two contents, of which the first may be right.
fn error_of_two(status: ffi::Status) -> DecodeError {
    DecodeError::from_status(if status > ffi::SECOND { status - ffi::SECOND } else { status })
}

/// The answer of a call that says whether the one contents encompass the other.
fn answered(told: Result<bool, ffi::Status>) -> Result<Option<bool>, DecodeError> {
    match told {
        Ok(answer) => Ok(Some(answer)),
        Err(ffi::NO_ANSWER) => Ok(None),
        Err(status) => Err(error_of_two(status)),
    }
}

/// Whether the addresses of the second contents of extensions are within those of the first, their issuer's (RFC 6487
/// 7.2): in each family they are none, or the issuer's, or each of them is listed by the first. Allocates nothing.
///
/// Returns `None` where the second lists addresses of a family of which the first has those of its own issuer.
///
/// # Errors
/// That of the first contents, else that of the second.
///
/// ```
/// use rpki_proved::repository::resources::ip_encompass;
///
/// let ten = b"\x30\x0c\x30\x0a\x04\x02\x00\x01\x30\x04\x03\x02\x00\x0a";
/// let part = b"\x30\x0d\x30\x0b\x04\x02\x00\x01\x30\x05\x03\x03\x00\x0a\x01";
/// assert_eq!(ip_encompass(ten, part), Ok(Some(true)));
/// assert_eq!(ip_encompass(part, ten), Ok(Some(false)));
/// ```
pub fn ip_encompass(outer: &[u8], inner: &[u8]) -> Result<Option<bool>, DecodeError> {
    answered(ffi::ip_blocks_encompass(outer, inner))
}

/// The same of AS numbers.
///
/// # Errors
/// Those of [ip_encompass].
pub fn as_encompass(outer: &[u8], inner: &[u8]) -> Result<Option<bool>, DecodeError> {
    answered(ffi::as_blocks_encompass(outer, inner))
}
