//! AS numbers and prefixes of a known family, as payloads have them. What certificates have is in
//! [repository::resources](crate::repository::resources).

pub mod addr;
pub mod asn;

pub use addr::{MaxLenPrefix, Prefix};
pub use asn::{Asn, SmallAsnSet};
