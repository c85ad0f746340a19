//! Parts of X.509 (RFC 5280) that certificates, revocation lists and signed objects share.

mod name;
mod serial;
mod signed;
mod time;

pub use name::Name;
pub use serial::{RepresentationError, Serial, SerialSliceError};
pub use signed::SignedData;
pub use time::{Time, TimeParseError, Validity, ValidityPeriodError};

use crate::crypto::keys::known;
use crate::ffi;
use crate::oid::ConstOid;
use bytes::Bytes;

/// The extension with this identifier around the content (RFC 5280 4.1). Where it is not critical the BOOLEAN is left
/// out.
///
/// # Panics
/// If allocation fails, or its contents would have 2^32 octets or more.
///
/// ```
/// use rpki_proved::{oid, repository::x509::encode_extension};
///
/// let extension = encode_extension(&oid::CE_BASIC_CONSTRAINTS, true, b"\x30\x00");
/// assert_eq!(extension, &b"\x30\x0c\x06\x03\x55\x1d\x13\x01\x01\xff\x04\x02\x30\x00"[..]);
/// ```
pub fn encode_extension(oid: &ConstOid, critical: bool, content: &[u8]) -> Bytes {
    known(ffi::extension_write(oid.0, critical, content)).into()
}

/// Runs the function, and assigns what it gives where nothing was there yet. An error is passed on, and then nothing is
/// assigned.
///
/// # Errors
/// Those of the function.
pub fn update_first<T, F, E>(opt: &mut Option<T>, op: F) -> Result<(), E>
where
    F: FnOnce() -> Result<Option<T>, E>,
{
    let found = op()?;
    if opt.is_none() {
        *opt = found;
    }
    Ok(())
}
