//! Algorithm identifiers (RFC 5280 4.1.1.2): which octets stand for which value.

use crate::view::{walk, DecodeError};

/// The value of the spelling that is all of the octets.
///
/// # Errors
/// `OtherAlgorithm` for any other value; else why there is no value, or `Trailing`.
pub(super) fn decode<T: Copy>(octets: &[u8], spellings: &[(&[u8], T)]) -> Result<T, DecodeError> {
    if let Some((_, value)) = spellings.iter().find(|(spelling, _)| *spelling == octets) {
        return Ok(*value);
    }
    let walked = walk(octets)?;
    if walked.octets().len() < octets.len() {
        return Err(DecodeError::Trailing);
    }
    Err(DecodeError::OtherAlgorithm)
}
