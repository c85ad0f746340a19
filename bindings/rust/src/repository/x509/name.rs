//! Names.

use crate::crypto::keys::{known, PublicKey};
use crate::ffi;
use crate::octets::IntoOctets;
use crate::repository::error::{ContentError, InspectionError};
use crate::view::{DecodeError, InspectError};
use bytes::Bytes;

/// A name (RFC 5280 4.1.2.4), as its octets, which it shares, and by which it is compared.
///
/// ```
/// use rpki_proved::repository::x509::Name;
///
/// let name = Name::decode(&b"\x30\x0c\x31\x0a\x30\x08\x06\x03\x55\x04\x03\x0c\x01A"[..])?;
/// assert!(name.inspect_router(true).is_ok());
/// assert_eq!(name.inspect_rpki(true).unwrap_err().to_string(), "invalid name");
/// # Ok::<(), rpki_proved::DecodeError>(())
/// ```
#[derive(Clone, Debug, PartialEq, Eq, Hash, PartialOrd, Ord)]
pub struct Name {
    octets: Bytes,
}

/// The text of a rule, where a string that is not permitted has this one.
fn text(error: InspectError, string: &'static str) -> InspectionError {
    InspectionError::new(ContentError::from_static(match error {
        InspectError::MissingCommonName => "missing common name",
        InspectError::SecondCommonName => "multiple common names",
        InspectError::SecondSerialNumber => "multiple serial numbers",
        InspectError::SecondOrganizationName => "multiple organization names",
        InspectError::StringNotPermitted => string,
        InspectError::Decode(DecodeError::OutOfMemory) => "out of memory",
        _ => "invalid name",
    }))
}

impl Name {
    /// Reads a name that is all of the octets, of any profile.
    ///
    /// # Errors
    /// `Trailing` where octets follow a name, `OutOfMemory`, and else why no beginning of the octets is a name.
    pub fn decode(octets: impl IntoOctets) -> Result<Self, DecodeError> {
        let octets = octets.into_octets();
        ffi::name_inspect(&octets, 0, false).map_err(DecodeError::from_status)?;
        Ok(Name { octets })
    }

    /// The name of the subject with this key (RFC 6487 4.5): one common name, the digits of its key identifier.
    ///
    /// # Panics
    /// If allocation fails.
    pub fn from_pub_key(key: &PublicKey) -> Self {
        Name { octets: known(ffi::name_of_key(key.octets())).into() }
    }

    /// Inspects the name of a certificate of the RPKI (RFC 6487 4.4); any name will do where `strict` is false.
    ///
    /// # Errors
    /// The rule that the name breaks first, from the left; `out of memory` where allocation failed.
    pub fn inspect_rpki(&self, strict: bool) -> Result<(), InspectionError> {
        self.inspect(ffi::PROFILE_RPKI, strict, "invalid name")
    }

    /// Inspects the name of a router's certificate (RFC 8209 3.1.1); any name will do where `strict` is false.
    ///
    /// # Errors
    /// The rule that the name breaks first, from the left; `out of memory` where allocation failed.
    pub fn inspect_router(&self, strict: bool) -> Result<(), InspectionError> {
        self.inspect(ffi::PROFILE_ROUTER, strict, "unpermitted string variant in common name")
    }

    /// Inspects the name by the profile of this number. `string` is the text of a string that is not permitted.
    fn inspect(&self, profile: u8, strict: bool, string: &'static str) -> Result<(), InspectionError> {
        if !strict {
            return Ok(());
        }
        let told = ffi::name_inspect(&self.octets, profile, true);
        told.map_err(|status| text(InspectError::from_status(status), string))
    }

    /// The name of octets that a call has found to be one.
    pub(crate) fn read(octets: Bytes) -> Self {
        Name { octets }
    }

    /// All of the octets, as they were read.
    pub fn as_slice(&self) -> &[u8] {
        &self.octets
    }

    /// All of the octets, shared.
    pub fn to_bytes(&self) -> Bytes {
        self.octets.clone()
    }
}

impl AsRef<[u8]> for Name {
    fn as_ref(&self) -> &[u8] {
        &self.octets
    }
}

#[cfg(feature = "serde")]
crate::texts::serialized_as_octets!(Name, "a name in base 64");

#[cfg(test)]
mod tests {
    use super::text;
    use crate::view::{DecodeError, InspectError};

    /// Where memory ends nothing is said of the name.
    #[test]
    fn an_allocation_failure_is_no_fault_of_the_name() {
        let told = text(InspectError::Decode(DecodeError::OutOfMemory), "a string");
        assert_eq!(told.to_string(), "out of memory");
    }
}
