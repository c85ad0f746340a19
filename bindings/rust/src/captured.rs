//! Octets as they were read.

use crate::octets::IntoOctets;
use bytes::Bytes;
use std::ops::Deref;

/// Octets of a value as they were read, or its contents: [Bytes], under the names that the types `Captured` and
/// `OctetString` of the crate bcder have. They share the octets that the value was read from.
///
/// ```
/// use rpki_proved::Captured;
///
/// let captured = Captured::from(&b"\x05\x00"[..]);
/// assert_eq!(captured.as_slice(), b"\x05\x00");
/// assert_eq!(captured.to_bytes(), captured.clone().into_bytes());
/// ```
#[derive(Clone, Debug, Default, PartialEq, Eq, Hash, PartialOrd, Ord)]
pub struct Captured(Bytes);

impl Captured {
    /// The octets.
    pub fn as_slice(&self) -> &[u8] {
        &self.0
    }

    /// The octets, shared.
    pub fn to_bytes(&self) -> Bytes {
        self.0.clone()
    }

    /// The octets.
    pub fn into_bytes(self) -> Bytes {
        self.0
    }
}

impl From<Bytes> for Captured {
    fn from(octets: Bytes) -> Self {
        Captured(octets)
    }
}

impl From<&[u8]> for Captured {
    fn from(octets: &[u8]) -> Self {
        Captured(octets.into_octets())
    }
}

impl From<Captured> for Bytes {
    fn from(captured: Captured) -> Bytes {
        captured.0
    }
}

impl Deref for Captured {
    type Target = Bytes;

    fn deref(&self) -> &Bytes {
        &self.0
    }
}

impl AsRef<[u8]> for Captured {
    fn as_ref(&self) -> &[u8] {
        &self.0
    }
}

impl PartialEq<Captured> for Bytes {
    fn eq(&self, other: &Captured) -> bool {
        *self == other.0
    }
}

impl PartialEq<[u8]> for Captured {
    fn eq(&self, other: &[u8]) -> bool {
        self.0 == *other
    }
}

impl PartialEq<&[u8]> for Captured {
    fn eq(&self, other: &&[u8]) -> bool {
        self.0 == **other
    }
}

/// A value that keeps the octets that it was read from gives them as the crate rpki does.
macro_rules! captured {
    ($($name:ty),*) => {
        $(
            impl $name {
                /// The octets that it was read from.
                pub fn to_captured(&self) -> crate::Captured {
                    self.to_bytes().into()
                }
            }
        )*
    };
}
pub(crate) use captured;
