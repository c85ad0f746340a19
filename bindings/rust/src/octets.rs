//! What values are read from.

use crate::captured::Captured;
use bytes::{Bytes, BytesMut};

/// Octets that a value is read from. Owned ones, and those of [Bytes], are shared by the value that is read; of borrowed
/// ones it keeps a copy.
///
/// ```
/// use rpki_proved::repository::{cert::CertPart, Cert};
///
/// let owned = vec![0x30, 0x00];
/// assert_eq!(Cert::decode(&owned[..]).unwrap_err().part(), CertPart::Signed);
/// assert_eq!(Cert::decode(owned).unwrap_err().part(), CertPart::Signed);
/// ```
pub trait IntoOctets {
    /// The octets.
    fn into_octets(self) -> Bytes;
}

impl IntoOctets for Bytes {
    fn into_octets(self) -> Bytes {
        self
    }
}

impl IntoOctets for BytesMut {
    fn into_octets(self) -> Bytes {
        self.freeze()
    }
}

impl IntoOctets for Vec<u8> {
    fn into_octets(self) -> Bytes {
        self.into()
    }
}

impl IntoOctets for Box<[u8]> {
    fn into_octets(self) -> Bytes {
        self.into()
    }
}

impl IntoOctets for &Bytes {
    fn into_octets(self) -> Bytes {
        self.clone()
    }
}

impl IntoOctets for Captured {
    fn into_octets(self) -> Bytes {
        self.into_bytes()
    }
}

impl IntoOctets for &Captured {
    fn into_octets(self) -> Bytes {
        self.to_bytes()
    }
}

impl IntoOctets for &[u8] {
    fn into_octets(self) -> Bytes {
        Bytes::copy_from_slice(self)
    }
}

impl<const N: usize> IntoOctets for &[u8; N] {
    fn into_octets(self) -> Bytes {
        Bytes::copy_from_slice(self)
    }
}

impl IntoOctets for &Vec<u8> {
    fn into_octets(self) -> Bytes {
        Bytes::copy_from_slice(self)
    }
}
