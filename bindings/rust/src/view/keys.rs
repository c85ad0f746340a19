//! Public keys.

use crate::ffi;
use crate::view::error::DecodeError;
use std::fmt;

/// The format of a public key.
#[derive(Clone, Copy, Debug, PartialEq, Eq, Hash)]
pub enum KeyFormat {
    /// RSA (rsaEncryption, RFC 8017 A.1).
    Rsa,
    /// A point on the curve P-256 (id-ecPublicKey with secp256r1, RFC 5480 2.1.1).
    EcdsaP256,
}

/// A public key, a SubjectPublicKeyInfo (RFC 5280 4.1.2.7).
///
/// ```
/// use rpki_proved::view::{DecodeError, KeyFormat, PublicKey};
///
/// // An RSA key whose bits are `abc`.
/// let octets = b"\x30\x15\x30\x0d\x06\x09\x2a\x86\x48\x86\xf7\x0d\x01\x01\x01\x05\x00\x03\x04\x00abc";
/// let key = PublicKey::decode(octets)?;
/// assert_eq!((key.format(), key.bits()), (KeyFormat::Rsa, &b"abc"[..]));
/// assert_eq!(key.identifier()?.to_string(), "A9993E364706816ABA3E25717850C26C9CD0D89D");
/// # Ok::<(), DecodeError>(())
/// ```
#[derive(Clone, Copy, Debug)]
pub struct PublicKey<'a> {
    octets: &'a [u8],
    bits: &'a [u8],
    format: KeyFormat,
    unused_bits: u8,
}

impl<'a> PublicKey<'a> {
    /// Reads a public key that is all of the octets. Its bits are not looked at.
    ///
    /// # Errors
    /// `OtherAlgorithm` where the algorithm identifier is well formed and another one; `Trailing` where octets follow a
    /// key, and else why no beginning of the octets is a key.
    pub fn decode(octets: &'a [u8]) -> Result<PublicKey<'a>, DecodeError> {
        let found = ffi::public_key(octets).map_err(DecodeError::from_status)?;
        Ok(PublicKey {
            octets,
            bits: found.bits.of(octets),
            format: match found.format {
                0 => KeyFormat::Rsa,
                _ => KeyFormat::EcdsaP256,
            },
            unused_bits: found.unused,
        })
    }

    /// All of the octets.
    pub fn octets(&self) -> &'a [u8] {
        self.octets
    }

    /// The format of the key.
    pub fn format(&self) -> KeyFormat {
        self.format
    }

    /// The octets of the key's bits: of an RSA key an RSAPublicKey, of P-256 a point.
    pub fn bits(&self) -> &'a [u8] {
        self.bits
    }

    /// How many bits of the last octet are unused: 0 to 7, and they are zero.
    pub fn unused_bits(&self) -> u8 {
        self.unused_bits
    }

    /// The key identifier: the SHA-1 digest of the bits (RFC 5280 4.2.1.2).
    ///
    /// # Errors
    /// There are none of a key that was read.
    pub fn identifier(&self) -> Result<KeyIdentifier, DecodeError> {
        KeyIdentifier::of_key(self.octets)
    }
}

/// A key identifier, 20 octets. It is shown as 40 hexadecimal digits, in upper case.
#[derive(Clone, Copy, PartialEq, Eq, PartialOrd, Ord, Hash)]
pub struct KeyIdentifier([u8; 20]);

impl KeyIdentifier {
    /// The identifier of the public key that is all of the octets.
    ///
    /// # Errors
    /// Those of [`PublicKey::decode`].
    pub fn of_key(octets: &[u8]) -> Result<KeyIdentifier, DecodeError> {
        let octets = ffi::key_identifier(octets).map_err(DecodeError::from_status)?;
        Ok(KeyIdentifier(octets))
    }

    /// The octets.
    pub fn octets(&self) -> &[u8; 20] {
        &self.0
    }
}

impl From<[u8; 20]> for KeyIdentifier {
    fn from(octets: [u8; 20]) -> KeyIdentifier {
        KeyIdentifier(octets)
    }
}

impl fmt::Display for KeyIdentifier {
    fn fmt(&self, f: &mut fmt::Formatter) -> fmt::Result {
        self.0.iter().try_for_each(|octet| write!(f, "{octet:02X}"))
    }
}

impl fmt::Debug for KeyIdentifier {
    fn fmt(&self, f: &mut fmt::Formatter) -> fmt::Result {
        write!(f, "KeyIdentifier({self})")
    }
}
