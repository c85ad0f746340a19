//! Public keys and their identifiers.

use crate::crypto::algorithm;
pub use crate::crypto::signature::SignatureVerificationError;
use crate::crypto::signature::{Provider, RpkiSignatureAlgorithm, Signature, SignatureAlgorithm};
use crate::encode;
use crate::ffi;
use crate::octets::IntoOctets;
use crate::repository::x509::Name;
use crate::util::hex;
use crate::view::{DecodeError, Header};
use bytes::Bytes;
use std::error::Error;
use std::fmt;
use std::hash::{Hash, Hasher};
use std::str::FromStr;

/// The format of a public key.
#[derive(Clone, Copy, Debug, PartialEq, Eq)]
#[non_exhaustive]
pub enum PublicKeyFormat {
    /// RSA (rsaEncryption, RFC 8017 A.1).
    Rsa,
    /// A point on the curve P-256 (id-ecPublicKey with secp256r1, RFC 5480 2.1.1).
    EcdsaP256,
}

impl PublicKeyFormat {
    /// That of this number.
    fn of(number: u8) -> Self {
        if number == ffi::RSA {
            PublicKeyFormat::Rsa
        } else {
            PublicKeyFormat::EcdsaP256
        }
    }

    /// Whether keys of certificates of the RPKI have it: RSA alone (RFC 7935 3).
    pub fn allow_rpki_cert(self) -> bool {
        self == PublicKeyFormat::Rsa
    }

    /// Whether keys of certificates of BGPsec routers have it: P-256 alone (RFC 8608 3).
    pub fn allow_router_cert(self) -> bool {
        self == PublicKeyFormat::EcdsaP256
    }

    /// Reads an algorithm identifier that is all of the octets: rsaEncryption, with NULL for parameters or with none,
    /// or id-ecPublicKey with secp256r1.
    ///
    /// # Errors
    /// `OtherAlgorithm` for any other value; else why there is no value, or `Trailing`.
    pub fn decode(octets: &[u8]) -> Result<Self, DecodeError> {
        use PublicKeyFormat::{EcdsaP256, Rsa};
        algorithm::decode(octets, &[(RSA, Rsa), (BARE_RSA, Rsa), (P256, EcdsaP256)])
    }

    /// The algorithm identifier as it is written, with NULL for the parameters of RSA.
    pub fn encode(self) -> &'static [u8] {
        match self {
            PublicKeyFormat::Rsa => RSA,
            PublicKeyFormat::EcdsaP256 => P256,
        }
    }
}

/// rsaEncryption as an algorithm identifier, with NULL for parameters and with none (RFC 3279 2.3.1).
const RSA: &[u8] = b"\x30\x0d\x06\x09\x2a\x86\x48\x86\xf7\x0d\x01\x01\x01\x05\x00";
const BARE_RSA: &[u8] = b"\x30\x0b\x06\x09\x2a\x86\x48\x86\xf7\x0d\x01\x01\x01";

/// id-ecPublicKey with secp256r1 as an algorithm identifier (RFC 5480 2.1.1).
const P256: &[u8] = b"\x30\x13\x06\x07\x2a\x86\x48\xce\x3d\x02\x01\x06\x08\x2a\x86\x48\xce\x3d\x03\x01\x07";

impl From<RpkiSignatureAlgorithm> for PublicKeyFormat {
    fn from(_: RpkiSignatureAlgorithm) -> Self {
        PublicKeyFormat::Rsa
    }
}

/// Why two numbers make no RSA key.
#[derive(Clone, Copy, Debug, PartialEq, Eq)]
#[non_exhaustive]
pub enum InvalidInteger {
    /// One of them has no octets.
    Empty,
    /// They have more than 2^31 octets together.
    TooLong,
    /// Allocation failed.
    OutOfMemory,
}

impl fmt::Display for InvalidInteger {
    fn fmt(&self, f: &mut fmt::Formatter) -> fmt::Result {
        f.write_str(match self {
            InvalidInteger::Empty => "empty number",
            InvalidInteger::TooLong => "number too long",
            InvalidInteger::OutOfMemory => "out of memory",
        })
    }
}

impl Error for InvalidInteger {}

/// A public key (SubjectPublicKeyInfo, RFC 5280 4.1.2.7). It shares the octets that it was read from.
///
/// ```
/// use rpki_proved::crypto::PublicKey;
///
/// let key = PublicKey::rsa_from_components(b"\x00\x80", b"\x01\x00\x01")?;
/// assert_eq!(key.bits(), b"\x30\x09\x02\x02\x00\x80\x02\x03\x01\x00\x01");
/// assert_eq!(PublicKey::decode(key.to_info_bytes())?, key);
/// # Ok::<(), Box<dyn std::error::Error>>(())
/// ```
#[derive(Clone)]
pub struct PublicKey {
    /// All of the octets, as they were read or made.
    octets: Bytes,
    bits: Bytes,
    algorithm: PublicKeyFormat,
    unused: u8,
}

impl PublicKey {
    /// The RSA key of the two numbers, the most significant octet first. Leading zeros are left out.
    ///
    /// # Errors
    /// `Empty`, `TooLong`, `OutOfMemory`.
    pub fn rsa_from_components(modulus: &[u8], exponent: &[u8]) -> Result<Self, InvalidInteger> {
        let octets = ffi::rsa_key_write(modulus, exponent).map_err(|status| match status {
            ffi::CONTENT => InvalidInteger::Empty,
            ffi::TOO_LONG => InvalidInteger::TooLong,
            _ => InvalidInteger::OutOfMemory,
        })?;
        PublicKey::decode(octets).map_err(|_| InvalidInteger::OutOfMemory)
    }

    /// The RSA key with these bits: a SEQUENCE of two non-negative INTEGERs, and nothing else.
    ///
    /// # Errors
    /// Why the octets are no such SEQUENCE; `TooLong` where the key would have contents of 2^32 octets or more;
    /// `OutOfMemory`.
    pub fn rsa_from_bits_bytes(bytes: Bytes) -> Result<Self, DecodeError> {
        PublicKey::decode(ffi::rsa_key_of_bits(&bytes).map_err(DecodeError::from_status)?)
    }

    /// Reads a public key that is all of the octets. Its bits are not looked at.
    ///
    /// # Errors
    /// `OtherAlgorithm` where the algorithm identifier is well formed and another one; `Trailing` where octets follow a
    /// key, and else why no beginning of the octets is a key.
    pub fn decode(octets: impl IntoOctets) -> Result<Self, DecodeError> {
        let octets = octets.into_octets();
        let found = ffi::public_key(&octets).map_err(DecodeError::from_status)?;
        let bits = octets.slice(found.bits.range(&octets));
        Ok(PublicKey { octets, bits, algorithm: PublicKeyFormat::of(found.format), unused: found.unused })
    }

    /// The key of octets that a call has found to be one, of this format, with so many unused bits.
    pub(crate) fn read(octets: Bytes, format: u8, unused: u8) -> Self {
        // A SEQUENCE of an algorithm identifier and a BIT STRING, of which the first octet counts unused bits.
        let identifier = header_size(&octets);
        let string = identifier + header_size(&octets[identifier..]) + usize::from(octets[identifier + 1]);
        let bits = octets.slice(string + header_size(&octets[string..]) + 1..);
        PublicKey { octets, bits, algorithm: PublicKeyFormat::of(format), unused }
    }

    /// The format.
    pub fn algorithm(&self) -> PublicKeyFormat {
        self.algorithm
    }

    /// The octets of the bits, without the count of unused bits.
    pub fn bits(&self) -> &[u8] {
        &self.bits
    }

    /// The octets of the bits, shared.
    pub fn bits_bytes(&self) -> Bytes {
        self.bits.clone()
    }

    /// Whether certificates of the RPKI may have the key.
    pub fn allow_rpki_cert(&self) -> bool {
        self.algorithm.allow_rpki_cert()
    }

    /// Whether certificates of BGPsec routers may have the key.
    pub fn allow_router_cert(&self) -> bool {
        self.algorithm.allow_router_cert()
    }

    /// The key identifier: the SHA-1 digest of the bits (RFC 6487 4.8.2). Nothing is allocated.
    pub fn key_identifier(&self) -> KeyIdentifier {
        KeyIdentifier(known(ffi::key_identifier(&self.octets)))
    }

    /// Checks that the signature is by this key over the message, as [RsaProvider](crate::crypto::RsaProvider) says.
    ///
    /// # Errors
    /// The algorithm has keys of another format, or the signature is no good one by RSA.
    pub fn verify<Alg: SignatureAlgorithm>(
        &self,
        message: &[u8],
        signature: &Signature<Alg>,
    ) -> Result<(), SignatureVerificationError> {
        let is_good = self.algorithm == PublicKeyFormat::Rsa
            && signature.algorithm().public_key_format() == self.algorithm
            && ffi::verify(&self.octets, message, signature.value()).is_ok();
        if is_good {
            Ok(())
        } else {
            Err(SignatureVerificationError(()))
        }
    }

    /// The same, as this provider says.
    ///
    /// # Errors
    /// The algorithm has keys of another format, or the provider says no.
    pub fn verify_with<Alg: SignatureAlgorithm>(
        &self,
        provider: &impl Provider,
        message: &[u8],
        signature: &Signature<Alg>,
    ) -> Result<(), SignatureVerificationError> {
        let (bits, value) = (self.bits(), signature.value());
        let is_good = signature.algorithm().public_key_format() == self.algorithm
            && match self.algorithm {
                PublicKeyFormat::Rsa => provider.rsa_check(bits, message, value),
                PublicKeyFormat::EcdsaP256 => provider.ecdsa_check(bits, message, value),
            };
        if is_good {
            Ok(())
        } else {
            Err(SignatureVerificationError(()))
        }
    }

    /// The key as it is written, with NULL for the parameters of RSA: the octets that it was read from, shared, where
    /// they are that already.
    ///
    /// # Panics
    /// If allocation fails.
    pub fn to_info_bytes(&self) -> Bytes {
        // Lengths have one spelling in DER, so only the algorithm identifier can be spelled in two ways.
        let header = Header::read(&self.octets).expect("a key that was read").size();
        if self.octets[header..].starts_with(self.algorithm.encode()) {
            return self.octets.clone();
        }
        known(ffi::public_key_write(&self.octets)).into()
    }

    /// The name of the subject with this key (RFC 6487 4.5), as [`Name::from_pub_key`].
    ///
    /// # Panics
    /// If allocation fails.
    pub fn to_subject_name(&self) -> Name {
        Name::from_pub_key(self)
    }

    /// The octets of that name.
    ///
    /// # Panics
    /// If allocation fails.
    pub fn encode_subject_name(&self) -> Bytes {
        self.to_subject_name().to_bytes()
    }

    /// All of the octets as they were read.
    pub(crate) fn octets(&self) -> &[u8] {
        &self.octets
    }
}

/// How many octets the header of a value has, of which the tag has one (X.690 8.1.3).
fn header_size(octets: &[u8]) -> usize {
    match octets[1] {
        0..=0x7f => 2,
        first => 2 + usize::from(first & 0x7f),
    }
}

/// What a call tells of a key that was read already.
pub(crate) fn known<T>(answer: Result<T, ffi::Status>) -> T {
    answer.unwrap_or_else(|status| panic!("{}", DecodeError::from_status(status)))
}

/// Two keys are equal where their formats, their bits and their counts of unused bits are.
impl PartialEq for PublicKey {
    fn eq(&self, other: &Self) -> bool {
        self.algorithm == other.algorithm && self.unused == other.unused && self.bits == other.bits
    }
}

impl Eq for PublicKey {}

impl Hash for PublicKey {
    fn hash<H: Hasher>(&self, state: &mut H) {
        self.bits.hash(state)
    }
}

impl fmt::Debug for PublicKey {
    fn fmt(&self, f: &mut fmt::Formatter) -> fmt::Result {
        f.debug_struct("PublicKey").field("algorithm", &self.algorithm).field("bits", &self.bits).finish()
    }
}

#[cfg(feature = "serde")]
impl serde::Serialize for PublicKey {
    /// The key as it is written, in base 64. Panics if allocation fails.
    fn serialize<S: serde::Serializer>(&self, serializer: S) -> Result<S::Ok, S::Error> {
        serializer.serialize_str(&crate::util::base64::Serde.encode(&self.to_info_bytes()))
    }
}

#[cfg(feature = "serde")]
impl<'de> serde::Deserialize<'de> for PublicKey {
    fn deserialize<D: serde::Deserializer<'de>>(deserializer: D) -> Result<Self, D::Error> {
        crate::texts::octets(deserializer, "a public key in base 64", PublicKey::decode)
    }
}

/// A key identifier, 20 octets (RFC 6487 4.8.2). It is shown as 40 hexadecimal digits, in upper case.
#[derive(Clone, Copy, Eq, PartialOrd, Ord)]
pub struct KeyIdentifier([u8; 20]);

impl KeyIdentifier {
    /// Reads a key identifier that is all of the octets: an OCTET STRING of 20.
    ///
    /// # Errors
    /// `Content` where it has another size, `Unexpected` for another value, `Trailing`, and else why there is no value.
    pub fn decode(octets: &[u8]) -> Result<Self, DecodeError> {
        ffi::key_identifier_read(octets).map(KeyIdentifier).map_err(DecodeError::from_status)
    }

    /// The octets.
    pub fn as_slice(&self) -> &[u8] {
        &self.0
    }

    /// The 40 digits.
    pub fn into_hex(self) -> [u8; 40] {
        let mut digits = [0; 40];
        hex::write(&self.0, &mut digits);
        digits
    }

    /// The value of the identifier, as extensions have it: an OCTET STRING of 20.
    pub fn encode(self) -> Bytes {
        encode::value(encode::OCTET_STRING, &self.0)
    }
}

/// Whether these are the octets of the identifier: another one, or anything else that has octets.
impl<T: AsRef<[u8]> + ?Sized> PartialEq<T> for KeyIdentifier {
    #[inline]
    fn eq(&self, other: &T) -> bool {
        self.0 == *other.as_ref()
    }
}

impl Hash for KeyIdentifier {
    fn hash<H: Hasher>(&self, state: &mut H) {
        self.0.hash(state)
    }
}

impl AsRef<[u8]> for KeyIdentifier {
    fn as_ref(&self) -> &[u8] {
        &self.0
    }
}

impl From<[u8; 20]> for KeyIdentifier {
    fn from(octets: [u8; 20]) -> Self {
        KeyIdentifier(octets)
    }
}

impl From<KeyIdentifier> for [u8; 20] {
    fn from(identifier: KeyIdentifier) -> Self {
        identifier.0
    }
}

impl TryFrom<&'_ [u8]> for KeyIdentifier {
    type Error = KeyIdentifierSliceError;

    fn try_from(octets: &[u8]) -> Result<Self, KeyIdentifierSliceError> {
        octets.try_into().map(KeyIdentifier).map_err(|_| KeyIdentifierSliceError)
    }
}

/// Forty hexadecimal digits, of either case.
impl FromStr for KeyIdentifier {
    type Err = ParseKeyIdentifierError;

    fn from_str(s: &str) -> Result<Self, ParseKeyIdentifierError> {
        ffi::key_identifier_of_hex(s.as_bytes()).map(KeyIdentifier).map_err(|_| ParseKeyIdentifierError)
    }
}

impl fmt::Display for KeyIdentifier {
    fn fmt(&self, f: &mut fmt::Formatter) -> fmt::Result {
        f.write_str(hex::encode(&self.0, &mut [0; 40]))
    }
}

impl fmt::Debug for KeyIdentifier {
    fn fmt(&self, f: &mut fmt::Formatter) -> fmt::Result {
        write!(f, "KeyIdentifier({self})")
    }
}

#[cfg(feature = "serde")]
impl serde::Serialize for KeyIdentifier {
    /// The 40 digits.
    fn serialize<S: serde::Serializer>(&self, serializer: S) -> Result<S::Ok, S::Error> {
        serializer.serialize_str(hex::encode(&self.0, &mut [0; 40]))
    }
}

#[cfg(feature = "serde")]
impl<'de> serde::Deserialize<'de> for KeyIdentifier {
    fn deserialize<D: serde::Deserializer<'de>>(deserializer: D) -> Result<Self, D::Error> {
        crate::texts::borrowed(deserializer, "a key identifier of 40 hexadecimal digits", str::parse)
    }
}

/// A text is not 40 hexadecimal digits.
#[derive(Clone, Debug)]
pub struct ParseKeyIdentifierError;

impl fmt::Display for ParseKeyIdentifierError {
    fn fmt(&self, f: &mut fmt::Formatter) -> fmt::Result {
        f.write_str("invalid key identifier")
    }
}

impl Error for ParseKeyIdentifierError {}

/// A slice has not 20 octets.
#[derive(Clone, Debug)]
pub struct KeyIdentifierSliceError;

impl fmt::Display for KeyIdentifierSliceError {
    fn fmt(&self, f: &mut fmt::Formatter) -> fmt::Result {
        f.write_str("invalid slice for key identifier")
    }
}

impl Error for KeyIdentifierSliceError {}
