//! Signatures.

use crate::crypto::algorithm;
use crate::crypto::keys::{PublicKey, PublicKeyFormat};
use crate::ffi;
use crate::view::DecodeError;
use bytes::Bytes;
use std::error::Error;
use std::fmt;

/// What makes the checks of signatures: a library for RSA and for ECDSA, or what stands for one.
///
/// It is asked the right question: the bits of the key, exactly the octets that were signed, and the octets of the
/// signature. [RsaProvider] is the one that calls take which are given none.
pub trait Provider {
    /// The digest of the octets by SHA-256 (FIPS 180-4). That of the proved library where this isn't written over.
    fn sha256(&self, octets: &[u8]) -> [u8; 32] {
        ffi::sha256(octets)
    }

    /// Whether the signature is by this RSA key over this message (RSASSA-PKCS1-v1_5 with SHA-256). The bits are those
    /// of an RSAPublicKey (RFC 8017 A.1.1).
    fn rsa_check(&self, bits: &[u8], message: &[u8], signature: &[u8]) -> bool;

    /// Whether the signature is by this key over this message (ECDSA on P-256 with SHA-256). The bits are those of a
    /// point (RFC 5480 2.2). False where this isn't written over.
    fn ecdsa_check(&self, bits: &[u8], message: &[u8], signature: &[u8]) -> bool {
        let _ = (bits, message, signature);
        false
    }
}

/// The checks of the proved library: RSASSA-PKCS1-v1_5 with SHA-256 (RFC 8017 8.2.2), by keys of 2,048 to 4,096 bits
/// with an odd modulus and an odd exponent, not 1, below 2^64. No signature by ECDSA is good.
///
/// ```
/// use rpki_proved::crypto::{Provider, RsaProvider};
///
/// assert!(!RsaProvider.rsa_check(b"no key", b"message", b"signature"));
/// ```
#[derive(Clone, Copy, Debug, Default, PartialEq, Eq)]
pub struct RsaProvider;

impl Provider for RsaProvider {
    fn rsa_check(&self, bits: &[u8], message: &[u8], signature: &[u8]) -> bool {
        PublicKey::rsa_from_bits_bytes(Bytes::copy_from_slice(bits))
            .map_or(false, |key| ffi::verify(&key.to_info_bytes(), message, signature).is_ok())
    }
}

/// The checks of OpenSSL, with the feature `openssl`. RSA keys have 2,048 bits and the exponent 65,537 (RFC 7935 3).
#[cfg(feature = "openssl")]
#[derive(Clone, Copy, Debug, Default, PartialEq, Eq)]
pub struct OpenSslProvider;

#[cfg(feature = "openssl")]
impl Provider for OpenSslProvider {
    fn sha256(&self, octets: &[u8]) -> [u8; 32] {
        openssl::sha::sha256(octets)
    }

    fn rsa_check(&self, bits: &[u8], message: &[u8], signature: &[u8]) -> bool {
        use openssl::{bn::BigNum, error::ErrorStack, hash::MessageDigest, pkey::PKey, rsa::Rsa, sign::Verifier};
        let check = || {
            let key = Rsa::public_key_from_der_pkcs1(bits)?;
            if key.size() != 256 || *key.e() != *BigNum::from_u32(65_537)? {
                return Ok::<bool, ErrorStack>(false);
            }
            let key = PKey::from_rsa(key)?;
            let mut verifier = Verifier::new(MessageDigest::sha256(), &key)?;
            verifier.verify_oneshot(signature, message)
        };
        check().unwrap_or(false)
    }
}

/// A signature is not by the key over the message.
#[derive(Clone, Copy, Debug, PartialEq, Eq)]
pub struct SignatureVerificationError(pub(crate) ());

impl fmt::Display for SignatureVerificationError {
    fn fmt(&self, f: &mut fmt::Formatter) -> fmt::Result {
        f.write_str("signature verification failed")
    }
}

impl Error for SignatureVerificationError {}

/// How something is signed.
#[derive(Clone, Copy, Debug, PartialEq, Eq)]
#[non_exhaustive]
pub enum SigningAlgorithm {
    /// RSASSA-PKCS1-v1_5 with SHA-256 (RFC 7935 2).
    RsaSha256,
    /// ECDSA on P-256 with SHA-256 (RFC 8608 2).
    EcdsaP256Sha256,
}

impl SigningAlgorithm {
    /// The format of its keys.
    pub fn public_key_format(self) -> PublicKeyFormat {
        match self {
            SigningAlgorithm::RsaSha256 => PublicKeyFormat::Rsa,
            SigningAlgorithm::EcdsaP256Sha256 => PublicKeyFormat::EcdsaP256,
        }
    }
}

/// The algorithm of a signature.
pub trait SignatureAlgorithm: Sized {
    /// How it signs.
    fn signing_algorithm(&self) -> SigningAlgorithm;

    /// The format of its keys.
    fn public_key_format(&self) -> PublicKeyFormat {
        self.signing_algorithm().public_key_format()
    }

    /// Reads the algorithm identifier of certificates that is all of the octets.
    ///
    /// # Errors
    /// `OtherAlgorithm` for any other value; else why there is no value, or `Trailing`.
    fn x509_decode(octets: &[u8]) -> Result<Self, DecodeError>;

    /// The algorithm identifier of certificates, as it is written.
    fn x509_encode(&self) -> &'static [u8];
}

/// sha256WithRSAEncryption and rsaEncryption as algorithm identifiers, each with NULL for parameters and with none
/// (RFC 4055 5, RFC 7935 2).
const SIGNATURE: &[u8] = b"\x30\x0d\x06\x09\x2a\x86\x48\x86\xf7\x0d\x01\x01\x0b\x05\x00";
const BARE_SIGNATURE: &[u8] = b"\x30\x0b\x06\x09\x2a\x86\x48\x86\xf7\x0d\x01\x01\x0b";
const ENCRYPTION: &[u8] = b"\x30\x0d\x06\x09\x2a\x86\x48\x86\xf7\x0d\x01\x01\x01\x05\x00";
const BARE_ENCRYPTION: &[u8] = b"\x30\x0b\x06\x09\x2a\x86\x48\x86\xf7\x0d\x01\x01\x01";

/// ecdsa-with-SHA256 as an algorithm identifier, without parameters (RFC 5758 3.2).
const ECDSA: &[u8] = b"\x30\x0a\x06\x08\x2a\x86\x48\xce\x3d\x04\x03\x02";

/// The signature algorithm of the RPKI, RSA with SHA-256 (RFC 7935 2). It remembers whether its identifier had
/// parameters.
#[derive(Clone, Copy, Debug, PartialEq, Eq, Hash)]
pub struct RpkiSignatureAlgorithm {
    pub(crate) has_parameters: bool,
}

impl Default for RpkiSignatureAlgorithm {
    /// With parameters, as it is written.
    fn default() -> Self {
        RpkiSignatureAlgorithm { has_parameters: true }
    }
}

/// An identifier with parameters.
const FULL: RpkiSignatureAlgorithm = RpkiSignatureAlgorithm { has_parameters: true };
/// An identifier without parameters.
const BARE: RpkiSignatureAlgorithm = RpkiSignatureAlgorithm { has_parameters: false };

impl RpkiSignatureAlgorithm {
    /// Reads the algorithm identifier of signed objects that is all of the octets (RFC 7935 2): rsaEncryption or
    /// sha256WithRSAEncryption, with NULL for parameters or with none.
    ///
    /// # Errors
    /// `OtherAlgorithm` for any other value; else why there is no value, or `Trailing`.
    pub fn cms_decode(octets: &[u8]) -> Result<Self, DecodeError> {
        let spellings = [(ENCRYPTION, FULL), (BARE_ENCRYPTION, BARE), (SIGNATURE, FULL), (BARE_SIGNATURE, BARE)];
        algorithm::decode(octets, &spellings)
    }

    /// The algorithm identifier of signed objects, as it is written: rsaEncryption with NULL for parameters.
    pub fn cms_encode(self) -> &'static [u8] {
        ENCRYPTION
    }
}

impl SignatureAlgorithm for RpkiSignatureAlgorithm {
    fn signing_algorithm(&self) -> SigningAlgorithm {
        SigningAlgorithm::RsaSha256
    }

    /// sha256WithRSAEncryption, with NULL for parameters or with none.
    fn x509_decode(octets: &[u8]) -> Result<Self, DecodeError> {
        algorithm::decode(octets, &[(SIGNATURE, FULL), (BARE_SIGNATURE, BARE)])
    }

    /// sha256WithRSAEncryption with NULL for parameters.
    fn x509_encode(&self) -> &'static [u8] {
        SIGNATURE
    }
}

/// The signature algorithm of BGPsec, ECDSA on P-256 with SHA-256 (RFC 8608 2).
#[derive(Clone, Copy, Debug, Default, PartialEq, Eq)]
pub struct BgpsecSignatureAlgorithm(());

impl SignatureAlgorithm for BgpsecSignatureAlgorithm {
    fn signing_algorithm(&self) -> SigningAlgorithm {
        SigningAlgorithm::EcdsaP256Sha256
    }

    /// ecdsa-with-SHA256, without parameters.
    fn x509_decode(octets: &[u8]) -> Result<Self, DecodeError> {
        algorithm::decode(octets, &[(ECDSA, ())]).map(BgpsecSignatureAlgorithm)
    }

    fn x509_encode(&self) -> &'static [u8] {
        ECDSA
    }
}

/// The octets of a signature, and its algorithm.
#[derive(Clone, Debug, PartialEq, Eq)]
pub struct Signature<Alg> {
    algorithm: Alg,
    value: Bytes,
}

/// A signature of the RPKI.
pub type RpkiSignature = Signature<RpkiSignatureAlgorithm>;

impl<Alg> Signature<Alg> {
    /// The signature of this algorithm with these octets.
    pub fn new(algorithm: Alg, value: Bytes) -> Self {
        Signature { algorithm, value }
    }

    /// The algorithm.
    pub fn algorithm(&self) -> &Alg {
        &self.algorithm
    }

    /// The octets.
    pub fn value(&self) -> &Bytes {
        &self.value
    }

    /// The algorithm and the octets.
    pub fn unwrap(self) -> (Alg, Bytes) {
        (self.algorithm, self.value)
    }
}
