//! Signed data.

use crate::crypto::keys::{known, PublicKey};
use crate::crypto::signature::{
    Provider, RpkiSignature, RpkiSignatureAlgorithm, Signature, SignatureVerificationError,
};
use crate::ffi;
use crate::octets::IntoOctets;
use crate::view::DecodeError;
use bytes::Bytes;

/// Signed data of the RPKI (RFC 5280 4.1), as a certificate or a revocation list: one value, and a signature over
/// exactly its octets. It shares the octets that it was read from.
///
/// ```
/// use rpki_proved::repository::x509::SignedData;
///
/// // An empty SEQUENCE, sha256WithRSAEncryption without parameters, and a signature of the octet AA.
/// let signed = SignedData::decode(
///     &b"\x30\x13\x30\x00\x30\x0b\x06\x09\x2a\x86\x48\x86\xf7\x0d\x01\x01\x0b\x03\x02\x00\xaa"[..],
/// )?;
/// assert_eq!(signed.data(), &b"\x30\x00"[..]);
/// assert_eq!(
///     signed.to_bytes(),
///     &b"\x30\x15\x30\x00\x30\x0d\x06\x09\x2a\x86\x48\x86\xf7\x0d\x01\x01\x0b\x05\x00\x03\x02\x00\xaa"[..],
/// );
/// # Ok::<(), rpki_proved::DecodeError>(())
/// ```
#[derive(Clone, Debug)]
pub struct SignedData<Alg = RpkiSignatureAlgorithm> {
    /// All of the octets, as they were read or made.
    octets: Bytes,
    /// Whether they are as they are written: the algorithm with parameters, and no unused bits.
    is_written: bool,
    data: Bytes,
    signature: Signature<Alg>,
}

/// Two values are equal where their signed octets and their signatures are.
impl<Alg: PartialEq> PartialEq for SignedData<Alg> {
    fn eq(&self, other: &Self) -> bool {
        self.data == other.data && self.signature == other.signature
    }
}

impl<Alg: Eq> Eq for SignedData<Alg> {}

impl SignedData {
    /// The value, and a signature over it.
    ///
    /// # Errors
    /// The octets are not exactly one value, with all that is nested in it; `TooLong` where the signed data would have
    /// contents of 2^32 octets or more; `OutOfMemory`.
    pub fn new(data: impl Into<Bytes>, signature: RpkiSignature) -> Result<Self, DecodeError> {
        let data = data.into();
        let octets = ffi::signed_data_make(&data, signature.value()).map_err(DecodeError::from_status)?.into();
        Ok(SignedData { octets, is_written: true, data, signature })
    }

    /// Reads signed data that is all of the octets.
    ///
    /// # Errors
    /// `OtherAlgorithm` where all is well formed as far as the algorithm identifier, and that is another one;
    /// `Trailing` where octets follow signed data, `OutOfMemory`, and else why no beginning of the octets is any.
    pub fn decode(octets: impl IntoOctets) -> Result<Self, DecodeError> {
        let octets = octets.into_octets();
        let found = ffi::signed_data(&octets).map_err(DecodeError::from_status)?;
        let algorithm = RpkiSignatureAlgorithm { has_parameters: found.has_parameters };
        let signature = Signature::new(algorithm, octets.slice(found.signature.range(&octets)));
        let is_written = found.has_parameters && found.unused == 0;
        Ok(SignedData { data: octets.slice(found.data.range(&octets)), is_written, signature, octets })
    }

    /// The value, as exactly the octets that are signed.
    pub fn data(&self) -> &Bytes {
        &self.data
    }

    /// The signature.
    pub fn signature(&self) -> &RpkiSignature {
        &self.signature
    }

    /// Checks that the signature is by this key over exactly the signed octets, as
    /// [RsaProvider](crate::crypto::RsaProvider) says.
    ///
    /// # Errors
    /// The key is of another format, or the signature is not one by it.
    pub fn verify_signature(&self, key: &PublicKey) -> Result<(), SignatureVerificationError> {
        key.verify(&self.data, &self.signature)
    }

    /// The same, as this provider says.
    ///
    /// # Errors
    /// The key is of another format, or the provider says no.
    pub fn verify_signature_with(
        &self,
        provider: &impl Provider,
        key: &PublicKey,
    ) -> Result<(), SignatureVerificationError> {
        key.verify_with(provider, &self.data, &self.signature)
    }

    /// The signed data as it is written: exactly the signed octets, the algorithm with parameters, and the signature
    /// with no unused bits. They are the octets that it was read from, shared, where those are that already.
    ///
    /// # Panics
    /// If allocation fails.
    pub fn to_bytes(&self) -> Bytes {
        // Lengths have one spelling in DER, so nothing else can be spelled in two ways.
        if self.is_written {
            return self.octets.clone();
        }
        known(ffi::signed_data_write(&self.octets)).into()
    }
}
