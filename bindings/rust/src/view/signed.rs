//! Signed data.

use crate::ffi;
use crate::view::error::DecodeError;

/// Signed data of the RPKI (RFC 5280 4.1), as a certificate or a revocation list: one value, the algorithm identifier
/// sha256WithRSAEncryption with NULL for parameters or with none, and a signature.
///
/// Nothing is verified. To verify it, ask an RSA library whether [`signature`](SignedData::signature) signs exactly the
/// octets of [`data`](SignedData::data) by the issuer's key (RSASSA-PKCS1-v1_5 with SHA-256).
#[derive(Clone, Copy, Debug)]
pub struct SignedData<'a> {
    octets: &'a [u8],
    parts: Parts<'a>,
}

#[derive(Clone, Copy, Debug)]
struct Parts<'a> {
    data: &'a [u8],
    algorithm: &'a [u8],
    signature: &'a [u8],
    unused_bits: u8,
    has_parameters: bool,
}

impl<'a> SignedData<'a> {
    /// Reads signed data that is all of the octets.
    ///
    /// # Errors
    /// `OtherAlgorithm` where all is well formed as far as the algorithm identifier, and that is another one;
    /// `Trailing` where octets follow signed data, `OutOfMemory`, and else why no beginning of the octets is any.
    pub fn decode(octets: &'a [u8]) -> Result<SignedData<'a>, DecodeError> {
        let found = ffi::signed_data(octets).map_err(DecodeError::from_status)?;
        let parts = Parts {
            data: found.data.of(octets),
            algorithm: found.algorithm.of(octets),
            signature: found.signature.of(octets),
            unused_bits: found.unused,
            has_parameters: found.has_parameters,
        };
        Ok(SignedData { octets, parts })
    }

    /// All of the octets.
    pub fn octets(&self) -> &'a [u8] {
        self.octets
    }

    /// What is signed, exactly as it came in: one value, its header included.
    pub fn data(&self) -> &'a [u8] {
        self.parts.data
    }

    /// The algorithm identifier, its header included.
    pub fn algorithm(&self) -> &'a [u8] {
        self.parts.algorithm
    }

    /// Whether the algorithm identifier has parameters, a NULL.
    pub fn has_parameters(&self) -> bool {
        self.parts.has_parameters
    }

    /// The octets of the signature's bits.
    pub fn signature(&self) -> &'a [u8] {
        self.parts.signature
    }

    /// How many bits of the signature's last octet are unused: 0 to 7, and they are zero. RSA signatures have none.
    pub fn unused_bits(&self) -> u8 {
        self.parts.unused_bits
    }
}
