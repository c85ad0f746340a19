//! Digest algorithms.

use crate::crypto::algorithm;
use crate::ffi;
use crate::view::DecodeError;

/// The digest algorithm of the RPKI, SHA-256 (RFC 7935 2).
#[derive(Clone, Copy, Debug, Default, PartialEq, Eq, Hash)]
pub struct DigestAlgorithm(());

/// The algorithm identifier with no parameters, and with NULL for them (RFC 5754 2).
const BARE: &[u8] = b"\x30\x0b\x06\x09\x60\x86\x48\x01\x65\x03\x04\x02\x01";
const WITH_NULL: &[u8] = b"\x30\x0d\x06\x09\x60\x86\x48\x01\x65\x03\x04\x02\x01\x05\x00";

/// A SET of one of these two, and nothing else.
const SET_OF_BARE: &[u8] = b"\x31\x0d\x30\x0b\x06\x09\x60\x86\x48\x01\x65\x03\x04\x02\x01";
const SET_OF_WITH_NULL: &[u8] = b"\x31\x0f\x30\x0d\x06\x09\x60\x86\x48\x01\x65\x03\x04\x02\x01\x05\x00";

/// The object identifier alone.
const IDENTIFIER: &[u8] = b"\x06\x09\x60\x86\x48\x01\x65\x03\x04\x02\x01";

impl DigestAlgorithm {
    /// SHA-256.
    pub fn sha256() -> Self {
        DigestAlgorithm(())
    }

    /// Whether this is SHA-256: always.
    pub fn is_sha256(self) -> bool {
        true
    }

    /// How many octets a digest has: 32.
    pub fn digest_len(&self) -> usize {
        32
    }

    /// The digest of the octets.
    pub fn digest(self, octets: &[u8]) -> Digest {
        Digest(ffi::sha256(octets).to_vec())
    }

    /// Reads an algorithm identifier that is all of the octets: SHA-256, with NULL for parameters or with none.
    ///
    /// # Errors
    /// `OtherAlgorithm` for any other value; else why there is no value, or `Trailing`.
    pub fn decode(octets: &[u8]) -> Result<Self, DecodeError> {
        algorithm::decode(octets, &[(BARE, ()), (WITH_NULL, ())]).map(DigestAlgorithm)
    }

    /// Reads a SET that is all of the octets, of exactly one algorithm identifier as [`DigestAlgorithm::decode`] reads.
    ///
    /// # Errors
    /// Those of [`DigestAlgorithm::decode`].
    pub fn decode_set(octets: &[u8]) -> Result<Self, DecodeError> {
        algorithm::decode(octets, &[(SET_OF_BARE, ()), (SET_OF_WITH_NULL, ())]).map(DigestAlgorithm)
    }

    /// Reads the object identifier of SHA-256, which is all of the octets.
    ///
    /// # Errors
    /// Those of [`DigestAlgorithm::decode`].
    pub fn decode_oid(octets: &[u8]) -> Result<Self, DecodeError> {
        algorithm::decode(octets, &[(IDENTIFIER, ())]).map(DigestAlgorithm)
    }

    /// The algorithm identifier as it is written: with no parameters.
    pub fn encode(self) -> &'static [u8] {
        BARE
    }

    /// A SET of the algorithm identifier as it is written.
    pub fn encode_set(self) -> &'static [u8] {
        SET_OF_BARE
    }

    /// The object identifier.
    pub fn encode_oid(self) -> &'static [u8] {
        IDENTIFIER
    }
}

/// A digest: 32 octets by SHA-256, 20 by SHA-1.
#[derive(Clone, Debug, PartialEq, Eq, Hash)]
pub struct Digest(Vec<u8>);

impl AsRef<[u8]> for Digest {
    fn as_ref(&self) -> &[u8] {
        &self.0
    }
}

/// The digest of the octets by SHA-1 (FIPS 180-4 6.1), of which the RPKI makes key identifiers alone. It is Rust of this
/// package's own: of a key [PublicKey::key_identifier](crate::crypto::PublicKey::key_identifier) is a proved call.
///
/// ```
/// let digest = rpki_proved::crypto::digest::sha1_digest(b"abc");
/// assert_eq!(digest.as_ref()[..4], [0xa9, 0x99, 0x3e, 0x36]);
/// ```
pub fn sha1_digest(octets: &[u8]) -> Digest {
    let mut padded = octets.to_vec();
    padded.push(0x80);
    padded.resize((octets.len() + 9 + 63) / 64 * 64 - 8, 0);
    padded.extend((octets.len() as u64 * 8).to_be_bytes());
    let mut state = [0x6745_2301, 0xefcd_ab89, 0x98ba_dcfe, 0x1032_5476, 0xc3d2_e1f0];
    for block in padded.chunks_exact(64) {
        sha1_block(&mut state, block);
    }
    Digest(state.iter().flat_map(|word: &u32| word.to_be_bytes()).collect())
}

/// Takes in a block of 64 octets (FIPS 180-4 6.1.2).
fn sha1_block(state: &mut [u32; 5], block: &[u8]) {
    let mut words = [0_u32; 80];
    for (word, octets) in words.iter_mut().zip(block.chunks_exact(4)) {
        *word = u32::from_be_bytes([octets[0], octets[1], octets[2], octets[3]]);
    }
    for at in 16..80 {
        words[at] = (words[at - 3] ^ words[at - 8] ^ words[at - 14] ^ words[at - 16]).rotate_left(1);
    }
    let [mut a, mut b, mut c, mut d, mut e] = *state;
    for (at, word) in words.into_iter().enumerate() {
        let (mixed, constant) = match at / 20 {
            0 => (b & c | !b & d, 0x5a82_7999),
            1 => (b ^ c ^ d, 0x6ed9_eba1),
            2 => (b & c | b & d | c & d, 0x8f1b_bcdc),
            _ => (b ^ c ^ d, 0xca62_c1d6),
        };
        let next: u32 = a.rotate_left(5).wrapping_add(mixed).wrapping_add(e).wrapping_add(constant).wrapping_add(word);
        (a, b, c, d, e) = (next, a, b.rotate_left(30), c, d);
    }
    for (word, more) in state.iter_mut().zip([a, b, c, d, e]) {
        *word = word.wrapping_add(more);
    }
}
