//! Keys, digests and signatures.

mod algorithm;
pub mod digest;
pub mod keys;
pub mod signature;

pub use digest::DigestAlgorithm;
pub use keys::{KeyIdentifier, PublicKey, PublicKeyFormat};
#[cfg(feature = "openssl")]
pub use signature::OpenSslProvider;
pub use signature::{
    BgpsecSignatureAlgorithm, Provider, RpkiSignature, RpkiSignatureAlgorithm, RsaProvider, Signature,
    SignatureAlgorithm, SignatureVerificationError, SigningAlgorithm,
};
