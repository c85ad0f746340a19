//! The calls of the library on borrowed octets: nothing is copied but where a call says so, and a value that is read
//! borrows the octets that it was read from.
//!
//! ```
//! use rpki_proved::view::{DecodeError, SignedData};
//!
//! // Signed data of 23 octets: an empty SEQUENCE, sha256WithRSAEncryption, and a signature of the octet AA.
//! let octets = b"\x30\x15\x30\x00\x30\x0d\x06\x09\x2a\x86\x48\x86\xf7\x0d\x01\x01\x0b\x05\x00\x03\x02\x00\xaa";
//! let signed = SignedData::decode(octets)?;
//! assert_eq!(signed.data(), b"\x30\x00");
//! assert_eq!(signed.signature(), b"\xaa");
//!
//! // What is missing is an error, as is what follows.
//! assert_eq!(SignedData::decode(&octets[..22]).unwrap_err(), DecodeError::Truncated);
//! assert_eq!(SignedData::decode(&[&octets[..], b"\x00"].concat()).unwrap_err(), DecodeError::Trailing);
//! # Ok::<(), DecodeError>(())
//! ```

mod der;
mod error;
mod index;
mod keys;
mod signed;
mod time;
mod uri;
mod values;

pub use der::{fault, walk, Class, Header, Walked};
pub use error::{DecodeError, InspectError, JoinError, UriError};
pub use index::{Entries, Entry, Index};
pub use keys::{KeyFormat, KeyIdentifier, PublicKey};
pub use signed::SignedData;
pub use time::{Time, Validity};
pub use uri::{Https, Rsync};
pub(crate) use values::dotted;
pub use values::{Extension, Name, ObjectIdentifier, Profile, Serial};
