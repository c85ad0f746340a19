//! Octets as base 64 text (RFC 4648 4 and 5), in the three flavours of the RPKI's protocols.
//!
//! ```
//! use rpki_proved::util::base64::{Serde, Slurm, Xml};
//!
//! assert_eq!(Xml.decode("Zm9v\n YmFy")?, b"foobar");
//! assert_eq!(Slurm.encode(b"\xfb\xff"), "-_8");
//! assert!(Serde.decode("Zg").is_err());
//! # Ok::<(), rpki_proved::util::base64::DecodeError>(())
//! ```

use crate::ffi;
use std::error::Error;
use std::fmt;

/// Why a text is not base 64, and the place in the text.
#[derive(Clone, Copy, Debug, PartialEq, Eq)]
#[non_exhaustive]
pub enum DecodeError {
    /// The octet at this place is no symbol of the alphabet, or padding that is not at the end.
    InvalidByte(usize, u8),
    /// No octets have a text of this length: the symbols end here.
    InvalidLength(usize),
    /// The last symbol, at this place, has bits that stand for nothing.
    InvalidLastSymbol(usize, u8),
    /// Padding is missing, or there is too much of it.
    InvalidPadding,
    /// Allocation failed.
    OutOfMemory,
}

impl fmt::Display for DecodeError {
    fn fmt(&self, f: &mut fmt::Formatter) -> fmt::Result {
        match self {
            DecodeError::InvalidByte(at, octet) => write!(f, "Invalid symbol {octet}, offset {at}."),
            DecodeError::InvalidLength(at) => write!(f, "Invalid input length: {at}"),
            DecodeError::InvalidLastSymbol(at, octet) => write!(f, "Invalid last symbol {octet}, offset {at}."),
            DecodeError::InvalidPadding => f.write_str("Invalid padding"),
            DecodeError::OutOfMemory => f.write_str("out of memory"),
        }
    }
}

impl Error for DecodeError {}

/// Why a text in XML is not base 64.
pub type XmlDecodeError = DecodeError;

/// Why a text has no octets, or none that a buffer has room for.
#[derive(Clone, Copy, Debug, PartialEq, Eq)]
#[non_exhaustive]
pub enum DecodeSliceError {
    /// The text is not base 64.
    DecodeError(DecodeError),
    /// There are more octets than the buffer has room for.
    OutputSliceTooSmall,
}

impl From<DecodeError> for DecodeSliceError {
    fn from(error: DecodeError) -> Self {
        DecodeSliceError::DecodeError(error)
    }
}

impl fmt::Display for DecodeSliceError {
    fn fmt(&self, f: &mut fmt::Formatter) -> fmt::Result {
        match self {
            DecodeSliceError::DecodeError(error) => write!(f, "DecodeError: {error}"),
            DecodeSliceError::OutputSliceTooSmall => f.write_str("Output slice too small"),
        }
    }
}

impl Error for DecodeSliceError {
    fn source(&self) -> Option<&(dyn Error + 'static)> {
        match self {
            DecodeSliceError::DecodeError(error) => Some(error),
            DecodeSliceError::OutputSliceTooSmall => None,
        }
    }
}

/// The text of the octets; `None` where allocation failed.
fn encoded(octets: &[u8], url_safe: bool) -> Option<String> {
    let symbols = ffi::base64_write(octets, url_safe).ok()?;
    Some(String::from_utf8(symbols).expect("symbols of ASCII"))
}

/// What a call says of a text. Places count in `bare`, which is the text without what the flavour does not count.
fn fault((status, at): (ffi::Status, usize), bare: impl FnOnce(usize) -> u8) -> DecodeError {
    match status {
        ffi::INVALID_SYMBOL => DecodeError::InvalidByte(at, bare(at)),
        ffi::INVALID_LENGTH => DecodeError::InvalidLength(at),
        ffi::INVALID_LAST_SYMBOL => DecodeError::InvalidLastSymbol(at, bare(at)),
        ffi::INVALID_PADDING => DecodeError::InvalidPadding,
        ffi::OUT_OF_MEMORY => DecodeError::OutOfMemory,
        status => unreachable!("{status} is the status of no text in base 64"),
    }
}

/// The octets of a text, of which every octet counts.
fn decoded(text: &str, flavour: u8) -> Result<Vec<u8>, DecodeError> {
    ffi::base64_read(text.as_bytes(), flavour).map_err(|found| fault(found, |at| text.as_bytes()[at]))
}

/// Base 64 in XML documents: the standard alphabet with padding, and white space anywhere: space, tab, line feed, form
/// feed, carriage return.
pub struct Xml;

impl Xml {
    /// The octets of a text. Its white space is not looked at, and places of errors count without it.
    ///
    /// # Errors
    /// The rest is not base 64, or allocation failed.
    pub fn decode(self, input: &str) -> Result<Vec<u8>, XmlDecodeError> {
        self.decode_bytes(input.as_bytes())
    }

    /// The same of a text in octets.
    ///
    /// # Errors
    /// Those of [`Xml::decode`].
    pub fn decode_bytes(self, input: &[u8]) -> Result<Vec<u8>, XmlDecodeError> {
        let bare = |at| match std::str::from_utf8(input) {
            Ok(_) => input.iter().copied().filter(|octet| !octet.is_ascii_whitespace()).nth(at).unwrap_or_default(),
            Err(_) => input[at],
        };
        ffi::base64_read(input, ffi::BASE64_XML).map_err(|found| fault(found, bare))
    }

    /// The text of octets.
    ///
    /// # Panics
    /// If allocation fails.
    pub fn encode(self, data: &[u8]) -> String {
        encoded(data, false).expect("out of memory")
    }
}

/// Base 64 in serialized values: the standard alphabet with padding.
pub struct Serde;

impl Serde {
    /// The octets of a text.
    ///
    /// # Errors
    /// It is not base 64 with its padding.
    pub fn decode(self, input: &str) -> Result<Vec<u8>, DecodeError> {
        decoded(input, ffi::BASE64_SERDE)
    }

    /// The text of octets.
    ///
    /// # Panics
    /// If allocation fails.
    pub fn encode(self, data: &[u8]) -> String {
        encoded(data, false).expect("out of memory")
    }
}

/// Base 64 in SLURM files (RFC 8416): the alphabet that is safe in URLs, read with padding or without, and written
/// without.
pub struct Slurm;

impl Slurm {
    /// The octets of a text.
    ///
    /// # Errors
    /// It is not base 64 of this alphabet.
    pub fn decode(self, input: &str) -> Result<Vec<u8>, DecodeError> {
        decoded(input, ffi::BASE64_SLURM)
    }

    /// Writes the octets of a text to the front of the buffer, and says how many they are. Where that fails, nothing is
    /// said of what is in the buffer.
    ///
    /// # Errors
    /// It is not base 64 of this alphabet, there are more octets than the buffer has room for, or allocation failed.
    pub fn decode_slice(self, input: &str, output: &mut [u8]) -> Result<usize, DecodeSliceError> {
        match ffi::base64_read_into(input.as_bytes(), ffi::BASE64_SLURM, output) {
            Ok(size) => Ok(size),
            Err((ffi::TOO_SMALL, _)) => Err(DecodeSliceError::OutputSliceTooSmall),
            Err(found) => Err(fault(found, |at| input.as_bytes()[at]).into()),
        }
    }

    /// The text of octets.
    ///
    /// # Panics
    /// If allocation fails.
    pub fn encode(self, data: &[u8]) -> String {
        encoded(data, true).expect("out of memory")
    }

    /// Writes the text of octets.
    ///
    /// # Errors
    /// Those of the writer; one of the kind `OutOfMemory` where allocation failed.
    pub fn write_encoded_slice(self, data: &[u8], target: &mut impl std::io::Write) -> Result<(), std::io::Error> {
        let text = encoded(data, true).ok_or(std::io::ErrorKind::OutOfMemory)?;
        target.write_all(text.as_bytes())
    }

    /// The octets, to be shown as their text. Where allocation fails, that is an error of the formatter.
    pub fn display(self, data: &[u8]) -> impl fmt::Display + '_ {
        struct Shown<'a>(&'a [u8]);
        impl fmt::Display for Shown<'_> {
            fn fmt(&self, f: &mut fmt::Formatter) -> fmt::Result {
                f.write_str(&encoded(self.0, true).ok_or(fmt::Error)?)
            }
        }
        Shown(data)
    }
}
