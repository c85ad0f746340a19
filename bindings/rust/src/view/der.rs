//! Headers and walks.

use crate::ffi;
use crate::view::error::DecodeError;

/// The class of a tag (X.690 8.1.2.2).
#[derive(Clone, Copy, Debug, PartialEq, Eq, Hash)]
pub enum Class {
    /// Of the types of X.680.
    Universal,
    /// Of an application.
    Application,
    /// Of the value around it.
    Context,
    /// Of an enterprise.
    Private,
}

impl Class {
    pub(crate) fn from_number(number: u8) -> Class {
        match number {
            0 => Class::Universal,
            1 => Class::Application,
            2 => Class::Context,
            3 => Class::Private,
            _ => unreachable!("there is no class {number}"),
        }
    }
}

/// The header of a value: its identifier octets and its length octets (X.690 8.1.2, 8.1.3).
///
/// ```
/// use rpki_proved::view::{Class, DecodeError, Header};
///
/// let header = Header::read(b"\x30\x82\x01\x00 and 254 octets more")?;
/// assert_eq!((header.class(), header.number()), (Class::Universal, 16));
/// assert!(header.is_constructed());
/// assert_eq!((header.size(), header.length()), (4, 256));
/// assert_eq!(Header::read(b"\x30\x80").unwrap_err(), DecodeError::BadLength);
/// # Ok::<(), DecodeError>(())
/// ```
#[derive(Clone, Copy, Debug, PartialEq, Eq)]
pub struct Header {
    class: Class,
    constructed: bool,
    number: u32,
    length: u32,
    size: usize,
}

impl Header {
    /// Reads the header at the front of the octets. Its contents need not be there.
    ///
    /// # Errors
    /// `Truncated`, `BadTag` or `BadLength`, by the first octet that cannot be continued to a header; nothing else.
    pub fn read(octets: &[u8]) -> Result<Header, DecodeError> {
        let parts = ffi::header(octets).map_err(DecodeError::from_status)?;
        Ok(Header {
            class: Class::from_number(parts.tag_class),
            constructed: parts.constructed,
            number: parts.number,
            length: parts.length,
            size: parts.size,
        })
    }

    /// The class of the tag.
    pub fn class(&self) -> Class {
        self.class
    }

    /// The number of the tag, below 2^28.
    pub fn number(&self) -> u32 {
        self.number
    }

    /// Whether the contents are values themselves.
    pub fn is_constructed(&self) -> bool {
        self.constructed
    }

    /// How many contents octets the header announces.
    pub fn length(&self) -> u32 {
        self.length
    }

    /// How many octets the header itself has.
    pub fn size(&self) -> usize {
        self.size
    }
}

/// The value at the front of octets.
#[derive(Clone, Copy, Debug, PartialEq, Eq)]
pub struct Walked<'a> {
    octets: &'a [u8],
    headers: u64,
}

impl<'a> Walked<'a> {
    /// The octets of the value, its header included.
    pub fn octets(&self) -> &'a [u8] {
        self.octets
    }

    /// How many headers it has, its own among them.
    pub fn headers(&self) -> u64 {
        self.headers
    }
}

/// Walks the value at the front of the octets, with all that is nested in it, to any depth. Structure alone counts: the
/// contents of a primitive value are not looked at.
///
/// ```
/// let walked = rpki_proved::view::walk(b"\x30\x06\x30\x04\x30\x02\x30\x00 and more")?;
/// assert_eq!((walked.octets().len(), walked.headers()), (8, 4));
/// # Ok::<(), rpki_proved::view::DecodeError>(())
/// ```
///
/// # Errors
/// From the left, the first header that isn't one, or `Truncated` for the first value that passes
/// the end of the value around it or of the octets. `OutOfMemory` where the walk could not keep
/// where the values end that it is inside of.
pub fn walk(octets: &[u8]) -> Result<Walked<'_>, DecodeError> {
    let walked = ffi::walk(octets).map_err(DecodeError::from_status)?;
    Ok(Walked { octets: &octets[..walked.size], headers: walked.headers })
}

/// The place where the value at the front of the octets goes wrong: where the leftmost value begins
/// that isn't one, itself or nested in it, and so of what [`walk`] returns. None where a value
/// begins the octets.
///
/// ```
/// // A SEQUENCE of two values, of which the second has no header.
/// assert_eq!(rpki_proved::view::fault(b"\x30\x04\x05\x00\x1f\x1e"), Ok(Some(4)));
/// assert_eq!(rpki_proved::view::fault(b"\x30\x02\x05\x00"), Ok(None));
/// ```
///
/// # Errors
/// `OutOfMemory`.
pub fn fault(octets: &[u8]) -> Result<Option<usize>, DecodeError> {
    match ffi::fault(octets) {
        Ok(at) => Ok(Some(at)),
        Err(ffi::NO_ANSWER) => Ok(None),
        Err(status) => Err(DecodeError::from_status(status)),
    }
}
