//! Errors.

use crate::ffi::Status;
use std::error::Error;
use std::fmt;

/// Why octets are not the value that was asked for.
#[derive(Clone, Copy, Debug, PartialEq, Eq, Hash)]
#[non_exhaustive]
pub enum DecodeError {
    /// The octets end before the value does.
    Truncated,
    /// The identifier octets are not those of a tag (X.690 8.1.2): not in the shortest form, of a number of 2^28 or
    /// more, or of the tag universal 0.
    BadTag,
    /// The length octets are not in the shortest definite form (X.690 8.1.3, 10.1), or announce 2^32 octets or more.
    BadLength,
    /// The value has another tag, or another form.
    Unexpected,
    /// The contents are not those of the type.
    Content,
    /// Octets follow the value.
    Trailing,
    /// Allocation failed.
    OutOfMemory,
    /// An algorithm identifier, but of none of the algorithms that are read (RFC 5280 4.1.1.2).
    OtherAlgorithm,
    /// What would be made has contents of 2^32 octets or more. No call that reads alone returns it.
    TooLong,
}

impl DecodeError {
    pub(crate) fn from_status(status: Status) -> DecodeError {
        match status {
            1 => DecodeError::Truncated,
            2 => DecodeError::BadTag,
            3 => DecodeError::BadLength,
            4 => DecodeError::Unexpected,
            5 => DecodeError::Content,
            6 => DecodeError::Trailing,
            7 => DecodeError::OutOfMemory,
            13 => DecodeError::OtherAlgorithm,
            15 => DecodeError::TooLong,
            _ => unreachable!("{status} is the status of no call that reads DER"),
        }
    }
}

impl fmt::Display for DecodeError {
    fn fmt(&self, f: &mut fmt::Formatter) -> fmt::Result {
        f.write_str(match self {
            DecodeError::Truncated => "truncated value",
            DecodeError::BadTag => "malformed tag",
            DecodeError::BadLength => "malformed length",
            DecodeError::Unexpected => "unexpected value",
            DecodeError::Content => "malformed contents",
            DecodeError::Trailing => "octets after the value",
            DecodeError::OutOfMemory => "out of memory",
            DecodeError::OtherAlgorithm => "another algorithm",
            DecodeError::TooLong => "too long to be written",
        })
    }
}

impl Error for DecodeError {}

/// Why a text is not a URI, or why a path cannot be joined to one.
#[derive(Clone, Copy, Debug, PartialEq, Eq, Hash)]
#[non_exhaustive]
pub enum UriError {
    /// There is a character that a URI may not have.
    InvalidCharacters,
    /// The authority, the module or the slash after the module of an rsync URI is missing, or the authority of an https
    /// URI has 256 octets or more.
    BadUri,
    /// An rsync URI has 3,072 octets or more after its scheme and the slashes, or a path that is joined or the text
    /// that joining gives has as many.
    LongUri,
    /// The text doesn't begin with the scheme that is read, a colon and two slashes.
    BadScheme,
    /// A segment is `.` or `..` (RFC 3986 section 3.3). Here and below, the authority and the module of an rsync URI
    /// count as segments.
    DotSegments,
    /// A segment that is not the last is empty.
    EmptySegments,
    /// A segment has 256 octets or more.
    LongSegments,
}

impl UriError {
    pub(crate) fn from_status(status: Status) -> UriError {
        match status {
            160 => UriError::InvalidCharacters,
            161 => UriError::BadUri,
            162 => UriError::LongUri,
            163 => UriError::BadScheme,
            164 => UriError::DotSegments,
            165 => UriError::EmptySegments,
            166 => UriError::LongSegments,
            _ => unreachable!("{status} is the status of no call that reads a URI"),
        }
    }
}

impl fmt::Display for UriError {
    fn fmt(&self, f: &mut fmt::Formatter) -> fmt::Result {
        f.write_str(match self {
            UriError::InvalidCharacters => "invalid characters",
            UriError::BadUri => "bad URI",
            UriError::LongUri => "URI exceeds 3072 characters",
            UriError::BadScheme => "bad URI scheme",
            UriError::DotSegments => "URI with dot path segments",
            UriError::EmptySegments => "URI with empty path segments",
            UriError::LongSegments => "one or more segments are longer than 255 characters",
        })
    }
}

impl Error for UriError {}

/// Why a name does not pass an inspection: the first rule that it breaks, from the left.
#[derive(Clone, Copy, Debug, PartialEq, Eq, Hash)]
#[non_exhaustive]
pub enum InspectError {
    /// The octets are no name.
    Decode(DecodeError),
    /// It has no common name, and breaks no other rule.
    MissingCommonName,
    /// It has a second common name.
    SecondCommonName,
    /// It has a second serial number.
    SecondSerialNumber,
    /// It has a second organization name.
    SecondOrganizationName,
    /// An attribute has a value that is no string of the profile.
    StringNotPermitted,
    /// It has an attribute that is no common name, serial number or organization name.
    AttributeNotPermitted,
}

impl InspectError {
    pub(crate) fn from_status(status: Status) -> InspectError {
        match status {
            32 => InspectError::MissingCommonName,
            33 => InspectError::SecondCommonName,
            34 => InspectError::SecondSerialNumber,
            35 => InspectError::SecondOrganizationName,
            36 => InspectError::StringNotPermitted,
            37 => InspectError::AttributeNotPermitted,
            status => InspectError::Decode(DecodeError::from_status(status)),
        }
    }
}

impl From<DecodeError> for InspectError {
    fn from(error: DecodeError) -> InspectError {
        InspectError::Decode(error)
    }
}

impl fmt::Display for InspectError {
    fn fmt(&self, f: &mut fmt::Formatter) -> fmt::Result {
        match self {
            InspectError::Decode(error) => error.fmt(f),
            InspectError::MissingCommonName => f.write_str("missing common name"),
            InspectError::SecondCommonName => f.write_str("multiple common names"),
            InspectError::SecondSerialNumber => f.write_str("multiple serial numbers"),
            InspectError::SecondOrganizationName => f.write_str("multiple organization names"),
            InspectError::StringNotPermitted => f.write_str("unpermitted string in name"),
            InspectError::AttributeNotPermitted => f.write_str("unpermitted attribute in name"),
        }
    }
}

impl Error for InspectError {
    fn source(&self) -> Option<&(dyn Error + 'static)> {
        match self {
            InspectError::Decode(error) => Some(error),
            _ => None,
        }
    }
}

/// Why a path cannot be joined to a URI in a buffer.
#[derive(Clone, Copy, Debug, PartialEq, Eq, Hash)]
#[non_exhaustive]
pub enum JoinError {
    /// The path, or the text that joining gives, is not right.
    Uri(UriError),
    /// The text is longer than the buffer.
    TooSmall,
}

impl From<UriError> for JoinError {
    fn from(error: UriError) -> JoinError {
        JoinError::Uri(error)
    }
}

impl fmt::Display for JoinError {
    fn fmt(&self, f: &mut fmt::Formatter) -> fmt::Result {
        match self {
            JoinError::Uri(error) => error.fmt(f),
            JoinError::TooSmall => f.write_str("buffer too small"),
        }
    }
}

impl Error for JoinError {
    fn source(&self) -> Option<&(dyn Error + 'static)> {
        match self {
            JoinError::Uri(error) => Some(error),
            JoinError::TooSmall => None,
        }
    }
}

#[cfg(test)]
mod tests {
    use super::{DecodeError, InspectError, UriError};

    /// The numbers that `include/rpki.h` gives the statuses.
    #[test]
    fn statuses() {
        let decoding = [
            (1, DecodeError::Truncated),
            (2, DecodeError::BadTag),
            (3, DecodeError::BadLength),
            (4, DecodeError::Unexpected),
            (5, DecodeError::Content),
            (6, DecodeError::Trailing),
            (7, DecodeError::OutOfMemory),
            (13, DecodeError::OtherAlgorithm),
            (15, DecodeError::TooLong),
        ];
        for (status, error) in decoding {
            assert_eq!(DecodeError::from_status(status), error, "{status}");
        }
        let rules = [
            (5, InspectError::Decode(DecodeError::Content)),
            (32, InspectError::MissingCommonName),
            (33, InspectError::SecondCommonName),
            (34, InspectError::SecondSerialNumber),
            (35, InspectError::SecondOrganizationName),
            (36, InspectError::StringNotPermitted),
            (37, InspectError::AttributeNotPermitted),
        ];
        for (status, error) in rules {
            assert_eq!(InspectError::from_status(status), error, "{status}");
        }
        let uris = [
            (160, UriError::InvalidCharacters),
            (161, UriError::BadUri),
            (162, UriError::LongUri),
            (163, UriError::BadScheme),
            (164, UriError::DotSegments),
            (165, UriError::EmptySegments),
            (166, UriError::LongSegments),
        ];
        for (status, error) in uris {
            assert_eq!(UriError::from_status(status), error, "{status}");
        }
    }
}
