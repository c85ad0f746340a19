//! Serial numbers.

use crate::crypto::keys::known;
use crate::ffi;
use crate::repository::error::ContentError;
use crate::view::DecodeError;
use bytes::Bytes;
use std::error::Error;
use std::fmt;
use std::str::FromStr;

/// A serial number of a certificate (RFC 5280 4.1.2.2), below 2^159. It is shown as a decimal number.
///
/// ```
/// use rpki_proved::repository::x509::Serial;
///
/// let serial = Serial::decode(b"\x02\x03\x05\xdb\x4e")?;
/// assert_eq!(serial.to_string(), "383822");
/// assert_eq!("383822".parse::<Serial>()?, serial);
/// # Ok::<(), Box<dyn std::error::Error>>(())
/// ```
#[derive(Clone, Copy, Default, PartialEq, Eq, PartialOrd, Ord, Hash)]
pub struct Serial([u8; 20]);

impl Serial {
    /// The number that the octets write, the most significant first.
    ///
    /// # Errors
    /// There are none, or more than 20, or 20 of which the first bit is set.
    pub fn from_slice(s: &[u8]) -> Result<Self, SerialSliceError> {
        match ffi::serial_of_octets(s) {
            Ok(octets) => Ok(Serial(octets)),
            Err(_) if s.is_empty() => Err(SerialSliceError::Empty),
            Err(_) => Err(SerialSliceError::Long),
        }
    }

    /// The number that the octets write, the most significant first.
    ///
    /// # Errors
    /// The first bit is set.
    pub fn from_array(array: [u8; 20]) -> Result<Self, SerialSliceError> {
        Serial::from_slice(&array)
    }

    /// The number of octets that a call has found to be one.
    pub(crate) fn read(array: [u8; 20]) -> Self {
        Serial(array)
    }

    /// The 20 octets of the number, the most significant first, with zeros in front.
    pub fn into_array(self) -> [u8; 20] {
        self.0
    }

    /// Reads a serial number, an INTEGER, that is all of the octets.
    ///
    /// # Errors
    /// `Content` where it is negative, not in the shortest form or longer than 20 contents octets; `Trailing` where
    /// octets follow it; and else why no beginning of the octets is a serial number.
    pub fn decode(octets: &[u8]) -> Result<Self, DecodeError> {
        ffi::serial(octets).map(Serial).map_err(DecodeError::from_status)
    }

    /// The INTEGER of the number, as it is written.
    ///
    /// # Panics
    /// If allocation fails.
    pub fn encode(self) -> Bytes {
        known(ffi::serial_write(&self.0)).into()
    }
}

impl TryFrom<[u8; 20]> for Serial {
    type Error = SerialSliceError;

    fn try_from(array: [u8; 20]) -> Result<Self, SerialSliceError> {
        Serial::from_array(array)
    }
}

impl TryFrom<&'_ [u8]> for Serial {
    type Error = SerialSliceError;

    fn try_from(s: &[u8]) -> Result<Self, SerialSliceError> {
        Serial::from_slice(s)
    }
}

impl From<Serial> for [u8; 20] {
    fn from(serial: Serial) -> Self {
        serial.0
    }
}

impl From<u64> for Serial {
    fn from(number: u64) -> Self {
        u128::from(number).into()
    }
}

impl From<u128> for Serial {
    fn from(number: u128) -> Self {
        let mut octets = [0; 20];
        octets[4..].copy_from_slice(&number.to_be_bytes());
        Serial(octets)
    }
}

impl From<Serial> for String {
    fn from(serial: Serial) -> Self {
        serial.to_string()
    }
}

/// A decimal number: digits and nothing else, with any number of zeros in front.
impl FromStr for Serial {
    type Err = RepresentationError;

    fn from_str(s: &str) -> Result<Self, RepresentationError> {
        ffi::serial_of_decimal(s.as_bytes()).map(Serial).map_err(|_| RepresentationError(()))
    }
}

impl TryFrom<String> for Serial {
    type Error = RepresentationError;

    fn try_from(s: String) -> Result<Self, RepresentationError> {
        s.parse()
    }
}

impl fmt::Display for Serial {
    /// The decimal number, whatever width, sign and precision are asked for.
    fn fmt(&self, f: &mut fmt::Formatter) -> fmt::Result {
        let mut digits = [0; 48];
        let size = known(ffi::serial_decimal(&self.0, &mut digits));
        f.write_str(std::str::from_utf8(&digits[..size]).expect("digits"))
    }
}

impl fmt::Debug for Serial {
    fn fmt(&self, f: &mut fmt::Formatter) -> fmt::Result {
        write!(f, "Serial({self})")
    }
}

#[cfg(feature = "serde")]
impl serde::Serialize for Serial {
    /// The decimal number, as a text.
    fn serialize<S: serde::Serializer>(&self, serializer: S) -> Result<S::Ok, S::Error> {
        serializer.serialize_str(&self.to_string())
    }
}

#[cfg(feature = "serde")]
impl<'de> serde::Deserialize<'de> for Serial {
    /// A decimal number, or the empty text, which the crate rpki writes of the number 0.
    fn deserialize<D: serde::Deserializer<'de>>(deserializer: D) -> Result<Self, D::Error> {
        crate::texts::borrowed(deserializer, "a decimal number", |text| match text {
            "" => Ok(Serial::default()),
            digits => digits.parse(),
        })
    }
}

/// Why octets are not a serial number.
#[derive(Clone, Copy, Debug, PartialEq, Eq)]
#[non_exhaustive]
pub enum SerialSliceError {
    /// There are none.
    Empty,
    /// There are more than 20, or 20 of which the first bit is set.
    Long,
}

impl SerialSliceError {
    /// What is wrong, in a few words.
    fn text(self) -> &'static str {
        match self {
            SerialSliceError::Empty => "empty serial number",
            SerialSliceError::Long => "serial number longer than 20 bytes",
        }
    }
}

impl fmt::Display for SerialSliceError {
    fn fmt(&self, f: &mut fmt::Formatter) -> fmt::Result {
        f.write_str(self.text())
    }
}

impl From<SerialSliceError> for ContentError {
    fn from(error: SerialSliceError) -> Self {
        ContentError::from_static(error.text())
    }
}

impl Error for SerialSliceError {}

/// A text is not a decimal number below 2^159.
#[derive(Clone, Copy, Debug, PartialEq, Eq)]
pub struct RepresentationError(());

impl fmt::Display for RepresentationError {
    fn fmt(&self, f: &mut fmt::Formatter) -> fmt::Result {
        f.write_str("wrong representation format")
    }
}

impl Error for RepresentationError {}
