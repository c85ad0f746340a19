//! Names, serial numbers, extensions and object identifiers.

use crate::ffi;
use crate::view::error::{DecodeError, InspectError};
use std::fmt;

/// A profile of names.
#[derive(Clone, Copy, Debug, PartialEq, Eq, Hash)]
pub enum Profile {
    /// Of resource certificates (RFC 6487 4.4, 4.5).
    Rpki,
    /// Of router certificates (RFC 8209 3.1.1).
    Router,
}

/// A name (RFC 5280 4.1.2.4).
///
/// ```
/// use rpki_proved::view::{InspectError, Name, Profile};
///
/// // One common name, A, as a UTF8String: a router's name may be that, a resource certificate's may not.
/// let name = Name::decode(b"\x30\x0c\x31\x0a\x30\x08\x06\x03\x55\x04\x03\x0c\x01A")?;
/// assert_eq!(name.inspect(Profile::Router), Ok(()));
/// assert_eq!(name.inspect(Profile::Rpki), Err(InspectError::StringNotPermitted));
/// # Ok::<(), rpki_proved::view::DecodeError>(())
/// ```
#[derive(Clone, Copy, Debug)]
pub struct Name<'a> {
    octets: &'a [u8],
}

impl<'a> Name<'a> {
    /// Reads a name that is all of the octets, of any profile.
    ///
    /// # Errors
    /// `Trailing` where octets follow a name, `OutOfMemory`, and else why no beginning of the octets is a name.
    pub fn decode(octets: &'a [u8]) -> Result<Name<'a>, DecodeError> {
        match ffi::name_inspect(octets, 0, false) {
            Ok(()) => Ok(Name { octets }),
            Err(status) => Err(DecodeError::from_status(status)),
        }
    }

    /// All of the octets.
    pub fn octets(&self) -> &'a [u8] {
        self.octets
    }

    /// Whether the name is of the profile: one common name, at most one serial number, of the strings that the profile
    /// permits, and what else docs/SPECIFICATION.md, "Names", permits.
    ///
    /// # Errors
    /// The first rule that the name breaks, from the left, or that allocation failed.
    pub fn inspect(&self, profile: Profile) -> Result<(), InspectError> {
        ffi::name_inspect(self.octets, profile as u8, true).map_err(InspectError::from_status)
    }
}

/// A serial number of a certificate (RFC 5280 4.1.2.2), below 2^159. It is shown in hexadecimal, in upper case, as many
/// octets as it has.
#[derive(Clone, Copy, PartialEq, Eq, PartialOrd, Ord, Hash)]
pub struct Serial([u8; 20]);

impl Serial {
    /// Reads a serial number, an INTEGER, that is all of the octets.
    ///
    /// ```
    /// # use rpki_proved::view::{DecodeError, Serial};
    /// assert_eq!(Serial::decode(b"\x02\x02\x00\x80")?.to_string(), "80");
    /// assert_eq!(Serial::decode(b"\x02\x01\x80").unwrap_err(), DecodeError::Content);
    /// # Ok::<(), DecodeError>(())
    /// ```
    ///
    /// # Errors
    /// `Content` where it is negative, not in the shortest form or longer than 20 contents octets; `Trailing` where
    /// octets follow it; and else why no beginning of the octets is a serial number.
    pub fn decode(octets: &[u8]) -> Result<Serial, DecodeError> {
        ffi::serial(octets).map(Serial).map_err(DecodeError::from_status)
    }

    /// The number, most significant octet first, with zeros in front.
    pub fn octets(&self) -> &[u8; 20] {
        &self.0
    }
}

impl fmt::Display for Serial {
    fn fmt(&self, f: &mut fmt::Formatter) -> fmt::Result {
        let zeros = self.0.iter().take_while(|octet| **octet == 0).count();
        self.0[zeros.min(19)..].iter().try_for_each(|octet| write!(f, "{octet:02X}"))
    }
}

impl fmt::Debug for Serial {
    fn fmt(&self, f: &mut fmt::Formatter) -> fmt::Result {
        write!(f, "Serial({self})")
    }
}

/// An extension of a certificate (RFC 5280 4.1).
///
/// ```
/// use rpki_proved::view::Extension;
///
/// // Basic constraints, critical: an empty SEQUENCE.
/// let extension = Extension::decode(b"\x30\x0c\x06\x03\x55\x1d\x13\x01\x01\xff\x04\x02\x30\x00")?;
/// assert_eq!(extension.id().to_string(), "2.5.29.19");
/// assert!(extension.is_critical());
/// assert_eq!(extension.octets(), b"\x30\x00");
/// # Ok::<(), rpki_proved::view::DecodeError>(())
/// ```
#[derive(Clone, Copy, Debug)]
pub struct Extension<'a> {
    id: ObjectIdentifier<'a>,
    octets: &'a [u8],
    critical: bool,
}

impl<'a> Extension<'a> {
    /// Reads an extension that is all of the octets. What is in its OCTET STRING is not looked at.
    ///
    /// # Errors
    /// `Trailing` where octets follow an extension, and else why no beginning of the octets is one. Nothing is
    /// allocated.
    pub fn decode(octets: &'a [u8]) -> Result<Extension<'a>, DecodeError> {
        let found = ffi::extension(octets).map_err(DecodeError::from_status)?;
        Ok(Extension {
            id: ObjectIdentifier(found.id.of(octets)),
            octets: found.octets.of(octets),
            critical: found.critical,
        })
    }

    /// What the extension is.
    pub fn id(&self) -> ObjectIdentifier<'a> {
        self.id
    }

    /// Whether who does not know the extension has to reject the certificate. False where there is no BOOLEAN.
    pub fn is_critical(&self) -> bool {
        self.critical
    }

    /// The contents octets of its OCTET STRING.
    pub fn octets(&self) -> &'a [u8] {
        self.octets
    }
}

/// An object identifier that was read (X.690 8.19). It is shown in dotted form.
#[derive(Clone, Copy, PartialEq, Eq, Hash)]
pub struct ObjectIdentifier<'a>(&'a [u8]);

impl<'a> ObjectIdentifier<'a> {
    /// Its contents octets.
    pub fn octets(&self) -> &'a [u8] {
        self.0
    }
}

impl fmt::Display for ObjectIdentifier<'_> {
    /// Arcs of 2^121 or more are shown as `?`.
    fn fmt(&self, f: &mut fmt::Formatter) -> fmt::Result {
        dotted(self.0, f)
    }
}

/// Shows the contents octets of an object identifier in dotted form. Arcs of 2^121 or more are shown as `?`.
pub(crate) fn dotted(octets: &[u8], f: &mut fmt::Formatter) -> fmt::Result {
    let mut arc: Option<u128> = Some(0);
    let mut first = true;
    for octet in octets {
        arc = arc.filter(|arc| *arc < 1 << 114).map(|arc| arc * 128 + u128::from(octet & 0x7F));
        if octet & 0x80 != 0 {
            continue;
        }
        match arc {
            Some(arc) if first => write!(f, "{}.{}", arc.min(80) / 40, arc - arc.min(80) / 40 * 40)?,
            Some(arc) => write!(f, ".{arc}")?,
            None => f.write_str(if first { "2.?" } else { ".?" })?,
        }
        first = false;
        arc = Some(0);
    }
    Ok(())
}

impl fmt::Debug for ObjectIdentifier<'_> {
    fn fmt(&self, f: &mut fmt::Formatter) -> fmt::Result {
        write!(f, "ObjectIdentifier({self})")
    }
}
