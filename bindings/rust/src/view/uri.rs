//! URIs.

use crate::ffi;
use crate::view::error::{JoinError, UriError};
use std::fmt;

/// The text of octets that a call has accepted: they are characters of ASCII alone.
fn text_of(octets: &[u8]) -> Result<&str, UriError> {
    std::str::from_utf8(octets).map_err(|_| UriError::InvalidCharacters)
}

/// The most octets that an rsync URI has, or a joined one.
const LONGEST: usize = 3_079;

/// The error of a call on two texts of which the first is a URI.
fn error_of_second(status: ffi::Status) -> UriError {
    UriError::from_status(status.wrapping_sub(ffi::SECOND))
}

/// An rsync URI, `rsync://AUTHORITY/MODULE/PATH` (RFC 5781), as it is spelled. No segment of it is `.`, `..` or, but
/// for the last, empty: so its path stays in its module.
///
/// ```
/// use rpki_proved::view::{Rsync, UriError};
///
/// let manifest = Rsync::parse("rsync://rpki.example/repository/ca/ca.mft")?;
/// assert_eq!((manifest.authority(), manifest.module_name()), ("rpki.example", "repository"));
/// let folder = manifest.parent().unwrap();
/// assert_eq!(folder.as_str(), "rsync://rpki.example/repository/ca/");
/// assert_eq!(folder.join("ca.crl")?, "rsync://rpki.example/repository/ca/ca.crl");
/// assert_eq!(folder.join("../other/ca.crl").unwrap_err(), UriError::DotSegments);
/// assert_eq!(manifest.relative_to(&folder), Some("ca.mft"));
/// # Ok::<(), UriError>(())
/// ```
#[derive(Clone, Copy, Debug)]
pub struct Rsync<'a> {
    text: &'a str,
    authority: &'a str,
    module_name: &'a str,
    path: &'a str,
}

impl<'a> Rsync<'a> {
    /// Reads an rsync URI. The scheme may be in upper case.
    ///
    /// # Errors
    /// The first that is wrong of `InvalidCharacters`, `BadScheme`, `LongUri`, then from the left `DotSegments`,
    /// `LongSegments` and `EmptySegments`, then `BadUri`.
    pub fn parse(text: &'a str) -> Result<Rsync<'a>, UriError> {
        let found = ffi::rsync_parse(text.as_bytes()).map_err(UriError::from_status)?;
        Ok(Rsync::of(text, &found))
    }

    /// The same of octets that need not be a text.
    ///
    /// # Errors
    /// Those of [`Rsync::parse`].
    pub fn from_octets(octets: &'a [u8]) -> Result<Rsync<'a>, UriError> {
        let found = ffi::rsync_parse(octets).map_err(UriError::from_status)?;
        Ok(Rsync::of(text_of(octets)?, &found))
    }

    /// The URI of a text that was read, by the places of its parts.
    fn of(text: &'a str, found: &ffi::RsyncParts) -> Rsync<'a> {
        Rsync {
            text,
            authority: found.authority.of_text(text),
            module_name: found.module_name.of_text(text),
            path: found.path.of_text(text),
        }
    }

    /// The text.
    pub fn as_str(&self) -> &'a str {
        self.text
    }

    /// The authority: a host, perhaps with a port. Not empty.
    pub fn authority(&self) -> &'a str {
        self.authority
    }

    /// The name of the module. Not empty.
    pub fn module_name(&self) -> &'a str {
        self.module_name
    }

    /// The path: what follows the slash after the module. May be empty.
    pub fn path(&self) -> &'a str {
        self.path
    }

    /// The path that leads from the other URI to this one: its segments after those of the other, with the last slash.
    /// `None` where they are in two modules or the other's segments do not begin this one's. Authorities are compared
    /// without regard to case, all else exactly.
    #[must_use]
    pub fn relative_to(&self, base: &Rsync) -> Option<&'a str> {
        match ffi::rsync_relative_to(self.text.as_bytes(), base.text.as_bytes()) {
            Ok(place) => Some(place.of_text(self.text)),
            Err(ffi::NO_ANSWER) => None,
            Err(status) => unreachable!("both are URIs, but the status is {status}"),
        }
    }

    /// The URI without its last segment, with the slash before that; `None` where the path is empty.
    #[must_use]
    pub fn parent(&self) -> Option<Rsync<'a>> {
        match ffi::rsync_parent(self.text.as_bytes()) {
            Ok(size) => Some(Rsync {
                text: &self.text[..size],
                path: &self.path[..self.path.len() - (self.text.len() - size)],
                ..*self
            }),
            Err(ffi::NO_ANSWER) => None,
            Err(status) => unreachable!("this is a URI, but the status is {status}"),
        }
    }

    /// The text of this URI with the path after it, with a slash between them where this one ends with none; this text
    /// itself where the path is empty.
    ///
    /// # Errors
    /// The first that is wrong with the path of `InvalidCharacters`, `LongUri`, then from the left `DotSegments`,
    /// `LongSegments` and `EmptySegments`; then `LongUri` where the text would have 3,072 octets or more.
    pub fn join(&self, path: impl AsRef<[u8]>) -> Result<String, UriError> {
        let path = path.as_ref();
        let mut room = vec![0; LONGEST.min(self.text.len() + 1 + path.len())];
        let size = ffi::rsync_join(self.text.as_bytes(), path, &mut room).map_err(error_of_second)?;
        room.truncate(size);
        String::from_utf8(room).map_err(|_| UriError::InvalidCharacters)
    }

    /// The same, written to the front of a buffer. Nothing is written where it fails.
    ///
    /// ```
    /// # use rpki_proved::view::{JoinError, Rsync};
    /// let folder = Rsync::parse("rsync://host/module/")?;
    /// let mut buffer = [0; 32];
    /// assert_eq!(folder.join_into("ca.mft", &mut buffer)?, "rsync://host/module/ca.mft");
    /// assert_eq!(folder.join_into("ca.mft", &mut buffer[..25]).unwrap_err(), JoinError::TooSmall);
    /// # Ok::<(), JoinError>(())
    /// ```
    ///
    /// # Errors
    /// Those of [`Rsync::join`], and `TooSmall` where the text is longer than the buffer.
    pub fn join_into<'b>(&self, path: impl AsRef<[u8]>, buffer: &'b mut [u8]) -> Result<&'b str, JoinError> {
        match ffi::rsync_join(self.text.as_bytes(), path.as_ref(), buffer) {
            Ok(size) => Ok(text_of(&buffer[..size])?),
            Err(ffi::TOO_SMALL) => Err(JoinError::TooSmall),
            Err(status) => Err(JoinError::Uri(error_of_second(status))),
        }
    }
}

impl fmt::Display for Rsync<'_> {
    fn fmt(&self, f: &mut fmt::Formatter) -> fmt::Result {
        f.write_str(self.text)
    }
}

/// An https URI, as it is spelled. Its segments and its length are free.
///
/// ```
/// use rpki_proved::view::Https;
///
/// let uri = Https::parse("https://rrdp.example/notification.xml")?;
/// assert_eq!((uri.authority(), uri.path()), ("rrdp.example", "/notification.xml"));
/// # Ok::<(), rpki_proved::view::UriError>(())
/// ```
#[derive(Clone, Copy, Debug)]
pub struct Https<'a> {
    text: &'a str,
    authority: &'a str,
    path: &'a str,
}

impl<'a> Https<'a> {
    /// Reads an https URI. The scheme may be in upper case.
    ///
    /// # Errors
    /// The first that is wrong of `InvalidCharacters`, `BadScheme`, and `BadUri` for an authority of 256 octets or
    /// more.
    pub fn parse(text: &'a str) -> Result<Https<'a>, UriError> {
        let found = ffi::https_parse(text.as_bytes()).map_err(UriError::from_status)?;
        Ok(Https::of(text, &found))
    }

    /// The same of octets that need not be a text.
    ///
    /// # Errors
    /// Those of [`Https::parse`].
    pub fn from_octets(octets: &'a [u8]) -> Result<Https<'a>, UriError> {
        let found = ffi::https_parse(octets).map_err(UriError::from_status)?;
        Ok(Https::of(text_of(octets)?, &found))
    }

    /// The URI of a text that was read, by the places of its parts.
    fn of(text: &'a str, found: &ffi::HttpsParts) -> Https<'a> {
        Https { text, authority: found.authority.of_text(text), path: found.path.of_text(text) }
    }

    /// The text.
    pub fn as_str(&self) -> &'a str {
        self.text
    }

    /// The authority, which may be empty.
    pub fn authority(&self) -> &'a str {
        self.authority
    }

    /// The path: empty, or with its slash in front.
    pub fn path(&self) -> &'a str {
        self.path
    }
}

impl fmt::Display for Https<'_> {
    fn fmt(&self, f: &mut fmt::Formatter) -> fmt::Result {
        f.write_str(self.text)
    }
}
