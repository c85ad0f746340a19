//! URIs: rsync (RFC 5781) and https.
//!
//! A URI keeps the text that it was read from, and shares it with its copies, its parents and the
//! octets that it came from. It is read once: every later question is answered by where its parts
//! are.

use crate::encode;
use crate::ffi::{self, HttpsEnds, Parsed, RsyncEnds};
use crate::view::UriError;
use bytes::Bytes;
use std::borrow::Cow;
use std::fmt;
use std::hash::{Hash, Hasher};
use std::str::FromStr;

pub use crate::view::UriError as Error;

/// What a call on the parts of a URI tells, whose parts are its own.
fn known<T>(answer: Result<T, ffi::Status>) -> T {
    answer.unwrap_or_else(|status| unreachable!("the parts are those of the URI, but the status is {status}"))
}

/// Whether the path is empty or ends with a slash.
fn is_dir(path: &str) -> bool {
    path.is_empty() || path.ends_with('/')
}

/// Tests that each octet is a character that a URI may have: `!`, `$` to `;`, `=`, `A` to `Z`, `_`, `a` to `z`, `~`.
///
/// # Errors
/// `InvalidCharacters`.
pub fn check_uri_ascii<S: AsRef<[u8]>>(slice: S) -> Result<(), Error> {
    let is_one = |octet: &u8| matches!(octet, b'!' | b'$'..=b';' | b'=' | b'A'..=b'Z' | b'_' | b'a'..=b'z' | b'~');
    if slice.as_ref().iter().all(is_one) {
        Ok(())
    } else {
        Err(Error::InvalidCharacters)
    }
}

/// Whether the octets of a text begin with those of another, without regard to case.
pub fn starts_with_ignore_case(s: &[u8], expected: &[u8]) -> bool {
    s.get(..expected.len()).map_or(false, |front| front.eq_ignore_ascii_case(expected))
}

/// Whether these octets are the text, but for the case of its first `front` octets.
#[inline]
fn is_text(text: &[u8], front: usize, octets: &[u8]) -> bool {
    if octets.len() != text.len() {
        return false;
    }
    let ((front, rest), (octets, others)) = (text.split_at(front), octets.split_at(front));
    rest == others && is_alike(front, octets)
}

/// Whether both are the same without regard to case. Most are spelled alike, which takes a step for many octets.
#[inline]
fn is_alike(one: &[u8], other: &[u8]) -> bool {
    one == other || one.eq_ignore_ascii_case(other)
}

/// Hashes the text with its first `front` octets in lower case, and an octet that no text has; `is_lower` says whether
/// they are spelled so.
#[inline]
fn hash_text<H: Hasher>(text: &[u8], front: usize, is_lower: bool, state: &mut H) {
    if is_lower {
        state.write(text);
    } else {
        let mut lower = text.to_vec();
        lower[..front].make_ascii_lowercase();
        state.write(&lower);
    }
    state.write_u8(0xff);
}

/// The text in lower case, borrowed where it is spelled so.
#[inline]
fn in_lower_case(text: &str, is_lower: bool) -> Cow<'_, str> {
    if is_lower || !text.bytes().any(|octet| octet.is_ascii_uppercase()) {
        Cow::Borrowed(text)
    } else {
        Cow::Owned(text.to_ascii_lowercase())
    }
}

/// An rsync URI, `rsync://AUTHORITY/MODULE/PATH` (RFC 5781). No segment of it is `.`, `..` or, but for the last, empty:
/// so its path stays in its module.
///
/// Two URIs are equal, and hashed alike, where they differ at most in the case of the scheme and the authority.
///
/// ```
/// use rpki_proved::uri::{Error, Rsync};
///
/// let manifest = Rsync::from_slice(b"rsync://rpki.example/repository/ca/ca.mft")?;
/// let folder = manifest.parent().unwrap();
/// assert_eq!(folder, "rsync://RPKI.example/repository/ca/");
/// assert_eq!(folder.join(b"ca.crl")?.to_string(), "rsync://rpki.example/repository/ca/ca.crl");
/// assert_eq!(folder.join(b"../other/ca.crl").unwrap_err(), Error::DotSegments);
/// assert_eq!(manifest.relative_to(&folder), Some("ca.mft"));
/// # Ok::<(), Error>(())
/// ```
#[derive(Clone)]
pub struct Rsync {
    parsed: Parsed<RsyncEnds>,
}

impl Rsync {
    /// Reads a URI from a copy of the octets.
    ///
    /// # Errors
    /// The first that is wrong of `InvalidCharacters`, `BadScheme`, `LongUri`, then from the left `DotSegments`,
    /// `LongSegments` and `EmptySegments`, then `BadUri`.
    pub fn from_slice(slice: &[u8]) -> Result<Self, Error> {
        Ok(Rsync { parsed: Parsed::read_copy(slice).map_err(UriError::from_status)? })
    }

    /// Reads a URI from a text, whose memory it keeps.
    ///
    /// # Errors
    /// Those of [`Rsync::from_slice`].
    pub fn from_string(s: String) -> Result<Self, Error> {
        Rsync::from_bytes(Bytes::from(s))
    }

    /// Reads a URI from octets, which it shares.
    ///
    /// # Errors
    /// Those of [`Rsync::from_slice`].
    pub fn from_bytes(bytes: Bytes) -> Result<Self, Error> {
        Ok(Rsync { parsed: Parsed::read(bytes).map_err(UriError::from_status)? })
    }

    /// Moves the text to memory that nothing else shares.
    pub fn unshare(&mut self) {
        self.parsed.unshare();
    }

    /// The text, in octets.
    pub fn as_slice(&self) -> &[u8] {
        self.parsed.bytes()
    }

    /// The text.
    pub fn as_str(&self) -> &str {
        self.parsed.as_str()
    }

    /// The text, in octets that share its memory.
    pub fn to_bytes(&self) -> Bytes {
        self.parsed.bytes().clone()
    }

    /// The authority: a host, perhaps with a port, as it is spelled. Not empty.
    pub fn authority(&self) -> &str {
        self.parsed.authority(self.parsed.ends().authority())
    }

    /// The authority in lower case.
    pub fn canonical_authority(&self) -> Cow<'_, str> {
        in_lower_case(self.authority(), self.parsed.ends().is_lower())
    }

    /// The name of the module. Not empty.
    pub fn module_name(&self) -> &str {
        let ends = self.parsed.ends();
        &self.as_str()[ends.authority() + 1..ends.module_name()]
    }

    /// The text up to the path: the scheme, the authority and the module, with the slash after it.
    pub fn module(&self) -> &str {
        self.parsed.up_to(self.path_start())
    }

    /// The text up to the path, with the scheme and the authority in lower case.
    pub fn canonical_module(&self) -> Cow<'_, str> {
        let (module, ends) = (self.module(), self.parsed.ends());
        if ends.is_lower() {
            return Cow::Borrowed(module);
        }
        let (front, name) = module.split_at(ends.authority());
        Cow::Owned(front.to_ascii_lowercase() + name)
    }

    /// Where the path begins: after the slash after the module.
    #[inline]
    fn path_start(&self) -> usize {
        self.parsed.ends().module_name() + 1
    }

    /// The path: what follows the slash after the module. May be empty.
    pub fn path(&self) -> &str {
        &self.as_str()[self.path_start()..]
    }

    /// The path, in octets.
    pub fn path_bytes(&self) -> &[u8] {
        self.path().as_bytes()
    }

    /// Whether the path is empty or ends with a slash.
    pub fn path_is_dir(&self) -> bool {
        is_dir(self.path())
    }

    /// Puts a slash last, unless the path is empty or has one. The text may become too long to be read again.
    pub fn path_into_dir(&mut self) {
        if !self.path_is_dir() {
            self.parsed = self.parsed.with_text(known(self.parsed.as_dir()));
        }
    }

    /// Whether the path ends with this text.
    pub fn ends_with(&self, end: &str) -> bool {
        self.path().ends_with(end)
    }

    /// The URI without its last segment, with the slash before that; `None` where the path is empty. It shares this
    /// one's text.
    #[must_use]
    pub fn parent(&self) -> Option<Self> {
        let (text, start) = (self.as_str(), self.path_start());
        // The last octet is of the last segment, also where it is a slash.
        let above = text.get(start..text.len() - 1)?;
        let size = above.rfind('/').map_or(0, |slash| slash + 1);
        Some(Rsync { parsed: self.parsed.front(start + size) })
    }

    /// The URI with the path after it, with a slash between them where this one ends with none; a copy where the path
    /// is empty.
    ///
    /// # Errors
    /// The first that is wrong with the path of `InvalidCharacters`, `LongUri`, then from the left `DotSegments`,
    /// `LongSegments` and `EmptySegments`; then `LongUri` where the text would have 3,072 octets or more.
    pub fn join(&self, path: &[u8]) -> Result<Self, Error> {
        if path.is_empty() {
            return Ok(self.clone());
        }
        // No text has as many octets.
        let size = (self.as_slice().len() + usize::from(!self.path_is_dir()) + path.len()).min(3_072);
        let text = self.parsed.join(path, size).map_err(UriError::from_status)?;
        Ok(Rsync { parsed: self.parsed.with_text(text) })
    }

    /// The path that leads from the other URI to this one: its segments after those of the other, with the last slash.
    /// `None` where they are in two modules or the other's segments do not begin this one's. Authorities are compared
    /// without regard to case, all else exactly.
    #[inline]
    #[must_use]
    pub fn relative_to(&self, other: &Rsync) -> Option<&str> {
        let ends = self.parsed.ends();
        if other.parsed.ends().places_of_module() != ends.places_of_module() {
            return None;
        }
        // The other's text, without a slash after its path.
        let base = match other.as_slice() {
            [base @ .., b'/'] if base.len() > ends.module_name() => base,
            base => base,
        };
        let (front, base_rest) = base.split_at(ends.authority());
        let rest = self.as_slice()[ends.authority()..].strip_prefix(base_rest)?;
        if !is_alike(front, &self.as_slice()[..ends.authority()]) {
            return None;
        }
        let at = self.as_slice().len() - rest.len();
        match rest {
            [] => Some(""),
            _ if at == self.path_start() => Some(self.path()),
            [b'/', ..] => Some(&self.as_str()[at + 1..]),
            _ => None,
        }
    }

    /// Whether the other URI lies below this one: in the same module, with more segments that begin with this one's.
    #[inline]
    #[must_use]
    pub fn is_parent_of(&self, other: &Self) -> bool {
        other.relative_to(self).map_or(false, |path| !path.is_empty())
    }

    /// The URI as a general name (RFC 5280 4.2.1.6): its text as it is spelled, under the context-specific tag 6.
    pub fn encode_general_name(&self) -> Bytes {
        encode::value(encode::CONTEXT_6, self.as_slice())
    }

    /// Whether both are in the same module and have the same segments, with a slash last or without.
    #[must_use]
    pub fn is_identical_to(&self, other: &Self) -> bool {
        self.relative_to(other) == Some("")
    }
}

/// An https URI. Its segments and its length are free.
///
/// Two URIs are equal, and hashed alike, where they differ at most in the case of the scheme and the authority.
///
/// ```
/// use rpki_proved::uri::Https;
///
/// let uri: Https = "https://rrdp.example/notification.xml".parse()?;
/// assert_eq!((uri.authority(), uri.path()), ("rrdp.example", "/notification.xml"));
/// assert_eq!(uri.parent().unwrap().join(b"snapshot.xml")?, "https://rrdp.example/snapshot.xml");
/// # Ok::<(), rpki_proved::uri::Error>(())
/// ```
#[derive(Clone)]
pub struct Https {
    parsed: Parsed<HttpsEnds>,
}

impl Https {
    /// Reads a URI from a copy of the octets.
    ///
    /// # Errors
    /// The first that is wrong of `InvalidCharacters`, `BadScheme`, and `BadUri` for an authority of 256 octets or
    /// more.
    pub fn from_slice(slice: &[u8]) -> Result<Self, Error> {
        Ok(Https { parsed: Parsed::read_copy(slice).map_err(UriError::from_status)? })
    }

    /// Reads a URI from a text, whose memory it keeps.
    ///
    /// # Errors
    /// Those of [`Https::from_slice`].
    pub fn from_string(s: String) -> Result<Self, Error> {
        Https::from_bytes(Bytes::from(s))
    }

    /// Reads a URI from octets, which it shares.
    ///
    /// # Errors
    /// Those of [`Https::from_slice`].
    pub fn from_bytes(bytes: Bytes) -> Result<Self, Error> {
        Ok(Https { parsed: Parsed::read(bytes).map_err(UriError::from_status)? })
    }

    /// Moves the text to memory that nothing else shares.
    pub fn unshare(&mut self) {
        self.parsed.unshare();
    }

    /// The text, in octets.
    pub fn as_slice(&self) -> &[u8] {
        self.parsed.bytes()
    }

    /// The text.
    pub fn as_str(&self) -> &str {
        self.parsed.as_str()
    }

    /// The scheme, which is https.
    pub fn scheme(&self) -> Scheme {
        Scheme::Https
    }

    /// The authority as it is spelled, which may be empty.
    pub fn authority(&self) -> &str {
        self.parsed.authority(self.parsed.ends().authority())
    }

    /// The authority in lower case.
    pub fn canonical_authority(&self) -> Cow<'_, str> {
        in_lower_case(self.authority(), self.parsed.ends().is_lower())
    }

    /// Whether both have the same authority, without regard to case.
    pub fn eq_authority(&self, other: &Self) -> bool {
        // Both have the same scheme.
        let (end, other_end) = (self.parsed.ends().authority(), other.parsed.ends().authority());
        is_alike(&self.as_slice()[..end], &other.as_slice()[..other_end])
    }

    /// The path: empty, or with its slash in front.
    pub fn path(&self) -> &str {
        &self.as_str()[self.parsed.ends().authority()..]
    }

    /// The URI as a general name (RFC 5280 4.2.1.6): its text as it is spelled, under the context-specific tag 6.
    ///
    /// # Panics
    /// If the text has 2^32 octets or more.
    pub fn encode_general_name(&self) -> Bytes {
        encode::value(encode::CONTEXT_6, self.as_slice())
    }

    /// Whether the path is empty or ends with a slash.
    pub fn path_is_dir(&self) -> bool {
        is_dir(self.path())
    }

    /// Puts a slash last, unless the path is empty or has one.
    pub fn path_into_dir(&mut self) {
        if !self.path_is_dir() {
            self.parsed = self.parsed.with_text(known(self.parsed.as_dir()));
        }
    }

    /// The URI above: one last slash of the path dropped, and then everything after the last
    /// remaining slash; `None` where nothing remains. It shares this one's text.
    #[must_use]
    pub fn parent(&self) -> Option<Self> {
        match self.parsed.parent() {
            Ok(size) => Some(Https { parsed: self.parsed.front(size) }),
            Err(ffi::NO_ANSWER) => None,
            Err(status) => known(Err(status)),
        }
    }

    /// The URI with the path after it, with a slash between them where this one's path is empty or ends with none.
    ///
    /// # Errors
    /// `InvalidCharacters`.
    pub fn join(&self, path: &[u8]) -> Result<Self, Error> {
        let size = self.as_slice().len() + usize::from(!self.path().ends_with('/')) + path.len();
        let text = self.parsed.join(path, size).map_err(UriError::from_status)?;
        Ok(Https { parsed: self.parsed.with_text(text) })
    }
}

/// The conversions that both kinds of URIs have.
macro_rules! conversions {
    ($uri:ident, $what:literal) => {
        impl FromStr for $uri {
            type Err = Error;

            fn from_str(s: &str) -> Result<Self, Error> {
                $uri::from_slice(s.as_bytes())
            }
        }

        impl TryFrom<String> for $uri {
            type Error = Error;

            fn try_from(s: String) -> Result<Self, Error> {
                $uri::from_string(s)
            }
        }

        impl TryFrom<Bytes> for $uri {
            type Error = Error;

            fn try_from(bytes: Bytes) -> Result<Self, Error> {
                $uri::from_bytes(bytes)
            }
        }

        impl AsRef<Bytes> for $uri {
            fn as_ref(&self) -> &Bytes {
                self.parsed.bytes()
            }
        }

        impl AsRef<[u8]> for $uri {
            #[inline]
            fn as_ref(&self) -> &[u8] {
                self.as_slice()
            }
        }

        impl AsRef<str> for $uri {
            fn as_ref(&self) -> &str {
                self.as_str()
            }
        }

        impl fmt::Display for $uri {
            /// The text as it is spelled, whatever width and precision are asked for.
            fn fmt(&self, f: &mut fmt::Formatter) -> fmt::Result {
                f.write_str(self.as_str())
            }
        }

        impl fmt::Debug for $uri {
            fn fmt(&self, f: &mut fmt::Formatter) -> fmt::Result {
                f.debug_tuple(stringify!($uri)).field(&self.as_str()).finish()
            }
        }

        /// Whether these octets are the text, but for the case of its scheme and its authority: another URI of this
        /// kind, or anything else that has octets.
        impl<T: AsRef<[u8]> + ?Sized> PartialEq<T> for $uri {
            #[inline]
            fn eq(&self, other: &T) -> bool {
                is_text(self.as_slice(), self.parsed.ends().authority(), other.as_ref())
            }
        }

        impl Eq for $uri {}

        impl Hash for $uri {
            /// Hashes the text with its scheme and its authority in lower case.
            fn hash<H: Hasher>(&self, state: &mut H) {
                let ends = self.parsed.ends();
                hash_text(self.as_slice(), ends.authority(), ends.is_lower(), state)
            }
        }

        #[cfg(feature = "serde")]
        impl serde::Serialize for $uri {
            /// The text as it is spelled.
            fn serialize<S: serde::Serializer>(&self, serializer: S) -> Result<S::Ok, S::Error> {
                serializer.serialize_str(self.as_str())
            }
        }

        #[cfg(feature = "serde")]
        impl<'de> serde::Deserialize<'de> for $uri {
            fn deserialize<D: serde::Deserializer<'de>>(deserializer: D) -> Result<Self, D::Error> {
                crate::texts::owned(deserializer, $what, $uri::from_string)
            }
        }
    };
}

conversions!(Rsync, "a string containing an rsync URI");
conversions!(Https, "a string containing a HTTPS URI");

/// The scheme of a URI.
#[derive(Clone, Copy, Debug, PartialEq, Eq)]
pub enum Scheme {
    /// `https`.
    Https,
    /// `rsync`.
    Rsync,
}

impl Scheme {
    /// Whether this is `https`.
    pub fn is_https(self) -> bool {
        self == Scheme::Https
    }

    /// Whether this is `rsync`.
    pub fn is_rsync(self) -> bool {
        self == Scheme::Rsync
    }

    /// The scheme: `https` or `rsync`.
    pub fn as_str(self) -> &'static str {
        match self {
            Scheme::Https => "https",
            Scheme::Rsync => "rsync",
        }
    }

    /// The scheme, a colon and two slashes.
    pub fn into_string(self) -> String {
        self.to_string()
    }
}

impl fmt::Display for Scheme {
    /// The scheme, a colon and two slashes.
    fn fmt(&self, f: &mut fmt::Formatter) -> fmt::Result {
        f.write_str(self.as_str())?;
        f.write_str("://")
    }
}

#[cfg(test)]
mod tests {
    use super::{Https, Rsync};
    use std::collections::hash_map::DefaultHasher;
    use std::hash::{Hash, Hasher};

    const PATHS: [&str; 9] = ["", "a", "a/", "A", "ab", "a/b", "a/b/", "a/b/c", "a/B"];
    const FRONTS: [&str; 6] =
        ["://host/m/", "://HOST/m/", "://host/M/", "://host/mm/", "://hos/tm/", "://host.longer.than.other.texts/m/"];

    fn texts(scheme: &str) -> Vec<String> {
        let schemes = [scheme.to_string(), scheme.to_ascii_uppercase()];
        let all = |scheme: &String| {
            let fronts = FRONTS.iter().flat_map(|front| PATHS.iter().map(move |path| [*front, *path].concat()));
            fronts.map(|rest| scheme.clone() + &rest).collect::<Vec<_>>()
        };
        schemes.iter().flat_map(all).collect()
    }

    fn hash_of(value: &impl Hash) -> u64 {
        let mut state = DefaultHasher::new();
        value.hash(&mut state);
        state.finish()
    }

    /// What plain Rust says of two URIs is what the library says of their texts and their parts.
    #[test]
    fn rsync_uris_are_those_of_the_library() {
        let uris: Vec<Rsync> = texts("rsync").iter().map(|text| text.parse().unwrap()).collect();
        for one in &uris {
            let canonical = one.parsed.canonical().unwrap();
            assert_eq!(one.canonical_module().as_bytes(), &canonical[..one.module().len()]);
            assert_eq!(one.canonical_authority().as_bytes(), &canonical[8..8 + one.authority().len()]);
            let parent = one.parent().map(|parent| parent.as_slice().len());
            assert_eq!(parent, one.parsed.parent().ok(), "{one}");
            for other in &uris {
                let (parsed, others) = (&one.parsed, &other.parsed);
                assert_eq!(one == other, parsed.equal(others).unwrap(), "{one} {other}");
                assert_eq!(hash_of(one) == hash_of(other), one == other, "{one} {other}");
                assert_eq!(one.is_parent_of(other), parsed.is_parent_of(others).unwrap(), "{one} {other}");
                let place = parsed.relative_to(others).ok();
                assert_eq!(one.relative_to(other), place.map(|place| place.of_text(one.as_str())), "{one} {other}");
                assert_eq!(one.is_identical_to(other), parsed.is_identical_to(others).unwrap(), "{one} {other}");
            }
        }
    }

    #[test]
    fn https_uris_are_those_of_the_library() {
        let uris: Vec<Https> = texts("https").iter().map(|text| text.parse().unwrap()).collect();
        for one in &uris {
            let canonical = one.parsed.canonical().unwrap();
            assert_eq!(one.canonical_authority().as_bytes(), &canonical[8..8 + one.authority().len()]);
            for other in &uris {
                assert_eq!(one == other, one.parsed.equal(&other.parsed).unwrap(), "{one} {other}");
                assert_eq!(hash_of(one) == hash_of(other), one == other, "{one} {other}");
                let is_same = one.canonical_authority() == other.canonical_authority();
                assert_eq!(one.eq_authority(other), is_same, "{one} {other}");
            }
        }
    }
}
