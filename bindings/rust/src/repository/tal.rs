//! Trust anchor locators (RFC 8630).

use crate::crypto::keys::PublicKey;
use crate::uri::{Https, Rsync};
use crate::util::base64::Xml;
use crate::view::DecodeError;
use bytes::Bytes;
use std::error::Error;
use std::fmt;
use std::io;
use std::path::Path;
use std::str::FromStr;
use std::sync::Arc;

/// Why a text is no trust anchor locator.
#[derive(Debug)]
#[non_exhaustive]
pub enum ReadError {
    /// It could not be read.
    Io(io::Error),
    /// It is not UTF-8.
    Text,
    /// A line in front of the empty one is no URI, or that of a folder, or there is none.
    Uri,
    /// There is no empty line after the URIs, or what follows it is not base 64.
    Base64,
    /// What follows it is not the base 64 of a public key.
    Key(DecodeError),
}

impl fmt::Display for ReadError {
    fn fmt(&self, f: &mut fmt::Formatter) -> fmt::Result {
        match self {
            ReadError::Io(error) => error.fmt(f),
            ReadError::Text => f.write_str("trust anchor locator is not UTF-8"),
            ReadError::Uri => f.write_str("bad URI of a trust anchor"),
            ReadError::Base64 => f.write_str("bad key of a trust anchor"),
            ReadError::Key(error) => write!(f, "bad key of a trust anchor: {error}"),
        }
    }
}

impl Error for ReadError {
    fn source(&self) -> Option<&(dyn Error + 'static)> {
        match self {
            ReadError::Io(error) => Some(error),
            ReadError::Key(error) => Some(error),
            ReadError::Text | ReadError::Uri | ReadError::Base64 => None,
        }
    }
}

impl From<io::Error> for ReadError {
    fn from(error: io::Error) -> Self {
        ReadError::Io(error)
    }
}

/// Where the certificate of a trust anchor is (RFC 8630 2.2).
#[derive(Clone, Debug, PartialEq, Eq, Hash)]
pub enum TalUri {
    /// By rsync.
    Rsync(Rsync),
    /// By HTTPS.
    Https(Https),
}

impl TalUri {
    /// Whether it is an rsync URI.
    pub fn is_rsync(&self) -> bool {
        matches!(self, TalUri::Rsync(_))
    }

    /// Whether it is an https URI.
    pub fn is_https(&self) -> bool {
        matches!(self, TalUri::Https(_))
    }
}

/// An rsync URI, or an https URI, of a single object (RFC 8630 2.2): no folder's.
impl FromStr for TalUri {
    type Err = ReadError;

    fn from_str(s: &str) -> Result<Self, ReadError> {
        let https = || s.parse().map(TalUri::Https).map_err(|_| ReadError::Uri);
        let uri = s.parse().map(TalUri::Rsync).or_else(|_| https())?;
        let is_folder = match &uri {
            TalUri::Rsync(uri) => uri.path_is_dir(),
            TalUri::Https(uri) => uri.path_is_dir(),
        };
        if is_folder {
            return Err(ReadError::Uri);
        }
        Ok(uri)
    }
}

impl fmt::Display for TalUri {
    fn fmt(&self, f: &mut fmt::Formatter) -> fmt::Result {
        match self {
            TalUri::Rsync(uri) => uri.fmt(f),
            TalUri::Https(uri) => uri.fmt(f),
        }
    }
}

/// A trust anchor: what its user calls it, and its key. Each valid certificate has that of its chain.
#[derive(Clone, Debug, PartialEq, Eq)]
pub struct TalInfo {
    name: String,
    key: Bytes,
}

impl TalInfo {
    /// The name.
    pub fn name(&self) -> &str {
        &self.name
    }

    /// The octets of the SubjectPublicKeyInfo.
    pub fn key_octets(&self) -> &Bytes {
        &self.key
    }
}

/// A trust anchor locator: where a certificate is, and which key it has (RFC 8630 2).
///
/// ```
/// use rpki_proved::repository::tal::{ReadError, Tal};
///
/// let text = "# a comment\nrsync://rpki.example/repo/ta.cer\n\nMAA=\n";
/// assert!(matches!(Tal::read_named("example".into(), &mut text.as_bytes()), Err(ReadError::Key(_))));
/// ```
#[derive(Clone, Debug)]
pub struct Tal {
    uris: Vec<TalUri>,
    key_info: PublicKey,
    info: Arc<TalInfo>,
}

impl Tal {
    /// Reads a locator, to be called by the file's name without `.tal`.
    ///
    /// # Errors
    /// What is wrong first.
    pub fn read<P: AsRef<Path>, R: io::Read>(path: P, reader: &mut R) -> Result<Self, ReadError> {
        let name = path.as_ref().file_stem().map_or_else(String::new, |name| name.to_string_lossy().into_owned());
        Tal::read_named(name, reader)
    }

    /// Reads a locator, to be called so (RFC 8630 2.2): lines that begin with `#`, lines of one URI each, an empty
    /// line, and a SubjectPublicKeyInfo in base 64. Lines end with a line feed, with a carriage return before it or
    /// without; spaces, tabs and form feeds in the key are passed over. Comments are UTF-8 too.
    ///
    /// # Errors
    /// What is wrong first.
    pub fn read_named<R: io::Read>(name: String, reader: &mut R) -> Result<Self, ReadError> {
        let mut octets = Vec::new();
        reader.read_to_end(&mut octets)?;
        let mut rest = std::str::from_utf8(&octets).map_err(|_| ReadError::Text)?;
        let mut uris = Vec::new();
        loop {
            let (line, following) = rest.split_once('\n').ok_or(ReadError::Base64)?;
            let line = line.strip_suffix('\r').unwrap_or(line);
            rest = following;
            match line {
                "" if uris.is_empty() => return Err(ReadError::Uri),
                "" => break,
                line if line.starts_with('#') && uris.is_empty() => (),
                line => uris.push(line.parse()?),
            }
        }
        let key = Bytes::from(Xml.decode(rest).map_err(|_| ReadError::Base64)?);
        let key_info = PublicKey::decode(key.clone()).map_err(ReadError::Key)?;
        Ok(Tal { uris, key_info, info: Arc::new(TalInfo { name, key }) })
    }

    /// Moves https URIs to the front, and leaves the order of both kinds as it is.
    pub fn prefer_https(&mut self) {
        self.uris.sort_by_key(|uri| !uri.is_https());
    }

    /// Where the certificate is, in order.
    pub fn uris(&self) -> std::slice::Iter<'_, TalUri> {
        self.uris.iter()
    }

    /// The key of the certificate.
    pub fn key_info(&self) -> &PublicKey {
        &self.key_info
    }

    /// The trust anchor, for [Cert::validate_ta](super::cert::Cert::validate_ta).
    pub fn info(&self) -> &Arc<TalInfo> {
        &self.info
    }
}
