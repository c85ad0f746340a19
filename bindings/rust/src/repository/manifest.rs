//! Manifests (RFC 9286 4.2).

use crate::crypto::DigestAlgorithm;
use crate::ffi::{self, Status};
use crate::octets::IntoOctets;
use crate::repository::cert::{Cert, ResourceCert};
use crate::repository::error::{MalformedError, ValidationError};
use crate::repository::sigobj::{MessageDigest, SignedObject};
use crate::repository::x509::{Serial, Time, Validity};
use crate::uri;
use crate::view::DecodeError;
use bytes::Bytes;
use std::error::Error;
use std::fmt;

/// The part of a manifest that is wrong: the leftmost; then that the next update is after this update; then that no
/// file is listed twice.
#[derive(Clone, Copy, Debug, PartialEq, Eq, Hash)]
#[non_exhaustive]
pub enum ManifestError {
    /// The SEQUENCE around all isn't there, or something follows it.
    Manifest,
    /// The number is no unsigned INTEGER of at most twenty octets.
    Number,
    /// When the manifest was issued.
    ThisUpdate,
    /// When the next manifest is issued at the latest.
    NextUpdate,
    /// The algorithm of the digests is not SHA-256.
    HashAlgorithm,
    /// One of the files is not a name and a digest, and nothing else, or something follows the files.
    FileList,
    /// The next update is not after this update.
    Order,
    /// Two files have the same name.
    FileTwice,
}

impl ManifestError {
    fn from_status(status: Status) -> ManifestError {
        match status {
            ffi::PART_MANIFEST => ManifestError::Manifest,
            ffi::PART_MANIFEST_NUMBER => ManifestError::Number,
            ffi::PART_MANIFEST_THIS_UPDATE => ManifestError::ThisUpdate,
            ffi::PART_MANIFEST_NEXT_UPDATE => ManifestError::NextUpdate,
            ffi::PART_HASH_ALGORITHM => ManifestError::HashAlgorithm,
            ffi::PART_FILE_LIST => ManifestError::FileList,
            ffi::PART_UPDATE_ORDER => ManifestError::Order,
            _ => unreachable!("{status} is no status of a manifest"),
        }
    }
}

impl ManifestError {
    /// What is said of it.
    pub(crate) fn text(&self) -> &'static str {
        match self {
            ManifestError::Manifest => "not a manifest",
            ManifestError::Number => "malformed number of the manifest",
            ManifestError::ThisUpdate => "malformed time of issue of the manifest",
            ManifestError::NextUpdate => "malformed time of the next manifest",
            ManifestError::HashAlgorithm => "algorithm of digests is not SHA-256",
            ManifestError::FileList => "malformed list of files",
            ManifestError::Order => "next update not after this update",
            ManifestError::FileTwice => "file listed twice",
        }
    }
}

impl fmt::Display for ManifestError {
    fn fmt(&self, f: &mut fmt::Formatter) -> fmt::Result {
        f.write_str(self.text())
    }
}

impl Error for ManifestError {}

/// The content of a manifest. Its files share the octets that it was read from.
///
/// ```
/// use rpki_proved::repository::manifest::{ManifestContent, ManifestError};
///
/// assert_eq!(ManifestContent::decode(&b""[..]).unwrap_err(), ManifestError::Manifest);
/// assert_eq!(ManifestContent::decode(&b"\x30\x00"[..]).unwrap_err(), ManifestError::Number);
/// ```
#[derive(Clone, Debug, PartialEq, Eq)]
pub struct ManifestContent {
    manifest_number: Serial,
    this_update: Time,
    next_update: Time,
    files: Bytes,
    len: usize,
}

impl ManifestContent {
    /// Reads a manifest that is all of the octets, as [SignedObject::content](super::sigobj::SignedObject::content)
    /// tells them.
    ///
    /// # Errors
    /// The malformed part.
    pub fn decode(octets: impl IntoOctets) -> Result<Self, ManifestError> {
        let octets = octets.into_octets();
        let found = ffi::manifest(&octets).map_err(ManifestError::from_status)?;
        let content = ManifestContent {
            manifest_number: Serial::read(found.manifest_number),
            this_update: Time::from(found.this_update),
            next_update: Time::from(found.next_update),
            files: octets.slice(found.files.range(&octets)),
            len: found.count,
        };
        if !ffi::manifest_names_differ(&octets, content.len) {
            return Err(ManifestError::FileTwice);
        }
        Ok(content)
    }

    /// Why octets are no manifest: the malformed part, and the error in it, as a reader of that part returns it. None
    /// where each part is well by itself, as where two files have the same name.
    pub fn reason(octets: &[u8]) -> Option<(ManifestError, DecodeError)> {
        let (part, error) = ffi::manifest_error(octets).err()?;
        Some((ManifestError::from_status(part), DecodeError::from_status(error)))
    }

    /// The number: a later manifest of the issuer has a higher one.
    pub fn manifest_number(&self) -> Serial {
        self.manifest_number
    }

    /// When the manifest was issued.
    pub fn this_update(&self) -> Time {
        self.this_update
    }

    /// When the next manifest is issued at the latest.
    pub fn next_update(&self) -> Time {
        self.next_update
    }

    /// Whether the next manifest is due by now, by the machine's clock.
    #[must_use]
    pub fn is_stale(&self) -> bool {
        self.next_update < Time::now()
    }

    /// The algorithm of the digests of the files.
    pub fn file_hash_alg(&self) -> DigestAlgorithm {
        DigestAlgorithm::sha256()
    }

    /// How many files there are.
    pub fn len(&self) -> usize {
        self.len
    }

    /// Whether there is no file.
    pub fn is_empty(&self) -> bool {
        self.len == 0
    }

    /// The files, in order.
    pub fn iter(&self) -> Files {
        Files { rest: self.files.clone(), left: self.len }
    }

    /// The URI of each file below this one, and its digest, in order.
    ///
    /// # Errors
    /// The URI would be too long.
    pub fn iter_uris<'a>(
        &'a self,
        base: &'a uri::Rsync,
    ) -> impl Iterator<Item = Result<(uri::Rsync, MessageDigest), uri::Error>> + 'a {
        self.iter().map(move |file| Ok((base.join(file.file())?, file.hash)))
    }
}

impl IntoIterator for &ManifestContent {
    type Item = FileAndHash;
    type IntoIter = Files;

    fn into_iter(self) -> Files {
        self.iter()
    }
}

/// The digest of a file, as the crate rpki calls it.
pub type ManifestHash = MessageDigest;

/// A file that a manifest lists (RFC 9286 4.2.1). Its name is ASCII: letters, digits, `-` and `_`, one at least, a dot,
/// and three small letters.
#[derive(Clone, Debug, PartialEq, Eq, Hash)]
pub struct FileAndHash {
    file: Bytes,
    hash: MessageDigest,
}

impl FileAndHash {
    /// A file of this name, with this digest.
    pub fn new(file: Bytes, hash: MessageDigest) -> Self {
        FileAndHash { file, hash }
    }

    /// The octets of the name.
    pub fn file(&self) -> &[u8] {
        &self.file
    }

    /// The digest of the file, by SHA-256.
    pub fn hash(&self) -> &MessageDigest {
        &self.hash
    }

    /// The name and the digest.
    pub fn into_pair(self) -> (Bytes, MessageDigest) {
        (self.file, self.hash)
    }
}

/// The files of a manifest, in order.
#[derive(Clone, Debug)]
pub struct Files {
    rest: Bytes,
    left: usize,
}

impl Iterator for Files {
    type Item = FileAndHash;

    fn next(&mut self) -> Option<FileAndHash> {
        if self.rest.is_empty() {
            return None;
        }
        let (found, rest) = ffi::manifest_file(&self.rest).expect("a file that was read");
        let size = self.rest.len() - rest.len();
        let entry = self.rest.split_to(size);
        self.left -= 1;
        Some(FileAndHash { file: entry.slice(found.name.range(&entry)), hash: MessageDigest::from(found.digest) })
    }

    fn size_hint(&self) -> (usize, Option<usize>) {
        (self.left, Some(self.left))
    }
}

impl ExactSizeIterator for Files {}

/// A manifest: a signed object with its content (RFC 6488, RFC 9286).
#[derive(Clone, Debug, PartialEq, Eq)]
pub struct Manifest {
    object: SignedObject,
    content: ManifestContent,
}

crate::captured::captured!(Manifest);

impl Manifest {
    /// Reads a signed object, and its content, of this type; `strict` is as of [SignedObject::decode]. Nothing is
    /// verified.
    ///
    /// # Errors
    /// The malformed part; the content is of another type.
    pub fn decode(octets: impl IntoOctets, strict: bool) -> Result<Self, ValidationError> {
        let object = SignedObject::decode_of(octets, strict, ffi::TYPE_MANIFEST)?;
        let reason = || ManifestContent::reason(object.content()).map(|(_, reason)| reason);
        let content = ManifestContent::decode(object.content());
        let content = content.map_err(|part| MalformedError::new(part, reason()))?;
        Ok(Manifest { object, content })
    }

    /// The signed object.
    pub fn object(&self) -> &SignedObject {
        &self.object
    }

    /// The octets of the object.
    pub fn to_bytes(&self) -> Bytes {
        self.object.to_bytes()
    }

    /// The certificate of its signer, of which nothing is verified.
    pub fn cert(&self) -> &Cert {
        self.object.cert()
    }

    /// The content, of which nothing is verified: [Manifest::process] gives it with the certificate that is.
    pub fn content(&self) -> &ManifestContent {
        &self.content
    }

    /// As [Manifest::process], where a revocation list is only known by the manifest: whether the certificate is
    /// revoked is then to be asked, by [CurrentCrl::verify_not_revoked](super::crl::CurrentCrl::verify_not_revoked).
    ///
    /// # Errors
    /// The first that doesn't hold.
    pub fn validate(
        self,
        issuer: &ResourceCert,
        strict: bool,
    ) -> Result<(ResourceCert, ManifestContent), ValidationError> {
        self.validate_at(issuer, strict, Time::now())
    }

    /// The same at this moment.
    ///
    /// # Errors
    /// The first that doesn't hold.
    pub fn validate_at(
        self,
        issuer: &ResourceCert,
        strict: bool,
        now: Time,
    ) -> Result<(ResourceCert, ManifestContent), ValidationError> {
        self.process_at(issuer, strict, now, |_| Ok(()))
    }

    /// Checks the object and its certificate, as [SignedObject::process] does;
    /// that all resources of the certificate are its issuer's; and that now is not before this update, nor after the
    /// next (RFC 9286 5.1, 6.3). Whether the files have their digests is for [MessageDigest::verify].
    ///
    /// # Errors
    /// The first that doesn't hold.
    pub fn process<F>(
        self,
        issuer: &ResourceCert,
        strict: bool,
        check_crl: F,
    ) -> Result<(ResourceCert, ManifestContent), ValidationError>
    where
        F: FnOnce(&Cert) -> Result<(), ValidationError>,
    {
        self.process_at(issuer, strict, Time::now(), check_crl)
    }

    /// The same at this moment.
    ///
    /// # Errors
    /// The first that doesn't hold.
    pub fn process_at<F>(
        self,
        issuer: &ResourceCert,
        strict: bool,
        now: Time,
        check_crl: F,
    ) -> Result<(ResourceCert, ManifestContent), ValidationError>
    where
        F: FnOnce(&Cert) -> Result<(), ValidationError>,
    {
        let (cert, _) = self.object.process_at(issuer, strict, now, check_crl)?;
        ffi::manifest_inherits(&cert.to_bytes()).map_err(ValidationError::from_status)?;
        let period = Validity::new(self.content.this_update, self.content.next_update);
        period.verify_at(now).map_err(|error| {
            ValidationError::verification(if error.is_too_new() {
                "manifest is not yet current"
            } else {
                "stale manifest"
            })
        })?;
        Ok((cert, self.content))
    }
}
