//! Where something is, as the extensions of a certificate say (RFC 5280 4.2.1.13, 4.2.2).

use super::{KnownExtension, KnownExtensions};
use crate::ffi;
use crate::uri::{Https, Rsync};
use crate::view::DecodeError;
use bytes::Bytes;

/// What is to be found at a place (RFC 5280 4.2.2).
#[derive(Clone, Copy, Debug, PartialEq, Eq, Hash)]
#[non_exhaustive]
pub enum AccessMethod {
    /// The certificate of the issuer: `id-ad-caIssuers` (RFC 6487 4.8.7).
    CaIssuers,
    /// Where the subject publishes: `id-ad-caRepository` (RFC 6487 4.8.8.1).
    CaRepository,
    /// The subject's manifest: `id-ad-rpkiManifest` (RFC 6487 4.8.8.1).
    RpkiManifest,
    /// What the subject's key signs: `id-ad-signedObject` (RFC 6487 4.8.8.2).
    SignedObject,
    /// Where changes are notified: `id-ad-rpkiNotify` (RFC 8182 3.2).
    RpkiNotify,
    /// None of these.
    Other,
}

impl AccessMethod {
    fn of(number: u8) -> AccessMethod {
        match number {
            ffi::ACCESS_CA_ISSUERS => AccessMethod::CaIssuers,
            ffi::ACCESS_CA_REPOSITORY => AccessMethod::CaRepository,
            ffi::ACCESS_RPKI_MANIFEST => AccessMethod::RpkiManifest,
            ffi::ACCESS_SIGNED_OBJECT => AccessMethod::SignedObject,
            ffi::ACCESS_RPKI_NOTIFY => AccessMethod::RpkiNotify,
            _ => AccessMethod::Other,
        }
    }
}

/// An access description (RFC 5280 4.2.2.1).
#[derive(Clone, Debug, PartialEq, Eq)]
#[non_exhaustive]
pub struct AccessDescription {
    /// What is to be found there.
    pub method: AccessMethod,
    /// The contents octets of the identifier of the method.
    pub id: Bytes,
    /// The text of the URI that says where; `None` for a name of another form. It may be no URI of any scheme.
    pub location: Option<Bytes>,
}

/// The octets of the SEQUENCE that these octets are, and nothing else.
fn in_sequence(octets: &Bytes) -> Result<Bytes, DecodeError> {
    let header = ffi::header(octets).map_err(DecodeError::from_status)?;
    if !(header.tag_class == 0 && header.constructed && header.number == 16) {
        return Err(DecodeError::Unexpected);
    }
    let end = header.size + header.length as usize;
    match octets.len() {
        len if len < end => Err(DecodeError::Truncated),
        len if len > end => Err(DecodeError::Trailing),
        _ => Ok(octets.slice(header.size..)),
    }
}

/// Hands each of the access descriptions that the octets of an extension are to the function, in order; there is one at
/// least.
fn each_description(extension: &KnownExtension, mut take: impl FnMut(AccessDescription)) -> Result<(), DecodeError> {
    let octets = in_sequence(&extension.octets)?;
    if octets.is_empty() {
        return Err(DecodeError::Content);
    }
    let mut rest = &octets[..];
    while !rest.is_empty() {
        let (found, following) = ffi::access_description(rest).map_err(DecodeError::from_status)?;
        take(AccessDescription {
            method: AccessMethod::of(found.method),
            id: octets.slice(found.id.range(&octets)),
            location: found.is_uri.then(|| octets.slice(found.uri.range(&octets))),
        });
        rest = following;
    }
    Ok(())
}

/// All of the access descriptions; none where the extension isn't there.
fn descriptions(extension: Option<&KnownExtension>) -> Result<Vec<AccessDescription>, DecodeError> {
    let mut all = Vec::new();
    if let Some(extension) = extension {
        each_description(extension, |it| all.push(it))?;
    }
    Ok(all)
}

/// The first rsync URI among the names of a distribution point, of which there is one at least, and each a URI.
fn point_uri(extension: &KnownExtension) -> Result<Option<Rsync>, DecodeError> {
    let octets = &extension.octets;
    let names = ffi::distribution_point(octets).map_err(DecodeError::from_status)?;
    let mut rest = names.of(octets);
    if rest.is_empty() {
        return Err(DecodeError::Content);
    }
    let mut first = None;
    while !rest.is_empty() {
        let (found, following) = ffi::general_name(rest).map_err(DecodeError::from_status)?;
        if !found.is_uri {
            return Err(DecodeError::Unexpected);
        }
        read_first(&mut first, || Rsync::from_bytes(octets.slice(found.uri.range(octets))));
        rest = following;
    }
    Ok(first)
}

/// Reads a URI, unless there was one before.
fn read_first<T, E>(first: &mut Option<T>, read: impl FnOnce() -> Result<T, E>) {
    if first.is_none() {
        *first = read().ok();
    }
}

/// The first URIs of each method of a subject's access descriptions.
#[derive(Default)]
struct SubjectPlaces {
    ca_repository: Option<Rsync>,
    rpki_manifest: Option<Rsync>,
    signed_object: Option<Rsync>,
    rpki_notify: Option<Https>,
}

impl SubjectPlaces {
    fn of(extension: &KnownExtension) -> Result<Self, DecodeError> {
        let mut places = SubjectPlaces::default();
        each_description(extension, |it| places.take(it))?;
        Ok(places)
    }

    fn take(&mut self, it: AccessDescription) {
        let text = match it.location {
            Some(text) => text,
            None => return,
        };
        match it.method {
            AccessMethod::CaRepository => read_first(&mut self.ca_repository, || Rsync::from_bytes(text)),
            AccessMethod::RpkiManifest => read_first(&mut self.rpki_manifest, || Rsync::from_bytes(text)),
            AccessMethod::SignedObject => read_first(&mut self.signed_object, || Rsync::from_bytes(text)),
            AccessMethod::RpkiNotify => read_first(&mut self.rpki_notify, || Https::from_bytes(text)),
            AccessMethod::CaIssuers | AccessMethod::Other => (),
        }
    }
}

/// The first rsync URI of the issuer's certificate among an authority's access descriptions.
fn issuer_uri(extension: &KnownExtension) -> Result<Option<Rsync>, DecodeError> {
    let mut first = None;
    each_description(extension, |it| {
        if let (AccessMethod::CaIssuers, Some(text)) = (it.method, it.location) {
            read_first(&mut first, || Rsync::from_bytes(text));
        }
    })?;
    Ok(first)
}

/// Where something is, as three extensions of a certificate say; of a malformed one nothing.
#[derive(Clone, Debug, Default)]
pub(super) struct Places {
    pub(super) crl_uri: Option<Rsync>,
    pub(super) ca_issuer: Option<Rsync>,
    pub(super) ca_repository: Option<Rsync>,
    pub(super) rpki_manifest: Option<Rsync>,
    pub(super) signed_object: Option<Rsync>,
    pub(super) rpki_notify: Option<Https>,
}

impl Places {
    pub(super) fn of(known: &KnownExtensions) -> Self {
        let subject = known.subject_places().unwrap_or_default();
        Places {
            crl_uri: known.crl_uri().unwrap_or_default(),
            ca_issuer: known.ca_issuer().unwrap_or_default(),
            ca_repository: subject.ca_repository,
            rpki_manifest: subject.rpki_manifest,
            signed_object: subject.signed_object,
            rpki_notify: subject.rpki_notify,
        }
    }
}

impl KnownExtensions {
    /// The access descriptions of the subject information access, in order; none where the extension isn't there.
    ///
    /// # Errors
    /// The octets of the extension are not access descriptions, one at least.
    pub fn subject_access(&self) -> Result<Vec<AccessDescription>, DecodeError> {
        descriptions(self.subject_info_access.as_ref())
    }

    /// The access descriptions of the authority information access, in order; none where the extension isn't there.
    ///
    /// # Errors
    /// The octets of the extension are not access descriptions, one at least.
    pub fn authority_access(&self) -> Result<Vec<AccessDescription>, DecodeError> {
        descriptions(self.authority_info_access.as_ref())
    }

    fn subject_places(&self) -> Result<SubjectPlaces, DecodeError> {
        self.subject_info_access.as_ref().map_or_else(|| Ok(SubjectPlaces::default()), SubjectPlaces::of)
    }

    /// Where the revocation list is: the first rsync URI of the one distribution point, which has a full name of URIs
    /// alone (RFC 6487 4.8.6).
    ///
    /// # Errors
    /// The octets of the extension are not such a distribution point.
    pub fn crl_uri(&self) -> Result<Option<Rsync>, DecodeError> {
        self.crl_distribution_points.as_ref().map_or(Ok(None), point_uri)
    }

    /// Where the issuer's certificate is: the first rsync URI of `id-ad-caIssuers` in the authority information access
    /// (RFC 6487 4.8.7).
    ///
    /// # Errors
    /// As of [KnownExtensions::authority_access].
    pub fn ca_issuer(&self) -> Result<Option<Rsync>, DecodeError> {
        self.authority_info_access.as_ref().map_or(Ok(None), issuer_uri)
    }

    /// Where the subject publishes: the first rsync URI of `id-ad-caRepository` in the subject information access (RFC
    /// 6487 4.8.8.1).
    ///
    /// # Errors
    /// As of [KnownExtensions::subject_access].
    pub fn ca_repository(&self) -> Result<Option<Rsync>, DecodeError> {
        Ok(self.subject_places()?.ca_repository)
    }

    /// Where the subject's manifest is: the first rsync URI of `id-ad-rpkiManifest` in the subject information access
    /// (RFC 6487 4.8.8.1).
    ///
    /// # Errors
    /// As of [KnownExtensions::subject_access].
    pub fn rpki_manifest(&self) -> Result<Option<Rsync>, DecodeError> {
        Ok(self.subject_places()?.rpki_manifest)
    }

    /// Where the object is that the subject's key signs: the first rsync URI of `id-ad-signedObject` in the subject
    /// information access (RFC 6487 4.8.8.2).
    ///
    /// # Errors
    /// As of [KnownExtensions::subject_access].
    pub fn signed_object(&self) -> Result<Option<Rsync>, DecodeError> {
        Ok(self.subject_places()?.signed_object)
    }

    /// Where changes are notified: the first https URI of `id-ad-rpkiNotify` in the subject information access (RFC
    /// 8182 3.2).
    ///
    /// # Errors
    /// As of [KnownExtensions::subject_access].
    pub fn rpki_notify(&self) -> Result<Option<Https>, DecodeError> {
        Ok(self.subject_places()?.rpki_notify)
    }
}
