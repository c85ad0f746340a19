//! Resource certificates (RFC 5280 4.1, RFC 6487 4).

use crate::crypto::keys::PublicKey;
use crate::crypto::signature::{RpkiSignature, RpkiSignatureAlgorithm, Signature};
use crate::ffi::{self, Status};
use crate::octets::IntoOctets;
use crate::repository::error::InspectionError;
use crate::repository::x509::{Name, Serial, Validity};
use crate::view::{DecodeError, Extension};
use bytes::Bytes;
use std::error::Error;
use std::fmt;
use std::sync::Arc;

mod access;
mod extensions;
mod rule;
mod valid;

use extensions::Kept;

pub use access::{AccessDescription, AccessMethod};
pub use extensions::{ExtensionError, KeyUsage, KnownExtension, KnownExtensions, Overclaim};
pub use rule::CertRule;
pub use valid::ResourceCert;

/// The malformed part of a certificate: of the signed data the leftmost; then of what is signed the
/// leftmost; then that both algorithm identifiers are the same.
#[derive(Clone, Copy, Debug, PartialEq, Eq, Hash)]
#[non_exhaustive]
pub enum CertPart {
    /// The SEQUENCE around all isn't there, or something follows it.
    Certificate,
    /// What is signed is no value, with everything nested in it.
    Signed,
    /// The algorithm identifier after it is not that of RSA with SHA-256.
    Algorithm,
    /// The signature is no BIT STRING, or something follows it.
    Signature,
    /// What is signed is no SEQUENCE.
    Tbs,
    /// The version is not v3.
    Version,
    /// The serial number is no unsigned INTEGER of at most 20 octets.
    SerialNumber,
    /// The algorithm identifier in what is signed.
    TbsAlgorithm,
    /// The issuer is no name.
    Issuer,
    /// The period of validity.
    Validity,
    /// The subject is no name.
    Subject,
    /// The subject's key.
    PublicKey,
    /// There are no extensions, one is malformed, or something follows them.
    Extensions,
    /// There are more than 64 extensions; the certificate may be well-formed.
    ExtensionCount,
    /// Two extensions have the same identifier.
    ExtensionIdentifiers,
    /// The two algorithm identifiers differ.
    SameAlgorithm,
}

impl CertPart {
    pub(crate) fn from_status(status: Status) -> CertPart {
        match status {
            64 => CertPart::Certificate,
            65 => CertPart::Signed,
            66 => CertPart::Algorithm,
            67 => CertPart::Signature,
            68 => CertPart::Tbs,
            69 => CertPart::Version,
            70 => CertPart::SerialNumber,
            71 => CertPart::TbsAlgorithm,
            72 => CertPart::Issuer,
            73 => CertPart::Validity,
            74 => CertPart::Subject,
            75 => CertPart::PublicKey,
            76 => CertPart::Extensions,
            77 => CertPart::ExtensionCount,
            78 => CertPart::ExtensionIdentifiers,
            79 => CertPart::SameAlgorithm,
            _ => unreachable!("{status} is no status of a certificate"),
        }
    }
}

impl CertPart {
    /// What is said of it.
    pub(crate) fn text(&self) -> &'static str {
        match self {
            CertPart::Certificate => "not a certificate",
            CertPart::Signed => "malformed signed data",
            CertPart::Algorithm => "signature algorithm is not the RPKI's",
            CertPart::Signature => "malformed signature",
            CertPart::Tbs => "malformed certificate",
            CertPart::Version => "other version",
            CertPart::SerialNumber => "malformed serial number",
            CertPart::TbsAlgorithm => "signed algorithm is not the RPKI's",
            CertPart::Issuer => "malformed issuer",
            CertPart::Validity => "malformed validity",
            CertPart::Subject => "malformed subject",
            CertPart::PublicKey => "public key is not one of the RPKI's",
            CertPart::Extensions => "malformed extensions",
            CertPart::ExtensionCount => "too many extensions",
            CertPart::ExtensionIdentifiers => "duplicate extension",
            CertPart::SameAlgorithm => "signature algorithms differ",
        }
    }
}

/// What is said of a certificate of which this part is wrong.
impl fmt::Display for CertPart {
    fn fmt(&self, f: &mut fmt::Formatter) -> fmt::Result {
        f.write_str(self.text())
    }
}

/// Why octets are no certificate: the malformed part, and what is wrong with it.
#[derive(Clone, Copy, Debug, PartialEq, Eq, Hash)]
pub struct CertError {
    part: CertPart,
    reason: DecodeError,
}

impl CertError {
    /// Why these octets are no certificate; none where they are one.
    fn of(octets: &[u8]) -> Option<CertError> {
        let (part, reason) = ffi::certificate_error(octets).err()?;
        Some(CertError { part: CertPart::from_status(part), reason: DecodeError::from_status(reason) })
    }

    /// The malformed part.
    pub fn part(&self) -> CertPart {
        self.part
    }

    /// What is wrong with it, as a reader of that part returns it.
    pub fn reason(&self) -> DecodeError {
        self.reason
    }
}

impl fmt::Display for CertError {
    fn fmt(&self, f: &mut fmt::Formatter) -> fmt::Result {
        write!(f, "{}: {}", self.part, self.reason)
    }
}

impl Error for CertError {
    fn source(&self) -> Option<&(dyn Error + 'static)> {
        Some(&self.reason)
    }
}

/// A resource certificate: its octets, and what they say, extensions included, read once. Names, the key and URIs share
/// the octets that it was read from. Two are equal where their octets are. [Cert::inspect_ca] and its kin say whether
/// the extensions are those of a profile; [Cert::validate_ta], [Cert::validate_ca] and their kin whether the
/// certificate is valid, which a [ResourceCert] is.
///
/// ```
/// use rpki_proved::repository::cert::{Cert, CertPart};
/// use rpki_proved::view::DecodeError;
///
/// let error = Cert::decode(&b"\x30\x00\x30\x00"[..]).unwrap_err();
/// assert_eq!((error.part(), error.reason()), (CertPart::Certificate, DecodeError::Trailing));
/// let error = Cert::decode(&b"\x30\x00"[..]).unwrap_err();
/// assert_eq!((error.part(), error.reason()), (CertPart::Signed, DecodeError::Truncated));
/// assert_eq!(error.to_string(), "malformed signed data: truncated value");
/// ```
#[derive(Clone, Debug)]
pub struct Cert {
    octets: Bytes,
    signed: Bytes,
    signature: RpkiSignature,
    serial_number: Serial,
    issuer: Name,
    validity: Validity,
    subject: Name,
    subject_public_key_info: PublicKey,
    extensions: Bytes,
    kept: Result<Arc<Kept>, ExtensionError>,
    /// The profile that the certificate was found to keep when it was read, names included.
    profile: Option<u8>,
}

impl Cert {
    /// Reads a certificate that is all of the octets.
    ///
    /// # Errors
    /// The malformed part, and what is wrong with it.
    pub fn decode(octets: impl IntoOctets) -> Result<Self, CertError> {
        Cert::read(octets.into_octets(), ffi::CERTIFICATE_CA)
    }

    /// Reads a certificate, in one call where it keeps the profile of this number.
    pub(crate) fn read(octets: Bytes, profile: u8) -> Result<Self, CertError> {
        if let Ok((found, extensions)) = ffi::certificate_of_profile(&octets, profile, true) {
            let kept = Arc::new(Kept::of(&octets, &extensions));
            return Ok(Cert::of(octets, found, Ok(kept), Some(profile)));
        }
        // What is not of the profile is a certificate, perhaps, and perhaps with good extensions.
        let rejected = |_| CertError::of(&octets).expect("octets that were rejected");
        let found = ffi::certificate(&octets).map_err(rejected)?;
        let extensions = ffi::certificate_extensions(&octets).map_err(ExtensionError::from_status);
        let kept = extensions.map(|extensions| Arc::new(Kept::of(&octets, &extensions)));
        Ok(Cert::of(octets, found, kept, None))
    }

    /// The certificate that the octets are, which has these parts and extensions, and keeps the profile of an end
    /// entity.
    pub(crate) fn checked(octets: Bytes, found: ffi::CertificateParts, extensions: ffi::KnownExtensions) -> Self {
        let kept = Arc::new(Kept::of(&octets, &extensions));
        Cert::of(octets, found, Ok(kept), Some(ffi::CERTIFICATE_EE))
    }

    /// The certificate that the octets are, which has these parts. What was found to be names, a key and a number is
    /// that.
    fn of(
        octets: Bytes,
        found: ffi::CertificateParts,
        kept: Result<Arc<Kept>, ExtensionError>,
        profile: Option<u8>,
    ) -> Self {
        let part = |part: ffi::Span| octets.slice(part.range(&octets));
        let algorithm = RpkiSignatureAlgorithm { has_parameters: found.has_parameters };
        Cert {
            signed: part(found.data),
            signature: Signature::new(algorithm, part(found.signature)),
            serial_number: Serial::read(found.serial_number),
            issuer: Name::read(part(found.issuer)),
            validity: Validity::from(found.validity),
            subject: Name::read(part(found.subject)),
            subject_public_key_info: PublicKey::read(part(found.public_key), found.key_format, found.key_unused),
            extensions: part(found.extensions),
            kept,
            profile,
            octets,
        }
    }

    /// The octets of the certificate.
    pub fn to_bytes(&self) -> Bytes {
        self.octets.clone()
    }

    /// What is signed, as exactly the octets that are signed.
    pub fn signed(&self) -> &Bytes {
        &self.signed
    }

    /// The signature.
    pub fn signature(&self) -> &RpkiSignature {
        &self.signature
    }

    /// The serial number.
    pub fn serial_number(&self) -> Serial {
        self.serial_number
    }

    /// The issuer.
    pub fn issuer(&self) -> &Name {
        &self.issuer
    }

    /// The period of validity.
    pub fn validity(&self) -> Validity {
        self.validity
    }

    /// The subject.
    pub fn subject(&self) -> &Name {
        &self.subject
    }

    /// The subject's key.
    pub fn subject_public_key_info(&self) -> &PublicKey {
        &self.subject_public_key_info
    }

    /// The extensions, in order: one at least, and each identifier once.
    pub fn extensions(&self) -> Extensions<'_> {
        Extensions { rest: &self.extensions }
    }

    /// The octets of the extensions, in sequence.
    pub fn extension_octets(&self) -> &Bytes {
        &self.extensions
    }

    /// The extensions that certificates of the RPKI have, and what five of them say: read with the certificate.
    ///
    /// # Errors
    /// The first of the five that is there, but malformed, or not as critical as it has to be.
    pub fn known_extensions(&self) -> Result<&KnownExtensions, ExtensionError> {
        self.kept.as_ref().map(|kept| &kept.known).map_err(|error| *error)
    }

    /// # Errors
    /// The rule of the profile of this number that the certificate breaks first.
    pub(crate) fn keeps(&self, profile: u8, strict: bool) -> Result<(), CertRule> {
        if self.profile == Some(profile) {
            return Ok(());
        }
        ffi::certificate_inspect(&self.octets, profile, strict).map_err(CertRule::from_status)
    }

    fn inspect(&self, profile: u8, strict: bool) -> Result<(), InspectionError> {
        Ok(self.keeps(profile, strict)?)
    }

    /// Holds the certificate to the profile of trust anchors (RFC 6487 4): that of certification
    /// authorities, but without CRL distribution points and authority information access. With
    /// `strict` false the names are not checked against theirs. Resources have to be critical and
    /// canonical; a trust anchor inherits none.
    ///
    /// # Errors
    /// The rule that it breaks first, as [InspectionError::rule].
    pub fn inspect_ta(&self, strict: bool) -> Result<(), InspectionError> {
        self.inspect(ffi::CERTIFICATE_TA, strict)
    }

    /// Holds the certificate to the profile of certification authorities (RFC 6487 4), as [Cert::inspect_ta] does to
    /// another.
    ///
    /// # Errors
    /// The rule that it breaks first, as [InspectionError::rule].
    pub fn inspect_ca(&self, strict: bool) -> Result<(), InspectionError> {
        self.inspect(ffi::CERTIFICATE_CA, strict)
    }

    /// Holds the certificate to the profile of end entities that sign an object (RFC 6487 4), as [Cert::inspect_ta]
    /// does to another.
    ///
    /// # Errors
    /// The rule that it breaks first, as [InspectionError::rule].
    pub fn inspect_ee(&self, strict: bool) -> Result<(), InspectionError> {
        self.inspect(ffi::CERTIFICATE_EE, strict)
    }

    /// Holds the certificate to the profile of end entities without subject information access, whose key signs what is
    /// in no repository (RFC 9323 2), as [Cert::inspect_ta] does to another.
    ///
    /// # Errors
    /// The rule that it breaks first, as [InspectionError::rule].
    pub fn inspect_detached_ee(&self, strict: bool) -> Result<(), InspectionError> {
        self.inspect(ffi::CERTIFICATE_DETACHED_EE, strict)
    }

    /// Holds the certificate to the profile of BGPsec routers (RFC 8209 3.1), as [Cert::inspect_ta] does to another.
    ///
    /// # Errors
    /// The rule that it breaks first, as [InspectionError::rule].
    pub fn inspect_router(&self, strict: bool) -> Result<(), InspectionError> {
        self.inspect(ffi::CERTIFICATE_ROUTER, strict)
    }
}

crate::captured::captured!(Cert);

impl PartialEq for Cert {
    fn eq(&self, other: &Cert) -> bool {
        self.octets == other.octets
    }
}

impl Eq for Cert {}

#[cfg(feature = "serde")]
crate::texts::serialized_as_octets!(Cert, "a certificate in base 64");

/// The extensions of a certificate.
#[derive(Clone, Debug)]
pub struct Extensions<'a> {
    rest: &'a [u8],
}

impl<'a> Iterator for Extensions<'a> {
    type Item = Extension<'a>;

    fn next(&mut self) -> Option<Extension<'a>> {
        let header = ffi::header(self.rest).ok()?;
        let (first, rest) = self.rest.split_at(header.size + header.length as usize);
        self.rest = rest;
        Some(Extension::decode(first).unwrap_or_else(|error: DecodeError| unreachable!("an extension: {error}")))
    }
}
