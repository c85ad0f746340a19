//! Why values are rejected.

use crate::crypto::signature::SignatureVerificationError;
use crate::ffi::{self, Status};
use crate::repository::aspa::AspaError;
use crate::repository::cert::{CertError, CertPart, CertRule, ExtensionError};
use crate::repository::crl::CrlError;
use crate::repository::manifest::ManifestError;
use crate::repository::resources::InheritedResources;
use crate::repository::roa::RoaError;
use crate::repository::sigobj::{ObjectVerificationError, SignedObjectError};
use crate::repository::x509::ValidityPeriodError;
use crate::view::DecodeError;
use std::error::Error;
use std::fmt;

/// What is wrong with the contents of a value, in a few words.
#[derive(Clone, Debug, PartialEq, Eq)]
pub struct ContentError(&'static str);

impl ContentError {
    /// The error with this text.
    pub fn from_static(text: &'static str) -> Self {
        ContentError(text)
    }
}

impl From<&'static str> for ContentError {
    fn from(text: &'static str) -> Self {
        ContentError(text)
    }
}

impl fmt::Display for ContentError {
    fn fmt(&self, f: &mut fmt::Formatter) -> fmt::Result {
        f.write_str(self.0)
    }
}

impl Error for ContentError {}

impl From<SignatureVerificationError> for ContentError {
    fn from(_: SignatureVerificationError) -> Self {
        ContentError("signature verification failed")
    }
}

/// A value is well formed, and against what a profile says. Its source is the rule that it breaks, a [CertRule] or an
/// [ExtensionError], where it breaks one of these.
#[derive(Clone, Debug, PartialEq, Eq)]
pub struct InspectionError {
    error: ContentError,
    rule: Option<CertRule>,
    extension: Option<ExtensionError>,
}

impl InspectionError {
    /// The error with what is wrong.
    pub fn new(error: impl Into<ContentError>) -> Self {
        InspectionError { error: error.into(), rule: None, extension: None }
    }

    /// The rule of a profile of certificates that is broken, where it is one.
    pub fn rule(&self) -> Option<CertRule> {
        self.rule
    }

    /// The extension that is wrong, where it is one.
    pub fn extension(&self) -> Option<ExtensionError> {
        self.extension
    }
}

impl From<ContentError> for InspectionError {
    fn from(error: ContentError) -> Self {
        InspectionError::new(error)
    }
}

impl From<InspectionError> for ContentError {
    fn from(error: InspectionError) -> Self {
        error.error
    }
}

impl fmt::Display for InspectionError {
    fn fmt(&self, f: &mut fmt::Formatter) -> fmt::Result {
        self.error.fmt(f)
    }
}

impl Error for InspectionError {
    fn source(&self) -> Option<&(dyn Error + 'static)> {
        let extension = || self.extension.as_ref().map(|it| it as _);
        self.rule.as_ref().map(|it| it as _).or_else(extension)
    }
}

/// A value is not what a signature or a period permits.
#[derive(Clone, Debug, PartialEq, Eq)]
pub struct VerificationError(ContentError);

impl VerificationError {
    /// The error with what is wrong.
    pub fn new(error: impl Into<ContentError>) -> Self {
        VerificationError(error.into())
    }
}

impl From<ContentError> for VerificationError {
    fn from(error: ContentError) -> Self {
        VerificationError(error)
    }
}

impl From<SignatureVerificationError> for VerificationError {
    fn from(error: SignatureVerificationError) -> Self {
        VerificationError(error.into())
    }
}

impl From<ValidityPeriodError> for VerificationError {
    fn from(error: ValidityPeriodError) -> Self {
        VerificationError(ContentError(if error.is_too_new() {
            "certificate is not yet valid"
        } else {
            "certificate has expired"
        }))
    }
}

impl fmt::Display for VerificationError {
    fn fmt(&self, f: &mut fmt::Formatter) -> fmt::Result {
        self.0.fmt(f)
    }
}

impl Error for VerificationError {}

/// The malformed part of a value, as its reader names it.
#[derive(Clone, Copy, Debug, PartialEq, Eq, Hash)]
#[non_exhaustive]
pub enum MalformedPart {
    /// Of a certificate.
    Cert(CertPart),
    /// Of a revocation list.
    Crl(CrlError),
    /// Of a signed object.
    SignedObject(SignedObjectError),
    /// Of what a manifest contains.
    Manifest(ManifestError),
    /// Of what a route origin attestation contains.
    Roa(RoaError),
    /// Of what an attestation of providers contains.
    Aspa(AspaError),
}

/// A part of a value is malformed. Its source is what is wrong in it, where that was looked for.
#[derive(Clone, Copy, Debug, PartialEq, Eq, Hash)]
pub struct MalformedError {
    part: MalformedPart,
    reason: Option<DecodeError>,
}

impl MalformedError {
    pub(crate) fn new(part: impl Into<MalformedPart>, reason: Option<DecodeError>) -> Self {
        MalformedError { part: part.into(), reason }
    }

    /// The malformed part.
    pub fn part(&self) -> MalformedPart {
        self.part
    }

    /// The leftmost error in it, as a reader of that part returns it: where a certificate, a manifest or an attestation
    /// was read. Of a revocation list [Crl::reason](crate::repository::crl::Crl::reason) says it.
    pub fn reason(&self) -> Option<DecodeError> {
        self.reason
    }

    /// What is said of it.
    fn text(&self) -> &'static str {
        match &self.part {
            MalformedPart::Cert(part) => part.text(),
            MalformedPart::Crl(part) => part.text(),
            MalformedPart::SignedObject(part) => part.text(),
            MalformedPart::Manifest(part) => part.text(),
            MalformedPart::Roa(part) => part.text(),
            MalformedPart::Aspa(part) => part.text(),
        }
    }
}

impl fmt::Display for MalformedError {
    fn fmt(&self, f: &mut fmt::Formatter) -> fmt::Result {
        f.write_str(self.text())
    }
}

impl Error for MalformedError {
    fn source(&self) -> Option<&(dyn Error + 'static)> {
        self.reason.as_ref().map(|it| it as _)
    }
}

/// Why a value is not valid: it could not be read, or an inspection or a verification failed. Its source is the error
/// that it has, and of that what is below.
#[derive(Clone, Debug, PartialEq, Eq)]
#[non_exhaustive]
pub enum ValidationError {
    /// It could not be read.
    Decode(DecodeError),
    /// A part of it is malformed.
    Malformed(MalformedError),
    /// An inspection failed.
    Inspection(InspectionError),
    /// A verification failed.
    Verification(VerificationError),
}

impl From<DecodeError> for ValidationError {
    fn from(error: DecodeError) -> Self {
        ValidationError::Decode(error)
    }
}

impl From<InspectionError> for ValidationError {
    fn from(error: InspectionError) -> Self {
        ValidationError::Inspection(error)
    }
}

impl From<VerificationError> for ValidationError {
    fn from(error: VerificationError) -> Self {
        ValidationError::Verification(error)
    }
}

impl fmt::Display for ValidationError {
    fn fmt(&self, f: &mut fmt::Formatter) -> fmt::Result {
        match self {
            ValidationError::Decode(error) => error.fmt(f),
            ValidationError::Malformed(error) => error.fmt(f),
            ValidationError::Inspection(error) => error.fmt(f),
            ValidationError::Verification(error) => error.fmt(f),
        }
    }
}

impl Error for ValidationError {
    fn source(&self) -> Option<&(dyn Error + 'static)> {
        Some(match self {
            ValidationError::Decode(error) => error,
            ValidationError::Malformed(error) => error,
            ValidationError::Inspection(error) => error,
            ValidationError::Verification(error) => error,
        })
    }
}

/// An error of a part of a value says that the part is malformed.
macro_rules! malformed {
    ($($kind:ident($name:ty);)*) => {
        $(
            impl From<$name> for MalformedPart {
                fn from(part: $name) -> Self {
                    MalformedPart::$kind(part)
                }
            }

            impl From<$name> for ValidationError {
                fn from(part: $name) -> Self {
                    MalformedError::new(part, None).into()
                }
            }
        )*
    };
}

malformed! {
    Cert(CertPart);
    Crl(CrlError);
    SignedObject(SignedObjectError);
    Manifest(ManifestError);
    Roa(RoaError);
    Aspa(AspaError);
}

impl From<MalformedError> for ValidationError {
    fn from(error: MalformedError) -> Self {
        ValidationError::Malformed(error)
    }
}

impl From<CertError> for ValidationError {
    fn from(error: CertError) -> Self {
        MalformedError::new(error.part(), Some(error.reason())).into()
    }
}

impl From<CertRule> for InspectionError {
    fn from(rule: CertRule) -> Self {
        InspectionError { error: ContentError(rule.text()), rule: Some(rule), extension: None }
    }
}

impl From<ExtensionError> for InspectionError {
    fn from(error: ExtensionError) -> Self {
        InspectionError { error: ContentError(error.text()), rule: None, extension: Some(error) }
    }
}

impl From<CertRule> for ValidationError {
    fn from(error: CertRule) -> Self {
        ValidationError::Inspection(error.into())
    }
}

impl From<ExtensionError> for ValidationError {
    fn from(error: ExtensionError) -> Self {
        ValidationError::Inspection(error.into())
    }
}

impl From<ObjectVerificationError> for ValidationError {
    fn from(error: ObjectVerificationError) -> Self {
        match error {
            ObjectVerificationError::Certificate(rule) => rule.into(),
            error => ValidationError::verification(error.text()),
        }
    }
}

impl From<SignatureVerificationError> for ValidationError {
    fn from(error: SignatureVerificationError) -> Self {
        ValidationError::Verification(error.into())
    }
}

impl From<ValidityPeriodError> for ValidationError {
    fn from(error: ValidityPeriodError) -> Self {
        ValidationError::Verification(error.into())
    }
}

impl From<InheritedResources> for ValidationError {
    fn from(_: InheritedResources) -> Self {
        ValidationError::verification("inherited resources")
    }
}

impl ValidationError {
    /// A verification failed, with this text.
    pub(crate) fn verification(text: &'static str) -> Self {
        ValidationError::Verification(VerificationError(ContentError(text)))
    }

    /// What a call that decides has found not to hold.
    pub(crate) fn from_status(status: Status) -> Self {
        ValidationError::verification(match status {
            ffi::OUT_OF_MEMORY => return DecodeError::OutOfMemory.into(),
            ffi::KEY_NOT_ACCEPTED => "key is not one that signatures are verified by",
            ffi::BAD_SIGNATURE => "signature verification failed",
            ffi::OTHER_DIGEST => "digest mismatch",
            ffi::OTHER_KEY => "subject key identifier is not that of the key",
            ffi::OTHER_RESOURCES => "resources that the issuer or the signer does not have",
            ffi::NOT_INHERITED => "manifest with resources of its own",
            ffi::OTHER_ANCHOR => "key is not that of the trust anchor locator",
            ffi::OTHER_KINDS => "certificate with other kinds of resources than its object",
            ffi::NO_ISSUER => "issuer is no certificate",
            ffi::OTHER_ISSUER => "issuer has another name",
            ffi::OTHER_AUTHORITY => "key of the issuer is another one",
            ffi::TOO_NEW => "not yet current",
            ffi::TOO_OLD => "no longer current",
            80..=84 => return ExtensionError::from_status(status).into(),
            85..=119 | 156..=158 => return CertRule::from_status(status).into(),
            _ => "verification failed",
        })
    }
}

#[cfg(test)]
mod tests {
    use super::ValidationError;
    use crate::ffi;
    use crate::repository::cert::{CertRule, ExtensionError};
    use crate::view::DecodeError;

    /// What is said of statuses that the calls return of no value of this package: its certificates were read, and have
    /// been held to their profile, before they are asked about.
    #[test]
    fn statuses() {
        let told = ValidationError::from_status;
        assert_eq!(told(ffi::OUT_OF_MEMORY), ValidationError::Decode(DecodeError::OutOfMemory));
        assert_eq!(told(ffi::KEY_NOT_ACCEPTED).to_string(), "key is not one that signatures are verified by");
        assert_eq!(told(ffi::NO_ISSUER).to_string(), "issuer is no certificate");
        assert_eq!(told(80), ExtensionError::BasicConstraints.into());
        assert_eq!(told(84), ExtensionError::CertificatePolicies.into());
        assert_eq!(told(ffi::RULE_SERIAL_NUMBER), CertRule::SerialNumber.into());
        assert_eq!(told(ffi::RULE_ROUTER_SERIAL_NUMBER), CertRule::RouterSerialNumber.into());
    }
}
