//! Signed objects (RFC 5652, in the profile of RFC 6488).

use crate::captured::Captured;
use crate::crypto::keys::KeyIdentifier;
use crate::crypto::signature::{Provider, RpkiSignature, RpkiSignatureAlgorithm, Signature};
use crate::crypto::DigestAlgorithm;
use crate::ffi::{self, Status};
use crate::octets::IntoOctets;
use crate::oid::Oid;
use crate::repository::cert::{Cert, CertPart, CertRule, ResourceCert};
use crate::repository::error::{InspectionError, MalformedError, ValidationError, VerificationError};
use crate::repository::x509::Time;
use crate::view::DecodeError;
use bytes::Bytes;
use std::error::Error;
use std::fmt;

/// The part of a signed object that is wrong: the leftmost; of the certificate the one that its reader names.
#[derive(Clone, Copy, Debug, PartialEq, Eq, Hash)]
#[non_exhaustive]
pub enum SignedObjectError {
    /// The SEQUENCE around all isn't there, or something follows it.
    Object,
    /// The type is not that of signed data.
    ObjectType,
    /// The signed data is no SEQUENCE under its tag, or something follows it.
    SignedData,
    /// The version is not 3.
    Version,
    /// The digest algorithms are not SHA-256 alone.
    DigestAlgorithms,
    /// The content or its type isn't there, or something follows them.
    Content,
    /// There is no set of certificates.
    Certificates,
    /// The set has something else than one certificate, or one of which this part is wrong.
    Certificate(CertPart),
    /// There is no set of signers after the certificate, or something follows it.
    Signers,
    /// The set has something else than one signer.
    Signer,
    /// The version of the signer is not 3.
    SignerVersion,
    /// The signer has no key identifier of twenty octets.
    SignerIdentifier,
    /// The digest algorithm of the signer is not SHA-256.
    SignerDigestAlgorithm,
    /// The signed attributes are not those that a signed object has (RFC 6488 2.1.6.4, RFC 9589 4).
    SignedAttrs,
    /// The signature is not by RSA with SHA-256.
    SignatureAlgorithm,
    /// The signature is no OCTET STRING, or something follows it.
    Signature,
}

impl SignedObjectError {
    fn from_status(status: Status) -> SignedObjectError {
        match status {
            ffi::PART_OBJECT => SignedObjectError::Object,
            ffi::PART_OBJECT_TYPE => SignedObjectError::ObjectType,
            ffi::PART_SIGNED_DATA => SignedObjectError::SignedData,
            ffi::PART_OBJECT_VERSION => SignedObjectError::Version,
            ffi::PART_DIGEST_ALGORITHMS => SignedObjectError::DigestAlgorithms,
            ffi::PART_CONTENT => SignedObjectError::Content,
            ffi::PART_CERTIFICATES => SignedObjectError::Certificates,
            ffi::PART_SIGNERS => SignedObjectError::Signers,
            ffi::PART_SIGNER => SignedObjectError::Signer,
            ffi::PART_SIGNER_VERSION => SignedObjectError::SignerVersion,
            ffi::PART_SIGNER_IDENTIFIER => SignedObjectError::SignerIdentifier,
            ffi::PART_SIGNER_DIGEST => SignedObjectError::SignerDigestAlgorithm,
            ffi::PART_SIGNED_ATTRIBUTES => SignedObjectError::SignedAttrs,
            ffi::PART_SIGNATURE_ALGORITHM => SignedObjectError::SignatureAlgorithm,
            ffi::PART_OBJECT_SIGNATURE => SignedObjectError::Signature,
            part => SignedObjectError::Certificate(CertPart::from_status(part)),
        }
    }
}

impl SignedObjectError {
    /// What is said of it.
    pub(crate) fn text(&self) -> &'static str {
        match self {
            SignedObjectError::Object => "not a signed object",
            SignedObjectError::ObjectType => "type is not that of signed data",
            SignedObjectError::SignedData => "malformed signed object",
            SignedObjectError::Version => "other version of signed data",
            SignedObjectError::DigestAlgorithms => "digest algorithms are not SHA-256 alone",
            SignedObjectError::Content => "malformed content",
            SignedObjectError::Certificates => "missing certificate",
            SignedObjectError::Certificate(part) => part.text(),
            SignedObjectError::Signers => "no signers, or more than these",
            SignedObjectError::Signer => "not one signer",
            SignedObjectError::SignerVersion => "other version of the signer",
            SignedObjectError::SignerIdentifier => "malformed key identifier of the signer",
            SignedObjectError::SignerDigestAlgorithm => "digest algorithm of the signer is not SHA-256",
            SignedObjectError::SignedAttrs => "signed attributes that no signed object has",
            SignedObjectError::SignatureAlgorithm => "other algorithm of the signature",
            SignedObjectError::Signature => "malformed signature of the object",
        }
    }
}

impl fmt::Display for SignedObjectError {
    fn fmt(&self, f: &mut fmt::Formatter) -> fmt::Result {
        f.write_str(self.text())
    }
}

impl Error for SignedObjectError {}

/// A digest of a content, by SHA-256.
#[derive(Clone, Copy, Debug, PartialEq, Eq, Hash)]
pub struct MessageDigest([u8; 32]);

impl MessageDigest {
    /// The digest of the octets.
    pub fn of(octets: &[u8]) -> MessageDigest {
        MessageDigest(ffi::sha256(octets))
    }

    /// This digest, which is by this algorithm: there is no other.
    pub fn new(digest: impl Into<MessageDigest>, _: DigestAlgorithm) -> Self {
        digest.into()
    }

    /// The algorithm of the digest.
    pub fn algorithm(&self) -> DigestAlgorithm {
        DigestAlgorithm::sha256()
    }

    /// Checks that these octets have this digest (RFC 9286 6.5).
    ///
    /// # Errors
    /// They have another.
    pub fn verify(&self, octets: impl AsRef<[u8]>) -> Result<(), ValidationError> {
        ffi::manifest_file_is(&self.0, octets.as_ref()).map_err(ValidationError::from_status)
    }

    /// The thirty-two octets.
    pub fn as_slice(&self) -> &[u8] {
        &self.0
    }
}

impl From<[u8; 32]> for MessageDigest {
    fn from(octets: [u8; 32]) -> Self {
        MessageDigest(octets)
    }
}

impl AsRef<[u8]> for MessageDigest {
    fn as_ref(&self) -> &[u8] {
        &self.0
    }
}

/// The signed attributes of a signed object: what is signed, and what it says.
#[derive(Clone, Debug)]
pub struct SignedAttrs {
    octets: Bytes,
    message_digest: MessageDigest,
    signing_time: Option<Time>,
    binary_signing_time: Option<u64>,
}

impl SignedAttrs {
    /// What is signed: the attributes as they came, but after the tag of a SET (RFC 5652 5.4).
    pub fn encode_verify(&self) -> Vec<u8> {
        let mut message = self.octets.to_vec();
        message[0] = 0x31;
        message
    }

    /// The digest of the content.
    pub fn message_digest(&self) -> &MessageDigest {
        &self.message_digest
    }

    /// When the attributes were signed, where that is said.
    pub fn signing_time(&self) -> Option<Time> {
        self.signing_time
    }

    /// When the attributes were signed, in seconds since 1970, where that is said.
    pub fn binary_signing_time(&self) -> Option<u64> {
        self.binary_signing_time
    }
}

/// Why a signed object is not by the key of its certificate: the first that doesn't hold.
#[derive(Clone, Copy, Debug, PartialEq, Eq, Hash)]
#[non_exhaustive]
pub enum ObjectVerificationError {
    /// The type of the content is not the one that is signed.
    ContentType,
    /// The digest of the content is not the one that is signed.
    MessageDigest,
    /// The subject key identifier of the certificate is not the signer's, or isn't there.
    SubjectKeyIdentifier,
    /// The signature is not by the key of the certificate.
    Signature,
    /// The certificate breaks this rule of the profile of end entities.
    Certificate(CertRule),
}

impl ObjectVerificationError {
    fn from_status(status: Status) -> ObjectVerificationError {
        match status {
            ffi::OTHER_TYPE => ObjectVerificationError::ContentType,
            ffi::OTHER_DIGEST => ObjectVerificationError::MessageDigest,
            // Of an object that was read all others but these are of the extensions of its certificate.
            ffi::KEY_NOT_ACCEPTED | ffi::BAD_SIGNATURE => ObjectVerificationError::Signature,
            _ => ObjectVerificationError::SubjectKeyIdentifier,
        }
    }
}

impl ObjectVerificationError {
    /// What is said of it.
    pub(crate) fn text(&self) -> &'static str {
        match self {
            ObjectVerificationError::ContentType => "content type mismatch",
            ObjectVerificationError::MessageDigest => "message digest mismatch",
            ObjectVerificationError::SubjectKeyIdentifier => "subject key identifier mismatch",
            ObjectVerificationError::Signature => "signature verification failed",
            ObjectVerificationError::Certificate(rule) => rule.text(),
        }
    }
}

impl fmt::Display for ObjectVerificationError {
    fn fmt(&self, f: &mut fmt::Formatter) -> fmt::Result {
        f.write_str(self.text())
    }
}

impl Error for ObjectVerificationError {}

/// A signed object. Its parts share the octets that it was read from, and two are equal where these are. Nothing of it is verified:
/// [SignedObject::verify_signature] says whether the key of its certificate has signed it.
///
/// ```
/// use rpki_proved::repository::sigobj::{SignedObject, SignedObjectError};
///
/// assert_eq!(SignedObject::decode(&b""[..], true).unwrap_err(), SignedObjectError::Object);
/// assert_eq!(SignedObject::decode(&b"\x30\x00"[..], true).unwrap_err(), SignedObjectError::ObjectType);
/// ```
#[derive(Clone, Debug)]
pub struct SignedObject {
    octets: Bytes,
    content_type: Oid<Bytes>,
    content: Captured,
    cert: Cert,
    sid: KeyIdentifier,
    signed_attrs: SignedAttrs,
    signature: RpkiSignature,
    is_type_signed: bool,
}

crate::captured::captured!(SignedObject);

impl PartialEq for SignedObject {
    fn eq(&self, other: &SignedObject) -> bool {
        self.octets == other.octets
    }
}

impl Eq for SignedObject {}

impl SignedObject {
    /// Reads a signed object that is all of the octets. If `strict`, it has a signing time, and no binary signing time
    /// (RFC 9589 4).
    ///
    /// # Errors
    /// The malformed part.
    pub fn decode(octets: impl IntoOctets, strict: bool) -> Result<Self, SignedObjectError> {
        let octets = octets.into_octets();
        let part = |part: ffi::Span| octets.slice(part.range(&octets));
        let (found, cert) = match ffi::signed_object_of_profile(&octets, strict, true) {
            Ok((found, parts, extensions)) => (found, Cert::checked(part(found.certificate), parts, extensions)),
            // An object is read as well whose certificate is not of the profile.
            Err(_) => {
                let found = ffi::signed_object(&octets, strict).map_err(SignedObjectError::from_status)?;
                let cert = Cert::read(part(found.certificate), ffi::CERTIFICATE_EE);
                (found, cert.map_err(|error| SignedObjectError::Certificate(error.part()))?)
            }
        };
        let algorithm = RpkiSignatureAlgorithm { has_parameters: found.has_parameters };
        Ok(SignedObject {
            content_type: Oid(part(found.content_type)),
            content: part(found.content).into(),
            cert,
            sid: KeyIdentifier::from(found.signer_identifier),
            signed_attrs: SignedAttrs {
                octets: part(found.signed_attributes),
                message_digest: MessageDigest(found.message_digest),
                signing_time: found.has_signing_time.then(|| Time::from(found.signing_time)),
                binary_signing_time: found.has_binary_signing_time.then_some(found.binary_signing_time),
            },
            signature: Signature::new(algorithm, part(found.signature)),
            is_type_signed: found.is_type_signed,
            octets,
        })
    }

    /// Why octets are no object: the malformed part, and the leftmost error in it, as a reader of that part returns it.
    /// None where they are one. `strict` is as in [SignedObject::decode].
    pub fn reason(octets: &[u8], strict: bool) -> Option<(SignedObjectError, DecodeError)> {
        let (part, error) = ffi::signed_object_error(octets, strict).err()?;
        Some((SignedObjectError::from_status(part), DecodeError::from_status(error)))
    }

    /// The octets of the object.
    pub fn to_bytes(&self) -> Bytes {
        self.octets.clone()
    }

    /// The type of the content.
    pub fn content_type(&self) -> &Oid<Bytes> {
        &self.content_type
    }

    /// Whether the type of the content is the one that is signed.
    pub fn is_type_signed(&self) -> bool {
        self.is_type_signed
    }

    /// The octets of the content.
    pub fn content(&self) -> &Captured {
        &self.content
    }

    /// The certificate of the signer.
    pub fn cert(&self) -> &Cert {
        &self.cert
    }

    /// The identifier of the signer's key.
    pub fn sid(&self) -> KeyIdentifier {
        self.sid
    }

    /// What is signed.
    pub fn signed_attrs(&self) -> &SignedAttrs {
        &self.signed_attrs
    }

    /// When the attributes were signed, where that is said.
    pub fn signing_time(&self) -> Option<Time> {
        self.signed_attrs.signing_time
    }

    /// When the attributes were signed, in seconds since 1970, where that is said.
    pub fn binary_signing_time(&self) -> Option<u64> {
        self.signed_attrs.binary_signing_time
    }

    /// The signature of the attributes.
    pub fn signature(&self) -> &RpkiSignature {
        &self.signature
    }

    /// Checks that the key of the certificate has signed the content: its type and its digest by SHA-256, which is
    /// computed, are those that are signed, the signer's identifier is the certificate's subject key identifier, and
    /// the signature of the attributes is by the certificate's key (RFC 6488 3, RFC 5652 5.4, 5.6), by one proved call;
    /// then that the certificate is that of an end entity, as [Cert::inspect_ee] says without being strict. Who issued
    /// the certificate is not looked at: [SignedObject::process] does that.
    ///
    /// # Errors
    /// The first that doesn't hold.
    pub fn verify_signature(&self) -> Result<(), ObjectVerificationError> {
        // Who is not strict reads each object that was read here.
        ffi::object_verify(&self.octets, false).map_err(ObjectVerificationError::from_status)?;
        self.cert.keeps(ffi::CERTIFICATE_EE, false).map_err(ObjectVerificationError::Certificate)
    }

    /// The same, as this provider says of the digest and of the signature.
    ///
    /// # Errors
    /// The first that doesn't hold.
    pub fn verify_signature_with(&self, provider: &impl Provider) -> Result<(), ObjectVerificationError> {
        if !self.is_type_signed {
            return Err(ObjectVerificationError::ContentType);
        }
        if self.signed_attrs.message_digest.0 != provider.sha256(&self.content) {
            return Err(ObjectVerificationError::MessageDigest);
        }
        let known = self.cert.known_extensions().map_err(|_| ObjectVerificationError::SubjectKeyIdentifier)?;
        if known.subject_key != Some(self.sid) {
            return Err(ObjectVerificationError::SubjectKeyIdentifier);
        }
        self.cert
            .subject_public_key_info()
            .verify_with(provider, &self.signed_attrs.encode_verify(), &self.signature)
            .map_err(|_| ObjectVerificationError::Signature)?;
        self.cert.keeps(ffi::CERTIFICATE_EE, false).map_err(ObjectVerificationError::Certificate)
    }

    /// Whether the certificate is that of an end entity, as [Cert::inspect_ee] says.
    ///
    /// # Errors
    /// The rule that it breaks first.
    pub fn inspect(&self, strict: bool) -> Result<(), InspectionError> {
        self.cert.inspect_ee(strict)
    }

    /// [SignedObject::verify_signature], which is the same strict and not.
    ///
    /// # Errors
    /// The first that doesn't hold.
    pub fn verify(&self, _strict: bool) -> Result<(), VerificationError> {
        self.verify_signature().map_err(|error| VerificationError::new(error.text()))
    }

    /// Checks that the key of the certificate has signed the content, and that the authority has issued the
    /// certificate, which is valid now and that of an end entity (RFC 6488 3), as [Cert::validate_ee] says. Whether it
    /// is revoked, and what the content says, is not looked at.
    ///
    /// # Errors
    /// The first that doesn't hold.
    pub fn validate(self, issuer: &ResourceCert, strict: bool) -> Result<ResourceCert, ValidationError> {
        self.validate_at(issuer, strict, Time::now())
    }

    /// The same at this moment.
    ///
    /// # Errors
    /// The first that doesn't hold.
    pub fn validate_at(self, issuer: &ResourceCert, strict: bool, now: Time) -> Result<ResourceCert, ValidationError> {
        self.verify_signature()?;
        self.cert.validate_ee_at(issuer, strict, now)
    }

    /// As [SignedObject::validate], with the content; and `check_crl` says whether the certificate is revoked, as
    /// [CurrentCrl::verify_not_revoked](super::crl::CurrentCrl::verify_not_revoked) does.
    ///
    /// # Errors
    /// The first that doesn't hold.
    pub fn process<F>(
        self,
        issuer: &ResourceCert,
        strict: bool,
        check_crl: F,
    ) -> Result<(ResourceCert, Bytes), ValidationError>
    where
        F: FnOnce(&Cert) -> Result<(), ValidationError>,
    {
        self.process_at(issuer, strict, Time::now(), check_crl)
    }

    /// The same at this moment.
    ///
    /// # Errors
    /// The first that doesn't hold.
    pub fn process_at<F>(
        self,
        issuer: &ResourceCert,
        strict: bool,
        now: Time,
        check_crl: F,
    ) -> Result<(ResourceCert, Bytes), ValidationError>
    where
        F: FnOnce(&Cert) -> Result<(), ValidationError>,
    {
        let content = self.content.to_bytes();
        let cert = self.validate_at(issuer, strict, now)?;
        check_crl(&cert)?;
        Ok((cert, content))
    }

    /// Reads an object whose content is of this type, a number of the library.
    ///
    /// # Errors
    /// The malformed part, and what is wrong in it; the content is of another type.
    pub(crate) fn decode_of(octets: impl IntoOctets, strict: bool, number: u8) -> Result<Self, ValidationError> {
        let octets = octets.into_octets();
        let reason = || SignedObject::reason(&octets, strict).map(|(_, reason)| reason);
        let object = SignedObject::decode(&octets, strict).map_err(|part| MalformedError::new(part, reason()))?;
        object.must_be_of(number)?;
        Ok(object)
    }

    /// # Errors
    /// The content is of another type than this one.
    fn must_be_of(&self, number: u8) -> Result<(), ValidationError> {
        if ffi::content_type(self.content_type.0.as_ref()) != number {
            return Err(ValidationError::verification("content of another type"));
        }
        Ok(())
    }
}
