//! Revocation lists (RFC 5280 5, RFC 6487 5).

use crate::crypto::keys::{KeyIdentifier, PublicKey};
use crate::crypto::signature::{
    Provider, RpkiSignature, RpkiSignatureAlgorithm, Signature, SignatureVerificationError,
};
use crate::encode::{value, SEQUENCE};
use crate::ffi::{self, Status};
use crate::octets::IntoOctets;
use crate::repository::cert::{Cert, ResourceCert};
use crate::repository::error::ValidationError;
use crate::repository::x509::{Name, Serial, Time};
use crate::uri;
use crate::view::DecodeError;
use bytes::Bytes;
use std::collections::HashSet;
use std::error::Error;
use std::fmt;
use std::ops::Deref;

/// The part of a revocation list that is wrong: of the signed data the leftmost; then of what is signed the leftmost;
/// then that both algorithm identifiers are the same.
#[derive(Clone, Copy, Debug, PartialEq, Eq, Hash)]
#[non_exhaustive]
pub enum CrlError {
    /// The SEQUENCE around all isn't there, or something follows it.
    List,
    /// What is signed is no value, with everything nested in it.
    Signed,
    /// The algorithm identifier after it is not that of RSA with SHA-256.
    Algorithm,
    /// The signature is no BIT STRING, has unused bits, or something follows it.
    Signature,
    /// What is signed is no SEQUENCE.
    Tbs,
    /// The version is not v2.
    Version,
    /// The algorithm identifier in what is signed.
    TbsAlgorithm,
    /// The issuer is no name.
    Issuer,
    /// When the list was issued.
    ThisUpdate,
    /// When the next list is issued at the latest.
    NextUpdate,
    /// One of the entries is not a serial number and a time, and nothing else.
    RevokedCerts,
    /// The extensions are not exactly an authority key identifier and a number, neither critical.
    Extensions,
    /// The two algorithm identifiers differ.
    SameAlgorithm,
}

impl CrlError {
    fn from_status(status: Status) -> CrlError {
        match status {
            64 => CrlError::List,
            65 => CrlError::Signed,
            66 => CrlError::Algorithm,
            67 => CrlError::Signature,
            68 => CrlError::Tbs,
            69 => CrlError::Version,
            71 => CrlError::TbsAlgorithm,
            72 => CrlError::Issuer,
            76 => CrlError::Extensions,
            79 => CrlError::SameAlgorithm,
            120 => CrlError::ThisUpdate,
            121 => CrlError::NextUpdate,
            122 => CrlError::RevokedCerts,
            _ => unreachable!("{status} is no status of a revocation list"),
        }
    }
}

impl CrlError {
    /// What is said of it.
    pub(crate) fn text(&self) -> &'static str {
        match self {
            CrlError::List => "not a revocation list",
            CrlError::Signed => "malformed signed data",
            CrlError::Algorithm => "signature algorithm is not the RPKI's",
            CrlError::Signature => "malformed signature",
            CrlError::Tbs => "malformed revocation list",
            CrlError::Version => "other version",
            CrlError::TbsAlgorithm => "signed algorithm is not the RPKI's",
            CrlError::Issuer => "malformed issuer",
            CrlError::ThisUpdate => "malformed time of issue",
            CrlError::NextUpdate => "malformed time of the next list",
            CrlError::RevokedCerts => "malformed entry of a revoked certificate",
            CrlError::Extensions => "malformed extensions",
            CrlError::SameAlgorithm => "signature algorithms differ",
        }
    }
}

impl fmt::Display for CrlError {
    fn fmt(&self, f: &mut fmt::Formatter) -> fmt::Result {
        f.write_str(self.text())
    }
}

impl Error for CrlError {}

/// A revocation list: its octets, and what they say. The issuer and the entries share the octets that it was read from.
/// Two are equal where their octets are. Whether the signature is that of a key, [Crl::verify_signature] says;
/// [Crl::validate], whether it is the current list of an authority.
///
/// ```
/// use rpki_proved::repository::crl::{Crl, CrlError};
///
/// assert_eq!(Crl::decode(&b"\x30\x00\x30\x00"[..]).unwrap_err(), CrlError::List);
/// assert_eq!(Crl::decode(&b"\x30\x00"[..]).unwrap_err(), CrlError::Signed);
/// ```
#[derive(Clone, Debug)]
pub struct Crl {
    octets: Bytes,
    signed: Bytes,
    signature: RpkiSignature,
    issuer: Name,
    this_update: Time,
    next_update: Time,
    revoked_certs: RevokedCertificates,
    authority_key_identifier: KeyIdentifier,
    crl_number: Serial,
    serials: Option<HashSet<Serial>>,
}

impl Crl {
    /// Reads a revocation list that is all of the octets.
    ///
    /// # Errors
    /// The malformed part.
    pub fn decode(octets: impl IntoOctets) -> Result<Self, CrlError> {
        let octets = octets.into_octets();
        let found = ffi::crl(&octets).map_err(CrlError::from_status)?;
        let algorithm = RpkiSignatureAlgorithm { has_parameters: found.has_parameters };
        Ok(Crl {
            signed: octets.slice(found.data.range(&octets)),
            signature: Signature::new(algorithm, octets.slice(found.signature.range(&octets))),
            // What the call has found to be a name is one.
            issuer: Name::read(octets.slice(found.issuer.range(&octets))),
            this_update: Time::from(found.this_update),
            next_update: Time::from(found.next_update),
            revoked_certs: RevokedCertificates(octets.slice(found.revoked_certs.range(&octets))),
            authority_key_identifier: KeyIdentifier::from(found.authority_key_identifier),
            crl_number: Serial::read(found.crl_number),
            serials: None,
            octets,
        })
    }

    /// Why octets are no list: the malformed part, and the leftmost error in it, as a reader of that part returns it.
    /// None where they are one.
    ///
    /// ```
    /// use rpki_proved::repository::crl::{Crl, CrlError};
    /// use rpki_proved::view::DecodeError;
    ///
    /// assert_eq!(Crl::reason(b"\x30\x00\x30\x00"), Some((CrlError::List, DecodeError::Trailing)));
    /// ```
    pub fn reason(octets: &[u8]) -> Option<(CrlError, DecodeError)> {
        let (part, error) = ffi::crl_error(octets).err()?;
        Some((CrlError::from_status(part), DecodeError::from_status(error)))
    }

    /// The octets of the list.
    pub fn to_bytes(&self) -> Bytes {
        self.octets.clone()
    }

    /// What is signed, as exactly the octets that are signed.
    pub fn signed(&self) -> &Bytes {
        &self.signed
    }

    /// The signature.
    pub fn signature(&self) -> &RpkiSignature {
        &self.signature
    }

    /// The issuer.
    pub fn issuer(&self) -> &Name {
        &self.issuer
    }

    /// When the list was issued.
    pub fn this_update(&self) -> Time {
        self.this_update
    }

    /// When the next list is issued at the latest.
    pub fn next_update(&self) -> Time {
        self.next_update
    }

    /// Whether the next list is due by now, by the machine's clock, so that this one may lack certificates that are
    /// revoked.
    #[must_use]
    pub fn is_stale(&self) -> bool {
        self.next_update < Time::now()
    }

    /// The certificates that are revoked, in the order of the list; none where it is left out.
    pub fn revoked_certs(&self) -> &RevokedCertificates {
        &self.revoked_certs
    }

    /// The identifier of the key that signed the list.
    pub fn authority_key_identifier(&self) -> &KeyIdentifier {
        &self.authority_key_identifier
    }

    /// The number of the list: a later list of the issuer has a higher one.
    pub fn crl_number(&self) -> Serial {
        self.crl_number
    }

    /// Keeps the serial numbers of the entries, so that [Crl::contains] takes one step for any number of them.
    pub fn cache_serials(&mut self) {
        self.serials = Some(self.revoked_certs.iter().map(|entry| entry.user_certificate).collect());
    }

    /// Whether the list has a certificate of this serial number: in one step after [Crl::cache_serials], and else in
    /// one an entry.
    #[must_use]
    pub fn contains(&self, serial: Serial) -> bool {
        match &self.serials {
            Some(serials) => serials.contains(&serial),
            None => self.revoked_certs.contains(serial),
        }
    }

    /// Checks that the signature is by this key over exactly the signed octets, as
    /// [RsaProvider](crate::crypto::RsaProvider) says.
    ///
    /// # Errors
    /// The key is of another format, or the signature is not one by it.
    pub fn verify_signature(&self, key: &PublicKey) -> Result<(), SignatureVerificationError> {
        key.verify(&self.signed, &self.signature)
    }

    /// The same, as this provider says.
    ///
    /// # Errors
    /// The key is of another format, or the provider says no.
    pub fn verify_signature_with(
        &self,
        provider: &impl Provider,
        key: &PublicKey,
    ) -> Result<(), SignatureVerificationError> {
        key.verify_with(provider, &self.signed, &self.signature)
    }
}

impl Crl {
    /// Checks that this is the list of the authority, and current now, by the machine's clock: it has the name and the
    /// key identifier of the authority's certificate, that key has signed it, and now is not before this update, nor
    /// after the next (RFC 5280 6.3.3, RFC 6487 5). Whether another list is newer is not looked at. Where more than a few
    /// certificates are asked about, call [CurrentCrl::cache_serials] of what this returns.
    ///
    /// # Errors
    /// The first that doesn't hold; the issuer is no authority.
    pub fn validate(self, issuer: &ResourceCert) -> Result<CurrentCrl, ValidationError> {
        self.validate_at(issuer, Time::now())
    }

    /// The same at this moment.
    ///
    /// # Errors
    /// Those of [Crl::validate].
    pub fn validate_at(self, issuer: &ResourceCert, now: Time) -> Result<CurrentCrl, ValidationError> {
        issuer.must_be_authority()?;
        ffi::crl_issued_by(&self.octets, &issuer.to_bytes(), &now.moment()).map_err(ValidationError::from_status)?;
        Ok(CurrentCrl(self))
    }
}

crate::captured::captured!(Crl);

impl PartialEq for Crl {
    fn eq(&self, other: &Crl) -> bool {
        self.octets == other.octets
    }
}

impl Eq for Crl {}

#[cfg(feature = "serde")]
crate::texts::serialized_as_octets!(Crl, "a revocation list in base 64");

/// The list of an authority, current when [Crl::validate] made this of it: nothing else does.
#[derive(Clone, Debug)]
pub struct CurrentCrl(Crl);

impl CurrentCrl {
    /// Checks that a certificate is of the list's issuer, by its name and its key identifier, and that the list hasn't
    /// its serial number. So it is what [Roa::process](super::roa::Roa::process) and its kin ask of an end entity.
    ///
    /// # Errors
    /// The first that doesn't hold.
    pub fn verify_not_revoked(&self, cert: &Cert) -> Result<(), ValidationError> {
        let is_of_key = cert.known_extensions()?.authority_key == Some(self.0.authority_key_identifier);
        if !is_of_key || cert.issuer().as_slice() != self.0.issuer.as_slice() {
            return Err(ValidationError::verification("revocation list is another authority's"));
        }
        if self.0.contains(cert.serial_number()) {
            return Err(ValidationError::verification("certificate is revoked"));
        }
        Ok(())
    }

    /// Keeps the serial numbers of the entries, as [Crl::cache_serials] does: without it each certificate that is asked
    /// about takes a step an entry.
    pub fn cache_serials(&mut self) {
        self.0.cache_serials();
    }

    /// The list.
    pub fn into_crl(self) -> Crl {
        self.0
    }
}

impl Deref for CurrentCrl {
    type Target = Crl;

    fn deref(&self) -> &Crl {
        &self.0
    }
}

/// The certificates that are revoked, in the order of their list.
#[derive(Clone, Debug)]
pub struct RevokedCertificates(Bytes);

impl RevokedCertificates {
    /// The octets of the entries, in sequence.
    pub fn as_slice(&self) -> &[u8] {
        &self.0
    }

    /// The entries, in order.
    pub fn iter(&self) -> Entries<'_> {
        Entries { rest: &self.0 }
    }

    /// Whether one of them has this serial number; takes a step an entry.
    #[must_use]
    pub fn contains(&self, serial: Serial) -> bool {
        ffi::crl_contains(&self.0, &serial.into_array()).expect("entries that were read")
    }
}

/// Those of these entries, in their order.
impl FromIterator<CrlEntry> for RevokedCertificates {
    fn from_iter<I: IntoIterator<Item = CrlEntry>>(entries: I) -> Self {
        let entry = |entry: CrlEntry| {
            let parts = [entry.user_certificate.encode(), entry.revocation_date.encode_varied()];
            value(SEQUENCE, &parts.concat())
        };
        RevokedCertificates(entries.into_iter().map(entry).collect::<Vec<_>>().concat().into())
    }
}

impl<'a> IntoIterator for &'a RevokedCertificates {
    type Item = CrlEntry;
    type IntoIter = Entries<'a>;

    fn into_iter(self) -> Entries<'a> {
        self.iter()
    }
}

/// A certificate that is revoked (RFC 5280 5.1.2.6).
#[derive(Clone, Copy, Debug, PartialEq, Eq, Hash)]
pub struct CrlEntry {
    user_certificate: Serial,
    revocation_date: Time,
}

impl CrlEntry {
    /// An entry of these parts.
    pub fn new(user_certificate: Serial, revocation_date: Time) -> Self {
        CrlEntry { user_certificate, revocation_date }
    }

    /// The serial number of the certificate.
    pub fn user_certificate(self) -> Serial {
        self.user_certificate
    }

    /// When it was revoked.
    pub fn revocation_date(self) -> Time {
        self.revocation_date
    }
}

/// The entries of a revocation list, in order.
#[derive(Clone, Debug)]
pub struct Entries<'a> {
    rest: &'a [u8],
}

impl Iterator for Entries<'_> {
    type Item = CrlEntry;

    fn next(&mut self) -> Option<CrlEntry> {
        if self.rest.is_empty() {
            return None;
        }
        let (found, rest) = ffi::crl_entry(self.rest).expect("an entry that was read");
        self.rest = rest;
        let user_certificate = Serial::read(found.serial_number);
        Some(CrlEntry::new(user_certificate, Time::from(found.revocation_date)))
    }
}

/// Revocation lists by the URIs of their files.
#[derive(Clone, Debug, Default)]
pub struct CrlStore {
    lists: Vec<(uri::Rsync, Crl)>,
    caches_serials: bool,
}

impl CrlStore {
    /// A store without lists.
    pub fn new() -> Self {
        CrlStore::default()
    }

    /// Has each list that is put in from here on keep its serial numbers, as [Crl::cache_serials] does.
    pub fn enable_serial_caching(&mut self) {
        self.caches_serials = true;
    }

    /// Puts in the list of this URI.
    pub fn push(&mut self, uri: uri::Rsync, mut list: Crl) {
        if self.caches_serials {
            list.cache_serials();
        }
        self.lists.push((uri, list));
    }

    /// The list of this URI: the first that was put in.
    pub fn get(&self, uri: &uri::Rsync) -> Option<&Crl> {
        self.lists.iter().find(|(own, _)| own == uri).map(|(_, list)| list)
    }
}
