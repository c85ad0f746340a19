//! What the extensions of certificates say (RFC 6487 4.8).

use super::access::Places;
use super::Cert;
use crate::crypto::keys::KeyIdentifier;
use crate::ffi::{self, Status};
use crate::repository::resources::{AsResources, IpResources};
use crate::uri::{Https, Rsync};
use bytes::Bytes;
use std::error::Error;
use std::fmt;

/// An extension that is there, but malformed, or not as critical as it has to be (RFC 6487 4.8).
#[derive(Clone, Copy, Debug, PartialEq, Eq, Hash)]
#[non_exhaustive]
pub enum ExtensionError {
    /// The basic constraints are not critical, or not cA alone.
    BasicConstraints,
    /// The subject key identifier is critical, or has not twenty octets.
    SubjectKeyIdentifier,
    /// The authority key identifier is critical, or is not one of twenty octets alone.
    AuthorityKeyIdentifier,
    /// The key usage is not critical, or not exactly one of the two uses.
    KeyUsage,
    /// The certificate policies are not critical, or not exactly one of the RPKI, with one qualifier at most.
    CertificatePolicies,
}

impl ExtensionError {
    pub(crate) fn from_status(status: Status) -> ExtensionError {
        match status {
            80 => ExtensionError::BasicConstraints,
            81 => ExtensionError::SubjectKeyIdentifier,
            82 => ExtensionError::AuthorityKeyIdentifier,
            83 => ExtensionError::KeyUsage,
            84 => ExtensionError::CertificatePolicies,
            _ => unreachable!("{status} is no status of the extensions of a certificate"),
        }
    }
}

impl ExtensionError {
    /// What is said of it.
    pub(crate) fn text(&self) -> &'static str {
        match self {
            ExtensionError::BasicConstraints => "wrong basic constraints",
            ExtensionError::SubjectKeyIdentifier => "wrong subject key identifier",
            ExtensionError::AuthorityKeyIdentifier => "wrong authority key identifier",
            ExtensionError::KeyUsage => "wrong key usage",
            ExtensionError::CertificatePolicies => "wrong certificate policies",
        }
    }
}

impl fmt::Display for ExtensionError {
    fn fmt(&self, f: &mut fmt::Formatter) -> fmt::Result {
        f.write_str(self.text())
    }
}

impl Error for ExtensionError {}

/// What the subject's key may be used for (RFC 6487 4.8.4).
#[derive(Clone, Copy, Debug, PartialEq, Eq, Hash)]
pub enum KeyUsage {
    /// To sign certificates and revocation lists: keyCertSign and cRLSign, of a certification authority.
    Ca,
    /// To sign objects: digitalSignature, of an end entity.
    Ee,
}

/// What is done where a certificate claims resources that its issuer's hasn't, as its policy says (RFC 8360 4).
#[derive(Clone, Copy, Debug, PartialEq, Eq, Hash)]
pub enum Overclaim {
    /// The certificate is rejected (RFC 6484 1.2).
    Refuse,
    /// The resources that both have remain (RFC 8360 4.2.1).
    Trim,
}

/// An extension of a certificate.
#[derive(Clone, Debug, PartialEq, Eq)]
#[non_exhaustive]
pub struct KnownExtension {
    /// Whether it is critical.
    pub critical: bool,
    /// The octets of its OCTET STRING, which share those of the certificate.
    pub octets: Bytes,
}

/// The extensions that certificates of the RPKI have, where they are there (RFC 6487 4.8), and what five of them say.
#[derive(Clone, Debug, PartialEq, Eq)]
#[non_exhaustive]
pub struct KnownExtensions {
    /// The basic constraints.
    pub basic_constraints: Option<KnownExtension>,
    /// The subject key identifier.
    pub subject_key_identifier: Option<KnownExtension>,
    /// The authority key identifier.
    pub authority_key_identifier: Option<KnownExtension>,
    /// The key usage.
    pub key_usage: Option<KnownExtension>,
    /// The extended key usage.
    pub extended_key_usage: Option<KnownExtension>,
    /// The CRL distribution points.
    pub crl_distribution_points: Option<KnownExtension>,
    /// The authority information access.
    pub authority_info_access: Option<KnownExtension>,
    /// The subject information access.
    pub subject_info_access: Option<KnownExtension>,
    /// The certificate policies.
    pub certificate_policies: Option<KnownExtension>,
    /// The IP resources.
    pub ip_resources: Option<KnownExtension>,
    /// The IP resources with validation reconsidered (RFC 8360 4.2.2.1).
    pub ip_resources_v2: Option<KnownExtension>,
    /// The AS resources.
    pub as_resources: Option<KnownExtension>,
    /// The AS resources with validation reconsidered (RFC 8360 4.2.2.3).
    pub as_resources_v2: Option<KnownExtension>,
    /// Whether the subject is a certification authority, by the basic constraints.
    pub basic_ca: bool,
    /// The identifier of the subject's key.
    pub subject_key: Option<KeyIdentifier>,
    /// The identifier of the issuer's key.
    pub authority_key: Option<KeyIdentifier>,
    /// What the subject's key may be used for.
    pub usage: Option<KeyUsage>,
    /// What the policy says of resources that the issuer's certificate hasn't.
    pub overclaim: Option<Overclaim>,
}

impl KnownExtensions {
    fn of(octets: &Bytes, found: &ffi::KnownExtensions) -> KnownExtensions {
        let known = |it: ffi::KnownExtension| {
            it.is_there.then(|| KnownExtension { critical: it.critical, octets: octets.slice(it.octets.range(octets)) })
        };
        let key = |it: ffi::KnownExtension, key: [u8; 20]| it.is_there.then(|| KeyIdentifier::from(key));
        KnownExtensions {
            basic_constraints: known(found.basic_constraints),
            subject_key_identifier: known(found.subject_key_identifier),
            authority_key_identifier: known(found.authority_key_identifier),
            key_usage: known(found.key_usage),
            extended_key_usage: known(found.extended_key_usage),
            crl_distribution_points: known(found.crl_distribution_points),
            authority_info_access: known(found.authority_info_access),
            subject_info_access: known(found.subject_info_access),
            certificate_policies: known(found.certificate_policies),
            ip_resources: known(found.ip_resources),
            ip_resources_v2: known(found.ip_resources_v2),
            as_resources: known(found.as_resources),
            as_resources_v2: known(found.as_resources_v2),
            basic_ca: found.is_ca,
            subject_key: key(found.subject_key_identifier, found.subject_key),
            authority_key: key(found.authority_key_identifier, found.authority_key),
            usage: match found.usage {
                1 => Some(KeyUsage::Ca),
                2 => Some(KeyUsage::Ee),
                _ => None,
            },
            overclaim: match found.policy {
                1 => Some(Overclaim::Refuse),
                2 => Some(Overclaim::Trim),
                _ => None,
            },
        }
    }
}

/// What was read of the extensions of a certificate: what they are, where something is, and what it claims.
#[derive(Clone, Debug)]
pub(super) struct Kept {
    pub(super) known: KnownExtensions,
    places: Places,
    v4: IpResources,
    v6: IpResources,
    numbers: AsResources,
}

impl Kept {
    /// What a call has found of a certificate of these octets.
    pub(super) fn of(octets: &Bytes, found: &ffi::KnownExtensions) -> Self {
        let known = KnownExtensions::of(octets, found);
        let ip = known.ip_resources.as_ref().or(known.ip_resources_v2.as_ref());
        let (v4, v6) = ip.and_then(|claim| IpResources::decode_families(&claim.octets).ok()).unwrap_or_default();
        let numbers = known.as_resources.as_ref().or(known.as_resources_v2.as_ref());
        Kept {
            v4: v4.unwrap_or_else(IpResources::missing),
            v6: v6.unwrap_or_else(IpResources::missing),
            numbers: numbers
                .and_then(|claim| AsResources::decode(&claim.octets).ok())
                .unwrap_or_else(AsResources::missing),
            places: Places::of(&known),
            known,
        }
    }
}

/// What the extensions say, under the names of the crate rpki, which rejects a certificate with a malformed one when it
/// reads it. Here nothing is said of one that is missing or malformed; [Cert::known_extensions] tells why, and no valid
/// certificate has one.
impl Cert {
    fn known(&self) -> Option<&KnownExtensions> {
        self.known_extensions().ok()
    }

    fn places(&self) -> Option<&Places> {
        self.kept.as_ref().ok().map(|kept| &kept.places)
    }

    /// Whether the subject is a certification authority, as the basic constraints say.
    pub fn basic_ca(&self) -> Option<bool> {
        let known = self.known()?;
        known.basic_constraints.as_ref().map(|_| known.basic_ca)
    }

    /// The identifier of the subject's key; where the extension doesn't say, as it is computed (RFC 6487 4.8.2).
    pub fn subject_key_identifier(&self) -> KeyIdentifier {
        let said = self.known().and_then(|known| known.subject_key);
        said.unwrap_or_else(|| self.subject_public_key_info().key_identifier())
    }

    /// The identifier of the issuer's key.
    pub fn authority_key_identifier(&self) -> Option<KeyIdentifier> {
        self.known()?.authority_key
    }

    /// What the subject's key may be used for: that of an end entity, where the extension doesn't say.
    pub fn key_usage(&self) -> KeyUsage {
        self.known().and_then(|known| known.usage).unwrap_or(KeyUsage::Ee)
    }

    /// What the policy says of resources that the issuer's certificate hasn't: that they are refused, where it doesn't
    /// say.
    pub fn overclaim(&self) -> Overclaim {
        self.known().and_then(|known| known.overclaim).unwrap_or(Overclaim::Refuse)
    }

    /// Where the revocation list of the issuer is, as [KnownExtensions::crl_uri] says; a trust anchor has none.
    pub fn crl_uri(&self) -> Option<&Rsync> {
        self.places()?.crl_uri.as_ref()
    }

    /// Where the issuer's certificate is, as [KnownExtensions::ca_issuer] says; a trust anchor has none.
    pub fn ca_issuer(&self) -> Option<&Rsync> {
        self.places()?.ca_issuer.as_ref()
    }

    /// Where an authority publishes, as [KnownExtensions::ca_repository] says.
    pub fn ca_repository(&self) -> Option<&Rsync> {
        self.places()?.ca_repository.as_ref()
    }

    /// Where an authority's manifest is, as [KnownExtensions::rpki_manifest] says.
    pub fn rpki_manifest(&self) -> Option<&Rsync> {
        self.places()?.rpki_manifest.as_ref()
    }

    /// Where the object is that an end entity signs, as [KnownExtensions::signed_object] says.
    pub fn signed_object(&self) -> Option<&Rsync> {
        self.places()?.signed_object.as_ref()
    }

    /// Where changes of an authority's repository are notified, as [KnownExtensions::rpki_notify] says.
    pub fn rpki_notify(&self) -> Option<&Https> {
        self.places()?.rpki_notify.as_ref()
    }

    /// The addresses of IP version 4 that the certificate claims. Whether it has them, [ResourceCert] says.
    ///
    /// [ResourceCert]: super::ResourceCert
    pub fn v4_resources(&self) -> &IpResources {
        self.kept.as_ref().map_or(IpResources::MISSING, |kept| &kept.v4)
    }

    /// The same of IP version 6.
    pub fn v6_resources(&self) -> &IpResources {
        self.kept.as_ref().map_or(IpResources::MISSING, |kept| &kept.v6)
    }

    /// The same of AS numbers.
    pub fn as_resources(&self) -> &AsResources {
        self.kept.as_ref().map_or(AsResources::MISSING, |kept| &kept.numbers)
    }

    /// Whether the certificate claims addresses of either family.
    pub fn has_ip_resources(&self) -> bool {
        self.v4_resources().is_present() || self.v6_resources().is_present()
    }
}
