//! The rules of the profiles of certificates (RFC 6487 4, RFC 8209 3.1).

use crate::ffi::Status;
use std::error::Error;
use std::fmt;

/// The rule of a profile of certificates that a certificate breaks first, in the order in which they are tested. An
/// extension that a profile wants, and that is malformed or not as critical as it has to be, is another.
#[derive(Clone, Copy, Debug, PartialEq, Eq, Hash)]
#[non_exhaustive]
pub enum CertRule {
    /// The serial number is 0 (RFC 5280 4.1.2.2).
    SerialNumber,
    /// A critical extension is unknown (RFC 5280 4.2).
    CriticalExtensions,
    /// The issuer has no name of the RPKI (RFC 6487 4.4).
    Issuer,
    /// The subject has no name of the RPKI (RFC 6487 4.5).
    Subject,
    /// The subject has no name of a router (RFC 8209 3.1.1).
    RouterSubject,
    /// The subject's key is no RSA key of 2,048 bits and the exponent 65,537 (RFC 7935 3).
    RsaKey,
    /// The subject's key is no uncompressed point on P-256 (RFC 8608 3.1).
    RouterKey,
    /// The basic constraints are missing or others (RFC 6487 4.8.1).
    BasicConstraints,
    /// Basic constraints are there (RFC 6487 4.8.1).
    NoBasicConstraints,
    /// The subject key identifier is missing or another (RFC 6487 4.8.2).
    SubjectKeyIdentifier,
    /// The authority key identifier is missing or another (RFC 6487 4.8.3).
    AuthorityKeyIdentifier,
    /// The key usage is not that of a certification authority (RFC 6487 4.8.4).
    AuthorityUsage,
    /// The key usage is not that of an end entity (RFC 6487 4.8.4).
    EndUsage,
    /// An extended key usage is there (RFC 6487 4.8.5).
    NoExtendedKeyUsage,
    /// The extended key usage has no purpose of a router (RFC 8209 3.1.3.2).
    RouterPurpose,
    /// The URI of the revocation list is missing (RFC 6487 4.8.6).
    RevocationList,
    /// CRL distribution points are there (RFC 6487 4.8.6).
    NoRevocationList,
    /// The URI of the issuer's certificate is missing (RFC 6487 4.8.7).
    IssuerCertificate,
    /// An authority information access is there (RFC 6487 4.8.7).
    NoIssuerCertificate,
    /// The URI of the repository is missing (RFC 6487 4.8.8.1).
    Repository,
    /// The URI of the manifest is missing (RFC 6487 4.8.8.1).
    Manifest,
    /// The URI of the signed object is missing (RFC 6487 4.8.8.2).
    SignedObject,
    /// A subject information access is there (RFC 8209 3.1.3.3).
    NoSubjectAccess,
    /// The certificate policies are missing or others (RFC 6487 4.8.9).
    CertificatePolicies,
    /// Resources are missing, or not critical (RFC 6487 4.8.10, 4.8.11).
    Resources,
    /// Numbers are missing, or addresses are there (RFC 8209 3.1.3.4, 3.1.3.5).
    RouterNumbers,
    /// An end entity's access information has another method than those of the signed object and of the repository's
    /// notifications (RFC 6487 4.8.8.2, RFC 8182 3.2).
    ObjectAccess,
    /// The period ends before it begins (RFC 5280 4.1.2.5).
    Validity,
    /// The authority key identifier of a trust anchor is malformed, critical, or not its own (RFC 6487 4.8.3).
    OwnAuthority,
    /// The issuer of a trust anchor is not its subject (RFC 8630 2.3).
    SelfIssued,
    /// Policy and resources are of two versions (RFC 8360 4.2).
    ResourceVersion,
    /// Addresses or numbers are not in canonical form (RFC 6487 4.8.10, 4.8.11).
    ResourceBlocks,
    /// A trust anchor or a router has resources of its issuer (RFC 8630 2.3, RFC 8209 3.1.3.5).
    OwnResources,
    /// The URI of the manifest doesn't lie below that of the repository (RFC 6487 4.8.8.1, RFC 9286 2).
    ManifestPlace,
    /// A description of the repository's notifications has no https URI (RFC 8182 3.2).
    Notifications,
    /// A value of the issuer's name is not of 1 to 64 characters (RFC 5280 A.1).
    IssuerSize,
    /// A value of the subject's name is not of 1 to 64 characters (RFC 5280 A.1).
    SubjectSize,
    /// The serial number of a router's name is no PrintableString (RFC 8209 3.1.1).
    RouterSerialNumber,
}

impl CertRule {
    pub(crate) fn from_status(status: Status) -> CertRule {
        match status {
            85 => CertRule::SerialNumber,
            86 => CertRule::CriticalExtensions,
            87 => CertRule::Issuer,
            88 => CertRule::Subject,
            89 => CertRule::RouterSubject,
            90 => CertRule::RsaKey,
            91 => CertRule::RouterKey,
            92 => CertRule::BasicConstraints,
            93 => CertRule::NoBasicConstraints,
            94 => CertRule::SubjectKeyIdentifier,
            95 => CertRule::AuthorityKeyIdentifier,
            96 => CertRule::AuthorityUsage,
            97 => CertRule::EndUsage,
            98 => CertRule::NoExtendedKeyUsage,
            99 => CertRule::RouterPurpose,
            100 => CertRule::RevocationList,
            101 => CertRule::NoRevocationList,
            102 => CertRule::IssuerCertificate,
            103 => CertRule::NoIssuerCertificate,
            104 => CertRule::Repository,
            105 => CertRule::Manifest,
            106 => CertRule::SignedObject,
            107 => CertRule::NoSubjectAccess,
            108 => CertRule::CertificatePolicies,
            109 => CertRule::Resources,
            110 => CertRule::RouterNumbers,
            111 => CertRule::ObjectAccess,
            112 => CertRule::Validity,
            113 => CertRule::OwnAuthority,
            114 => CertRule::SelfIssued,
            115 => CertRule::ResourceVersion,
            116 => CertRule::ResourceBlocks,
            117 => CertRule::OwnResources,
            118 => CertRule::ManifestPlace,
            119 => CertRule::Notifications,
            156 => CertRule::IssuerSize,
            157 => CertRule::SubjectSize,
            158 => CertRule::RouterSerialNumber,
            _ => unreachable!("{status} is no status of a certificate that is held to a profile"),
        }
    }
}

impl CertRule {
    /// What is said of it.
    pub(crate) fn text(&self) -> &'static str {
        match self {
            CertRule::SerialNumber => "serial number is 0",
            CertRule::CriticalExtensions => "unknown critical extension",
            CertRule::Issuer => "issuer has no name of the RPKI",
            CertRule::Subject => "subject has no name of the RPKI",
            CertRule::RouterSubject => "subject has no name of a router",
            CertRule::RsaKey => "key is no RSA key of 2048 bits and the exponent 65537",
            CertRule::RouterKey => "key is no uncompressed point on P-256",
            CertRule::BasicConstraints => "missing basic constraints",
            CertRule::NoBasicConstraints => "basic constraints are there",
            CertRule::SubjectKeyIdentifier => "missing subject key identifier",
            CertRule::AuthorityKeyIdentifier => "missing authority key identifier",
            CertRule::AuthorityUsage => "key usage is not that of an authority",
            CertRule::EndUsage => "key usage is not that of an end entity",
            CertRule::NoExtendedKeyUsage => "extended key usage is there",
            CertRule::RouterPurpose => "missing purpose of a router",
            CertRule::RevocationList => "missing URI of the revocation list",
            CertRule::NoRevocationList => "CRL distribution points are there",
            CertRule::IssuerCertificate => "missing URI of the issuer's certificate",
            CertRule::NoIssuerCertificate => "authority information access is there",
            CertRule::Repository => "missing URI of the repository",
            CertRule::Manifest => "missing URI of the manifest",
            CertRule::SignedObject => "missing URI of the signed object",
            CertRule::NoSubjectAccess => "subject information access is there",
            CertRule::CertificatePolicies => "missing certificate policies",
            CertRule::Resources => "missing resources, or ones that are not critical",
            CertRule::RouterNumbers => "missing AS numbers, or addresses are there",
            CertRule::ObjectAccess => "other access method of an end entity",
            CertRule::Validity => "period ends before it begins",
            CertRule::OwnAuthority => "authority key identifier of a trust anchor is not its own",
            CertRule::SelfIssued => "issuer of a trust anchor is not its subject",
            CertRule::ResourceVersion => "policy and resources of two versions",
            CertRule::ResourceBlocks => "resources that are not in canonical form",
            CertRule::OwnResources => "resources of the issuer",
            CertRule::ManifestPlace => "manifest is not in the repository",
            CertRule::Notifications => "notifications without an https URI",
            CertRule::IssuerSize => "value of the issuer is not of 1 to 64 characters",
            CertRule::SubjectSize => "value of the subject is not of 1 to 64 characters",
            CertRule::RouterSerialNumber => "serial number of the subject is no PrintableString",
        }
    }
}

impl fmt::Display for CertRule {
    fn fmt(&self, f: &mut fmt::Formatter) -> fmt::Result {
        f.write_str(self.text())
    }
}

impl Error for CertRule {}

#[cfg(test)]
mod tests {
    use super::CertRule;

    /// Each status has the rule of its name in the header.
    #[test]
    fn rules_are_those_of_the_header() {
        let lines = include_str!("../../ffi/declarations.rs").lines();
        let named: Vec<(&str, u8)> = lines
            .filter_map(|line| {
                line.strip_prefix("pub(crate) const RULE_")?.strip_suffix(';')?.split_once(": Status = ")
            })
            .map(|(name, number)| (name, number.parse().unwrap()))
            .collect();
        assert_eq!(named.len(), 38);
        for (name, number) in named {
            let letters = format!("{:?}", CertRule::from_status(number)).to_uppercase();
            assert_eq!(letters, name.replace('_', ""), "{number}");
        }
    }
}
