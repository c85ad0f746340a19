//! Object identifiers.

use std::fmt;

/// An object identifier, by its contents octets (X.690 8.19). It is shown in dotted form.
#[derive(Clone, Copy, Debug, Default)]
pub struct Oid<T: AsRef<[u8]> = bytes::Bytes>(pub T);

/// An object identifier of constant octets.
pub type ConstOid = Oid<&'static [u8]>;

impl<T: AsRef<[u8]>, U: AsRef<[u8]>> PartialEq<Oid<U>> for Oid<T> {
    fn eq(&self, other: &Oid<U>) -> bool {
        self.0.as_ref() == other.0.as_ref()
    }
}

impl<T: AsRef<[u8]>> Eq for Oid<T> {}

impl<T: AsRef<[u8]>> std::hash::Hash for Oid<T> {
    fn hash<H: std::hash::Hasher>(&self, state: &mut H) {
        self.0.as_ref().hash(state)
    }
}

impl<T: AsRef<[u8]>> AsRef<[u8]> for Oid<T> {
    fn as_ref(&self) -> &[u8] {
        self.0.as_ref()
    }
}

impl<T: AsRef<[u8]>> fmt::Display for Oid<T> {
    /// Arcs of 2^121 or more are shown as `?`.
    fn fmt(&self, f: &mut fmt::Formatter) -> fmt::Result {
        crate::view::dotted(self.0.as_ref(), f)
    }
}

/// SHA-256: `id-sha256`, 2.16.840.1.101.3.4.2.1 (RFC 5754 2.2).
pub const SHA256: ConstOid = Oid(&[96, 134, 72, 1, 101, 3, 4, 2, 1]);

/// RSA keys, and RSA signatures in signed objects: `rsaEncryption`, 1.2.840.113549.1.1.1
/// (RFC 7935 3.1, RFC 3279 2.3.1).
pub const RSA_ENCRYPTION: ConstOid = Oid(&[42, 134, 72, 134, 247, 13, 1, 1, 1]);

/// RSA signatures with SHA-256: `sha256WithRSAEncryption`, 1.2.840.113549.1.1.11 (RFC 7935 2, RFC 4055 5).
pub const SHA256_WITH_RSA_ENCRYPTION: ConstOid = Oid(&[42, 134, 72, 134, 247, 13, 1, 1, 11]);

/// Keys on elliptic curves: `id-ecPublicKey`, 1.2.840.10045.2.1 (RFC 5480 2.1.1).
pub const EC_PUBLIC_KEY: ConstOid = Oid(&[42, 134, 72, 206, 61, 2, 1]);

/// ECDSA signatures with SHA-256: `ecdsa-with-SHA256`, 1.2.840.10045.4.3.2 (RFC 5758 3.2, RFC 8608 2).
pub const ECDSA_WITH_SHA256: ConstOid = Oid(&[42, 134, 72, 206, 61, 4, 3, 2]);

/// The curve P-256: `secp256r1`, 1.2.840.10045.3.1.7 (RFC 5480 2.1.1.1).
pub const SECP256R1: ConstOid = Oid(&[42, 134, 72, 206, 61, 3, 1, 7]);

/// The content type of signed data: `id-signedData`, 1.2.840.113549.1.7.2 (RFC 5652 5.1).
pub const SIGNED_DATA: ConstOid = Oid(&[42, 134, 72, 134, 247, 13, 1, 7, 2]);

/// The attribute of the content type: `id-contentType`, 1.2.840.113549.1.9.3 (RFC 5652 11.1).
pub const CONTENT_TYPE: ConstOid = Oid(&[42, 134, 72, 134, 247, 13, 1, 9, 3]);

/// The content type of the provisioning protocol: `id-ct-xml`, 1.2.840.113549.1.9.16.1.28 (RFC 6492 3.1).
pub const PROTOCOL_CONTENT_TYPE: ConstOid = Oid(&[42, 134, 72, 134, 247, 13, 1, 9, 16, 1, 28]);

/// The attribute of the message digest: `id-messageDigest`, 1.2.840.113549.1.9.4 (RFC 5652 11.2).
pub const MESSAGE_DIGEST: ConstOid = Oid(&[42, 134, 72, 134, 247, 13, 1, 9, 4]);

/// The attribute of the signing time: `id-signingTime`, 1.2.840.113549.1.9.5 (RFC 5652 11.3).
pub const SIGNING_TIME: ConstOid = Oid(&[42, 134, 72, 134, 247, 13, 1, 9, 5]);

/// The attribute of the signing time as a number: `id-aa-binarySigningTime`, 1.2.840.113549.1.9.16.2.46 (RFC 6019 2).
pub const AA_BINARY_SIGNING_TIME: ConstOid = Oid(&[42, 134, 72, 134, 247, 13, 1, 9, 16, 2, 46]);

/// Access to the certificate of the issuer: `id-ad-caIssuers`, 1.3.6.1.5.5.7.48.2 (RFC 5280 4.2.2.1).
pub const AD_CA_ISSUERS: ConstOid = Oid(&[43, 6, 1, 5, 5, 7, 48, 2]);

/// Access to the repository of a certification authority: `id-ad-caRepository`, 1.3.6.1.5.5.7.48.5 (RFC 5280 4.2.2.2).
pub const AD_CA_REPOSITORY: ConstOid = Oid(&[43, 6, 1, 5, 5, 7, 48, 5]);

/// Access to the manifest: `id-ad-rpkiManifest`, 1.3.6.1.5.5.7.48.10 (RFC 6487 4.8.8.1).
pub const AD_RPKI_MANIFEST: ConstOid = Oid(&[43, 6, 1, 5, 5, 7, 48, 10]);

/// Access to the update notification file: `id-ad-rpkiNotify`, 1.3.6.1.5.5.7.48.13 (RFC 8182 3.2).
pub const AD_RPKI_NOTIFY: ConstOid = Oid(&[43, 6, 1, 5, 5, 7, 48, 13]);

/// Access to the signed object: `id-ad-signedObject`, 1.3.6.1.5.5.7.48.11 (RFC 6487 4.8.8.2).
pub const AD_SIGNED_OBJECT: ConstOid = Oid(&[43, 6, 1, 5, 5, 7, 48, 11]);

/// The attribute type common name: `id-at-commonName`, 2.5.4.3 (RFC 5280 A.1).
pub const AT_COMMON_NAME: ConstOid = Oid(&[85, 4, 3]);

/// The attribute type serial number: `id-at-serialNumber`, 2.5.4.5 (RFC 5280 A.1).
pub const AT_SERIAL_NUMBER: ConstOid = Oid(&[85, 4, 5]);

/// The attribute type organization name: `id-at-organizationName`, 2.5.4.10 (RFC 5280 A.1).
pub const AT_ORGANIZATION_NAME: ConstOid = Oid(&[85, 4, 10]);

/// The extension authority key identifier: `id-ce-authorityKeyIdentifier`, 2.5.29.35 (RFC 5280 4.2.1.1).
pub const CE_AUTHORITY_KEY_IDENTIFIER: ConstOid = Oid(&[85, 29, 35]);

/// The extension basic constraints: `id-ce-basicConstraints`, 2.5.29.19 (RFC 5280 4.2.1.9).
pub const CE_BASIC_CONSTRAINTS: ConstOid = Oid(&[85, 29, 19]);

/// The extension certificate policies: `id-ce-certificatePolicies`, 2.5.29.32 (RFC 5280 4.2.1.4).
pub const CE_CERTIFICATE_POLICIES: ConstOid = Oid(&[85, 29, 32]);

/// The extension CRL distribution points: `id-ce-cRLDistributionPoints`, 2.5.29.31 (RFC 5280 4.2.1.13).
pub const CE_CRL_DISTRIBUTION_POINTS: ConstOid = Oid(&[85, 29, 31]);

/// The extension CRL number: `id-ce-cRLNumber`, 2.5.29.20 (RFC 5280 5.2.3).
pub const CE_CRL_NUMBER: ConstOid = Oid(&[85, 29, 20]);

/// The extension extended key usage: `id-ce-extKeyUsage`, 2.5.29.37 (RFC 5280 4.2.1.12).
pub const CE_EXTENDED_KEY_USAGE: ConstOid = Oid(&[85, 29, 37]);

/// The extension key usage: `id-ce-keyUsage`, 2.5.29.15 (RFC 5280 4.2.1.3).
pub const CE_KEY_USAGE: ConstOid = Oid(&[85, 29, 15]);

/// The extension subject key identifier: `id-ce-subjectKeyIdentifier`, 2.5.29.14 (RFC 5280 4.2.1.2).
pub const CE_SUBJECT_KEY_IDENTIFIER: ConstOid = Oid(&[85, 29, 14]);

/// The certificate policy of the RPKI: `id-cp-ipAddr-asNumber`, 1.3.6.1.5.5.7.14.2 (RFC 6484 1.2).
pub const CP_IPADDR_ASNUMBER: ConstOid = Oid(&[43, 6, 1, 5, 5, 7, 14, 2]);

/// The certificate policy of the RPKI with validation reconsidered: `id-cp-ipAddr-asNumber-v2`, 1.3.6.1.5.5.7.14.3
/// (RFC 8360 4.2.1).
pub const CP_IPADDR_ASNUMBER_V2: ConstOid = Oid(&[43, 6, 1, 5, 5, 7, 14, 3]);

/// The content type of a manifest: `id-ct-rpkiManifest`, 1.2.840.113549.1.9.16.1.26 (RFC 9286 4.1).
pub const CT_RPKI_MANIFEST: ConstOid = Oid(&[42, 134, 72, 134, 247, 13, 1, 9, 16, 1, 26]);

/// The content type of a signed checklist: `id-ct-signedChecklist`, 1.2.840.113549.1.9.16.1.48 (RFC 9323 3).
pub const CT_RESOURCE_SIGNED_CHECKLIST: ConstOid = Oid(&[42, 134, 72, 134, 247, 13, 1, 9, 16, 1, 48]);

/// The content type of a resource tagged attestation: `id-ct-resourceTaggedAttest`, 1.2.840.113549.1.9.16.1.36
/// (IANA's registry of CMS content types).
pub const CT_RESOURCE_TAGGED_ATTESTATION: ConstOid = Oid(&[42, 134, 72, 134, 247, 13, 1, 9, 16, 1, 36]);

/// The content type of an autonomous system provider authorization: `id-ct-ASPA`, 1.2.840.113549.1.9.16.1.49
/// (IANA's registry of CMS content types).
pub const CT_ASPA: ConstOid = Oid(&[42, 134, 72, 134, 247, 13, 1, 9, 16, 1, 49]);

/// The key purpose of a BGPsec router: `id-kp-bgpsec-router`, 1.3.6.1.5.5.7.3.30 (RFC 8209 3.1.3.2).
pub const KP_BGPSEC_ROUTER: ConstOid = Oid(&[43, 6, 1, 5, 5, 7, 3, 30]);

/// The extension authority information access: `id-pe-authorityInfoAccess`, 1.3.6.1.5.5.7.1.1 (RFC 5280 4.2.2.1).
pub const PE_AUTHORITY_INFO_ACCESS: ConstOid = Oid(&[43, 6, 1, 5, 5, 7, 1, 1]);

/// The extension of IP address blocks: `id-pe-ipAddrBlocks`, 1.3.6.1.5.5.7.1.7 (RFC 3779 2.2.1).
pub const PE_IP_ADDR_BLOCK: ConstOid = Oid(&[43, 6, 1, 5, 5, 7, 1, 7]);

/// The extension of IP address blocks with validation reconsidered: `id-pe-ipAddrBlocks-v2`, 1.3.6.1.5.5.7.1.28
/// (RFC 8360 4.2.2.1).
pub const PE_IP_ADDR_BLOCK_V2: ConstOid = Oid(&[43, 6, 1, 5, 5, 7, 1, 28]);

/// The extension of AS identifiers: `id-pe-autonomousSysIds`, 1.3.6.1.5.5.7.1.8 (RFC 3779 3.2.1).
pub const PE_AUTONOMOUS_SYS_IDS: ConstOid = Oid(&[43, 6, 1, 5, 5, 7, 1, 8]);

/// The extension of AS identifiers with validation reconsidered: `id-pe-autonomousSysIds-v2`, 1.3.6.1.5.5.7.1.29
/// (RFC 8360 4.2.2.3).
pub const PE_AUTONOMOUS_SYS_IDS_V2: ConstOid = Oid(&[43, 6, 1, 5, 5, 7, 1, 29]);

/// The extension subject information access: `id-pe-subjectInfoAccess`, 1.3.6.1.5.5.7.1.11 (RFC 5280 4.2.2.2).
pub const PE_SUBJECT_INFO_ACCESS: ConstOid = Oid(&[43, 6, 1, 5, 5, 7, 1, 11]);

/// The content type of a route origin authorization: `id-ct-routeOriginAuthz`, 1.2.840.113549.1.9.16.1.24 (RFC 9582 3).
pub const ROUTE_ORIGIN_AUTHZ: ConstOid = Oid(&[42, 134, 72, 134, 247, 13, 1, 9, 16, 1, 24]);

/// The attribute of requested extensions: `pkcs-9-at-extensionRequest`, 1.2.840.113549.1.9.14 (RFC 2985 5.4.2).
pub const EXTENSION_REQUEST: ConstOid = Oid(&[42, 134, 72, 134, 247, 13, 1, 9, 14]);
