//! Each object identifier has the arcs that its standard gives it: IANA's registries of SMI numbers, and the RFCs that
//! `oid` names.

use rpki_proved::oid::{self, ConstOid};

#[test]
fn arcs() {
    let rows: [(ConstOid, &str); 43] = [
        (oid::SHA256, "2.16.840.1.101.3.4.2.1"),
        (oid::RSA_ENCRYPTION, "1.2.840.113549.1.1.1"),
        (oid::SHA256_WITH_RSA_ENCRYPTION, "1.2.840.113549.1.1.11"),
        (oid::EC_PUBLIC_KEY, "1.2.840.10045.2.1"),
        (oid::ECDSA_WITH_SHA256, "1.2.840.10045.4.3.2"),
        (oid::SECP256R1, "1.2.840.10045.3.1.7"),
        (oid::SIGNED_DATA, "1.2.840.113549.1.7.2"),
        (oid::CONTENT_TYPE, "1.2.840.113549.1.9.3"),
        (oid::PROTOCOL_CONTENT_TYPE, "1.2.840.113549.1.9.16.1.28"),
        (oid::MESSAGE_DIGEST, "1.2.840.113549.1.9.4"),
        (oid::SIGNING_TIME, "1.2.840.113549.1.9.5"),
        (oid::AA_BINARY_SIGNING_TIME, "1.2.840.113549.1.9.16.2.46"),
        (oid::AD_CA_ISSUERS, "1.3.6.1.5.5.7.48.2"),
        (oid::AD_CA_REPOSITORY, "1.3.6.1.5.5.7.48.5"),
        (oid::AD_RPKI_MANIFEST, "1.3.6.1.5.5.7.48.10"),
        (oid::AD_RPKI_NOTIFY, "1.3.6.1.5.5.7.48.13"),
        (oid::AD_SIGNED_OBJECT, "1.3.6.1.5.5.7.48.11"),
        (oid::AT_COMMON_NAME, "2.5.4.3"),
        (oid::AT_SERIAL_NUMBER, "2.5.4.5"),
        (oid::AT_ORGANIZATION_NAME, "2.5.4.10"),
        (oid::CE_AUTHORITY_KEY_IDENTIFIER, "2.5.29.35"),
        (oid::CE_BASIC_CONSTRAINTS, "2.5.29.19"),
        (oid::CE_CERTIFICATE_POLICIES, "2.5.29.32"),
        (oid::CE_CRL_DISTRIBUTION_POINTS, "2.5.29.31"),
        (oid::CE_CRL_NUMBER, "2.5.29.20"),
        (oid::CE_EXTENDED_KEY_USAGE, "2.5.29.37"),
        (oid::CE_KEY_USAGE, "2.5.29.15"),
        (oid::CE_SUBJECT_KEY_IDENTIFIER, "2.5.29.14"),
        (oid::CP_IPADDR_ASNUMBER, "1.3.6.1.5.5.7.14.2"),
        (oid::CP_IPADDR_ASNUMBER_V2, "1.3.6.1.5.5.7.14.3"),
        (oid::CT_RPKI_MANIFEST, "1.2.840.113549.1.9.16.1.26"),
        (oid::CT_RESOURCE_SIGNED_CHECKLIST, "1.2.840.113549.1.9.16.1.48"),
        (oid::CT_RESOURCE_TAGGED_ATTESTATION, "1.2.840.113549.1.9.16.1.36"),
        (oid::CT_ASPA, "1.2.840.113549.1.9.16.1.49"),
        (oid::KP_BGPSEC_ROUTER, "1.3.6.1.5.5.7.3.30"),
        (oid::PE_AUTHORITY_INFO_ACCESS, "1.3.6.1.5.5.7.1.1"),
        (oid::PE_IP_ADDR_BLOCK, "1.3.6.1.5.5.7.1.7"),
        (oid::PE_IP_ADDR_BLOCK_V2, "1.3.6.1.5.5.7.1.28"),
        (oid::PE_AUTONOMOUS_SYS_IDS, "1.3.6.1.5.5.7.1.8"),
        (oid::PE_AUTONOMOUS_SYS_IDS_V2, "1.3.6.1.5.5.7.1.29"),
        (oid::PE_SUBJECT_INFO_ACCESS, "1.3.6.1.5.5.7.1.11"),
        (oid::ROUTE_ORIGIN_AUTHZ, "1.2.840.113549.1.9.16.1.24"),
        (oid::EXTENSION_REQUEST, "1.2.840.113549.1.9.14"),
    ];
    for (identifier, text) in rows {
        assert_eq!(identifier.to_string(), text);
    }
    // No constant of the module is left out.
    let source = include_str!("../src/oid.rs");
    assert_eq!(source.matches("pub const ").count(), rows.len());
}
