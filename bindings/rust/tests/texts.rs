//! The texts of errors that a reader of logs meets: of certificates, as include/rpki.h has them, and of names, as the
//! crate rpki 0.20.1 has them.

use rpki_proved::repository::cert::{Cert, CertPart, CertRule, ExtensionError};
use rpki_proved::repository::error::{ContentError, InspectionError, VerificationError};
use rpki_proved::repository::x509::Name;
use rpki_proved::util::base64::{DecodeError, DecodeSliceError, Serde, Slurm, Xml, XmlDecodeError};
use std::error::Error;

#[test]
fn errors_of_certificates() {
    let parts = [
        (CertPart::Certificate, "not a certificate"),
        (CertPart::Signed, "malformed signed data"),
        (CertPart::Algorithm, "signature algorithm is not the RPKI's"),
        (CertPart::Signature, "malformed signature"),
        (CertPart::Tbs, "malformed certificate"),
        (CertPart::Version, "other version"),
        (CertPart::SerialNumber, "malformed serial number"),
        (CertPart::TbsAlgorithm, "signed algorithm is not the RPKI's"),
        (CertPart::Issuer, "malformed issuer"),
        (CertPart::Validity, "malformed validity"),
        (CertPart::Subject, "malformed subject"),
        (CertPart::PublicKey, "public key is not one of the RPKI's"),
        (CertPart::Extensions, "malformed extensions"),
        (CertPart::ExtensionCount, "too many extensions"),
        (CertPart::ExtensionIdentifiers, "duplicate extension"),
        (CertPart::SameAlgorithm, "signature algorithms differ"),
    ];
    for (error, text) in parts {
        assert_eq!(error.to_string(), text);
    }
    let whole = [
        (&b"\x30"[..], "not a certificate: truncated value"),
        (&b"\x31\x00"[..], "not a certificate: unexpected value"),
        (&b"\x30\x00\x00"[..], "not a certificate: octets after the value"),
        (&b"\x30\x02\x30\x80"[..], "malformed signed data: malformed length"),
    ];
    for (octets, text) in whole {
        assert_eq!(Cert::decode(octets).unwrap_err().to_string(), text);
    }
    let extensions = [
        (ExtensionError::BasicConstraints, "wrong basic constraints"),
        (ExtensionError::SubjectKeyIdentifier, "wrong subject key identifier"),
        (ExtensionError::AuthorityKeyIdentifier, "wrong authority key identifier"),
        (ExtensionError::KeyUsage, "wrong key usage"),
        (ExtensionError::CertificatePolicies, "wrong certificate policies"),
    ];
    for (error, text) in extensions {
        assert_eq!(error.to_string(), text);
    }
}

#[test]
fn rules_of_certificates() {
    let rules = [
        (CertRule::SerialNumber, "serial number is 0"),
        (CertRule::CriticalExtensions, "unknown critical extension"),
        (CertRule::Issuer, "issuer has no name of the RPKI"),
        (CertRule::Subject, "subject has no name of the RPKI"),
        (CertRule::RouterSubject, "subject has no name of a router"),
        (CertRule::RsaKey, "key is no RSA key of 2048 bits and the exponent 65537"),
        (CertRule::RouterKey, "key is no uncompressed point on P-256"),
        (CertRule::BasicConstraints, "missing basic constraints"),
        (CertRule::NoBasicConstraints, "basic constraints are there"),
        (CertRule::SubjectKeyIdentifier, "missing subject key identifier"),
        (CertRule::AuthorityKeyIdentifier, "missing authority key identifier"),
        (CertRule::AuthorityUsage, "key usage is not that of an authority"),
        (CertRule::EndUsage, "key usage is not that of an end entity"),
        (CertRule::NoExtendedKeyUsage, "extended key usage is there"),
        (CertRule::RouterPurpose, "missing purpose of a router"),
        (CertRule::RevocationList, "missing URI of the revocation list"),
        (CertRule::NoRevocationList, "CRL distribution points are there"),
        (CertRule::IssuerCertificate, "missing URI of the issuer's certificate"),
        (CertRule::NoIssuerCertificate, "authority information access is there"),
        (CertRule::Repository, "missing URI of the repository"),
        (CertRule::Manifest, "missing URI of the manifest"),
        (CertRule::SignedObject, "missing URI of the signed object"),
        (CertRule::NoSubjectAccess, "subject information access is there"),
        (CertRule::CertificatePolicies, "missing certificate policies"),
        (CertRule::Resources, "missing resources, or ones that are not critical"),
        (CertRule::RouterNumbers, "missing AS numbers, or addresses are there"),
        (CertRule::ObjectAccess, "other access method of an end entity"),
        (CertRule::Validity, "period ends before it begins"),
        (CertRule::OwnAuthority, "authority key identifier of a trust anchor is not its own"),
        (CertRule::SelfIssued, "issuer of a trust anchor is not its subject"),
        (CertRule::ResourceVersion, "policy and resources of two versions"),
        (CertRule::ResourceBlocks, "resources that are not in canonical form"),
        (CertRule::OwnResources, "resources of the issuer"),
        (CertRule::ManifestPlace, "manifest is not in the repository"),
        (CertRule::Notifications, "notifications without an https URI"),
        (CertRule::IssuerSize, "value of the issuer is not of 1 to 64 characters"),
        (CertRule::SubjectSize, "value of the subject is not of 1 to 64 characters"),
        (CertRule::RouterSerialNumber, "serial number of the subject is no PrintableString"),
    ];
    for (rule, text) in rules {
        assert_eq!(rule.to_string(), text);
    }
}

/// An attribute of a name: the last arc of its type, below 2.5.4, and a string of one character by its tag.
fn attribute(arc: u8, string: u8) -> [u8; 12] {
    [0x31, 10, 0x30, 8, 6, 3, 0x55, 4, arc, string, 1, b'A']
}

/// Tags of strings (X.680), and arcs of the attributes common name, serial number, organization name and country.
const PRINTABLE: u8 = 0x13;
const UTF8: u8 = 0x0c;
const IA5: u8 = 0x16;
const COMMON: u8 = 3;
const NUMBER: u8 = 5;
const ORGANIZATION: u8 = 10;
const COUNTRY: u8 = 6;

/// The attributes of a name, and the texts of what is wrong with it in certificates of the RPKI and of routers.
type Row<'a> = (&'a [(u8, u8)], Option<&'a str>, Option<&'a str>);

#[test]
fn rules_of_names() {
    let twice = Some("multiple common names");
    let (numbers, string) = (Some("multiple serial numbers"), Some("unpermitted string variant in common name"));
    let (missing, invalid) = (Some("missing common name"), Some("invalid name"));
    let rows: [Row; 14] = [
        (&[(COMMON, PRINTABLE)], None, None),
        (&[(COMMON, UTF8)], invalid, None),
        (&[(COMMON, IA5)], invalid, string),
        (&[(COMMON, PRINTABLE), (NUMBER, PRINTABLE)], None, None),
        (&[(COMMON, PRINTABLE), (COMMON, PRINTABLE)], twice, twice),
        (&[(COMMON, PRINTABLE), (NUMBER, UTF8)], invalid, None),
        (&[(COMMON, UTF8), (NUMBER, UTF8), (ORGANIZATION, UTF8)], invalid, None),
        (&[(NUMBER, PRINTABLE)], missing, missing),
        (&[(NUMBER, PRINTABLE), (COMMON, PRINTABLE), (NUMBER, PRINTABLE)], numbers, numbers),
        (&[(NUMBER, PRINTABLE), (NUMBER, PRINTABLE)], numbers, numbers),
        (&[(COMMON, PRINTABLE), (COUNTRY, PRINTABLE)], invalid, invalid),
        (&[(COUNTRY, PRINTABLE), (COMMON, IA5)], invalid, invalid),
        (&[(ORGANIZATION, PRINTABLE), (COMMON, PRINTABLE)], None, None),
        (&[(COMMON, PRINTABLE), (COMMON, IA5), (COUNTRY, IA5)], twice, twice),
    ];
    for (attributes, of_rpki, of_router) in rows {
        let contents: Vec<u8> = attributes.iter().flat_map(|(arc, string)| attribute(*arc, *string)).collect();
        let name = Name::decode([&[0x30, contents.len() as u8], &contents[..]].concat()).unwrap();
        let text = |told: Result<(), InspectionError>| told.err().map(|error| error.to_string());
        assert_eq!(text(name.inspect_rpki(true)).as_deref(), of_rpki, "{attributes:?}");
        assert_eq!(text(name.inspect_router(true)).as_deref(), of_router, "{attributes:?}");
        assert!(name.inspect_rpki(false).is_ok() && name.inspect_router(false).is_ok(), "{attributes:?}");
    }
}

/// An error around another one says what that says.
#[test]
fn errors_pass_their_text_on() {
    let error = ContentError::from_static("a text");
    let (inspection, verification) = (InspectionError::new(error.clone()), VerificationError::new(error.clone()));
    assert_eq!([inspection.to_string(), verification.to_string(), error.to_string()], ["a text"; 3].map(String::from));
    assert_eq!(ContentError::from(inspection), error);
}

/// Errors of base 64, with the texts of the crate base64 0.22, and the buffer that a text is read into.
#[test]
fn base_64() {
    let errors: [(XmlDecodeError, &str); 5] = [
        (DecodeError::InvalidByte(4, b'*'), "Invalid symbol 42, offset 4."),
        (DecodeError::InvalidLength(5), "Invalid input length: 5"),
        (DecodeError::InvalidLastSymbol(1, b'h'), "Invalid last symbol 104, offset 1."),
        (DecodeError::InvalidPadding, "Invalid padding"),
        (DecodeError::OutOfMemory, "out of memory"),
    ];
    for (error, text) in errors {
        assert_eq!(error.to_string(), text);
        let around = DecodeSliceError::from(error);
        assert_eq!(around.to_string(), format!("DecodeError: {text}"));
        assert_eq!(around.source().map(|error| error.to_string()).as_deref(), Some(text));
    }
    assert_eq!(DecodeSliceError::OutputSliceTooSmall.to_string(), "Output slice too small");
    assert!(DecodeSliceError::OutputSliceTooSmall.source().is_none());
    // The lengths and last symbols that no octets have (RFC 4648 3.5), by each flavour.
    assert_eq!(
        [Serde.decode("Z"), Xml.decode("Z"), Slurm.decode("Z")],
        [(); 3].map(|_| Err(DecodeError::InvalidLength(1)))
    );
    assert_eq!(Serde.decode("Zh=="), Err(DecodeError::InvalidLastSymbol(1, b'h')));
    assert_eq!(Serde.decode("Zg"), Err(DecodeError::InvalidPadding));
}

#[test]
fn base_64_in_a_buffer() {
    // RFC 4648 10, and one octet of each size of a buffer.
    for size in 0..8 {
        let mut buffer = [b'-'; 8];
        let told = Slurm.decode_slice("Zm9vYmFy", &mut buffer[..size]);
        if size < 6 {
            assert_eq!(told, Err(DecodeSliceError::OutputSliceTooSmall), "{size}");
        } else {
            assert_eq!((told, &buffer), (Ok(6), b"foobar--"), "{size}");
        }
    }
    assert_eq!(Slurm.decode_slice("", &mut []), Ok(0));
    assert_eq!(Slurm.decode_slice("Zg*", &mut [0; 8]), Err(DecodeError::InvalidByte(2, b'*').into()));
    assert_eq!(Slurm.decode_slice("Zh", &mut [0; 8]), Err(DecodeError::InvalidLastSymbol(1, b'h').into()));
    let mut written = Vec::new();
    Slurm.write_encoded_slice(b"\xfb\xff", &mut written).unwrap();
    assert_eq!((written, Slurm.display(b"\xfb\xff").to_string()), (b"-_8".to_vec(), "-_8".into()));
    // A writer's error is passed on.
    assert!(Slurm.write_encoded_slice(b"foobar", &mut &mut [0; 7][..]).is_err());
}
