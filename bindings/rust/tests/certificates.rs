//! Certificates, read by [Cert], compared with rows that tests/linked/certificate/rows.py writes: those that
//! tests/linked/samples.py picks of them for rows/certificates.txt, and all, where the variable `RPKI_CERTIFICATE_ROWS`
//! names their file.

use rpki_proved::crypto::{PublicKey, RpkiSignatureAlgorithm, SignatureAlgorithm};
use rpki_proved::repository::cert::{Cert, CertPart, CertRule, ExtensionError, KeyUsage, KnownExtensions, Overclaim};
use rpki_proved::repository::resources::{AsResources, IpResources};
use rpki_proved::uri::Rsync;
use rpki_proved::view::DecodeError;

const PARTS: [CertPart; 16] = [
    CertPart::Certificate,
    CertPart::Signed,
    CertPart::Algorithm,
    CertPart::Signature,
    CertPart::Tbs,
    CertPart::Version,
    CertPart::SerialNumber,
    CertPart::TbsAlgorithm,
    CertPart::Issuer,
    CertPart::Validity,
    CertPart::Subject,
    CertPart::PublicKey,
    CertPart::Extensions,
    CertPart::ExtensionCount,
    CertPart::ExtensionIdentifiers,
    CertPart::SameAlgorithm,
];

/// What is wrong with a part, by its number.
const REASONS: [DecodeError; 6] = [
    DecodeError::Truncated,
    DecodeError::BadTag,
    DecodeError::BadLength,
    DecodeError::Unexpected,
    DecodeError::Content,
    DecodeError::Trailing,
];

const EXTENSION_ERRORS: [ExtensionError; 5] = [
    ExtensionError::BasicConstraints,
    ExtensionError::SubjectKeyIdentifier,
    ExtensionError::AuthorityKeyIdentifier,
    ExtensionError::KeyUsage,
    ExtensionError::CertificatePolicies,
];

/// The rules by their statuses.
const RULES: [(usize, CertRule); 38] = [
    (85, CertRule::SerialNumber),
    (86, CertRule::CriticalExtensions),
    (87, CertRule::Issuer),
    (88, CertRule::Subject),
    (89, CertRule::RouterSubject),
    (90, CertRule::RsaKey),
    (91, CertRule::RouterKey),
    (92, CertRule::BasicConstraints),
    (93, CertRule::NoBasicConstraints),
    (94, CertRule::SubjectKeyIdentifier),
    (95, CertRule::AuthorityKeyIdentifier),
    (96, CertRule::AuthorityUsage),
    (97, CertRule::EndUsage),
    (98, CertRule::NoExtendedKeyUsage),
    (99, CertRule::RouterPurpose),
    (100, CertRule::RevocationList),
    (101, CertRule::NoRevocationList),
    (102, CertRule::IssuerCertificate),
    (103, CertRule::NoIssuerCertificate),
    (104, CertRule::Repository),
    (105, CertRule::Manifest),
    (106, CertRule::SignedObject),
    (107, CertRule::NoSubjectAccess),
    (108, CertRule::CertificatePolicies),
    (109, CertRule::Resources),
    (110, CertRule::RouterNumbers),
    (111, CertRule::ObjectAccess),
    (112, CertRule::Validity),
    (113, CertRule::OwnAuthority),
    (114, CertRule::SelfIssued),
    (115, CertRule::ResourceVersion),
    (116, CertRule::ResourceBlocks),
    (117, CertRule::OwnResources),
    (118, CertRule::ManifestPlace),
    (119, CertRule::Notifications),
    (156, CertRule::IssuerSize),
    (157, CertRule::SubjectSize),
    (158, CertRule::RouterSerialNumber),
];

fn octets_of(digits: &str) -> Vec<u8> {
    let pairs = digits.as_bytes().chunks(2);
    pairs.map(|pair| u8::from_str_radix(std::str::from_utf8(pair).unwrap(), 16).unwrap()).collect()
}

/// The parts at the places of the row are those that the certificate has.
fn compare(number: usize, octets: &[u8], cert: &Cert, words: &[&str]) {
    let part = |index: usize| {
        let start: usize = words[2 * index].parse().unwrap();
        let length: usize = words[2 * index + 1].parse().unwrap();
        &octets[start..start + length]
    };
    assert_eq!((&cert.to_bytes()[..], &cert.signed()[..]), (octets, part(0)), "row {number}");
    let algorithm = cert.signature().algorithm();
    assert_eq!(RpkiSignatureAlgorithm::x509_decode(part(1)), Ok(*algorithm), "row {number}");
    assert_eq!(*algorithm == RpkiSignatureAlgorithm::default(), words[17] == "1", "row {number}");
    assert_eq!(&cert.signature().value()[..], part(2), "row {number}");
    assert_eq!(cert.issuer().as_slice(), part(3), "row {number}");
    assert_eq!(cert.subject().as_slice(), part(4), "row {number}");
    let key = cert.subject_public_key_info();
    assert_eq!((&key.to_info_bytes()[..], key), (part(5), &PublicKey::decode(part(5)).unwrap()), "row {number}");
    assert_eq!(cert.extension_octets(), part(6), "row {number}");
    assert_eq!(&cert.serial_number().into_array()[..], octets_of(words[14]), "row {number}");
    let length: usize = cert.extensions().map(|extension| extension.octets().len()).sum();
    assert!(length > 0 && length < part(6).len(), "row {number}");
}

/// The extensions of the row are those that the certificate has.
fn compare_extensions(number: usize, octets: &[u8], cert: &Cert, words: &[&str]) {
    let found = match (cert.known_extensions(), words[0].parse::<usize>().unwrap()) {
        (Ok(found), 0) => found,
        (Err(error), status) => return assert_eq!(error, EXTENSION_ERRORS[status - 80], "row {number}"),
        (Ok(found), status) => panic!("row {number}: {found:?} and not {status}"),
    };
    let all = [
        &found.basic_constraints,
        &found.subject_key_identifier,
        &found.authority_key_identifier,
        &found.key_usage,
        &found.extended_key_usage,
        &found.crl_distribution_points,
        &found.authority_info_access,
        &found.subject_info_access,
        &found.certificate_policies,
        &found.ip_resources,
        &found.ip_resources_v2,
        &found.as_resources,
        &found.as_resources_v2,
    ];
    for (each, words) in all.iter().zip(words[1..].chunks(4)) {
        let (start, length): (usize, usize) = (words[2].parse().unwrap(), words[3].parse().unwrap());
        let wanted = (words[0] == "1").then(|| (words[1] == "1", &octets[start..start + length]));
        assert_eq!(each.as_ref().map(|it| (it.critical, &it.octets[..])), wanted, "row {number}");
    }
    // The words of an extension are four, and say first whether it is there: of the subject's key and the issuer's.
    let keys = [(found.subject_key, 5, 53), (found.authority_key, 9, 54)];
    for (key, is_there, digits) in keys {
        let wanted = (words[is_there] == "1").then(|| octets_of(words[digits]));
        assert_eq!(key.map(|key| key.as_slice().to_vec()), wanted, "row {number}");
    }
    assert_eq!(found.basic_ca, words[55] == "1", "row {number}");
    let usages = [None, Some(KeyUsage::Ca), Some(KeyUsage::Ee)];
    assert_eq!(found.usage, usages[words[56].parse::<usize>().unwrap()], "row {number}");
    let policies = [None, Some(Overclaim::Refuse), Some(Overclaim::Trim)];
    assert_eq!(found.overclaim, policies[words[57].parse::<usize>().unwrap()], "row {number}");
}

/// What it says under the names of the crate rpki is what its extensions say, and of malformed ones nothing.
fn compare_accessors(number: usize, cert: &Cert) {
    let known = cert.known_extensions().ok();
    let basic_ca = known.and_then(|it| it.basic_constraints.as_ref().map(|_| it.basic_ca));
    assert_eq!(cert.basic_ca(), basic_ca, "row {number}");
    let key = known.and_then(|it| it.subject_key).unwrap_or_else(|| cert.subject_public_key_info().key_identifier());
    assert_eq!(cert.subject_key_identifier(), key, "row {number}");
    assert_eq!(cert.authority_key_identifier(), known.and_then(|it| it.authority_key), "row {number}");
    assert_eq!(cert.key_usage(), known.and_then(|it| it.usage).unwrap_or(KeyUsage::Ee), "row {number}");
    assert_eq!(cert.overclaim(), known.and_then(|it| it.overclaim).unwrap_or(Overclaim::Refuse), "row {number}");
    let uris: [Read; 5] = [
        (cert.crl_uri(), KnownExtensions::crl_uri),
        (cert.ca_issuer(), KnownExtensions::ca_issuer),
        (cert.ca_repository(), KnownExtensions::ca_repository),
        (cert.rpki_manifest(), KnownExtensions::rpki_manifest),
        (cert.signed_object(), KnownExtensions::signed_object),
    ];
    for (found, read) in uris {
        assert_eq!(found.cloned(), known.and_then(|known| read(known).ok()).flatten(), "row {number}");
    }
    let notify = known.and_then(|known| known.rpki_notify().ok()).flatten();
    assert_eq!(cert.rpki_notify().cloned(), notify, "row {number}");
    let ip = known.and_then(|it| it.ip_resources.clone().or_else(|| it.ip_resources_v2.clone()));
    let (v4, v6) = ip.and_then(|it| IpResources::decode_families(&it.octets).ok()).unwrap_or_default();
    assert_eq!(cert.has_ip_resources(), v4.is_some() || v6.is_some(), "row {number}");
    assert_eq!(*cert.v4_resources(), v4.unwrap_or_else(IpResources::missing), "row {number}");
    assert_eq!(*cert.v6_resources(), v6.unwrap_or_else(IpResources::missing), "row {number}");
    let numbers = known.and_then(|it| it.as_resources.clone().or_else(|| it.as_resources_v2.clone()));
    let numbers = numbers.and_then(|it| AsResources::decode(&it.octets).ok());
    assert_eq!(*cert.as_resources(), numbers.unwrap_or_else(AsResources::missing), "row {number}");
}

/// A URI that a certificate says, and what reads it of the extensions.
type Read<'a> = (Option<&'a Rsync>, fn(&KnownExtensions) -> Result<Option<Rsync>, DecodeError>);

/// The certificate breaks the rules of the row, of the first four profiles, strict, and then of the same not strict;
/// and of the fifth, strict and not.
fn compare_inspections(number: usize, cert: &Cert, words: &[&str]) {
    let wanted = words.iter().map(|word| match word.parse::<usize>().unwrap() {
        0 => Ok(()),
        status => Err(RULES.iter().find(|(other, _)| *other == status).unwrap().1),
    });
    let told = [true, false].map(|strict| {
        [cert.inspect_ta(strict), cert.inspect_ca(strict), cert.inspect_ee(strict), cert.inspect_router(strict)]
    });
    let detached = [true, false].map(|strict| cert.inspect_detached_ee(strict));
    let told = [told.concat(), detached.to_vec()].concat().into_iter();
    let told = told.map(|told| told.map_err(|error| error.rule().expect("a rule")));
    assert_eq!(told.collect::<Vec<_>>(), wanted.collect::<Vec<_>>(), "row {number}");
}

#[test]
fn certificates() {
    let rows = include_str!("rows/certificates.txt");
    assert!(rows.lines().count() >= 50);
    compare_rows(rows);
    if let Some(path) = std::env::var_os("RPKI_CERTIFICATE_ROWS") {
        let rows = std::fs::read_to_string(path).unwrap();
        assert!(rows.lines().count() > 90);
        compare_rows(&rows);
    }
}

/// What the example says, as `openssl x509 -text` prints it.
#[test]
fn an_example() {
    let cert = Cert::decode(&include_bytes!("certificate.der")[..]).unwrap();
    let (from, until) = (cert.validity().not_before(), cert.validity().not_after());
    let known = cert.known_extensions().unwrap();
    assert!(from < until);
    assert_eq!((from.timestamp(), until.timestamp()), (1_767_225_600, 2_556_144_000));
    assert_eq!(cert.extensions().count(), 10);
    let ids: Vec<u8> = cert.extensions().map(|extension| *extension.id().octets().last().unwrap()).collect();
    assert_eq!(ids[..4], [19, 14, 35, 15]);
    assert!(known.basic_ca);
}

fn compare_rows(rows: &str) {
    for (number, row) in rows.lines().enumerate() {
        let (parts, more) = row.split_once(" | ").unwrap();
        let (extensions, inspections) = more.split_once(" | ").unwrap();
        let words: Vec<&str> = parts.split(' ').collect();
        let octets = octets_of(words[0]);
        match (Cert::decode(octets.clone()), words[1].parse::<usize>().unwrap()) {
            (Ok(cert), 0) => {
                compare(number, &octets, &cert, &words[2..]);
                compare_extensions(number, &octets, &cert, &extensions.split(' ').collect::<Vec<_>>());
                compare_accessors(number, &cert);
                compare_inspections(number, &cert, &inspections.split(' ').collect::<Vec<_>>());
            }
            (Err(error), status) if status >= 64 => {
                let reason = REASONS[words[2].parse::<usize>().unwrap() - 1];
                assert_eq!((error.part(), error.reason()), (PARTS[status - 64], reason), "row {number}");
            }
            (found, status) => panic!("row {number}: {found:?} and not {status}"),
        }
    }
}
