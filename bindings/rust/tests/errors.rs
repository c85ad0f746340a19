//! Errors: what is malformed, which rule is broken, and what is below it; and what values are compared, hashed and
//! ordered by.

use bytes::{Bytes, BytesMut};
use rpki_proved::crypto::digest::sha1_digest;
use rpki_proved::crypto::DigestAlgorithm;
use rpki_proved::repository::aspa::AspaError;
use rpki_proved::repository::cert::{CertPart, CertRule, ExtensionError};
use rpki_proved::repository::crl::{CrlEntry, CrlError, RevokedCertificates};
use rpki_proved::repository::error::{InspectionError, MalformedError, MalformedPart, ValidationError};
use rpki_proved::repository::manifest::ManifestError;
use rpki_proved::repository::resources::{Addr, AddressRange, AsBlock, AsBlocks, AsRange, Asn, IpBlock, Prefix};
use rpki_proved::repository::roa::RoaError;
use rpki_proved::repository::sigobj::{MessageDigest, SignedObject, SignedObjectError};
use rpki_proved::repository::tal::{ReadError, Tal};
use rpki_proved::repository::x509::{Serial, Time};
use rpki_proved::repository::{Aspa, Cert, Crl, Manifest, Roa};
use rpki_proved::{Captured, DecodeError, IntoOctets};
use std::collections::hash_map::DefaultHasher;
use std::collections::{BTreeSet, HashSet};
use std::error::Error;
use std::fs;
use std::hash::{Hash, Hasher};

fn file(name: &str) -> Vec<u8> {
    fs::read(format!("{}/tests/deciding/{name}", env!("CARGO_MANIFEST_DIR"))).expect(name)
}

fn malformed<T>(found: Result<T, ValidationError>) -> MalformedError {
    match found.map(|_| ()) {
        Err(ValidationError::Malformed(error)) => error,
        other => panic!("{other:?}"),
    }
}

/// The texts of an error and of all below it.
fn chain(error: &dyn Error) -> Vec<String> {
    let mut texts = vec![error.to_string()];
    texts.extend(error.source().map_or_else(Vec::new, chain));
    texts
}

/// The octets with other ones in the place of these, which are there once.
fn replaced(octets: &[u8], these: &[u8], others: &[u8]) -> Vec<u8> {
    let places: Vec<usize> = (0..octets.len()).filter(|at| octets[*at..].starts_with(these)).collect();
    assert_eq!((places.len(), these.len()), (1, others.len()));
    [&octets[..places[0]], others, &octets[places[0] + these.len()..]].concat()
}

/// The part, and what its reader says of it; of contents as of objects.
#[test]
fn parts() {
    let octets = b"\x30\x00";
    let object = MalformedPart::SignedObject(SignedObjectError::ObjectType);
    for error in [
        malformed(Manifest::decode(octets, true)),
        malformed(Roa::decode(octets, true)),
        malformed(Aspa::decode(octets, true)),
    ] {
        assert_eq!((error.part(), error.reason()), (object, Some(DecodeError::Truncated)));
        assert_eq!(chain(&error), ["type is not that of signed data", "truncated value"]);
        let error = ValidationError::from(error);
        assert_eq!(chain(&error)[1..], chain(error.source().unwrap()));
        assert!(error.source().unwrap().downcast_ref::<MalformedError>().is_some());
    }
    // Of another number than it has to be: the AS number, the customer, the number of the manifest.
    let number = b"\x02\x03\x00\xfb\xf0";
    let roa = malformed(Roa::decode(replaced(&file("ee.roa"), number, b"\x02\x03\x80\xfb\xf0"), true));
    assert_eq!((roa.part(), roa.to_string()), (MalformedPart::Roa(RoaError::AsId), "malformed AS number".into()));
    assert!(roa.reason().is_some() && roa.reason() == RoaReason::of("ee.roa", number, b"\x02\x03\x80\xfb\xf0"));
    let place = b"\xa0\x03\x02\x01\x01\x02\x03\x00\xfb\xf0";
    let aspa =
        malformed(Aspa::decode(replaced(&file("ee.asa"), place, b"\xa0\x03\x02\x01\x02\x02\x03\x00\xfb\xf0"), true));
    assert_eq!((aspa.part(), aspa.reason().is_some()), (MalformedPart::Aspa(AspaError::Version), true));
    let place = b"\x02\x01\x07\x18\x0f2026";
    let manifest = malformed(Manifest::decode(replaced(&file("ee.mft"), place, b"\x02\x01\x87\x18\x0f2026"), true));
    assert_eq!((manifest.part(), manifest.reason().is_some()), (MalformedPart::Manifest(ManifestError::Number), true));
    let crl = ValidationError::from(Crl::decode(octets).unwrap_err());
    assert_eq!(malformed::<()>(Err(crl)).part(), MalformedPart::Crl(CrlError::Signed));
    let cert = Cert::decode(octets).unwrap_err();
    assert_eq!(chain(&cert), ["malformed signed data: truncated value", "truncated value"]);
    let cert = malformed::<()>(Err(cert.into()));
    assert_eq!((cert.part(), cert.reason()), (MalformedPart::Cert(CertPart::Signed), Some(DecodeError::Truncated)));
}

/// What the reader of a content says of it alone.
struct RoaReason;

impl RoaReason {
    fn of(name: &str, these: &[u8], others: &[u8]) -> Option<DecodeError> {
        let object = SignedObject::decode(replaced(&file(name), these, others), true).unwrap();
        let (part, reason) =
            rpki_proved::repository::roa::RouteOriginAttestation::reason(object.content(), true).unwrap();
        assert_eq!(part, RoaError::AsId);
        Some(reason)
    }
}

/// An inspection names the rule; a verification and a reader's error are their own sources.
#[test]
fn rules() {
    let error = Cert::decode(file("ca.cer")).unwrap().inspect_ee(true).unwrap_err();
    assert_eq!((error.rule(), error.extension()), (Some(CertRule::NoBasicConstraints), None));
    assert_eq!(error.source().unwrap().downcast_ref(), Some(&CertRule::NoBasicConstraints));
    let error = ValidationError::from(error);
    assert_eq!(chain(&error), ["basic constraints are there"; 3]);
    let error = InspectionError::from(ExtensionError::KeyUsage);
    assert_eq!((error.rule(), error.extension()), (None, Some(ExtensionError::KeyUsage)));
    assert_eq!(error.source().unwrap().downcast_ref(), Some(&ExtensionError::KeyUsage));
    assert!(InspectionError::new("another").source().is_none());
    let error = ValidationError::from(DecodeError::Trailing);
    assert_eq!(error.source().unwrap().downcast_ref(), Some(&DecodeError::Trailing));
    let error = MessageDigest::of(b"a").verify(b"b").unwrap_err();
    assert_eq!(chain(&error), ["digest mismatch"; 2]);
    let uri = "rsync://rpki.example/a/b\n\n";
    let error = Tal::read_named("a".into(), &mut format!("{uri}MAA=").as_bytes()).unwrap_err();
    assert!(
        error.source().unwrap().is::<DecodeError>() && error.to_string().starts_with("bad key of a trust anchor: ")
    );
    let nothing = std::io::Error::new(std::io::ErrorKind::Other, "no file");
    let error = ReadError::from(nothing);
    assert_eq!(chain(&error), ["no file"; 2]);
    assert!(ReadError::Uri.source().is_none());
    let texts = [ReadError::Text, ReadError::Uri, ReadError::Base64].map(|error| error.to_string());
    assert_eq!(texts, ["trust anchor locator is not UTF-8", "bad URI of a trust anchor", "bad key of a trust anchor"]);
}

fn hash(value: impl Hash) -> u64 {
    let mut hasher = DefaultHasher::new();
    value.hash(&mut hasher);
    hasher.finish()
}

/// Equal where the octets are; blocks where their ends are, however they are spelled.
#[test]
fn comparisons() {
    let cert = |name: &str| Cert::decode(file(name)).unwrap();
    let names: HashSet<_> =
        ["ta.cer", "ta-old.cer", "ca.cer"].iter().map(|name| cert(name).subject().clone()).collect();
    assert_eq!(names.len(), 2);
    let names: BTreeSet<_> = names.into_iter().collect();
    assert_eq!(names.iter().next().unwrap(), cert("ca.cer").subject());
    let roa = |name: &str| Roa::decode(file(name), false).unwrap();
    assert!(roa("ee.roa") == roa("ee.roa") && roa("ee.roa") != roa("untimed.roa"));
    assert!(roa("ee.roa").object() == roa("ee.roa").object() && roa("ee.roa").object() != roa("untimed.roa").object());
    let aspa = |name: &str| Aspa::decode(file(name), false).unwrap();
    assert!(aspa("ee.asa") == aspa("ee.asa") && aspa("ee.asa") != aspa("untimed.asa"));
    let manifest = |name: &str| Manifest::decode(file(name), false).unwrap();
    assert!(manifest("ee.mft") == manifest("ee.mft") && manifest("ee.mft") != manifest("untimed.mft"));
    let (one, five, nine) = (Asn::from_u32(1), Asn::from_u32(5), Asn::from_u32(9));
    let (single, range) = (AsBlock::from(five), AsBlock::from((five, five)));
    assert!(single == range && hash(single) == hash(range) && hash(single) != hash(AsBlock::from(nine)));
    let prefix = Prefix::from_v4_str("10.0.0.0/8").unwrap();
    let range = IpBlock::Range(AddressRange::new(prefix.min(), prefix.max()));
    assert!(IpBlock::from(prefix) == range && hash(IpBlock::from(prefix)) == hash(range));
    assert_ne!(hash(range), hash(IpBlock::from(Prefix::from_v4_str("10.0.0.0/9").unwrap())));
    // Ends in the wrong order are put in order.
    for block in [AsBlock::from((nine, five)), AsBlock::from(AsRange::new(nine, five)), "AS5-AS9".parse().unwrap()] {
        assert_eq!((block.min(), block.max(), block.to_string()), (five, nine, "AS5-AS9".into()));
        let blocks: AsBlocks = "AS1-AS9".parse().unwrap();
        assert!(blocks.contains_block(block) && !AsBlocks::empty().contains_block(block));
    }
    assert_eq!(AsBlock::from((nine, one)).asn_count(), 9);
    let (low, high) = (Addr::from_bits(5), Addr::from_bits(9));
    for block in [IpBlock::from((high, low)), IpBlock::from(AddressRange::new(high, low))] {
        assert_eq!((block.min(), block.max()), (low, high));
    }
}

/// Each kind of octets is what it has, to the last.
#[test]
fn octets() {
    let wanted = Bytes::from_static(b"\x30\x03\x02\x01\x05");
    let vector = wanted.to_vec();
    let array: [u8; 5] = vector[..].try_into().unwrap();
    for found in [
        wanted.clone().into_octets(),
        (&wanted).into_octets(),
        BytesMut::from(&vector[..]).into_octets(),
        vector.clone().into_octets(),
        (&vector).into_octets(),
        vector.clone().into_boxed_slice().into_octets(),
        vector[..].into_octets(),
        (&array).into_octets(),
        Captured::from(&vector[..]).into_octets(),
        (&Captured::from(wanted.clone())).into_octets(),
        Captured::from(wanted.clone()).into_bytes(),
        Captured::from(wanted.clone()).to_bytes(),
        Bytes::from(Captured::from(wanted.clone())),
    ] {
        assert_eq!(found, wanted);
    }
    let captured = Captured::from(wanted.clone());
    assert!(
        wanted == captured
            && captured == vector[..]
            && captured == vector.as_slice()
            && captured.as_ref() == &vector[..]
    );
    assert!(captured != vector[1..] && captured.len() == 5 && captured.as_slice() == &vector[..]);
    assert_eq!(Cert::decode(file("ca.cer")).unwrap().to_captured().into_bytes(), file("ca.cer"));
    assert_eq!(Crl::decode(file("ca.crl")).unwrap().to_captured().into_bytes(), file("ca.crl"));
    assert_eq!(SignedObject::decode(file("ee.roa"), true).unwrap().to_captured().into_bytes(), file("ee.roa"));
    assert_eq!(Roa::decode(file("ee.roa"), true).unwrap().to_captured().into_bytes(), file("ee.roa"));
    assert_eq!(Aspa::decode(file("ee.asa"), true).unwrap().to_captured().into_bytes(), file("ee.asa"));
    assert_eq!(Manifest::decode(file("ee.mft"), true).unwrap().to_captured().into_bytes(), file("ee.mft"));
}

/// Entries that are put together are those of a list that has them; digests are those of FIPS 180-4's examples.
#[test]
fn made() {
    let list = Crl::decode(file("ca.crl")).unwrap();
    let entries: Vec<CrlEntry> = list.revoked_certs().iter().collect();
    let again: RevokedCertificates = entries.iter().copied().collect();
    assert_eq!((again.as_slice(), entries.len()), (list.revoked_certs().as_slice(), 4));
    let other: RevokedCertificates =
        [CrlEntry::new(Serial::from(300_u64), Time::from_timestamp(2_600_000_000).unwrap())].into_iter().collect();
    assert_eq!(other.as_slice(), b"\x30\x15\x02\x02\x01\x2c\x18\x0f20520522141320Z");
    assert!(other.contains(Serial::from(300_u64)) && !other.contains(Serial::from(301_u64)));
    let hex = |digest: &dyn AsRef<[u8]>| -> String { digest.as_ref().iter().map(|it| format!("{it:02x}")).collect() };
    let long = b"abcdbcdecdefdefgefghfghighijhijkijkljklmklmnlmnomnopnopq";
    assert_eq!(hex(&sha1_digest(b"")), "da39a3ee5e6b4b0d3255bfef95601890afd80709");
    assert_eq!(hex(&sha1_digest(b"abc")), "a9993e364706816aba3e25717850c26c9cd0d89d");
    assert_eq!(hex(&sha1_digest(long)), "84983e441c3bd26ebaae4aa1f95129e5e54670f1");
    assert_eq!(hex(&sha1_digest(&[b'a'; 1_000_000])), "34aa973cd4c4daa4f61eeb2bdbad27316534016f");
    let sha256 = "ba7816bf8f01cfea414140de5dae2223b00361a396177a9cb410ff61f20015ad";
    assert_eq!(hex(&DigestAlgorithm::sha256().digest(b"abc")), sha256);
    let key = Cert::decode(file("ca.cer")).unwrap().subject_public_key_info().clone();
    assert_eq!(sha1_digest(key.bits()).as_ref(), key.key_identifier().as_slice());
}
