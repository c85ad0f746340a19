//! What the package decides by itself, of files that tests/linked/deciding/files.py makes: moments, lists, strictness,
//! what is settled, and profiles. Each row has its other side beside it.

use rpki_proved::crypto::{Provider, RsaProvider};
use rpki_proved::repository::cert::CertRule;
use rpki_proved::repository::error::ValidationError;
use rpki_proved::repository::resources::{Asn, ResourceSet};
use rpki_proved::repository::roa::{RoaError, RouteOriginAttestation};
use rpki_proved::repository::sigobj::{ObjectVerificationError, SignedObject, SignedObjectError};
use rpki_proved::repository::tal::{Tal, TalInfo};
use rpki_proved::repository::x509::{SignedData, Time, Validity};
use rpki_proved::repository::{Aspa, Cert, Crl, CurrentCrl, Manifest, ResourceCert, Roa};
use std::cell::Cell;
use std::fs;
use std::sync::Arc;

/// What a check says of a thing.
type Told = Result<(), ValidationError>;

/// In June, when all but the old files is valid, and in January, when all but what is issued in 2030 is.
const NOW: i64 = 1_780_272_000;
const JANUARY: i64 = 1_768_000_000;

const EXPIRED: &str = "certificate has expired";
const REVOKED: &str = "certificate is revoked";
const NO_NAME: &str = "subject has no name of the RPKI";
const LACKING: &str = "resources that the issuer or the signer does not have";
const NO_AUTHORITY: &str = "issuer is no certification authority";

fn at(seconds: i64) -> Time {
    Time::from_timestamp(seconds).unwrap()
}

fn file(name: &str) -> Vec<u8> {
    fs::read(format!("{}/tests/deciding/{name}", env!("CARGO_MANIFEST_DIR"))).expect(name)
}

fn cert(name: &str) -> Cert {
    Cert::decode(file(name)).expect(name)
}

fn roa(name: &str) -> Roa {
    Roa::decode(file(name), false).expect(name)
}

fn aspa(name: &str) -> Aspa {
    Aspa::decode(file(name), false).expect(name)
}

fn manifest(name: &str) -> Manifest {
    Manifest::decode(file(name), false).expect(name)
}

fn object(name: &str) -> SignedObject {
    SignedObject::decode(file(name), false).expect(name)
}

/// A locator with the key of this certificate.
fn tal(anchor: &Cert) -> Arc<TalInfo> {
    let key = rpki_proved::util::base64::Xml.encode(&anchor.subject_public_key_info().to_info_bytes());
    let text = format!("rsync://rpki.example/repo/ta.cer\n\n{key}\n");
    Tal::read_named("deciding".into(), &mut text.as_bytes()).unwrap().info().clone()
}

fn anchor(name: &str) -> ResourceCert {
    let cert = cert(name);
    let tal = tal(&cert);
    cert.validate_ta_at(tal, true, at(NOW)).unwrap()
}

fn authority() -> ResourceCert {
    cert("ca.cer").validate_ca_at(&anchor("ta.cer"), true, at(NOW)).unwrap()
}

fn list() -> CurrentCrl {
    Crl::decode(file("ca.crl")).unwrap().validate_at(&authority(), at(NOW)).unwrap()
}

/// Nobody is revoked.
fn any(_: &Cert) -> Told {
    Ok(())
}

fn none<T>(found: Result<T, ValidationError>) -> Told {
    found.map(|_| ())
}

fn text<T>(found: Result<T, ValidationError>) -> String {
    found.map(|_| ()).expect_err("an error").to_string()
}

fn has(cert: &ResourceCert) -> String {
    ResourceSet::from(cert).to_string()
}

/// Each way to validate a file of these names, without a moment and at one; with what it says where it has expired.
type Way = (&'static str, fn(&str, &ResourceCert, bool) -> Told, fn(&str, &ResourceCert, bool, Time) -> Told);

/// The ways of certificates below an issuer, by the front of the names of files.
const OF_CERTIFICATES: [Way; 3] = [
    (
        "ca",
        |name, by, strict| none(cert(name).validate_ca(by, strict)),
        |name, by, strict, now| none(cert(name).validate_ca_at(by, strict, now)),
    ),
    (
        "detached",
        |name, by, strict| none(cert(name).validate_detached_ee(by, strict)),
        |name, by, strict, now| none(cert(name).validate_detached_ee_at(by, strict, now)),
    ),
    (
        "router",
        |name, by, strict| none(cert(name).validate_router(by, strict)),
        |name, by, strict, now| none(cert(name).validate_router_at(by, strict, now)),
    ),
];

/// The ways of objects that the authority's end entity signs, by the ends of the names.
const OF_OBJECTS: [Way; 7] = [
    (
        "roa",
        |name, by, strict| none(roa(name).cert().clone().validate_ee(by, strict)),
        |name, by, strict, now| none(roa(name).cert().clone().validate_ee_at(by, strict, now)),
    ),
    (
        "roa",
        |name, by, strict| none(object(name).validate(by, strict)),
        |name, by, strict, now| none(object(name).validate_at(by, strict, now)),
    ),
    (
        "asa",
        |name, by, strict| none(object(name).process(by, strict, any)),
        |name, by, strict, now| none(object(name).process_at(by, strict, now, any)),
    ),
    (
        "roa",
        |name, by, strict| none(roa(name).process(by, strict, any)),
        |name, by, strict, now| none(roa(name).process_at(by, strict, now, any)),
    ),
    (
        "asa",
        |name, by, strict| none(aspa(name).process(by, strict, any)),
        |name, by, strict, now| none(aspa(name).process_at(by, strict, now, any)),
    ),
    (
        "mft",
        |name, by, strict| none(manifest(name).process(by, strict, any)),
        |name, by, strict, now| none(manifest(name).process_at(by, strict, now, any)),
    ),
    (
        "mft",
        |name, by, strict| none(manifest(name).validate(by, strict)),
        |name, by, strict, now| none(manifest(name).validate_at(by, strict, now)),
    ),
];

/// Each way, with who issues, and the names of the right file, of one that has expired, and of one that has no name.
fn ways() -> Vec<(Way, ResourceCert, [String; 3])> {
    let issuer = |way: &Way| if way.0 == "ca" { anchor("ta.cer") } else { authority() };
    let certificates = OF_CERTIFICATES
        .into_iter()
        .map(|way| (way, issuer(&way), ["", "-old", "-name"].map(|word| format!("{}{word}.cer", way.0))));
    let objects = OF_OBJECTS
        .into_iter()
        .map(|way| (way, issuer(&way), ["ee", "old", "name"].map(|word| format!("{word}.{}", way.0))));
    certificates.chain(objects).collect()
}

/// Without a moment it is now, by the machine's clock: what was valid in January alone has expired.
#[test]
fn moments() {
    for ((_, by_the_clock, at_a_moment), by, [right, old, _]) in ways() {
        assert_eq!(by_the_clock(&right, &by, true), Ok(()), "{right}");
        assert_eq!(at_a_moment(&right, &by, true, at(NOW)), Ok(()), "{right}");
        assert_eq!(text(by_the_clock(&old, &by, true)), EXPIRED, "{old}");
        assert_eq!(text(at_a_moment(&old, &by, true, at(NOW))), EXPIRED, "{old}");
        assert_eq!(at_a_moment(&old, &by, true, at(JANUARY)), Ok(()), "{old}");
    }
    let year = |year| Time::utc(year, 1, 1, 0, 0, 0);
    assert!(!Validity::new(year(2000), year(2001)).verify().unwrap_err().is_too_new());
    assert!(Validity::new(year(9998), year(9999)).verify().unwrap_err().is_too_new());
    assert_eq!(Validity::new(year(2000), year(9999)).verify(), Ok(()));
    let key = tal(&cert("ta.cer"));
    assert!(cert("ta.cer").validate_ta(key.clone(), true).is_ok());
    assert_eq!(text(cert("ta-old.cer").validate_ta(key.clone(), true)), EXPIRED);
    assert_eq!(text(cert("ta-old.cer").validate_ta_at(key.clone(), true, at(NOW))), EXPIRED);
    assert!(cert("ta-old.cer").validate_ta_at(key, true, at(JANUARY)).is_ok());
    let (by, crl) = (authority(), |name| Crl::decode(file(name)).unwrap());
    assert!(crl("ca.crl").validate(&by).is_ok() && crl("ca-old.crl").validate_at(&by, at(JANUARY)).is_ok());
    assert_eq!(text(crl("ca-old.crl").validate(&by)), "no longer current");
    assert!(crl("ca-old.crl").is_stale() && !crl("ca.crl").is_stale());
    for (name, text_of) in [("stale.mft", "stale manifest"), ("late.mft", "manifest is not yet current")] {
        assert_eq!(text(manifest(name).validate(&by, true)), text_of);
        assert_eq!(text(manifest(name).process(&by, true, any)), text_of);
        assert_eq!(text(manifest(name).validate_at(&by, true, at(NOW))), text_of);
    }
    assert!(manifest("stale.mft").validate_at(&by, true, at(JANUARY)).is_ok());
    assert!(manifest("stale.mft").content().is_stale() && !manifest("late.mft").content().is_stale());
}

/// With `strict` names are held to their profile, and without it they aren't.
#[test]
fn strict_of_names() {
    for ((_, by_the_clock, at_a_moment), by, [_, _, name]) in ways() {
        let wanted = if name.starts_with("router") { "subject has no name of a router" } else { NO_NAME };
        assert_eq!(text(by_the_clock(&name, &by, true)), wanted, "{name}");
        assert_eq!(text(at_a_moment(&name, &by, true, at(NOW))), wanted, "{name}");
        assert_eq!(by_the_clock(&name, &by, false), Ok(()), "{name}");
        assert_eq!(at_a_moment(&name, &by, false, at(NOW)), Ok(()), "{name}");
    }
    let key = tal(&cert("ta.cer"));
    let rule = "issuer has no name of the RPKI";
    assert_eq!(text(cert("ta-name.cer").validate_ta(key.clone(), true)), rule);
    assert_eq!(text(cert("ta-name.cer").validate_ta_at(key.clone(), true, at(NOW))), rule);
    assert!(cert("ta-name.cer").validate_ta(key.clone(), false).is_ok());
    assert!(cert("ta-name.cer").validate_ta_at(key, false, at(NOW)).is_ok());
    let decoded =
        [roa("name.roa").cert().clone(), aspa("name.asa").cert().clone(), manifest("name.mft").cert().clone()];
    for cert in decoded {
        assert_eq!(cert.inspect_ee(true).unwrap_err().to_string(), NO_NAME);
        assert!(cert.inspect_ee(false).is_ok());
    }
    for name in ["name.roa", "name.asa", "name.mft"] {
        assert_eq!(object(name).inspect(true).unwrap_err().to_string(), NO_NAME);
        assert!(object(name).inspect(false).is_ok());
        assert_eq!(object(name).verify_signature(), Ok(()));
        assert_eq!(object(name).verify_signature_with(&RsaProvider), Ok(()));
    }
    assert!(cert("ca-name.cer").inspect_ca(true).is_err() && cert("ca-name.cer").inspect_ca(false).is_ok());
    assert!(cert("ta-name.cer").inspect_ta(true).is_err() && cert("ta-name.cer").inspect_ta(false).is_ok());
    let detached = cert("detached-name.cer");
    assert!(detached.inspect_detached_ee(true).is_err() && detached.inspect_detached_ee(false).is_ok());
    assert!(
        cert("router-name.cer").inspect_router(true).is_err() && cert("router-name.cer").inspect_router(false).is_ok()
    );
}

/// A strict reader takes no object without a signing time, nor one with a binary signing time; nor a route origin of
/// IP version 6 in front. What the other reads is valid.
#[test]
fn strict_of_objects() {
    let by = authority();
    for word in ["ee", "untimed", "binary", "order"] {
        for kind in ["roa", "asa", "mft"].into_iter().filter(|kind| word != "order" || *kind == "roa") {
            let name = format!("{word}.{kind}");
            let decoded = |strict| match kind {
                "roa" => none(Roa::decode(file(&name), strict)),
                "asa" => none(Aspa::decode(file(&name), strict)),
                _ => none(Manifest::decode(file(&name), strict)),
            };
            let wanted = match word {
                "ee" => Ok(()),
                "order" => Err("malformed list of prefixes".to_string()),
                _ => Err("signed attributes that no signed object has".to_string()),
            };
            assert_eq!(decoded(true).map_err(|error| error.to_string()), wanted, "{name}");
            assert_eq!(decoded(false), Ok(()), "{name}");
            let told = SignedObject::decode(file(&name), true).map(|_| ());
            let is_strict = word == "ee" || word == "order";
            assert_eq!(told, if is_strict { Ok(()) } else { Err(SignedObjectError::SignedAttrs) }, "{name}");
            let reason = |strict| SignedObject::reason(&file(&name), strict);
            assert_eq!((reason(true).map(|(part, _)| part), reason(false)), (told.err(), None), "{name}");
            if let Err(ValidationError::Malformed(error)) = decoded(true) {
                assert!(error.reason().is_some(), "{name}");
                let of_object = reason(true).map(|(_, reason)| reason);
                assert!(is_strict || error.reason() == of_object, "{name}");
            }
            assert_eq!(object(&name).verify_signature(), Ok(()), "{name}");
            for (_, by_the_clock, at_a_moment) in OF_OBJECTS.into_iter().filter(|way| way.0 == kind) {
                assert_eq!(by_the_clock(&name, &by, true), Ok(()), "{name}");
                assert_eq!(at_a_moment(&name, &by, true, at(NOW)), Ok(()), "{name}");
            }
        }
    }
    // Of another tag, the signature is what is wrong, and to a strict reader the attributes in front of it.
    let mut other = file("untimed.roa");
    let place = other.len() - 260;
    assert_eq!(other[place..][..4], [4, 0x82, 1, 0]);
    other[place] = 5;
    let reason = |strict| SignedObject::reason(&other, strict).unwrap();
    assert_eq!((reason(true).0, reason(false).0), (SignedObjectError::SignedAttrs, SignedObjectError::Signature));
    for strict in [true, false] {
        match Roa::decode(&other, strict) {
            Err(ValidationError::Malformed(error)) => assert_eq!(error.reason(), Some(reason(strict).1)),
            told => panic!("{told:?}"),
        }
    }
    assert_ne!(reason(true).1, reason(false).1);
    let order = |strict| RouteOriginAttestation::reason(object("order.roa").content(), strict).map(|(part, _)| part);
    assert_eq!((order(true), order(false)), (Some(RoaError::AddressBlocks), None));
    assert_eq!(object("untimed.roa").signing_time(), None);
    assert_eq!(object("binary.roa").binary_signing_time(), Some(1_767_225_600));
    assert_eq!(object("binary.roa").signing_time(), Some(at(1_767_225_600)));
}

/// Each that is given a check of revocation asks it once, of the signer's certificate, and hears it.
#[test]
fn revoked() {
    let (by, list, now) = (authority(), list(), at(NOW));
    for kind in ["roa", "asa", "mft"] {
        for (word, is_revoked) in [("gone", true), ("ee", false)] {
            let name = format!("{word}.{kind}");
            let asked = Cell::new(0);
            let check = |cert: &Cert| {
                assert_eq!(cert, object(&name).cert());
                asked.set(asked.get() + 1);
                list.verify_not_revoked(cert)
            };
            let told = [
                none(object(&name).process(&by, true, check)),
                none(object(&name).process_at(&by, true, now, check)),
                match kind {
                    "roa" => none(roa(&name).process(&by, true, check)),
                    "asa" => none(aspa(&name).process(&by, true, check)),
                    _ => none(manifest(&name).process(&by, true, check)),
                },
                match kind {
                    "roa" => none(roa(&name).process_at(&by, true, now, check)),
                    "asa" => none(aspa(&name).process_at(&by, true, now, check)),
                    _ => none(manifest(&name).process_at(&by, true, now, check)),
                },
            ];
            for told in told {
                assert_eq!(
                    told.map_err(|error| error.to_string()),
                    if is_revoked { Err(REVOKED.into()) } else { Ok(()) }
                );
            }
            assert_eq!(asked.get(), 4);
            assert!(object(&name).validate_at(&by, true, now).is_ok());
        }
    }
    assert!(manifest("gone.mft").validate_at(&by, true, now).is_ok());
    assert_eq!(text(list.verify_not_revoked(&cert("router-gone.cer"))), REVOKED);
    assert_eq!(list.verify_not_revoked(&cert("router.cer")), Ok(()));
    assert_eq!(text(list.verify_not_revoked(&cert("ca.cer"))), "revocation list is another authority's");
}

/// A trust anchor has what it lists, and so has an authority.
#[test]
fn not_everything() {
    let texts = "asn: 'AS64496-AS64511', ipv4: '10.0.0.0/8', ipv6: '2001:db8::/32'";
    let (anchor, by) = (anchor("ta.cer"), authority());
    assert_eq!((has(&anchor), has(&by)), (texts.into(), texts.into()));
    assert_eq!(ResourceSet::try_from(anchor.as_cert()).unwrap().to_string(), texts);
    for (name, v4, v6) in [("ca-v4.cer", "10.0.0.0/8", ""), ("ca-v6.cer", "", "2001:db8::/32")] {
        let found = cert(name).validate_ca_at(&anchor, true, at(NOW)).unwrap();
        assert_eq!(
            (found.v4_resources().as_v4().to_string(), found.v6_resources().as_v6().to_string()),
            (v4.into(), v6.into())
        );
        assert!(found.has_ip_resources() && found.as_resources().is_empty());
    }
    assert_eq!(has(&cert("ca-both.cer").validate_ca_at(&anchor, true, at(NOW)).unwrap()), texts);
    assert!(ResourceSet::try_from(&cert("ca-both.cer")).is_err());
    let set = ResourceSet::from(&by);
    assert_eq!(set.to_ip_resources_v4().to_blocks().unwrap().as_v4().to_string(), "10.0.0.0/8");
    assert_eq!(set.to_ip_resources_v6().to_blocks().unwrap().as_v6().to_string(), "2001:db8::/32");
    assert_eq!(set.to_as_resources().to_string(), "AS64496-AS64511");
}

/// By the policy of RFC 8360 what the issuer hasn't is cut off; by the other a certificate with more is rejected.
#[test]
fn cut_down() {
    let (anchor, by, now) = (anchor("ta.cer"), authority(), at(NOW));
    let cut = cert("ca-trim.cer").validate_ca_at(&anchor, true, now).unwrap();
    assert_eq!(has(&cut), "asn: 'AS64496-AS64498', ipv4: '10.1.0.0/16', ipv6: '2001:db8::/32'");
    assert_eq!(cut.as_cert().as_resources().to_string(), "AS5-AS9, AS64490-AS64498");
    assert_eq!(text(cert("ca-wide.cer").validate_ca_at(&anchor, true, now)), LACKING);
    let router = cert("router-trim.cer").validate_router_at(&by, true, now).unwrap();
    assert_eq!(has(&router), "asn: 'AS64496-AS64498', ipv4: '', ipv6: ''");
    let router = cert("router-trim.cer").validate_router(&by, true).unwrap();
    assert!(!router.as_resources().contains_block(Asn::from_u32(5)) && !router.is_authority());
    assert_eq!(router.as_resources().iter_asns().count(), 3);
    assert_eq!(text(cert("router-wide.cer").validate_router_at(&by, true, now)), LACKING);
    assert!(roa("trim.roa").process_at(&by, true, now, any).is_ok());
    assert!(aspa("trim.asa").process_at(&by, true, now, any).is_ok());
    for name in ["beyond.roa", "beyond6.roa"] {
        assert_eq!(text(roa(name).process_at(&by, true, now, any)), LACKING, "{name}");
        assert!(object(name).process_at(&by, true, now, any).is_ok(), "{name}");
    }
    assert_eq!(text(aspa("beyond.asa").process_at(&by, true, now, any)), LACKING);
}

/// More blocks than there was room for at first.
#[test]
fn many_blocks() {
    let blocks = |count: usize| -> Vec<String> { (0..count).map(|each| format!("10.0.{}.0/24", 2 * each)).collect() };
    let numbers = |count: usize| -> Vec<String> { (0..count).map(|each| format!("AS{}", 64496 + 2 * each)).collect() };
    let many = anchor("ta-numbers.cer");
    let now = at(NOW);
    for by in [&anchor("ta.cer"), &many] {
        for (name, count) in [("ca-17.cer", 17), ("ca-65.cer", 65)] {
            let found = cert(name).validate_ca_at(by, true, now).unwrap();
            assert_eq!(found.v4_resources().as_v4().to_string(), blocks(count).join(", "));
        }
        let found = cert("ca-numbers.cer").validate_ca_at(by, true, now).unwrap();
        assert_eq!(found.as_resources().to_string(), numbers(8).join(", "));
    }
    let found = cert("ca-both.cer").validate_ca_at(&many, true, now).unwrap();
    assert_eq!(found.v4_resources().as_v4().to_string(), blocks(65).join(", "));
    assert_eq!(found.as_resources().to_string(), numbers(65).join(", "));
}

/// A certificate that was found to keep one profile when it was read keeps no other.
#[test]
fn profiles() {
    let (anchor, by, now) = (anchor("ta.cer"), authority(), at(NOW));
    let inspected = |cert: &Cert, strict| {
        let told = [cert.inspect_ta(strict).is_ok(), cert.inspect_ca(strict).is_ok(), cert.inspect_ee(strict).is_ok()];
        (told, [cert.inspect_detached_ee(strict).is_ok(), cert.inspect_router(strict).is_ok()])
    };
    let signer = || roa("ee.roa").cert().clone();
    for strict in [true, false] {
        assert_eq!(inspected(&cert("ta.cer"), strict), ([true, false, false], [false, false]));
        assert_eq!(inspected(&cert("ca.cer"), strict), ([false, true, false], [false, false]));
        for cert in [signer(), aspa("ee.asa").cert().clone(), manifest("ee.mft").cert().clone()] {
            assert_eq!(inspected(&cert, strict), ([false, false, true], [false, false]));
        }
        assert_eq!(inspected(&cert("detached.cer"), strict), ([false, false, false], [true, false]));
        assert_eq!(inspected(&cert("router.cer"), strict), ([false, false, false], [false, true]));
    }
    assert_eq!(text(signer().validate_ca_at(&by, true, now)), "missing basic constraints");
    assert_eq!(text(signer().validate_router_at(&by, true, now)), "key is no uncompressed point on P-256");
    assert_eq!(text(signer().validate_detached_ee_at(&by, true, now)), "subject information access is there");
    assert_eq!(text(cert("ca.cer").validate_ee_at(&anchor, true, now)), "basic constraints are there");
    assert!(cert("detached.cer").validate_ee_at(&by, true, now).is_err());
    assert!(cert("router.cer").validate_ca_at(&by, true, now).is_err());
}

/// What an end entity or a router is the issuer of, nobody takes.
#[test]
fn issuers() {
    let (by, now) = (authority(), at(NOW));
    let entity = |name: &str| roa(name).cert().clone().validate_ee_at(&by, true, now).unwrap();
    for issuer in [
        entity("ee.roa"),
        cert("router.cer").validate_router_at(&by, true, now).unwrap(),
        cert("detached.cer").validate_detached_ee_at(&by, true, now).unwrap(),
    ] {
        assert!(!issuer.is_authority());
        for ((_, by_the_clock, at_a_moment), _, [right, _, _]) in ways() {
            assert_eq!(text(by_the_clock(&right, &issuer, true)), NO_AUTHORITY);
            assert_eq!(text(at_a_moment(&right, &issuer, true, now)), NO_AUTHORITY);
        }
        assert_eq!(text(Crl::decode(file("ca.crl")).unwrap().validate_at(&issuer, now)), NO_AUTHORITY);
    }
    assert!(by.is_authority() && by.tal().name() == "deciding");
    assert_eq!(entity("ee.roa").into_tal().name(), "deciding");
    let (anchor, key) = (anchor("ta.cer"), tal(&cert("ta.cer")));
    let own = "subject key identifier is not that of the key";
    assert_eq!(text(cert("ca-key.cer").validate_ca_at(&anchor, true, now)), own);
    assert!(cert("ta-key.cer").validate_ta_at(key, true, now).is_err());
    assert_eq!(text(cert("ca-other.cer").validate_ca_at(&anchor, true, now)), "key of the issuer is another one");
    let other = tal(&cert("ca.cer"));
    assert_eq!(text(cert("ta.cer").validate_ta_at(other, true, now)), "key is not that of the trust anchor locator");
}

/// A provider that says yes or no to each signature, and to each octets' digest what the library's says, or zeros.
struct Fixed(bool, bool);

impl Provider for Fixed {
    fn sha256(&self, octets: &[u8]) -> [u8; 32] {
        if self.1 {
            RsaProvider.sha256(octets)
        } else {
            [0; 32]
        }
    }

    fn rsa_check(&self, _: &[u8], _: &[u8], _: &[u8]) -> bool {
        self.0
    }
}

/// What is signed is the type of the content, its digest, and by the signer whose certificate there is.
#[test]
fn signatures() {
    let by = authority();
    for (word, error) in [
        ("type", ObjectVerificationError::ContentType),
        ("digest", ObjectVerificationError::MessageDigest),
        ("signer", ObjectVerificationError::SubjectKeyIdentifier),
    ] {
        for kind in ["roa", "asa", "mft"] {
            let name = format!("{word}.{kind}");
            assert_eq!(object(&name).verify_signature(), Err(error), "{name}");
            assert_eq!(object(&name).verify_signature_with(&RsaProvider), Err(error), "{name}");
            for (_, _, at_a_moment) in OF_OBJECTS.into_iter().skip(1).filter(|way| way.0 == kind) {
                assert_eq!(text(at_a_moment(&name, &by, true, at(NOW))), error.to_string(), "{name}");
            }
        }
    }
    let right = object("ee.roa");
    assert!(right.is_type_signed() && !object("type.roa").is_type_signed());
    assert_eq!(right.verify_signature_with(&RsaProvider), Ok(()));
    assert_eq!(right.verify_signature_with(&Fixed(true, true)), Ok(()));
    assert_eq!(right.verify_signature_with(&Fixed(false, true)), Err(ObjectVerificationError::Signature));
    assert_eq!(right.verify_signature_with(&Fixed(true, false)), Err(ObjectVerificationError::MessageDigest));
    let mut other = file("ee.roa");
    *other.last_mut().unwrap() ^= 1;
    let other = SignedObject::decode(other, true).unwrap();
    assert_eq!(other.verify_signature(), Err(ObjectVerificationError::Signature));
    assert_eq!(other.verify_signature_with(&RsaProvider), Err(ObjectVerificationError::Signature));
    let signed = SignedData::decode(file("ca.cer")).unwrap();
    for (name, is_issuer) in [("ta.cer", true), ("ca.cer", false)] {
        let cert = cert(name);
        let key = cert.subject_public_key_info();
        assert_eq!(signed.verify_signature(key).is_ok(), is_issuer, "{name}");
        assert_eq!(signed.verify_signature_with(&RsaProvider, key).is_ok(), is_issuer, "{name}");
    }
    // The certificate of the signer has to be an end entity's.
    let rule = object("authority.roa").verify_signature();
    assert_eq!(rule, Err(ObjectVerificationError::Certificate(CertRule::NoBasicConstraints)));
}
