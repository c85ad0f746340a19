//! A repository that tests/linked/repository/make makes with openssl, validated from its locator on; and each thing
//! changed that has to hold.

use rpki_proved::crypto::RsaProvider;
use rpki_proved::repository::aspa::AspaError;
use rpki_proved::repository::cert::{CertPart, CertRule, ExtensionError};
use rpki_proved::repository::crl::CrlError;
use rpki_proved::repository::error::{InspectionError, ValidationError};
use rpki_proved::repository::manifest::ManifestError;
use rpki_proved::repository::resources::{Asn, InheritedResources, ResourceSet};
use rpki_proved::repository::roa::RoaError;
use rpki_proved::repository::sigobj::{ObjectVerificationError, SignedObjectError};
use rpki_proved::repository::tal::{ReadError, Tal};
use rpki_proved::repository::x509::Time;
use rpki_proved::repository::{Aspa, Cert, Crl, CurrentCrl, Manifest, ResourceCert, Roa};
use std::sync::Arc;

macro_rules! file {
    ($name:literal) => {
        include_bytes!(concat!("repository/", $name))
    };
}

const LOCATOR: &[u8] = file!("example.tal");
const ANCHOR: &[u8] = file!("rpki.example/repo/ta/ta.cer");
const ANCHOR_LIST: &[u8] = file!("rpki.example/repo/ta/ta.crl");
const ANCHOR_MANIFEST: &[u8] = file!("rpki.example/repo/ta/ta.mft");
const AUTHORITY: &[u8] = file!("rpki.example/repo/ta/ca.cer");
const LIST: &[u8] = file!("rpki.example/repo/ca/ca.crl");
const MANIFEST: &[u8] = file!("rpki.example/repo/ca/ca.mft");
const ROA: &[u8] = file!("rpki.example/repo/ca/roa.roa");
const ONE: &[u8] = file!("rpki.example/repo/ca/one.roa");
const GONE: &[u8] = file!("rpki.example/repo/ca/gone.roa");
const WIDE: &[u8] = file!("rpki.example/repo/ca/wide.roa");
const ASPA: &[u8] = file!("aspa.asa");
const ROUTER: &[u8] = file!("router.cer");

/// When all of it is valid, from and until when, in seconds since 1970.
const NOW: i64 = 1_780_272_000;
const FROM: i64 = 1_767_225_600;
const UNTIL: i64 = 2_082_758_400;

fn at(seconds: i64) -> Time {
    Time::from_timestamp(seconds).unwrap()
}

fn now() -> Time {
    at(NOW)
}

fn tal() -> Tal {
    Tal::read("folder/example.tal", &mut &LOCATOR[..]).unwrap()
}

fn anchor() -> ResourceCert {
    Cert::decode(ANCHOR).unwrap().validate_ta_at(tal().info().clone(), true, now()).unwrap()
}

fn authority() -> ResourceCert {
    Cert::decode(AUTHORITY).unwrap().validate_ca_at(&anchor(), true, now()).unwrap()
}

fn list() -> CurrentCrl {
    Crl::decode(LIST).unwrap().validate_at(&authority(), now()).unwrap()
}

/// The text of an error.
fn text<T>(found: Result<T, ValidationError>) -> String {
    found.map(|_| ()).unwrap_err().to_string()
}

/// The octets with one bit changed.
fn changed(octets: &[u8], at: usize) -> Vec<u8> {
    let mut octets = octets.to_vec();
    octets[at] ^= 1;
    octets
}

/// The last place of these octets in others.
fn place(all: &[u8], part: &[u8]) -> usize {
    all.windows(part.len()).rposition(|octets| octets == part).expect("a part")
}

#[test]
fn locators() {
    let tal = tal();
    assert_eq!(tal.info().name(), "example");
    let uris: Vec<String> = tal.uris().map(|uri| uri.to_string()).collect();
    assert_eq!(uris, ["rsync://rpki.example/repo/ta/ta.cer"]);
    assert_eq!(tal.key_info(), Cert::decode(ANCHOR).unwrap().subject_public_key_info());

    let key = std::str::from_utf8(LOCATOR).unwrap().split_once("\n\n").unwrap().1;
    let read = |text: String| Tal::read_named("a".into(), &mut text.as_bytes());
    let text =
        format!("# a comment\r\n#\nrsync://a.example/b/c\r\nhttps://a.example/b\n\r\n{}", key.replace('\n', "\r\n"));
    let mut tal = read(text).unwrap();
    assert!(tal.uris().next().unwrap().is_rsync());
    tal.prefer_https();
    let uris: Vec<String> = tal.uris().map(|uri| uri.to_string()).collect();
    assert_eq!(uris, ["https://a.example/b", "rsync://a.example/b/c"]);
    assert!(tal.uris().next().unwrap().is_https() && !tal.uris().next().unwrap().is_rsync());

    let uri = "rsync://a.example/b/c\n";
    assert!(matches!(read(format!("\n{key}")), Err(ReadError::Uri)));
    assert!(matches!(read(format!("# only\n\n{key}")), Err(ReadError::Uri)));
    assert!(matches!(read(format!("ftp://a.example/\n\n{key}")), Err(ReadError::Uri)));
    assert!(matches!(read(format!("{uri}# late\n\n{key}")), Err(ReadError::Uri)));
    for folder in ["rsync://a.example/b/", "rsync://a.example/b/c/", "https://a.example/", "https://a.example/b/"] {
        assert!(matches!(read(format!("{folder}\n\n{key}")), Err(ReadError::Uri)), "{folder}");
        assert!(matches!(read(format!("{uri}{folder}\n\n{key}")), Err(ReadError::Uri)), "{folder}");
    }
    assert!(matches!(read(uri.into()), Err(ReadError::Base64)));
    assert!(matches!(read(format!("{uri}\n{key}*")), Err(ReadError::Base64)));
    assert!(matches!(read(format!("{uri}\n")), Err(ReadError::Key(_))));
    assert!(matches!(read(format!("{uri}\nMAA=")), Err(ReadError::Key(_))));
    assert!(matches!(Tal::read_named("a".into(), &mut &b"\xff"[..]), Err(ReadError::Text)));
}

#[test]
fn anchors() {
    let found = anchor();
    assert!(found.is_authority());
    assert_eq!(ResourceSet::from(&found), ResourceSet::all());
    assert_eq!(found.tal().name(), "example");
    assert_eq!(found.to_bytes(), ANCHOR);
    assert_eq!(found.clone().into_cert().to_bytes(), ANCHOR);

    let validate =
        |octets: &[u8], tal: &Tal, now| Cert::decode(octets.to_vec())?.validate_ta_at(tal.info().clone(), true, now);
    // Another key.
    let cert = Cert::decode(AUTHORITY).unwrap();
    let other = rpki_proved::util::base64::Xml.encode(&cert.subject_public_key_info().to_info_bytes());
    let other = format!("rsync://rpki.example/repo/ta/ta.cer\n\n{other}\n");
    let other = Tal::read_named("other".into(), &mut other.as_bytes()).unwrap();
    assert_eq!(text(validate(ANCHOR, &other, now())), "key is not that of the trust anchor locator");
    assert_eq!(text(validate(&changed(ANCHOR, ANCHOR.len() - 1), &tal(), now())), "signature verification failed");
    assert_eq!(text(validate(AUTHORITY, &tal(), now())), "CRL distribution points are there");
    assert_eq!(text(validate(ANCHOR, &tal(), at(FROM - 1))), "certificate is not yet valid");
    assert_eq!(text(validate(ANCHOR, &tal(), at(UNTIL + 1))), "certificate has expired");
    assert!(validate(ANCHOR, &tal(), at(FROM)).is_ok() && validate(ANCHOR, &tal(), at(UNTIL)).is_ok());
}

#[test]
fn authorities() {
    let found = authority();
    assert!(found.is_authority());
    let has = ResourceSet::from(&found);
    assert_eq!(
        has.to_string(),
        "asn: 'AS64496, AS64498-AS64511, AS4200000000-AS4200000009', ipv4: '10.0.0.0/8, 192.0.2.0/25, \
         198.51.100.1-198.51.100.254, 203.0.113.64/26', ipv6: '2001:db8::/32, 3fff::1-3fff:0:ffff::'"
    );
    assert!(ResourceSet::from(&anchor()).contains(&has) && !has.contains(&ResourceSet::all()));
    assert!(Arc::ptr_eq(found.tal(), found.clone().tal()) && found.tal().name() == "example");

    let anchor = anchor();
    let key = |cert: &ResourceCert| cert.subject_public_key_info().key_identifier();
    assert_eq!(found.subject_key_identifier(), key(&found));
    assert_eq!(anchor.subject_key_identifier(), key(&anchor));
    assert_eq!(found.authority_key_identifier(), Some(key(&anchor)));
    let base = "rsync://rpki.example/repo";
    for (uri, wanted) in [
        (found.crl_uri(), Some("ta/ta.crl")),
        (found.ca_issuer(), Some("ta/ta.cer")),
        (found.ca_repository(), Some("ca/")),
        (found.rpki_manifest(), Some("ca/ca.mft")),
        (found.signed_object(), None),
        (anchor.crl_uri(), None),
        (anchor.ca_issuer(), None),
        (anchor.rpki_manifest(), Some("ta/ta.mft")),
        (anchor.ca_repository(), Some("ta/")),
    ] {
        assert_eq!(uri.map(|uri| uri.to_string()), wanted.map(|wanted| format!("{base}/{wanted}")));
    }
    assert_eq!(found.rpki_notify(), None);
    assert_eq!(anchor.rpki_notify().unwrap().to_string(), "https://rpki.example/notification.xml");
    let validate = |octets: &[u8], now| Cert::decode(octets.to_vec())?.validate_ca_at(&anchor, true, now);
    assert_eq!(text(validate(&changed(AUTHORITY, AUTHORITY.len() - 1), now())), "signature verification failed");
    assert_eq!(text(validate(AUTHORITY, at(FROM - 1))), "certificate is not yet valid");
    assert_eq!(text(validate(AUTHORITY, at(UNTIL + 1))), "certificate has expired");
    assert_eq!(text(validate(ANCHOR, now())), "missing authority key identifier");
    // By another authority, and by an end entity.
    let cert = || Cert::decode(AUTHORITY).unwrap();
    assert_eq!(text(cert().validate_ca_at(&found, true, now())), "issuer has another name");
    let (signer, _) = Roa::decode(ROA, true).unwrap().process_at(&found, true, now(), |_| Ok(())).unwrap();
    assert!(!signer.is_authority());
    assert_eq!(signer.signed_object().unwrap().to_string(), "rsync://rpki.example/repo/ca/roa.roa");
    assert_eq!(text(cert().validate_ca_at(&signer, true, now())), "issuer is no certification authority");
    assert_eq!(text(Crl::decode(LIST).unwrap().validate_at(&signer, now())), "issuer is no certification authority");
}

#[test]
fn routers() {
    let (anchor, found) = (anchor(), authority());
    let router = Cert::decode(ROUTER).unwrap();
    let valid = router.validate_router_at(&found, true, now()).unwrap();
    assert_eq!(ResourceSet::from(&valid).to_string(), "asn: 'AS64496', ipv4: '', ipv6: ''");
    assert!(!valid.is_authority() && valid.as_cert() == &router);
    assert_eq!(text(router.validate_router_at(&anchor, true, now())), "issuer has another name");
    assert_eq!(text(router.validate_router_at(&found, true, at(UNTIL + 1))), "certificate has expired");
    let other = Cert::decode(changed(ROUTER, ROUTER.len() - 1)).unwrap();
    assert_eq!(text(other.validate_router_at(&found, true, now())), "signature verification failed");
    assert!(Cert::decode(ROUTER).unwrap().validate_ee_at(&found, true, now()).is_err());
    assert!(Cert::decode(ROUTER).unwrap().validate_detached_ee_at(&found, true, now()).is_err());
    let detached = || Cert::decode(&include_bytes!("repository/detached.cer")[..]).unwrap();
    let valid = detached().validate_detached_ee_at(&found, true, now()).unwrap();
    assert_eq!(ResourceSet::from(&valid).to_string(), "asn: 'AS64496', ipv4: '', ipv6: ''");
    assert!(!valid.is_authority());
    assert_eq!(text(detached().validate_ee_at(&found, true, now())), "missing URI of the signed object");
    let cert = Roa::decode(ROA, true).unwrap().cert().clone();
    assert_eq!(text(cert.validate_detached_ee_at(&found, true, now())), "subject information access is there");
    assert!(Cert::decode(AUTHORITY).unwrap().validate_router_at(&anchor, true, now()).is_err());
}

#[test]
fn lists() {
    let found = authority();
    let validate = |octets: &[u8], now| Crl::decode(octets.to_vec())?.validate_at(&found, now);
    assert!(validate(LIST, at(FROM)).is_ok() && validate(LIST, at(UNTIL)).is_ok());
    assert_eq!(text(validate(LIST, at(FROM - 1))), "not yet current");
    assert_eq!(text(validate(LIST, at(UNTIL + 1))), "no longer current");
    assert_eq!(text(validate(ANCHOR_LIST, now())), "issuer has another name");
    assert_eq!(text(validate(&changed(LIST, LIST.len() - 1), now())), "signature verification failed");

    let cert = |octets| Roa::decode(octets, true).unwrap().cert().clone();
    assert_eq!(list().verify_not_revoked(&cert(ROA)), Ok(()));
    assert_eq!(text(list().verify_not_revoked(&cert(GONE))), "certificate is revoked");
    let others = "revocation list is another authority's";
    assert_eq!(text(list().verify_not_revoked(&Cert::decode(AUTHORITY).unwrap())), others);
    let anchors = Crl::decode(ANCHOR_LIST).unwrap().validate_at(&anchor(), now()).unwrap();
    assert_eq!(text(anchors.verify_not_revoked(&cert(GONE))), others);
    assert_eq!(anchors.verify_not_revoked(&Cert::decode(AUTHORITY).unwrap()), Ok(()));

    // Of the same key, but of another name.
    let octets = cert(GONE).to_bytes();
    let issuer = octets.windows(4).position(|octets| octets == b"\x13\x02ca").unwrap();
    let other = Cert::decode(changed(&octets, issuer + 3)).unwrap();
    assert_eq!(text(self::list().verify_not_revoked(&other)), others);
    // Of the same name, but of another key.
    let key = place(&octets, self::list().authority_key_identifier().as_slice());
    let other = Cert::decode(changed(&octets, key)).unwrap();
    assert_eq!(text(self::list().verify_not_revoked(&other)), others);

    // The signature is one of the issuer's, over what is signed.
    let (list, issuer) = (Crl::decode(LIST).unwrap(), Cert::decode(AUTHORITY).unwrap());
    assert!(list.verify_signature(issuer.subject_public_key_info()).is_ok());
    assert!(list.verify_signature(Cert::decode(ANCHOR).unwrap().subject_public_key_info()).is_err());
    let other = Crl::decode(changed(LIST, LIST.len() - 1)).unwrap();
    assert!(other.verify_signature(issuer.subject_public_key_info()).is_err());
    for (list, is_good) in [(&list, true), (&other, false)] {
        let verified = list.verify_signature_with(&RsaProvider, issuer.subject_public_key_info());
        assert_eq!(verified.is_ok(), is_good);
    }
}

#[test]
fn manifests() {
    let (found, list) = (authority(), list());
    let check = |cert: &Cert| list.verify_not_revoked(cert);
    let decoded = |octets: &[u8]| Manifest::decode(octets.to_vec(), false).unwrap();
    let (cert, content) = decoded(MANIFEST).process_at(&found, true, now(), check).unwrap();
    // It has what its issuer has.
    assert_eq!(ResourceSet::from(&cert), ResourceSet::from(&found));
    assert_eq!(content.manifest_number().to_string(), "7");
    let names: Vec<Vec<u8>> = content.iter().map(|file| file.file().to_vec()).collect();
    assert_eq!(names, [&b"ca.crl"[..], b"gone.roa", b"one.roa", b"roa.roa", b"wide.roa"]);
    for (file, octets) in content.iter().zip([LIST, GONE, ONE, ROA, WIDE]) {
        assert_eq!(file.hash().verify(octets), Ok(()));
        assert_eq!(text(file.hash().verify(&octets[1..])), "digest mismatch");
    }
    assert!(!content.is_stale());
    assert!(decoded(MANIFEST).validate_at(&found, true, at(FROM)).is_ok());
    assert!(decoded(ANCHOR_MANIFEST).validate_at(&anchor(), true, now()).is_ok());
    assert!(decoded(ANCHOR_MANIFEST).validate_at(&found, true, now()).is_err());
    assert!(decoded(MANIFEST).validate_at(&found, true, at(UNTIL + 1)).is_err());
    // That was due in February.
    let old = || decoded(file!("old.mft"));
    assert!(old().validate_at(&found, true, at(FROM + 31 * 86_400)).is_ok());
    assert_eq!(text(old().validate_at(&found, true, at(FROM + 31 * 86_400 + 1))), "stale manifest");
    assert_eq!(text(old().process_at(&found, true, now(), check)), "stale manifest");
    assert_eq!(text(old().validate_at(&found, true, at(FROM - 1))), "certificate is not yet valid");
    let own = decoded(file!("own.mft"));
    assert_eq!(text(own.process_at(&found, true, now(), check)), "manifest with resources of its own");
    assert_eq!(text(Manifest::decode(ROA, false)), "content of another type");
}

#[test]
fn origins() {
    let (found, list) = (authority(), list());
    let process = |octets: &[u8], now| {
        Roa::decode(octets.to_vec(), true)?.process_at(&found, true, now, |cert| list.verify_not_revoked(cert))
    };
    let (cert, content) = process(ROA, now()).unwrap();
    assert_eq!(
        ResourceSet::from(&cert).to_string(),
        "asn: '', ipv4: '10.0.0.0/8, 192.0.2.0/25', ipv6: '2001:db8::/32'"
    );
    assert_eq!(content.as_id(), Asn::from_u32(64496));
    let texts = |octets| -> Vec<String> {
        process(octets, now())
            .unwrap()
            .1
            .iter()
            .map(|it| format!("{}/{}-{}", it.address(), it.address_length(), it.max_length()))
            .collect()
    };
    assert_eq!(texts(ROA), ["10.0.0.0/8-24", "10.64.0.0/13-13", "192.0.2.0/25-25", "2001:db8::/32-48"]);
    assert_eq!(texts(ONE), ["203.0.113.64/26-26"]);
    assert_eq!(text(process(GONE, now())), "certificate is revoked");
    let lacking = "resources that the issuer or the signer does not have";
    assert_eq!(text(process(WIDE, now())), lacking);
    // By its certificate alone, whatever it says.
    let wide = Roa::decode(WIDE, true).unwrap().object().clone();
    assert_eq!(text(wide.validate_at(&found, true, now())), lacking);
    assert_eq!(text(process(file!("far.roa"), now())), lacking);
    assert_eq!(text(process(file!("kinds.roa"), now())), "certificate with other kinds of resources than its object");
    assert_eq!(text(process(ROA, at(FROM - 1))), "certificate is not yet valid");
    assert_eq!(text(process(ROA, at(UNTIL + 1))), "certificate has expired");
    assert_eq!(text(process(ASPA, now())), "content of another type");
    assert_eq!(text(process(b"", now())), "not a signed object");
    let content = place(ROA, b"\x20\x01\x0d\xb8");
    assert_eq!(text(process(&changed(ROA, ROA.len() - 1), now())), "signature verification failed");
    assert!(process(&changed(ROA, content), now()).is_err());
    // By another authority.
    let roa = Roa::decode(ROA, true).unwrap();
    assert_eq!(text(roa.clone().process_at(&anchor(), true, now(), |_| Ok(()))), "issuer has another name");
    // Who asks says no.
    let says = || ValidationError::from(rpki_proved::DecodeError::Content);
    assert_eq!(text(roa.process_at(&found, true, now(), |_| Err(says()))), says().to_string());
}

#[test]
fn attestations() {
    let (found, list) = (authority(), list());
    let process = |octets: &[u8]| {
        Aspa::decode(octets.to_vec(), true)?.process_at(&found, true, now(), |cert| list.verify_not_revoked(cert))
    };
    let (cert, content) = process(ASPA).unwrap();
    assert_eq!(ResourceSet::from(&cert).to_string(), "asn: 'AS64496', ipv4: '', ipv6: ''");
    assert!(ResourceSet::from(&cert).contains_asn(Asn::from_u32(64496)));
    assert_eq!(content.customer_as(), Asn::from_u32(64496));
    let providers: Vec<u32> = content.provider_as_set().iter().map(u32::from).collect();
    assert_eq!(providers, [64499, 64501]);
    assert_eq!(text(process(file!("other.asa"))), "resources that the issuer or the signer does not have");
    assert_eq!(text(process(file!("above.asa"))), "resources that the issuer or the signer does not have");
    let above = Aspa::decode(&file!("above.asa")[..], true).unwrap().object().clone();
    let told = text(above.validate_at(&found, true, now()));
    assert_eq!(told, "resources that the issuer or the signer does not have");
    assert_eq!(text(process(file!("kinds.asa"))), "certificate with other kinds of resources than its object");
    assert_eq!(text(process(ROA)), "content of another type");
}

/// By the machine's clock; the repository is valid until 2036.
#[test]
fn by_the_clock() {
    let anchor = Cert::decode(ANCHOR).unwrap().validate_ta(tal().info().clone(), true).unwrap();
    let found = Cert::decode(AUTHORITY).unwrap().validate_ca(&anchor, true).unwrap();
    let list = Crl::decode(LIST).unwrap().validate(&found).unwrap();
    let check = |cert: &Cert| list.verify_not_revoked(cert);
    assert!(Manifest::decode(MANIFEST, true).unwrap().validate(&found, true).is_ok());
    assert!(Manifest::decode(MANIFEST, true).unwrap().process(&found, true, check).is_ok());
    assert!(Roa::decode(ROA, true).unwrap().process(&found, true, check).is_ok());
    assert!(Aspa::decode(ASPA, true).unwrap().process(&found, true, check).is_ok());
    assert!(Cert::decode(ROUTER).unwrap().validate_router(&found, true).is_ok());
    let cert = Roa::decode(ROA, true).unwrap().cert().clone();
    assert!(cert.validate_ee(&found, true).is_ok());
    assert!(Roa::decode(ROA, true).unwrap().object().clone().validate(&found, true).is_ok());
    let object = Roa::decode(ROA, true).unwrap().object().clone();
    assert_eq!(object.clone().process(&found, true, check).unwrap().1, object.content());
}

/// Each error converts, and keeps its text; of a certificate that is malformed the text of its part.
#[test]
fn errors_convert() {
    fn of(error: impl Into<ValidationError>) -> ValidationError {
        error.into()
    }
    let part = Cert::decode(&b"\x30\x00"[..]).unwrap_err();
    for (error, text) in [
        (of(part), "malformed signed data"),
        (of(CertPart::Issuer), "malformed issuer"),
        (of(CrlError::NextUpdate), "malformed time of the next list"),
        (of(SignedObjectError::Signer), "not one signer"),
        (of(ManifestError::FileTwice), "file listed twice"),
        (of(RoaError::AsId), "malformed AS number"),
        (of(AspaError::Customer), "malformed customer"),
    ] {
        assert!(matches!(error, ValidationError::Malformed(_)), "{text}");
        assert_eq!(error.to_string(), text);
    }
    for (error, text) in [
        (of(CertRule::RsaKey), "key is no RSA key of 2048 bits and the exponent 65537"),
        (of(ExtensionError::KeyUsage), "wrong key usage"),
        (of(ObjectVerificationError::Certificate(CertRule::Issuer)), "issuer has no name of the RPKI"),
        (of(InspectionError::from(CertRule::SerialNumber)), "serial number is 0"),
        (of(InspectionError::from(ExtensionError::KeyUsage)), "wrong key usage"),
    ] {
        assert!(matches!(error, ValidationError::Inspection(_)), "{text}");
        assert_eq!(error.to_string(), text);
    }
    let cert = Cert::decode(ANCHOR).unwrap();
    let unsigned = Crl::decode(LIST).unwrap().verify_signature(cert.subject_public_key_info()).unwrap_err();
    for (error, text) in [
        (of(ObjectVerificationError::MessageDigest), "message digest mismatch"),
        (of(unsigned), "signature verification failed"),
        (of(cert.validity().verify_at(at(UNTIL + 1)).unwrap_err()), "certificate has expired"),
        (of(cert.validity().verify_at(at(FROM - 1)).unwrap_err()), "certificate is not yet valid"),
        (of(InheritedResources), "inherited resources"),
    ] {
        assert!(matches!(error, ValidationError::Verification(_)), "{text}");
        assert_eq!(error.to_string(), text);
    }
    assert!(matches!(of(rpki_proved::DecodeError::Trailing), ValidationError::Decode(_)));
}
