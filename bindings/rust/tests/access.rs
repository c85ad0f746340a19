//! Where things are, as the certificate of examples/ says; the URIs are those that `openssl x509 -text` prints.

use rpki_proved::repository::cert::{AccessMethod, Cert, ExtensionError, KeyUsage, KnownExtensions, Overclaim};
use rpki_proved::repository::resources::{AsResources, IpResources, ResourceSet};
use rpki_proved::view::DecodeError;

const REPOSITORY: &str = "rsync://rpki.example.net/repository/ca/";

/// The certificate, in which the first of these octets are others.
fn changed(octets: &[u8], others: &[u8]) -> Cert {
    let mut changed = include_bytes!("certificate.der").to_vec();
    let place = changed.windows(octets.len()).position(|window| window == octets).unwrap();
    changed[place..place + octets.len()].copy_from_slice(others);
    Cert::decode(changed).unwrap()
}

/// Its extensions.
fn with(octets: &[u8], others: &[u8]) -> KnownExtensions {
    changed(octets, others).known_extensions().unwrap().clone()
}

fn text(uri: Option<impl ToString>) -> Option<String> {
    uri.map(|uri| uri.to_string())
}

#[test]
fn uris_are_those_of_openssl() {
    let known = with(b"\x30", b"\x30");
    assert_eq!(text(known.crl_uri().unwrap()).unwrap(), "rsync://rpki.example.net/anchor/anchor.crl");
    assert_eq!(text(known.ca_issuer().unwrap()).unwrap(), "rsync://rpki.example.net/anchor/anchor.cer");
    assert_eq!(text(known.ca_repository().unwrap()).unwrap(), REPOSITORY);
    assert_eq!(text(known.rpki_manifest().unwrap()).unwrap(), "rsync://rpki.example.net/repository/ca/ca.mft");
    assert_eq!(text(known.rpki_notify().unwrap()).unwrap(), "https://rrdp.example.net/notification.xml");
    assert_eq!(known.signed_object().unwrap(), None);
    let methods: Vec<_> = known.subject_access().unwrap().iter().map(|it| it.method).collect();
    assert_eq!(methods, [AccessMethod::CaRepository, AccessMethod::RpkiManifest, AccessMethod::RpkiNotify]);
    let authority = known.authority_access().unwrap();
    assert_eq!(authority.len(), 1);
    assert_eq!(authority[0].method, AccessMethod::CaIssuers);
    assert_eq!(authority[0].id[..], [43, 6, 1, 5, 5, 7, 48, 2]);
    assert_eq!(authority[0].location.as_deref(), Some(&b"rsync://rpki.example.net/anchor/anchor.cer"[..]));
}

/// What a certificate claims, by either version of the extensions (RFC 8360 4.2.2).
#[test]
fn claims_are_those_of_openssl() {
    let (ip, numbers) = (b"\x06\x08\x2b\x06\x01\x05\x05\x07\x01\x07", b"\x06\x08\x2b\x06\x01\x05\x05\x07\x01\x08");
    let (other_ip, others) = (b"\x06\x08\x2b\x06\x01\x05\x05\x07\x01\x1c", b"\x06\x08\x2b\x06\x01\x05\x05\x07\x01\x1d");
    let wanted = ResourceSet::from_strs("AS64496-AS64511, AS65551", "192.0.2.0/24, 198.51.100.0/24", "2001:db8::/32");
    for cert in [changed(ip, ip), changed(ip, other_ip), changed(numbers, others)] {
        assert_eq!(ResourceSet::try_from(&cert), Ok(wanted.clone().unwrap()));
        assert!(cert.has_ip_resources());
    }
    // Another extension: nothing is claimed.
    let none = changed(ip, b"\x06\x08\x2b\x06\x01\x05\x05\x07\x01\x7f");
    assert!(!none.has_ip_resources() && none.v4_resources() == &IpResources::missing());
    let none = changed(numbers, b"\x06\x08\x2b\x06\x01\x05\x05\x07\x01\x7f");
    assert_eq!(none.as_resources(), &AsResources::missing());
}

/// Addresses of IP version 6 alone are claimed too.
#[test]
fn claims_of_one_family() {
    let octets = with(b"\x30", b"\x30").ip_resources.unwrap().octets;
    let last = [&[0, 0xff][..], &[0; 10], &[1]].concat();
    let prefixes = [value(3, &[0, 0x20, 0, 2]), value(3, &[0, 0x20, 1, 2]), value(3, &last)].concat();
    let addresses = value(0x30, &[value(4, &[0, 2]), value(0x30, &prefixes)].concat());
    let cert = changed(&octets, &value(0x30, &addresses));
    assert!(cert.has_ip_resources() && !cert.v4_resources().is_present());
    let blocks = cert.v6_resources().to_blocks().unwrap();
    assert_eq!(blocks.as_v6().to_string(), "2000:200::/24, 2001:200::/24, ff00::1:0:0/96");
}

#[test]
fn accessors_are_those_of_openssl() {
    let cert = changed(b"\x30", b"\x30");
    let (key, issuer) = ("30B4C672D6D2E57D8765688E65F4C38012C7072D", "032E5C33D3C929DA46E8FC5E9C5486FC2DF40D0B");
    assert_eq!(cert.subject_key_identifier().to_string(), key);
    assert_eq!(cert.authority_key_identifier().unwrap().to_string(), issuer);
    assert_eq!((cert.basic_ca(), cert.key_usage(), cert.overclaim()), (Some(true), KeyUsage::Ca, Overclaim::Refuse));
    assert_eq!(text(cert.crl_uri()).unwrap(), "rsync://rpki.example.net/anchor/anchor.crl");
    assert_eq!(text(cert.ca_issuer()).unwrap(), "rsync://rpki.example.net/anchor/anchor.cer");
    assert_eq!(text(cert.ca_repository()).unwrap(), REPOSITORY);
    assert_eq!(text(cert.rpki_manifest()).unwrap(), "rsync://rpki.example.net/repository/ca/ca.mft");
    assert_eq!(text(cert.rpki_notify()).unwrap(), "https://rrdp.example.net/notification.xml");
    assert_eq!(cert.signed_object(), None);
}

/// Where one of the five extensions is malformed, nothing is said of any, and of a missing one what is safe.
#[test]
fn accessors_of_malformed_extensions() {
    let cert = changed(b"\x30\x03\x01\x01\xff", b"\x30\x03\x02\x01\xff");
    assert_eq!(cert.known_extensions(), Err(ExtensionError::BasicConstraints));
    assert_eq!(cert.subject_key_identifier(), cert.subject_public_key_info().key_identifier());
    assert_eq!((cert.basic_ca(), cert.key_usage(), cert.overclaim()), (None, KeyUsage::Ee, Overclaim::Refuse));
    assert_eq!((cert.authority_key_identifier(), cert.has_ip_resources()), (None, false));
    let uris = [cert.crl_uri(), cert.ca_issuer(), cert.ca_repository(), cert.rpki_manifest(), cert.signed_object()];
    assert_eq!((uris, cert.rpki_notify()), ([None; 5], None));
    assert_eq!(ResourceSet::try_from(&cert), Ok(ResourceSet::empty()));

    // Other identifiers in place of those of the key usage and of the subject key identifier.
    let other = changed(b"\x06\x03\x55\x1d\x0f", b"\x06\x03\x55\x1d\x7f");
    assert_eq!((other.key_usage(), other.basic_ca()), (KeyUsage::Ee, Some(true)));
    let other = changed(b"\x06\x03\x55\x1d\x0e", b"\x06\x03\x55\x1d\x7f");
    assert_eq!(other.subject_key_identifier(), cert.subject_key_identifier());
    assert_eq!(other.known_extensions().unwrap().subject_key, None);
}

#[test]
fn what_is_no_uri_is_passed_over() {
    // A text of another scheme, and a name of another form, dNSName.
    let other = with(REPOSITORY.as_bytes(), &REPOSITORY.replace("rsync", "gopher").as_bytes()[..39]);
    assert_eq!(other.ca_repository().unwrap(), None);
    assert!(other.rpki_manifest().unwrap().is_some());
    let named = with(b"\x86\x27rsync", b"\x82\x27rsync");
    assert_eq!(named.ca_repository().unwrap(), None);
    assert_eq!(named.subject_access().unwrap()[0].location, None);
    // The manifest's method, now one that none has.
    let unknown = with(b"\x06\x08\x2b\x06\x01\x05\x05\x07\x30\x0a", b"\x06\x08\x2b\x06\x01\x05\x05\x07\x30\x7f");
    assert_eq!(unknown.rpki_manifest().unwrap(), None);
    assert_eq!(unknown.subject_access().unwrap()[1].method, AccessMethod::Other);
}

#[test]
fn what_is_malformed_is_refused() {
    let number = with(b"\x06\x08\x2b\x06\x01\x05\x05\x07\x30\x0a", b"\x02\x08\x2b\x06\x01\x05\x05\x07\x30\x0a");
    assert_eq!(number.ca_repository().unwrap_err(), DecodeError::Unexpected);
    assert!(number.ca_issuer().is_ok());
    let no_name = with(b"\x86\x27rsync", b"\x89\x27rsync");
    assert_eq!(no_name.subject_access().unwrap_err(), DecodeError::Content);
    let named = with(b"\xa0\x2c\x86\x2arsync", b"\xa0\x2c\x82\x2arsync");
    assert_eq!(named.crl_uri().unwrap_err(), DecodeError::Unexpected);
    let relative = with(b"\xa0\x2e\xa0\x2c\x86\x2arsync", b"\xa0\x2e\xa1\x2c\x86\x2arsync");
    assert_eq!(relative.crl_uri().unwrap_err(), DecodeError::Unexpected);
}

/// A value of this tag with these contents, of fewer than 128 octets.
fn value(tag: u8, contents: &[u8]) -> Vec<u8> {
    [&[tag, contents.len() as u8], contents].concat()
}

/// An access description of this method, and this URI.
fn description(method: u8, uri: &str) -> Vec<u8> {
    let id = value(6, &[43, 6, 1, 5, 5, 7, 48, method]);
    value(0x30, &[id, value(0x86, uri.as_bytes())].concat())
}

/// The extensions of the example, whose subject information access has these octets.
fn accessed(octets: Vec<u8>) -> KnownExtensions {
    let mut known = with(b"\x30", b"\x30");
    known.subject_info_access.as_mut().unwrap().octets = octets.into();
    known
}

#[test]
fn access_is_descriptions_and_nothing_else() {
    let one = description(5, "rsync://a/m/1/");
    let known = accessed(value(0x30, &one));
    assert_eq!(text(known.ca_repository().unwrap()).unwrap(), "rsync://a/m/1/");
    assert_eq!(accessed(value(0x30, &[])).subject_access().unwrap_err(), DecodeError::Content);
    for tag in [0x31, 0xA0, 0xB0, 0x70, 0x10, 0x24] {
        assert_eq!(accessed(value(tag, &one)).subject_access().unwrap_err(), DecodeError::Unexpected);
    }
    let behind = [value(0x30, &one), vec![5, 0]].concat();
    assert_eq!(accessed(behind).subject_access().unwrap_err(), DecodeError::Trailing);
    let cut = value(0x30, &one);
    assert_eq!(accessed(cut[..cut.len() - 1].to_vec()).subject_access().unwrap_err(), DecodeError::Truncated);
    assert_eq!(accessed(Vec::new()).subject_access().unwrap_err(), DecodeError::Truncated);
    let mut known = known;
    known.subject_info_access = None;
    assert_eq!(known.subject_access(), Ok(Vec::new()));
}

/// Of each method the first URI of the scheme counts.
#[test]
fn first_uris() {
    let of = |method| {
        let uris = ["https://h/1", "rsync://a/m/1", "https://h/2", "rsync://a/m/2"];
        accessed(value(0x30, &uris.map(|uri| description(method, uri)).concat()))
    };
    let first = Some("rsync://a/m/1".to_string());
    assert_eq!(text(of(5).ca_repository().unwrap()), first);
    assert_eq!(text(of(10).rpki_manifest().unwrap()), first);
    assert_eq!(text(of(11).signed_object().unwrap()), first);
    assert_eq!(text(of(13).rpki_notify().unwrap()), Some("https://h/1".to_string()));
    assert_eq!(of(2).ca_repository().unwrap(), None);

    let mut known = of(5);
    let uris = ["https://h/1", "rsync://a/m/1", "rsync://a/m/2"].map(|uri| value(0x86, uri.as_bytes()));
    let point = |names: &[u8]| value(0x30, &value(0x30, &value(0xA0, &value(0xA0, names))));
    known.crl_distribution_points.as_mut().unwrap().octets = point(&uris.concat()).into();
    assert_eq!(text(known.crl_uri().unwrap()), first);
    known.crl_distribution_points.as_mut().unwrap().octets = point(&[]).into();
    assert_eq!(known.crl_uri().unwrap_err(), DecodeError::Content);
    known.crl_distribution_points.as_mut().unwrap().octets = [point(&uris.concat()), vec![5, 0]].concat().into();
    assert_eq!(known.crl_uri().unwrap_err(), DecodeError::Trailing);
    let issuers = ["rsync://a/m/1", "rsync://a/m/2"].map(|uri| description(2, uri)).concat();
    let other = description(5, "rsync://a/m/0");
    known.authority_info_access.as_mut().unwrap().octets = value(0x30, &[other, issuers].concat()).into();
    assert_eq!(text(known.ca_issuer().unwrap()), first);
}
