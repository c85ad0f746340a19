//! Signed objects and what they contain.

use super::*;

mod signed_objects {
    use super::*;
    use rpki::oid;
    use rpki::repository::sigobj::SignedObject;

    fn object() -> SignedObject {
        SignedObject::decode(ROA, true).unwrap()
    }

    #[test]
    fn decode() {
        let obj = match SignedObject::decode(Bytes::from_static(ROA), true) {
            Ok(obj) => obj,
            Err(_) => panic!("not a signed object"),
        };
        assert_eq!(obj.to_bytes(), ROA);
    }

    #[test]
    fn content_type() {
        let object = object();
        assert!(object.content_type() == &oid::ROUTE_ORIGIN_AUTHZ && object.content_type() != &oid::CT_ASPA);
    }

    #[test]
    fn cert() {
        assert_eq!(object().cert().subject_key_identifier(), object().sid());
    }

    #[test]
    fn signing_time() {
        assert!(object().signing_time().is_some() && object().binary_signing_time().is_none());
    }

    #[test]
    fn process() {
        let point = Point::new();
        let (cert, content) = object().process(&point.issuer, true, |cert| point.check_crl(cert)).unwrap();
        assert_eq!((cert.tal().name(), content), ("example", object().content().to_bytes()));
        let gone = SignedObject::decode(GONE, true).unwrap();
        assert!(gone.process(&point.issuer, true, |cert| point.check_crl(cert)).is_err());
    }

    #[test]
    fn content() {
        let bytes: Bytes = object().content().to_bytes();
        assert_eq!(bytes, object().content().as_slice());
        assert_eq!(object().to_captured().into_bytes(), ROA);
    }

    #[test]
    fn inspect_and_verify() {
        fn check(object: &SignedObject) -> Result<(), ValidationError> {
            object.inspect(true)?;
            object.verify(true)?;
            Ok(())
        }
        assert_eq!(check(&object()), Ok(()));
        let mut octets = ROA.to_vec();
        *octets.last_mut().unwrap() ^= 1;
        assert!(SignedObject::decode(octets, true).unwrap().verify(false).is_err());
    }

    #[test]
    fn validate() {
        assert!(object().validate(&authority(), true).is_ok() && object().validate(&anchor(), true).is_err());
    }
}

mod manifests {
    use super::*;
    use rpki::crypto::DigestAlgorithm;
    use rpki::repository::manifest::{FileAndHash, ManifestHash};
    use rpki::repository::x509::Time;

    #[test]
    fn decode() {
        let bytes = Bytes::from_static(MANIFEST);
        let manifest = match Manifest::decode(bytes, true) {
            Ok(manifest) => manifest,
            Err(_) => panic!("failed to decode manifest"),
        };
        assert_eq!(manifest.content().len(), 5);
    }

    #[test]
    fn validate() {
        let manifest = Manifest::decode(MANIFEST, true).unwrap();
        let (ee_cert, content) = match manifest.validate(&authority(), true) {
            Ok(some) => some,
            Err(err) => panic!("{err}"),
        };
        assert_eq!((ee_cert.tal().name(), content.len()), ("example", 5));
    }

    #[test]
    fn process() {
        let point = Point::new();
        let manifest = Manifest::decode(MANIFEST, true).unwrap();
        assert!(manifest.process(&point.issuer, true, |cert| point.check_crl(cert)).is_ok());
    }

    #[test]
    fn equal() {
        let other = Manifest::decode(&file!("rpki.example/repo/ta/ta.mft")[..], true).unwrap();
        assert!(manifest().1 == manifest().1 && manifest().1 != *other.content());
    }

    #[test]
    fn is_stale() {
        if manifest().1.is_stale() {
            panic!("stale manifest");
        }
    }

    #[test]
    fn newer() {
        let (_, content) = manifest();
        let stored = Manifest::decode(&file!("old.mft")[..], true).unwrap();
        assert!(content.manifest_number() > 6u64.into() && content.this_update() >= stored.content().this_update());
    }

    #[test]
    fn updates() {
        let (_, content) = manifest();
        assert!(content.this_update() < Time::now() && content.next_update() > Time::now());
    }

    #[test]
    fn files() {
        let (ee, content) = manifest();
        let folder = ee.signed_object().unwrap().parent().unwrap();
        for item in content.iter() {
            let (file, hash) = item.into_pair();
            let uri = folder.join(file.as_ref()).unwrap();
            let hash = ManifestHash::new(hash, content.file_hash_alg());
            assert_eq!(hash.verify(LIST).is_ok(), uri.as_str().ends_with("ca.crl"));
        }
    }

    #[test]
    fn uris() {
        let base = rsync("rsync://rpki.example/repo/ca/");
        let (_, content) = manifest();
        let uris: Result<Vec<_>, _> = content.iter_uris(&base).collect();
        let lists: Vec<_> = uris.unwrap().into_iter().filter(|(uri, _)| uri.ends_with(".crl")).collect();
        assert_eq!((lists.len(), lists[0].0.to_string()), (1, "rsync://rpki.example/repo/ca/ca.crl".into()));
        assert!(lists[0].1.verify(Bytes::from_static(LIST)).is_ok() && lists[0].1.verify(ROA).is_err());
    }

    #[test]
    fn entries() {
        let file = FileAndHash::new(Bytes::from_static(b"a.roa"), [7; 32].into());
        assert_eq!((file.file(), file.hash().as_slice()), (&b"a.roa"[..], &[7; 32][..]));
        assert_eq!(file.hash().algorithm(), DigestAlgorithm::sha256());
    }

    #[test]
    fn crl_of_the_manifest() {
        let (ee, content) = manifest();
        let name = ee.crl_uri().unwrap().relative_to(&ee.signed_object().unwrap().parent().unwrap()).unwrap();
        assert!(content.iter().any(|item| item.file() == name.as_bytes()));
    }
}

mod roas {
    use super::*;
    use rpki::repository::resources::Prefix;
    use rpki::repository::roa::{Roa, RoaIpAddress, RouteOriginAttestation};
    use rpki::resources::{Asn, MaxLenPrefix};
    use std::net::IpAddr;

    fn route() -> RouteOriginAttestation {
        let point = Point::new();
        let roa = Roa::decode(Bytes::from_static(ROA), true).unwrap();
        roa.process(&point.issuer, true, |cert| point.check_crl(cert)).unwrap().1
    }

    #[test]
    fn process() {
        fn process_roa(point: &Point, content: Bytes) -> Result<Asn, ValidationError> {
            let (cert, route) =
                Roa::decode(content, true)?.process(&point.issuer, true, |cert| point.check_crl(cert))?;
            assert_eq!(cert.validity().not_before().year(), 2026);
            Ok(route.as_id())
        }
        let process = |octets| process_roa(&Point::new(), Bytes::from_static(octets));
        assert_eq!(process(ROA), Ok(Asn::from(64496)));
        assert!(process(GONE).is_err() && process(ASPA).is_err());
    }

    #[test]
    fn addresses() {
        let found: Vec<(IpAddr, u8, u8)> =
            route().iter().map(|addr| (addr.address(), addr.address_length(), addr.max_length())).collect();
        assert_eq!((found.len(), found[0]), (4, (IpAddr::from([10, 0, 0, 0]), 8, 24)));
    }

    #[test]
    fn families() {
        let route = route();
        assert_eq!((route.v4_addrs().len(), route.v6_addrs().iter().count()), (3, 1));
        assert_eq!(route.v6_addrs().iter().next().unwrap().max_length(), Some(48));
        assert!(route.iter().next().unwrap().is_v4() && !route.v4_addrs().is_empty());
    }

    #[test]
    fn origins() {
        let origins: Vec<(MaxLenPrefix, Asn)> =
            route().iter_origins().map(|origin| (origin.prefix, origin.asn)).collect();
        let texts: Vec<String> = origins.iter().map(|(prefix, asn)| format!("{prefix} => {asn}")).collect();
        assert_eq!(texts[0], "10.0.0.0/8-24 => AS64496");
        assert_eq!(texts[3], "2001:db8::/32-48 => AS64496");
    }

    #[test]
    fn equal() {
        assert_eq!(route(), route());
        assert_ne!(route(), *Roa::decode(GONE, true).unwrap().content());
    }

    #[test]
    fn new_addr() {
        let addr = RoaIpAddress::new_addr([10, 0, 0, 0].into(), 8, Some(24));
        assert_eq!((addr.prefix(), addr.max_length()), (Prefix::new(IpAddr::from([10, 0, 0, 0]), 8), Some(24)));
    }

    #[test]
    fn of_its_certificate() {
        let point = Point::new();
        let roa = Roa::decode(ROA, true).unwrap();
        let (cert, route) = roa.process(&point.issuer, true, |_| Ok(())).unwrap();
        let within = |addr: RoaIpAddress| cert.v4_resources().contains_block(addr.prefix());
        assert!(route.v4_addrs().iter().all(within));
    }
}

mod aspas {
    use super::*;
    use rpki::repository::aspa::{AsProviderAttestation, Aspa};
    use rpki::resources::{Asn, SmallAsnSet};

    fn attestation() -> AsProviderAttestation {
        let point = Point::new();
        let aspa = Aspa::decode(Bytes::from_static(ASPA), true).unwrap();
        aspa.process(&point.issuer, true, |cert| point.check_crl(cert)).unwrap().1
    }

    #[test]
    fn process() {
        assert_eq!(attestation().customer_as(), Asn::from(64496));
    }

    #[test]
    fn providers() {
        let aspa = attestation();
        let providers: Vec<Asn> = aspa.provider_as_set().iter().collect();
        assert_eq!(providers, [Asn::from(64499), Asn::from(64501)]);
        assert_eq!(aspa.provider_as_set().len(), 2);
    }

    #[test]
    fn provider_set() {
        let set: SmallAsnSet = attestation().provider_as_set().to_set();
        assert_eq!(set, [Asn::from(64501), Asn::from(64499)].into_iter().collect());
    }

    #[test]
    fn equal() {
        assert_eq!(attestation(), attestation());
        assert_ne!(attestation(), *Aspa::decode(&file!("above.asa")[..], true).unwrap().content());
    }
}
