//! Locators, certificates, revocation lists.

use super::*;

mod tals {
    use super::*;
    use rpki::repository::tal::{ReadError, TalInfo, TalUri};
    use std::sync::Arc;

    #[test]
    fn is_read_from_a_file() {
        let mut file = LOCATOR;
        let tal = match Tal::read("/etc/tals/example.tal", &mut file) {
            Ok(tal) => tal,
            Err(err) => panic!("{err}"),
        };
        assert_eq!(tal.info().name(), "example");
    }

    #[test]
    fn is_read_under_a_name() {
        let tal = Tal::read_named(String::from("arin"), &mut LOCATOR.to_vec().as_slice());
        assert_eq!(tal.unwrap().info().name(), "arin");
    }

    #[test]
    fn says_why_it_is_none() {
        assert!(matches!(Tal::read("a.tal", &mut &b"nothing"[..]), Err(ReadError::Base64)));
    }

    #[test]
    fn https_first() {
        let mut tal = tal();
        tal.prefer_https();
        let uris: Vec<&TalUri> = tal.uris().collect();
        assert_eq!(uris, [&TalUri::from_str("rsync://rpki.example/repo/ta/ta.cer").unwrap()]);
    }

    #[test]
    fn uris_by_scheme() {
        for uri in tal().uris() {
            let path = match *uri {
                TalUri::Rsync(ref uri) => uri.path().to_string(),
                TalUri::Https(ref uri) => uri.path().to_string(),
            };
            assert_eq!(path, "ta/ta.cer");
        }
    }

    #[test]
    fn info_is_shared() {
        let info: Arc<TalInfo> = tal().info().clone();
        let cert = Cert::decode(ANCHOR).unwrap().validate_ta(info.clone(), false).unwrap();
        assert!(Arc::ptr_eq(cert.tal(), &info) && Arc::ptr_eq(&cert.into_tal(), &info));
    }

    #[test]
    fn key_is_the_certificates() {
        let (tal, cert) = (tal(), Cert::decode(ANCHOR).unwrap());
        if cert.subject_public_key_info() != tal.key_info() {
            panic!("key mismatch");
        }
    }
}

mod certs {
    use super::*;
    use rpki::crypto::{KeyIdentifier, PublicKeyFormat};
    use rpki::repository::cert::{KeyUsage, Overclaim};
    use rpki::repository::resources::{AsResources, IpResources};
    use rpki::repository::x509::{Serial, Time, Validity};

    #[test]
    fn decode_owned() {
        let bytes = Bytes::from(AUTHORITY.to_vec());
        if let Ok(cert) = Cert::decode(bytes.clone()) {
            return assert_eq!(cert.to_bytes(), bytes);
        }
        panic!()
    }

    #[test]
    fn decode_borrowed() {
        let data = AUTHORITY.to_vec();
        let decode = |data: &[u8]| Cert::decode(data);
        assert_eq!(decode(&data).unwrap().to_bytes(), data);
        assert!(Cert::decode(Bytes::from(data.clone()).as_ref()).is_ok());
        assert!(decode(&data[1..]).is_err());
    }

    #[test]
    fn equal() {
        let cert = Cert::decode(AUTHORITY).unwrap();
        assert_eq!(cert, authority().into_cert());
        assert_ne!(&cert, anchor().as_cert());
        // The same with another signature.
        let mut octets = AUTHORITY.to_vec();
        *octets.last_mut().unwrap() ^= 1;
        assert_ne!(cert, Cert::decode(octets).unwrap());
    }

    #[test]
    fn validate_ta() {
        let cert = Cert::decode(ANCHOR).unwrap();
        let cert = match cert.validate_ta(tal().info().clone(), true) {
            Ok(cert) => cert,
            Err(err) => panic!("Trust anchor: {err}."),
        };
        assert_eq!(cert.tal().name(), "example");
    }

    #[test]
    fn validate_ca() {
        let cert = Cert::decode(AUTHORITY).unwrap();
        assert!(cert.clone().validate_ca(&anchor(), true).is_ok());
        assert!(cert.validate_ca(&authority(), true).is_err());
    }

    #[test]
    fn validate_ca_at() {
        let cert = Cert::decode(AUTHORITY).unwrap();
        assert!(cert.clone().validate_ca_at(&anchor(), true, Time::utc(2026, 6, 1, 0, 0, 0)).is_ok());
        assert!(cert.validate_ca_at(&anchor(), true, Time::utc(2020, 6, 1, 0, 0, 0)).is_err());
    }

    #[test]
    fn validate_ee() {
        let cert = rpki::repository::Roa::decode(ROA, true).unwrap().cert().clone();
        assert!(!cert.validate_ee(&authority(), true).unwrap().v4_resources().is_empty());
    }

    #[test]
    fn validate_detached_ee() {
        let cert = Cert::decode(DETACHED).unwrap().validate_detached_ee(&authority(), true).unwrap();
        assert_eq!(cert.as_resources().to_string(), "AS64496");
    }

    #[test]
    fn validate_router() {
        let cert = Cert::decode(ROUTER).unwrap();
        if let Err(err) = cert.validate_router(&authority(), true) {
            panic!("router certificate: {err}");
        }
        let asns: Vec<_> = cert.validate_router(&authority(), true).unwrap().as_resources().iter_asns().collect();
        assert_eq!(asns.len(), 1);
        assert!(cert.validate_router(&anchor(), true).is_err());
    }

    #[test]
    fn inspect() {
        fn check(cert: &Cert) -> Result<(), InspectionError> {
            cert.inspect_ca(true)?;
            Ok(())
        }
        fn of_trust_anchor(cert: &Cert) -> Result<(), InspectionError> {
            cert.inspect_ta(true)
        }
        assert_eq!(of_trust_anchor(&Cert::decode(ANCHOR).unwrap()), Ok(()));
        assert_eq!(check(&Cert::decode(AUTHORITY).unwrap()), Ok(()));
        assert!(check(&Cert::decode(ROUTER).unwrap()).is_err());
        assert!(Cert::decode(ANCHOR).unwrap().inspect_ta(true).is_ok());
    }

    #[test]
    fn resources_are_lent() {
        let cert = Cert::decode(AUTHORITY).unwrap();
        let (v4, asns) = (cert.v4_resources(), cert.as_resources());
        let both: (&IpResources, &AsResources) = (v4, asns);
        assert!(both.0.is_present() && both.1.is_present());
    }

    #[test]
    fn captured() {
        let bytes: Bytes = Cert::decode(AUTHORITY).unwrap().to_captured().into_bytes();
        assert_eq!(bytes, AUTHORITY);
    }

    #[test]
    fn no_loop() {
        let chain = [anchor(), authority()];
        let has = |key_id: KeyIdentifier| chain.iter().any(|ca| ca.subject_key_identifier() == key_id);
        assert!(has(authority().subject_public_key_info().key_identifier()));
        assert!(!has(Cert::decode(ROUTER).unwrap().subject_key_identifier()));
    }

    #[test]
    fn authority_key_identifier() {
        let cert = authority();
        assert_eq!(cert.authority_key_identifier(), Some(anchor().subject_key_identifier()));
    }

    #[test]
    fn ca_repository() {
        let cert = authority();
        let ca_repository = match cert.ca_repository() {
            Some(uri) => uri.clone(),
            None => panic!("CA cert has no repository URI"),
        };
        assert_eq!(ca_repository, "rsync://rpki.example/repo/ca/");
    }

    #[test]
    fn rpki_manifest() {
        let cert = authority();
        let rpki_manifest: uri::Rsync = match cert.rpki_manifest() {
            Some(uri) => uri.clone(),
            None => panic!("CA cert has no manifest URI"),
        };
        assert!(cert.ca_repository().unwrap().is_parent_of(&rpki_manifest));
    }

    #[test]
    fn rpki_notify() {
        struct CaCert {
            cert: ResourceCert,
        }
        impl CaCert {
            fn rpki_notify(&self) -> Option<&uri::Https> {
                self.cert.rpki_notify()
            }
        }
        assert_eq!(CaCert { cert: authority() }.rpki_notify(), None);
        assert_eq!(CaCert { cert: anchor() }.rpki_notify().unwrap(), "https://rpki.example/notification.xml");
    }

    #[test]
    fn crl_uri() {
        let cert = authority();
        let name = cert.crl_uri().and_then(|uri| uri.as_str().rsplit('/').next());
        assert_eq!(name, Some("ta.crl"));
    }

    #[test]
    fn ca_issuer() {
        assert_eq!(authority().ca_issuer().map(|uri| uri.to_string()).unwrap(), "rsync://rpki.example/repo/ta/ta.cer");
        assert!(anchor().ca_issuer().is_none());
    }

    #[test]
    fn signed_object() {
        let (ee, _) = manifest();
        assert_eq!(ee.signed_object(), authority().rpki_manifest());
    }

    #[test]
    fn combined_validity() {
        let (cert, parent) = (authority(), Some(anchor()));
        let combined: Validity = match parent.as_ref() {
            Some(ca) => cert.validity().trim(ca.validity()),
            None => cert.validity(),
        };
        assert_eq!(combined.not_after(), cert.validity().not_after().min(anchor().validity().not_after()));
    }

    #[test]
    fn not_expired() {
        assert!(authority().validity().verify().is_ok());
        assert!(authority().validity().not_after() > Time::now());
    }

    #[test]
    fn key_usage() {
        let is_router = |cert: &Cert| cert.key_usage() != KeyUsage::Ca;
        assert!(is_router(&Cert::decode(ROUTER).unwrap()) && !is_router(authority().as_cert()));
    }

    #[test]
    fn basic_ca() {
        assert_eq!(authority().basic_ca(), Some(true));
        assert_eq!(Cert::decode(ROUTER).unwrap().basic_ca(), None);
    }

    #[test]
    fn overclaim() {
        assert_eq!(authority().overclaim(), Overclaim::Refuse);
    }

    #[test]
    fn resources_of_a_valid_one() {
        let cert = authority();
        if cert.v4_resources().is_empty() && cert.v6_resources().is_empty() && cert.as_resources().is_empty() {
            panic!("no resources");
        }
        assert!(anchor().v4_resources().contains(cert.v4_resources()));
    }

    #[test]
    fn claimed_resources() {
        let (ee, _) = manifest();
        let cert: &Cert = ee.as_ref();
        assert!(cert.v4_resources().is_inherited() && cert.as_resources().is_inherited());
        assert!(cert.has_ip_resources() && !Cert::decode(ROUTER).unwrap().has_ip_resources());
        assert!(!Cert::decode(ROUTER).unwrap().v6_resources().is_present());
    }

    #[test]
    fn router_keys() {
        let cert = Cert::decode(ROUTER).unwrap();
        let asns = match cert.as_resources().to_blocks() {
            Ok(blocks) => blocks,
            Err(_) => panic!("router certificate contains inherited AS resources"),
        };
        let key = cert.subject_public_key_info();
        assert!(key.allow_router_cert() && key.algorithm() == PublicKeyFormat::EcdsaP256);
        let keys: Vec<_> =
            asns.iter_asns().map(|asn| (cert.subject_key_identifier(), asn, key.to_info_bytes())).collect();
        assert_eq!((keys.len(), keys[0].1.into_u32()), (1, 64496));
    }

    #[test]
    fn numbers_and_names() {
        let cert = authority();
        assert!(cert.serial_number() > Serial::from(0u64));
        assert_eq!(cert.issuer(), anchor().subject());
    }
}

mod crls {
    use super::*;
    use rpki::repository::crl::{CrlEntry, CrlStore, RevokedCertificates};
    use rpki::repository::x509::{Serial, Time};
    use std::collections::HashSet;

    fn list() -> Crl {
        Crl::decode(LIST).unwrap()
    }

    fn gone() -> Serial {
        rpki::repository::Roa::decode(GONE, true).unwrap().cert().serial_number()
    }

    #[test]
    fn decode() {
        let bytes = Bytes::from_static(LIST);
        let crl = match Crl::decode(bytes) {
            Ok(crl) => crl,
            Err(_) => panic!("failed to decode"),
        };
        assert_eq!(crl.to_bytes(), LIST);
    }

    #[test]
    fn decode_borrowed() {
        let data = LIST.to_vec();
        assert!(Crl::decode(data.as_slice()).is_ok() && Crl::decode(&data[1..]).is_err());
    }

    #[test]
    fn equal() {
        assert_eq!(list(), Crl::decode(LIST.to_vec()).unwrap());
        assert_ne!(list(), Crl::decode(&file!("rpki.example/repo/ta/ta.crl")[..]).unwrap());
        let mut octets = LIST.to_vec();
        *octets.last_mut().unwrap() ^= 1;
        assert_ne!(list(), Crl::decode(octets).unwrap());
    }

    #[test]
    fn verify_signature() {
        fn check(crl: &Crl, ca: &ResourceCert) -> Result<(), ValidationError> {
            crl.verify_signature(ca.subject_public_key_info())?;
            Ok(())
        }
        assert!(check(&list(), &authority()).is_ok() && check(&list(), &anchor()).is_err());
    }

    #[test]
    fn is_stale() {
        if list().is_stale() {
            panic!("stale CRL");
        }
    }

    #[test]
    fn contains() {
        assert!(list().contains(gone()) && !list().contains(authority().serial_number()));
    }

    #[test]
    fn cache_serials() {
        let mut crl = list();
        crl.cache_serials();
        assert!(crl.contains(gone()) && !crl.contains(authority().serial_number()));
    }

    #[test]
    fn updates() {
        let crl = list();
        assert!(crl.this_update() <= Time::now() && Time::now() < crl.next_update());
    }

    #[test]
    fn crl_number() {
        assert_eq!(list().crl_number().to_string(), "1");
    }

    #[test]
    fn authority_key_identifier() {
        assert_eq!(*list().authority_key_identifier(), authority().subject_key_identifier());
    }

    #[test]
    fn revoked_certs_of_entries() {
        let crl = Crl::decode(LIST).unwrap();
        let revoked: RevokedCertificates = crl.revoked_certs().iter().collect();
        assert_eq!(revoked.as_slice(), crl.revoked_certs().as_slice());
    }

    #[test]
    fn caching() {
        let mut crl = Crl::decode(LIST).unwrap().validate(&authority()).unwrap();
        let cert = rpki::repository::Roa::decode(GONE, true).unwrap().cert().clone();
        assert!(crl.verify_not_revoked(&cert).is_err());
        crl.cache_serials();
        assert!(crl.verify_not_revoked(&cert).is_err() && crl.contains(cert.serial_number()));
    }

    #[test]
    fn revoked_certs() {
        let crl = list();
        let revoked: &RevokedCertificates = crl.revoked_certs();
        let serials: HashSet<Serial> = revoked.iter().map(|entry| entry.user_certificate()).collect();
        assert_eq!(serials, HashSet::from([gone()]));
    }

    #[test]
    fn entries() {
        let entry = CrlEntry::new(Serial::from(12u64), Time::utc(2026, 1, 1, 0, 0, 0));
        assert_eq!((entry.user_certificate().to_string(), entry.revocation_date().year()), ("12".into(), 2026));
    }

    #[test]
    fn store() {
        let mut store = CrlStore::new();
        store.enable_serial_caching();
        store.push(rsync("rsync://rpki.example/repo/ca/ca.crl"), list());
        assert!(store.get(&rsync("rsync://rpki.example/repo/ca/ca.crl")).unwrap().contains(gone()));
        assert!(store.get(&rsync("rsync://rpki.example/repo/ta/ta.crl")).is_none());
    }

    #[test]
    fn check_crl() {
        let point = Point::new();
        let cert = |octets: &[u8]| rpki::repository::Roa::decode(octets, true).unwrap().cert().clone();
        assert_eq!(point.check_crl(&cert(ROA)), Ok(()));
        assert_eq!(point.check_crl(&cert(GONE)).unwrap_err().to_string(), "certificate has been revoked");
        assert_eq!(point.check_crl(&anchor()).unwrap_err().to_string(), "certificate has no CRL URI");
        assert!(point.check_crl(&authority()).is_err());
    }
}
