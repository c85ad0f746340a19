//! Resources, errors, serialized values.

use super::*;

mod resources {
    use super::*;
    use rpki::repository::resources::{
        Addr, AddressRange, AsBlock, AsBlocks, AsBlocksBuilder, AsResources, AsResourcesBuilder, IpBlock, IpBlocks,
        IpBlocksBuilder, IpResources, IpResourcesBuilder, Ipv4Blocks, Ipv6Blocks, Prefix, ResourceSet,
    };
    use rpki::resources::addr::{MaxLenError, ParsePrefixError, PrefixError};
    use rpki::resources::{Asn, MaxLenPrefix, Prefix as RoutePrefix};
    use std::net::{IpAddr, Ipv4Addr, Ipv6Addr};

    #[test]
    fn as_numbers() {
        let asn = Asn::from_str("AS64496").unwrap();
        assert_eq!((asn.into_u32(), u32::from(asn), asn.to_string()), (64496, 64496, "AS64496".into()));
    }

    #[test]
    fn as_blocks() {
        let blocks = AsBlocks::from_str("AS1-AS3, AS7").unwrap();
        assert!(blocks.contains_block(Asn::from(2)) && !blocks.contains_block(AsBlock::from_str("AS3-AS4").unwrap()));
    }

    #[test]
    fn iter_asns() {
        let blocks = AsBlocks::from_str("AS1-AS3, AS4294967295").unwrap();
        let numbers: Vec<u32> = blocks.iter_asns().map(Asn::into_u32).collect();
        assert_eq!(numbers, [1, 2, 3, u32::MAX]);
    }

    #[test]
    fn ip_blocks_of_either_family() {
        let v4 = IpBlocks::from_str("10.0.0.0/8, 192.168.0.0-192.168.3.255").unwrap();
        let v6 = IpBlocks::from_str("2001:db8::/32").unwrap();
        assert_eq!(
            (v4.as_v4().to_string(), v6.as_v6().to_string()),
            ("10.0.0.0/8, 192.168.0.0/22".into(), "2001:db8::/32".into())
        );
        assert!(IpBlocks::from_str("10.0.0.0/8, ::/0").is_err() && IpBlocks::from_str("").unwrap().is_empty());
    }

    #[test]
    fn ip_blocks_of_a_family() {
        let v4 = Ipv4Blocks::from_str("10.0.0.0/8").unwrap();
        assert!(v4.contains(&Ipv4Blocks::from_str("10.1.0.0/16").unwrap()));
        assert!(Ipv4Blocks::from_str("::/0").is_err() && Ipv6Blocks::from_str("::/0").is_ok());
    }

    #[test]
    fn digests() {
        use rpki::crypto::{digest, DigestAlgorithm};
        assert_eq!(digest::sha1_digest(b"abc").as_ref()[..4], [0xa9, 0x99, 0x3e, 0x36]);
        assert_eq!(DigestAlgorithm::default().digest(b"abc").as_ref()[..4], [0xba, 0x78, 0x16, 0xbf]);
    }

    #[test]
    fn payloads() {
        use rpki::rtr::payload::{Aspa, Payload, RouteOrigin, RouterKey};
        let roa = rpki::repository::Roa::decode(ROA, true).unwrap();
        let origins: Vec<RouteOrigin> = roa.content().iter_origins().collect();
        assert!(matches!(Payload::from(origins[0]), Payload::Origin(origin) if origin == origins[0]));
        let cert = Cert::decode(ROUTER).unwrap();
        let info = cert.subject_public_key_info().to_info_bytes();
        let key = RouterKey::new(cert.subject_key_identifier(), 64496.into(), info);
        assert!(matches!(Payload::from(key.clone()), Payload::RouterKey(it) if it == key));
        let aspa = rpki::repository::Aspa::decode(ASPA, true).unwrap();
        let aspa = Aspa::new(aspa.content().customer_as(), aspa.content().provider_as_set().to_set());
        assert!(matches!(Payload::from(aspa.clone()), Payload::Aspa(it) if it == aspa));
    }

    #[test]
    fn set_operations() {
        let blocks = |s| IpBlocks::from_str(s).unwrap();
        let (one, other) = (blocks("10.0.0.0/8, 192.0.2.0/24"), blocks("10.0.0.0/9, 203.0.113.0/24"));
        assert_eq!(one.intersection(&other), blocks("10.0.0.0/9"));
        assert_eq!(one.union(&other), blocks("10.0.0.0/8, 192.0.2.0/24, 203.0.113.0/24"));
        assert_eq!(one.difference(&other), blocks("10.128.0.0/9, 192.0.2.0/24"));
    }

    #[test]
    fn intersection_assign() {
        let mut blocks = IpBlocks::from_str("10.0.0.0/8").unwrap();
        blocks.intersection_assign(&IpBlocks::from_str("10.1.0.0/16, 11.0.0.0/8").unwrap());
        let mut numbers = AsBlocks::from_str("AS1-AS9").unwrap();
        numbers.intersection_assign(&AsBlocks::from_str("AS7-AS20").unwrap());
        assert_eq!((blocks.as_v4().to_string(), numbers.to_string()), ("10.1.0.0/16".into(), "AS7-AS9".into()));
    }

    #[test]
    fn verify_covered() {
        fn check(cert: &ResourceCert, blocks: &IpBlocks, numbers: &AsBlocks) -> Result<(), ValidationError> {
            blocks.verify_covered(cert.v4_resources())?;
            numbers.verify_covered(cert.as_resources())?;
            Ok(())
        }
        let of = |blocks, numbers| {
            check(&authority(), &IpBlocks::from_str(blocks).unwrap(), &AsBlocks::from_str(numbers).unwrap())
        };
        assert!(of("10.1.0.0/16", "AS64496").is_ok() && of("11.0.0.0/8", "AS64496").is_err());
        assert!(of("10.1.0.0/16", "AS64496-AS64497").is_err());
    }

    #[test]
    fn ip_blocks_builder() {
        let mut builder = IpBlocksBuilder::new();
        builder.push(Prefix::new(Ipv4Addr::new(10, 128, 0, 0), 9));
        builder.push(IpBlock::from_str("10.0.0.0/9").unwrap());
        builder.push(AddressRange::from_v4_str("192.0.2.0-192.0.2.255").unwrap());
        builder.extend([IpBlock::from_str("192.0.2.7").unwrap()]);
        assert_eq!(builder.finalize(), IpBlocks::from_str("10.0.0.0/8, 192.0.2.0/24").unwrap());
    }

    #[test]
    fn as_blocks_builder() {
        let mut builder = AsBlocksBuilder::new();
        builder.push(Asn::from(7));
        builder.push((Asn::from(1), Asn::from(6)));
        builder.extend([AsBlock::from_str("AS9").unwrap()]);
        assert_eq!(builder.finalize().to_string(), "AS1-AS7, AS9");
    }

    #[test]
    fn ip_resources_builder() {
        let mut builder = IpResourcesBuilder::new();
        builder.blocks(|blocks| blocks.push(Prefix::new(Ipv4Addr::new(10, 0, 0, 0), 8)));
        assert_eq!(builder.finalize().to_blocks().unwrap(), IpBlocks::from_str("10.0.0.0/8").unwrap());
        let mut builder = IpResourcesBuilder::new();
        builder.inherit();
        assert_eq!(builder.finalize(), IpResources::inherit());
        assert_eq!(IpResourcesBuilder::new().finalize(), IpResources::missing());
    }

    #[test]
    fn as_resources_builder() {
        let mut builder = AsResourcesBuilder::new();
        builder.blocks(|blocks| blocks.push(Asn::from(64496)));
        assert_eq!(builder.finalize(), AsResources::blocks(AsBlocks::from_str("AS64496").unwrap()));
        let mut builder = AsResourcesBuilder::new();
        builder.inherit();
        assert!(builder.finalize().is_inherited() && !AsResourcesBuilder::new().finalize().is_present());
    }

    #[test]
    fn prefixes() {
        let prefix = Prefix::new(Addr::from(IpAddr::from([10, 0, 0, 0])), 8);
        assert_eq!(prefix, Prefix::from_str("10.0.0.0/8").unwrap());
        assert_eq!((prefix.to_v4(), prefix.addr_len()), (Ipv4Addr::new(10, 0, 0, 0), 8));
        assert_eq!(Prefix::from_str("2001:db8::/32").unwrap().to_v6(), Ipv6Addr::new(0x2001, 0xdb8, 0, 0, 0, 0, 0, 0));
    }

    #[test]
    fn route_prefixes() {
        let prefix = RoutePrefix::new("10.0.0.0".parse().unwrap(), 8).unwrap();
        assert_eq!((prefix.addr(), prefix.len(), prefix.to_string()), ([10, 0, 0, 0].into(), 8, "10.0.0.0/8".into()));
        assert!(prefix.is_v4() && prefix.covers(RoutePrefix::from_str("10.9.0.0/16").unwrap()));
        assert_eq!(RoutePrefix::new([10, 0, 0, 1].into(), 8), Err(PrefixError::NonZeroHost));
        assert_eq!(RoutePrefix::from_str("10.0.0.0"), Err(ParsePrefixError::MissingLen));
    }

    #[test]
    fn max_len_prefixes() {
        let prefix = MaxLenPrefix::new(RoutePrefix::from_str("10.0.0.0/8").unwrap(), Some(24)).unwrap();
        assert_eq!((prefix.prefix_len(), prefix.max_len(), prefix.resolved_max_len()), (8, Some(24), 24));
        assert_eq!(prefix, MaxLenPrefix::from_str("10.0.0.0/8-24").unwrap());
        assert_eq!(MaxLenPrefix::new(prefix.prefix(), Some(7)), Err(MaxLenError::Underflow));
    }

    #[test]
    fn resource_set_of_texts() {
        let set = ResourceSet::from_strs("AS64496", "10.0.0.0/8", "2001:db8::/32").unwrap();
        assert!(ResourceSet::all().contains(&set) && set.contains_asn(Asn::from(64496)) && !set.is_empty());
        assert!(ResourceSet::from_strs("AS64496", "::/0", "").is_err());
        assert_eq!(set.to_as_resources(), AsResources::blocks(set.asn().clone()));
        assert_eq!(set.to_ip_resources_v4(), IpResources::blocks(IpBlocks::from_str("10.0.0.0/8").unwrap()));
        assert_eq!(set.to_ip_resources_v6(), IpResources::blocks(IpBlocks::from_str("2001:db8::/32").unwrap()));
    }

    #[test]
    fn resource_set_of_a_certificate() {
        let cert = Cert::decode(AUTHORITY).unwrap();
        let set = ResourceSet::try_from(&cert).unwrap();
        assert_eq!(set, ResourceSet::from(&authority()));
        assert!(ResourceSet::try_from(manifest().0.as_cert()).is_err());
    }
}

mod errors {
    use super::*;
    use rpki::repository::Roa;

    /// Whatever fails, `?` makes one error of it.
    fn process(point: &Point, cert: &[u8], list: &[u8], roa: &[u8]) -> Result<usize, ValidationError> {
        let cert = Cert::decode(cert)?;
        cert.inspect_ca(true)?;
        cert.validity().verify()?;
        let crl = Crl::decode(list)?;
        crl.verify_signature(cert.subject_public_key_info())?;
        let (_, route) = Roa::decode(roa, true)?.process(&point.issuer, true, |cert| point.check_crl(cert))?;
        Ok(route.iter().count())
    }

    #[test]
    fn question_marks() {
        let process = |cert, list, roa| process(&Point::new(), cert, list, roa);
        assert_eq!(process(AUTHORITY, LIST, ROA), Ok(4));
        assert!(matches!(process(LIST, LIST, ROA), Err(ValidationError::Malformed(_))));
        assert!(matches!(process(ROUTER, LIST, ROA), Err(ValidationError::Inspection(_))));
        assert!(matches!(process(AUTHORITY, ROA, ROA), Err(ValidationError::Malformed(_))));
        assert!(matches!(process(AUTHORITY, LIST, GONE), Err(ValidationError::Verification(_))));
    }

    #[test]
    fn of_a_text() {
        let error: ValidationError = VerificationError::new("no current CRL").into();
        assert_eq!(error.to_string(), "no current CRL");
        assert_eq!(ValidationError::from(InspectionError::new("too deep")).to_string(), "too deep");
    }
}

#[cfg(feature = "serde")]
mod serialized {
    use super::*;
    use rpki::repository::resources::{IpBlock, Prefix, ResourceSet};
    use rpki::resources::{Asn, MaxLenPrefix, Prefix as RoutePrefix};

    fn both<T: serde::Serialize + for<'a> serde::Deserialize<'a> + PartialEq + std::fmt::Debug>(value: T, text: &str) {
        assert_eq!(serde_json::to_string(&value).unwrap(), text);
        assert_eq!(serde_json::from_str::<T>(text).unwrap(), value);
    }

    #[test]
    fn as_numbers() {
        both(Asn::from(64496), "64496");
        assert!(serde_json::from_str::<Asn>("4294967296").is_err() && serde_json::from_str::<Asn>("\"1\"").is_err());
    }

    #[test]
    fn as_numbers_in_other_forms() {
        #[derive(Debug, PartialEq, serde::Deserialize, serde::Serialize)]
        struct Filter {
            #[serde(serialize_with = "Asn::serialize_as_str", deserialize_with = "Asn::deserialize_from_any")]
            asn: Asn,
            #[serde(serialize_with = "Asn::serialize_as_bare_str", deserialize_with = "Asn::deserialize_from_str")]
            peer: Asn,
            #[serde(serialize_with = "Asn::serialize_as_u32", deserialize_with = "Asn::deserialize_from_u32")]
            own: Asn,
        }
        let filter = Filter { asn: Asn::from(1), peer: Asn::from(2), own: Asn::from(3) };
        both(filter, r#"{"asn":"AS1","peer":"2","own":3}"#);
        let read = |asn| serde_json::from_str::<Filter>(&format!(r#"{{"asn":{asn},"peer":"AS2","own":3}}"#));
        assert_eq!(read("1").unwrap().asn, Asn::from(1));
        assert!(read("-1").is_err() && read("4294967296").is_err() && read("\"ASx\"").is_err() && read("[]").is_err());
    }

    #[test]
    fn blocks_and_prefixes() {
        both(IpBlock::from_v6_str("2001:db8::-2001:db8::5").unwrap(), "\"2001:db8::-2001:db8::5\"");
        both(Prefix::from_v6_str("2001:db8::/32").unwrap(), "\"2001:db8::/32\"");
        let v4: IpBlock = serde_json::from_str("\"10.0.0.0/8\"").unwrap();
        assert_eq!(serde_json::from_str::<IpBlock>(&serde_json::to_string(&v4).unwrap()).unwrap(), v4);
    }

    #[test]
    fn route_prefixes() {
        both(RoutePrefix::from_str("10.0.0.0/8").unwrap(), "\"10.0.0.0/8\"");
        both(MaxLenPrefix::from_str("10.0.0.0/8-24").unwrap(), "\"10.0.0.0/8-24\"");
        assert!(serde_json::from_str::<RoutePrefix>("\"10.0.0.1/8\"").is_err());
    }

    #[test]
    fn resource_sets() {
        let set = ResourceSet::from_strs("AS1-AS3", "10.0.0.0/8", "2001:db8::/32").unwrap();
        both(set.clone(), r#"{"asn":"AS1-AS3","ipv4":"10.0.0.0/8","ipv6":"2001:db8::/32"}"#);
        let older = r#"{"asn":"AS1-AS3","v4":"10.0.0.0/8","v6":"2001:db8::/32"}"#;
        assert_eq!(serde_json::from_str::<ResourceSet>(older).unwrap(), set);
    }

    #[test]
    fn certificates_and_lists() {
        let text = |octets: &[u8]| format!("\"{}\"", rpki::util::base64::Serde.encode(octets));
        both(Cert::decode(AUTHORITY).unwrap(), &text(AUTHORITY));
        both(Crl::decode(LIST).unwrap(), &text(LIST));
        assert!(serde_json::from_str::<Cert>(&text(LIST)).is_err() && serde_json::from_str::<Crl>("\"*\"").is_err());
    }
}
