//! Prefixes of a known family, as RFC 4632 3.1 and RFC 4291 2.3 have them, and their maximum lengths (RFC 9582 4.3.2).

use rpki_proved::repository::resources;
use rpki_proved::repository::roa::{FriendlyRoaIpAddress, RoaIpAddress};
use rpki_proved::resources::addr::{MaxLenError, ParseMaxLenPrefixError, ParsePrefixError, PrefixError};
use rpki_proved::resources::{Asn, MaxLenPrefix, Prefix, SmallAsnSet};
use std::net::IpAddr;

fn prefix(text: &str) -> Prefix {
    text.parse().unwrap_or_else(|error| panic!("{text}: {error}"))
}

fn address(text: &str) -> IpAddr {
    text.parse().unwrap()
}

#[test]
fn parts() {
    for (text, lowest, highest, len) in [
        ("0.0.0.0/0", "0.0.0.0", "255.255.255.255", 0),
        ("10.64.0.0/13", "10.64.0.0", "10.71.255.255", 13),
        ("192.0.2.7/32", "192.0.2.7", "192.0.2.7", 32),
        ("::/0", "::", "ffff:ffff:ffff:ffff:ffff:ffff:ffff:ffff", 0),
        ("2001:db8::/33", "2001:db8::", "2001:db8:7fff:ffff:ffff:ffff:ffff:ffff", 33),
        ("2001:db8::1/128", "2001:db8::1", "2001:db8::1", 128),
    ] {
        let found = prefix(text);
        assert_eq!(
            (found.addr(), found.min_addr(), found.max_addr()),
            (address(lowest), address(lowest), address(highest))
        );
        assert_eq!((found.len(), found.addr_and_len()), (len, (address(lowest), len)));
        assert_eq!((found.is_v4(), found.is_v6()), (!text.contains(':'), text.contains(':')));
        assert_eq!(found.to_string(), text);
        assert_eq!(Prefix::new(address(lowest), len), Ok(found));
        assert_eq!(resources::Prefix::from(found), text.parse().unwrap());
    }
}

#[test]
fn texts_that_are_none() {
    use ParsePrefixError::{InvalidAddr, InvalidLen, InvalidPrefix, MissingLen};
    for (text, error) in [
        ("10.0.0.0", MissingLen),
        ("/8", InvalidAddr),
        ("10.0.0/8", InvalidAddr),
        ("10.0.0.0/", InvalidLen),
        ("10.0.0.0/+8", InvalidLen),
        ("10.0.0.0/256", InvalidLen),
        ("10.0.0.0/33", InvalidPrefix(PrefixError::LenOverflow)),
        ("::/129", InvalidPrefix(PrefixError::LenOverflow)),
        ("10.0.0.1/31", InvalidPrefix(PrefixError::NonZeroHost)),
        ("2001:db8::1/127", InvalidPrefix(PrefixError::NonZeroHost)),
    ] {
        assert_eq!(text.parse::<Prefix>(), Err(error.clone()), "{text}");
        assert!(!error.to_string().is_empty());
    }
    assert_eq!(Prefix::new_relaxed(address("10.0.0.1"), 31), Ok(prefix("10.0.0.0/31")));
    assert_eq!(Prefix::new_relaxed(address("2001:db8::1"), 32), Ok(prefix("2001:db8::/32")));
    assert_eq!(Prefix::new_relaxed(address("10.0.0.1"), 33), Err(PrefixError::LenOverflow));
    assert_eq!(Prefix::new_v4([10, 0, 0, 0].into(), 8), Ok(prefix("10.0.0.0/8")));
    assert_eq!(Prefix::new_v6([0; 16].into(), 8), Ok(prefix("::/8")));
}

#[test]
fn covering() {
    for (one, other, is) in [
        ("10.0.0.0/8", "10.0.0.0/8", true),
        ("10.0.0.0/8", "10.255.0.0/16", true),
        ("10.0.0.0/8", "10.0.0.0/7", false),
        ("10.0.0.0/8", "11.0.0.0/8", false),
        ("10.0.0.0/8", "9.255.255.255/32", false),
        ("0.0.0.0/0", "::/0", false),
        ("::/0", "10.0.0.0/8", false),
        ("2001:db8::/32", "2001:db8:1::/48", true),
        ("2001:db8::/32", "2001:db9::/48", false),
    ] {
        assert_eq!(prefix(one).covers(prefix(other)), is, "{one} {other}");
    }
}

#[test]
fn maximum_lengths() {
    let with = |text: &str, len| MaxLenPrefix::new(prefix(text), len);
    for (text, len, wanted) in [
        ("10.0.0.0/8", Some(7), Err(MaxLenError::Underflow)),
        ("10.0.0.0/8", Some(33), Err(MaxLenError::Overflow)),
        ("10.0.0.0/8", Some(8), Ok(("10.0.0.0/8-8", 8))),
        ("10.0.0.0/8", Some(32), Ok(("10.0.0.0/8-32", 32))),
        ("10.0.0.0/8", None, Ok(("10.0.0.0/8", 8))),
        ("2001:db8::/32", Some(128), Ok(("2001:db8::/32-128", 128))),
        ("2001:db8::/32", Some(129), Err(MaxLenError::Overflow)),
    ] {
        let found = with(text, len);
        assert_eq!(found.map(|it| (it.to_string(), it.resolved_max_len())), wanted.map(|(s, n)| (s.to_string(), n)));
        if let Ok(found) = found {
            assert_eq!((found.prefix(), found.max_len(), found.addr()), (prefix(text), len, prefix(text).addr()));
            assert_eq!((found.prefix_len(), found.to_string().parse()), (prefix(text).len(), Ok(found)));
        }
    }
    assert_eq!(MaxLenPrefix::from(prefix("10.0.0.0/8")), with("10.0.0.0/8", None).unwrap());
    for (len, nearest) in [(0, 8), (8, 8), (24, 24), (32, 32), (255, 32)] {
        let found = MaxLenPrefix::saturating_new(prefix("10.0.0.0/8"), Some(len));
        assert_eq!(found, with("10.0.0.0/8", Some(nearest)).unwrap());
    }
    use ParseMaxLenPrefixError::{InvalidMaxLenFormat, InvalidMaxLenValue, InvalidPrefix};
    for (text, error) in [
        ("10.0.0.0-24", InvalidPrefix(ParsePrefixError::MissingLen)),
        ("10.0.0.0/8-", InvalidMaxLenFormat),
        ("10.0.0.0/8-+9", InvalidMaxLenFormat),
        ("10.0.0.0/8-7", InvalidMaxLenValue(MaxLenError::Underflow)),
    ] {
        assert_eq!(text.parse::<MaxLenPrefix>(), Err(error.clone()), "{text}");
        assert!(!error.to_string().is_empty());
    }
}

/// Of a family, and with a length, that no attestation has: the nearest that one may have.
#[test]
fn prefixes_of_attestations() {
    let of = |addr: &str, len, max_length, is_v4| {
        let address = RoaIpAddress::new_addr(address(addr), len, max_length);
        MaxLenPrefix::from(FriendlyRoaIpAddress::new(address, is_v4)).to_string()
    };
    assert_eq!(of("10.0.0.0", 8, Some(24), true), "10.0.0.0/8-24");
    assert_eq!(of("2001:db8::", 32, None, false), "2001:db8::/32");
    assert_eq!(of("10.0.0.1", 40, Some(200), true), "10.0.0.1/32-32");
    assert_eq!(of("2001:db8::", 32, Some(3), false), "2001:db8::/32-32");
}

#[test]
fn sets_of_numbers() {
    let set = |numbers: &[u32]| numbers.iter().copied().map(Asn::from).collect::<SmallAsnSet>();
    let found = set(&[7, 1, 7, 3]);
    assert_eq!(found, set(&[3, 7, 1]));
    assert_ne!(found, set(&[3, 7]));
    assert_eq!((found.len(), found.is_empty(), set(&[]).is_empty()), (3, false, true));
    let numbers: Vec<u32> = (&found).into_iter().map(u32::from).collect();
    assert_eq!(numbers, [1, 3, 7]);
    assert!([1, 3, 7].iter().all(|it| found.contains(Asn::from(*it))));
    assert!([0, 2, 4, 8].iter().all(|it| !found.contains(Asn::from(*it))));
}
