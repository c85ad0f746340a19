//! A user's code of the crate rpki, on the types that this package has under its names. What is expected is of the
//! standards and of the documentation of that crate.

use bytes::Bytes;
use rpki::crypto::{
    KeyIdentifier, Provider, PublicKey, PublicKeyFormat, RpkiSignature, RpkiSignatureAlgorithm, Signature,
    SignatureAlgorithm, SigningAlgorithm,
};
use rpki::repository::error::{ContentError, InspectionError, ValidationError, VerificationError};
use rpki::repository::x509::{
    encode_extension, update_first, Name, Serial, SerialSliceError, SignedData, Time, Validity,
};
use rpki::uri::{self, Https, Rsync, Scheme};
use rpki::util::{base64, hex};
use rpki::{oid, DecodeError};
use rpki_proved as rpki;
use std::collections::{HashMap, HashSet};
use std::convert::TryFrom;
use std::error::Error;
use std::hash::{BuildHasher, Hash, Hasher};
use std::str::FromStr;

fn rsync(text: &str) -> Rsync {
    Rsync::from_str(text).unwrap_or_else(|error| panic!("{text}: {error}"))
}

fn https(text: &str) -> Https {
    Https::from_str(text).unwrap_or_else(|error| panic!("{text}: {error}"))
}

/// Whether two values have one hash, by hashers with keys of their own.
fn hash_alike<T: Hash>(one: &T, other: &T) -> bool {
    let keys = std::collections::hash_map::RandomState::new();
    let hash = |value: &T| {
        let mut hasher = keys.build_hasher();
        value.hash(&mut hasher);
        hasher.finish()
    };
    hash(one) == hash(other)
}

// ---- URIs ----

/// The texts of RFC 5781 and the characters of RFC 3986, less those that the crate refuses.
#[test]
fn rsync_texts_are_read() {
    let segment = |size: usize| "a".repeat(size);
    let all = "rsync://host/module/$%&'()*+,-./0123456789:;=ABCDEFGHIJKLMNOPQRSTUVWXYZ_abcdefghijklmnopqrstuvwxyz~";
    let good = ["", "foo/", "foo/bar", "foo/bar/"].map(|path| format!("rsync://host/module/{path}"));
    for text in good.iter().map(String::as_str).chain([all, "rSync://hOst/module/"]) {
        let uri = rsync(text);
        assert_eq!((uri.as_str(), uri.to_string()), (text, text.to_string()));
        assert_eq!(Rsync::from_string(text.into()).unwrap(), uri);
        assert_eq!(Rsync::from_bytes(Bytes::copy_from_slice(text.as_bytes())).unwrap(), uri);
        assert_eq!(Rsync::from_slice(text.as_bytes()).unwrap().as_slice(), text.as_bytes());
        assert_eq!(Rsync::try_from(text.to_string()).unwrap(), uri);
    }
    let bad = [
        ("", uri::Error::BadScheme),
        ("fsync://host/module/foo/bar", uri::Error::BadScheme),
        ("rsync://", uri::Error::BadUri),
        ("rsync://host/", uri::Error::BadUri),
        ("rsync://host/module", uri::Error::BadUri),
        ("rsync:////foo", uri::Error::EmptySegments),
        ("rsync:///module/foo", uri::Error::EmptySegments),
        ("rsync://host//foo", uri::Error::EmptySegments),
        ("rsync://host/module//foo/bar/", uri::Error::EmptySegments),
        ("rsync://host/module/foo//bar/", uri::Error::EmptySegments),
        ("rsync://../module/", uri::Error::DotSegments),
        ("rsync://./", uri::Error::DotSegments),
        ("rsync://host/..", uri::Error::DotSegments),
        ("rsync://host/./foo/bar", uri::Error::DotSegments),
        ("rsync://host/module/foo/../bar", uri::Error::DotSegments),
        ("rsync://host/module/foo/bar/..", uri::Error::DotSegments),
        ("rsync://host/module/f oo/bar", uri::Error::InvalidCharacters),
        ("rsync:// host/module/foo/bar", uri::Error::InvalidCharacters),
    ];
    let long = [
        (format!("rsync://{}/module/", segment(256)), uri::Error::LongSegments),
        (format!("rsync://host/{}/", segment(256)), uri::Error::LongSegments),
        (format!("rsync://host/module/{}", segment(256)), uri::Error::LongSegments),
    ];
    let other = " \"#<>?[\\]^`{|}".chars().map(|c| (format!("rsync://host/module/{c}"), uri::Error::InvalidCharacters));
    let bad = bad.into_iter().map(|(text, error)| (text.to_string(), error)).chain(long).chain(other);
    for (text, error) in bad {
        assert_eq!(Rsync::from_str(&text).unwrap_err(), error, "{text}");
    }
}

#[test]
fn rsync_parts() {
    let uri = rsync("rSync://hOst/module/foo/bar");
    assert_eq!((uri.authority(), uri.module_name(), uri.path()), ("hOst", "module", "foo/bar"));
    assert_eq!((uri.module(), uri.path_bytes()), ("rSync://hOst/module/", &b"foo/bar"[..]));
    assert_eq!((&*uri.canonical_authority(), &*uri.canonical_module()), ("host", "rsync://host/module/"));
    assert!(matches!(rsync("rsync://host/m/").canonical_module(), std::borrow::Cow::Borrowed("rsync://host/m/")));
    assert!(uri.ends_with("bar") && !uri.ends_with("baz") && !uri.path_is_dir());
    let mut folder = uri.clone();
    folder.path_into_dir();
    assert_eq!(folder.as_str(), "rSync://hOst/module/foo/bar/");
    assert_eq!((folder.path(), folder.path_is_dir()), ("foo/bar/", true));
    folder.path_into_dir();
    folder.unshare();
    assert_eq!(folder, "rsync://host/module/foo/bar/");
}

/// A file and its folder have one parent, and a module none (the vectors of the crate's documentation).
#[test]
fn rsync_parents() {
    let parents = [
        ("foo/bar/baz/", Some("foo/bar/")),
        ("foo/bar/baz", Some("foo/bar/")),
        ("foo/", Some("")),
        ("foo", Some("")),
        ("", None),
    ];
    for (path, parent) in parents {
        let found = rsync(&format!("rsync://host/module/{path}")).parent();
        assert_eq!(found.as_ref().map(|uri| uri.path()), parent, "{path}");
        if let Some(found) = found {
            assert_eq!((found.authority(), found.module_name()), ("host", "module"));
            assert_eq!(found, rsync(found.as_str()));
        }
    }
}

#[test]
fn rsync_joins() {
    for base in ["rsync://host/module/some", "rsync://host/module/some/"] {
        for path in ["foo", "foo/", "foo/bar"] {
            let joined = rsync(base).join(path.as_bytes()).unwrap();
            assert_eq!(joined.as_str(), format!("rsync://host/module/some/{path}"));
            assert_eq!(joined.path(), format!("some/{path}"));
            assert_eq!(joined.relative_to(&rsync(base)), Some(path));
        }
        assert_eq!(rsync(base).join(b"").unwrap().as_str(), base);
    }
    let bad = [
        (".", uri::Error::DotSegments),
        ("foo/.", uri::Error::DotSegments),
        ("..", uri::Error::DotSegments),
        ("foo/../bar", uri::Error::DotSegments),
        ("../bar", uri::Error::DotSegments),
        ("/bar", uri::Error::EmptySegments),
        ("f oo", uri::Error::InvalidCharacters),
    ];
    for (path, error) in bad {
        assert_eq!(rsync("rsync://host/module/").join(path.as_bytes()).unwrap_err(), error, "{path}");
    }
}

/// The longest text that is read, one that is too long to be joined, and one that becomes too long to be read.
#[test]
fn rsync_lengths() {
    let text = format!("rsync://host/module/{}{}", format!("{}/", "a".repeat(255)).repeat(11), "a".repeat(243));
    let mut uri = rsync(&text);
    assert_eq!(text.len(), 3_079);
    assert_eq!(uri.join(b"a").unwrap_err(), uri::Error::LongUri);
    assert_eq!(Rsync::from_string(text.clone() + "a").unwrap_err(), uri::Error::LongUri);
    uri.path_into_dir();
    assert_eq!(uri.as_slice().len(), 3_080);
    assert_eq!(Rsync::from_slice(uri.as_slice()).unwrap_err(), uri::Error::LongUri);
    assert_eq!(uri.parent().unwrap().as_str(), &text[..text.len() - 243]);
    assert_eq!(uri, uri.clone());
    assert!(hash_alike(&uri, &uri.clone()) && uri.is_identical_to(&rsync(&text)));
}

#[test]
fn rsync_relative_paths() {
    let module = "rsync://host/module/";
    let rows = [
        ("", "", Some("")),
        ("", "a", None),
        ("a", "", Some("a")),
        ("a/", "", Some("a/")),
        ("a", "a/b", None),
        ("ab/", "a/", None),
        ("a/b", "a/", Some("b")),
        ("a/b/", "a", Some("b/")),
        ("a/b/", "a/b", Some("")),
        ("a/b", "ab", None),
        ("ab", "a", None),
        ("a", "a/", Some("")),
        ("a/", "a", Some("")),
    ];
    for (path, base, relative) in rows {
        let (uri, base) = (rsync(&format!("{module}{path}")), rsync(&format!("{module}{base}")));
        assert_eq!(uri.relative_to(&base), relative, "{uri} {base}");
        assert_eq!(base.is_parent_of(&uri), relative.map_or(false, |path| !path.is_empty()));
        assert_eq!(base.is_identical_to(&uri), relative == Some(""));
    }
    assert_eq!(rsync("rsync://host/module/a/b").relative_to(&rsync("rsync://host/mod_b/a/b")), None);
    assert_eq!(rsync("rsync://host/m/a").relative_to(&rsync("rsync://host/M/")), None);
    assert_eq!(rsync("rsync://hOst/m/a").relative_to(&rsync("rSync://host/m/")), Some("a"));
    assert!(!rsync("rsync://host/m/").is_identical_to(&rsync("rsync://host/M/")));
    let one = rsync("rsync://example.org/module/some/path");
    let same = ["rsync://example.org/module/some/path/", "rsync://EXAMPLE.ORG/module/some/path"];
    assert!(same.iter().all(|text| one.is_identical_to(&rsync(text))));
    let others = ["example.org/module/some/path2", "example.org/module/some/PATH", "example.org/module2/some/path"];
    assert!(others.iter().all(|text| !one.is_identical_to(&rsync(&format!("rsync://{text}")))));
    assert!(!one.is_identical_to(&rsync("rsync://example.net/module/some/path")));
}

#[test]
fn uris_are_compared_and_hashed() {
    let one = rsync("rsyNc://hOst/module/path");
    assert_eq!(one, rsync("rsync://host/module/path"));
    assert_eq!(one, "rsync://host/module/path");
    assert_eq!(one, *b"rsync://host/module/path".as_slice());
    assert_eq!(one, Bytes::from_static(b"rsync://HOST/module/path"));
    assert_ne!(one, "rsync://host/module/pAth");
    assert_ne!(one, "rsync://host/modulE/path");
    assert_ne!(one, "rsync://host/module/path/");
    assert_ne!(one, rsync("rsync://host/module/pAth"));
    assert!(hash_alike(&one, &rsync("rsync://host/module/path")));
    assert!(!hash_alike(&one, &rsync("rsync://host/Module/path")));
    let other = https("htTps://eXAMple.coM/some/stuff");
    assert_eq!(other, https("https://example.com/some/stuff"));
    assert_eq!(other, "https://example.com/some/stuff".to_string());
    assert_ne!(other, https("https://example.com/Some/stuff"));
    assert!(hash_alike(&other, &https("https://example.com/some/stuff")));
    let mut known: HashSet<Https> = HashSet::new();
    assert!(known.insert(other.clone()) && !known.insert(https("https://example.com/some/stuff")));
    let mut sizes: HashMap<Rsync, usize> = HashMap::new();
    sizes.insert(one.clone(), 1);
    assert_eq!(sizes.get(&rsync("rsync://host/module/path")), Some(&1));
    assert_eq!(AsRef::<str>::as_ref(&one), one.as_str());
    assert_eq!(AsRef::<[u8]>::as_ref(&one), one.as_slice());
    assert_eq!(AsRef::<Bytes>::as_ref(&one), &one.to_bytes());
    assert_eq!(format!("{one:?}"), "Rsync(\"rsyNc://hOst/module/path\")");
}

#[test]
fn https_uris() {
    let uri = https("https://eXample.com/some");
    assert_eq!((uri.authority(), uri.path(), &*uri.canonical_authority()), ("eXample.com", "/some", "example.com"));
    assert!(uri.eq_authority(&https("https://example.COM/")) && !uri.eq_authority(&https("https://example.org/")));
    assert_eq!(
        (uri.scheme(), uri.scheme().as_str(), Scheme::Rsync.into_string()),
        (Scheme::Https, "https", "rsync://".into())
    );
    let parents = [
        ("https://example.com/", None),
        ("https://example.com", None),
        ("https://example.com/1/", Some("https://example.com/")),
        ("https://example.com/foo", Some("https://example.com/")),
        ("https://example.com/1/foo", Some("https://example.com/1/")),
        ("https://example.com/1/2/", Some("https://example.com/1/")),
    ];
    for (text, parent) in parents {
        let found = https(text).parent();
        assert_eq!(found.as_ref().map(Https::as_str), parent, "{text}");
        assert!(found.iter().all(|found| *found == https(found.as_str())));
    }
    let joins = [
        ("https://example.com", "a", "https://example.com/a"),
        ("https://", "a", "https:///a"),
        ("https://example.com", "", "https://example.com/"),
        ("https://example.com/some", "sub/", "https://example.com/some/sub/"),
    ];
    for (base, path, text) in joins {
        let joined = https(base).join(path.as_bytes()).unwrap();
        assert_eq!((joined.as_str(), &joined), (text, &https(text)));
    }
    assert_eq!(https("https://a/").join(b"a b").unwrap_err(), uri::Error::InvalidCharacters);
    assert_eq!(Https::from_str(&format!("https://{}/", "a".repeat(256))).unwrap_err(), uri::Error::BadUri);
    assert_eq!(Https::from_str("http://example.com/").unwrap_err(), uri::Error::BadScheme);
    let host = https("https://HOST");
    assert_eq!((host.authority(), host.path(), host.path_is_dir()), ("HOST", "", true));
    let mut folder = uri.clone();
    folder.path_into_dir();
    assert_eq!((folder.path(), uri.path_is_dir(), folder.path_is_dir()), ("/some/", false, true));
    let mut bare = https("https://example.com");
    bare.path_into_dir();
    assert_eq!(bare.as_str(), "https://example.com");
    assert!(uri::check_uri_ascii("a~b").is_ok() && uri::check_uri_ascii(b"a b").is_err());
}

// ---- Serial numbers, times, periods ----

#[test]
fn serial_numbers() {
    assert_eq!(Serial::from_slice(&[1, 2, 3]), Ok(Serial::from(0x10203u64)));
    assert_eq!(Serial::from_slice(&[]), Err(SerialSliceError::Empty));
    assert_eq!(Serial::from_slice(&[0; 21]), Err(SerialSliceError::Long));
    assert_eq!(Serial::from_slice(&[[0x80; 1].as_slice(), &[0; 19]].concat()), Err(SerialSliceError::Long));
    assert_eq!(SerialSliceError::Long.to_string(), "serial number longer than 20 bytes");
    let read = Serial::decode(b"\x02\x03\x01\x02\x03").unwrap();
    assert_eq!((read.into_array()[..17].to_vec(), &read.into_array()[17..]), (vec![0; 17], &[1, 2, 3][..]));
    let written = [
        (Serial::from_slice(&[0x81, 2, 3]).unwrap(), &b"\x02\x04\x00\x81\x02\x03"[..], "8454659"),
        (Serial::default(), b"\x02\x01\x00", "0"),
        (Serial::from(128u64), b"\x02\x02\x00\x80", "128"),
        (
            Serial::from(u128::MAX),
            b"\x02\x11\x00\xff\xff\xff\xff\xff\xff\xff\xff\xff\xff\xff\xff\xff\xff\xff\xff",
            "340282366920938463463374607431768211455",
        ),
    ];
    for (serial, octets, text) in written {
        assert_eq!(serial.encode(), octets);
        assert_eq!(Serial::decode(octets), Ok(serial));
        assert_eq!((serial.to_string(), text.parse()), (text.into(), Ok(serial)));
        assert_eq!((String::from(serial), format!("{serial:?}")), (text.to_string(), format!("Serial({text})")));
    }
    // 2^159 - 1, and one more.
    let largest = "730750818665451459101842416358141509827966271487".parse::<Serial>().unwrap();
    assert_eq!(largest.into_array(), [&[0x7f][..], &[0xff; 19]].concat()[..]);
    assert!("730750818665451459101842416358141509827966271488".parse::<Serial>().is_err());
    assert!(["", "-1", "+1", "1a", " 1", "0x1"].iter().all(|text| text.parse::<Serial>().is_err()));
    assert_eq!("007".parse(), Ok(Serial::from(7u64)));
    assert!(Serial::from(255u64) < Serial::from(256u64));
    assert_eq!(
        Serial::decode(b"\x02\x15\x00\x80\x00\x00\x00\x00\x00\x00\x00\x00\x00\x00\x00\x00\x00\x00\x00\x00\x00\x00\x00"),
        Err(DecodeError::Content)
    );
}

#[test]
fn times() {
    let rows: [(&[u8], &str); 6] = [
        (b"\x17\x0d500101000000Z", "1950-01-01T00:00:00Z"),
        (b"\x17\x0d491231235959Z", "2049-12-31T23:59:59Z"),
        (b"\x17\x0d801001163015Z", "1980-10-01T16:30:15Z"),
        (b"\x17\x0d301001163015Z", "2030-10-01T16:30:15Z"),
        (b"\x18\x0f99991231235959Z", "9999-12-31T23:59:59Z"),
        (b"\x18\x0f20301001163015Z", "2030-10-01T16:30:15Z"),
    ];
    for (octets, text) in rows {
        let time = Time::decode(octets).unwrap();
        assert_eq!((format!("{time:?}"), text.parse()), (format!("Time({text})"), Ok(time)));
        assert_eq!(Time::from_timestamp(time.timestamp()), Some(time));
    }
    let bad: [&[u8]; 5] = [
        b"\x17\x0d301001163060Z",
        b"\x18\x0f19000229000000Z",
        b"\x17\x0d30a001163015Z",
        b"\x17\x0d30+001163015Z",
        b"\x18\x0f2030a001163015Z",
    ];
    assert!(bad.iter().all(|octets| Time::decode(octets).is_err()));
    let late = Time::utc(2060, 1, 1, 0, 0, 0);
    assert_eq!(Time::decode(&late.encode_utc_time()), Ok(Time::utc(1960, 1, 1, 0, 0, 0)));
    assert_eq!(Time::decode(&late.encode_varied()), Ok(late));
    assert_eq!(late.encode_generalized_time(), &b"\x18\x0f20600101000000Z"[..]);
    assert_eq!(Time::utc(2000, 1, 1, 0, 0, 0).to_binary_time(), 946_684_800);
    let leap = Time::utc(2020, 2, 29, 16, 39, 57);
    assert_eq!(Time::years_from_date(4, leap), Time::utc(2024, 2, 28, 16, 39, 57));
    assert_eq!(Time::years_from_date(10, leap), Time::utc(2030, 2, 28, 16, 39, 57));
    assert_eq!(Time::utc(9999, 1, 1, 0, 0, 0).checked_add_years(1), None);
    assert_eq!(Time::checked_utc(2019, 2, 29, 0, 0, 0), None);
    assert_eq!(Time::checked_utc(2020, 1, 1, 0, 0, 60), None);
    assert_eq!(Time::checked_utc(10_000, 1, 1, 0, 0, 0), None);
    assert!("2020-02-30T00:00:00Z".parse::<Time>().is_err() && "2020-02-03".parse::<Time>().is_err());
    assert_eq!("2014-10-21T16:39:57.5-01:30".parse(), Ok(Time::utc(2014, 10, 21, 18, 9, 57)));
    // The first moment that UTC time has not, and times at both ends of what is written.
    let old = Time::utc(1949, 12, 31, 23, 59, 59);
    assert_eq!(old.encode_varied(), &b"\x18\x0f19491231235959Z"[..]);
    assert_eq!(Time::years_from_date(1, Time::utc(2020, 2, 29, 12, 0, 0)), Time::utc(2021, 2, 28, 12, 0, 0));
    assert_eq!(Time::utc(9999, 12, 31, 23, 59, 59).checked_add_secs(1), None);
    assert_eq!(Time::utc(0, 1, 1, 0, 4, 59).checked_add_secs(-300), None);
    assert_eq!(Time::utc(0, 1, 1, 0, 5, 0).checked_add_secs(-300), Some(Time::utc(0, 1, 1, 0, 0, 0)));
    assert_eq!("2030-10-01T18:30:15+02:00".parse(), Ok(Time::utc(2030, 10, 1, 16, 30, 15)));
    let now = Time::now();
    let near = [Time::five_minutes_ago(), now, Time::five_minutes_from_now(), Time::tomorrow(), Time::next_week()];
    assert!(near.windows(2).all(|pair| pair[0] < pair[1]));
    assert!(Time::next_year() > Time::next_week() && Time::years_from_now(-1) < now);
}

/// The days of each month of 400 years follow each other (ISO 8601), and so do the seconds that calls tell.
#[test]
fn days_follow_each_other() {
    let mut day = Time::utc(1600, 1, 1, 0, 0, 0);
    for year in 1600..2000 {
        let february = if year % 4 == 0 && (year % 100 != 0 || year % 400 == 0) { 29 } else { 28 };
        for (month, days) in (1..).zip([31, february, 31, 30, 31, 30, 31, 31, 30, 31, 30, 31]) {
            assert_eq!((day.year(), day.month(), day.day()), (year, month, 1));
            day = day.checked_add_secs(days * 86_400).unwrap();
        }
    }
    assert_eq!(day, Time::utc(2000, 1, 1, 0, 0, 0));
}

#[test]
fn periods() {
    let (start, end) = (Time::utc(2020, 1, 1, 0, 0, 0), Time::utc(2050, 1, 1, 0, 0, 0));
    let period = Validity::new(start, end);
    assert_eq!(period.encode(), &b"\x30\x20\x17\x0d200101000000Z\x18\x0f20500101000000Z"[..]);
    assert_eq!(Validity::decode(&period.encode()), Ok(period));
    assert_eq!((period.not_before(), period.not_after()), (start, end));
    assert!(period.verify_at(start).is_ok() && period.verify_at(end).is_ok());
    let (before, after) = (start.checked_add_secs(-1).unwrap(), end.checked_add_secs(1).unwrap());
    assert!(period.verify_at(before).unwrap_err().is_too_new());
    assert_eq!(period.verify_at(after).unwrap_err().to_string(), "object has expired");
    assert!(Validity::new(end, start).verify_at(Time::utc(2030, 1, 1, 0, 0, 0)).unwrap_err().is_too_new());
    assert_eq!(period.trim(Validity::new(before, start)), Validity::new(start, start));
    assert!(Validity::from_secs(60).verify().is_ok() && Validity::from_secs(-60).not_after() <= Time::now());
    let error = VerificationError::from(period.verify_at(after).unwrap_err());
    assert_eq!(ValidationError::from(error).to_string(), "certificate has expired");
}

// ---- Keys, names, signed data ----

/// An RSA key whose bits are `abc`.
const KEY: &[u8] = b"\x30\x15\x30\x0d\x06\x09\x2a\x86\x48\x86\xf7\x0d\x01\x01\x01\x05\x00\x03\x04\x00abc";
/// The SHA-1 digest of `abc` (FIPS 180-4).
const DIGITS: &str = "A9993E364706816ABA3E25717850C26C9CD0D89D";

/// A provider that says one thing of all.
struct Says(bool);

impl Provider for Says {
    fn rsa_check(&self, _: &[u8], _: &[u8], _: &[u8]) -> bool {
        self.0
    }

    fn ecdsa_check(&self, _: &[u8], _: &[u8], _: &[u8]) -> bool {
        self.0
    }
}

#[test]
fn keys() {
    let key = PublicKey::rsa_from_components(&[0, 0x80], &[1, 0, 1]).unwrap();
    let algorithm = b"\x30\x0d\x06\x09\x2a\x86\x48\x86\xf7\x0d\x01\x01\x01\x05\x00";
    let bits = b"\x03\x0c\x00\x30\x09\x02\x02\x00\x80\x02\x03\x01\x00\x01";
    let octets = [b"\x30\x1d", &algorithm[..], bits].concat();
    assert_eq!(key.to_info_bytes(), &octets[..]);
    assert_eq!(PublicKey::rsa_from_bits_bytes(key.bits_bytes()), Ok(key.clone()));
    assert_eq!(PublicKey::decode(octets), Ok(key.clone()));
    assert!(PublicKey::rsa_from_components(&[], &[1]).is_err() && PublicKey::rsa_from_components(&[1], &[]).is_err());
    assert_eq!(PublicKey::rsa_from_components(&[0], &[1]).unwrap().bits(), b"\x30\x06\x02\x01\x00\x02\x01\x01");
    assert_eq!(PublicKey::rsa_from_bits_bytes(Bytes::from_static(b"\x30\x00")), Err(DecodeError::Truncated));
    // Without NULL it is another text of the same key.
    let bare = b"\x30\x13\x30\x0b\x06\x09\x2a\x86\x48\x86\xf7\x0d\x01\x01\x01\x03\x04\x00abc";
    let (bare, abc) = (PublicKey::decode(&bare[..]).unwrap(), PublicKey::decode(KEY).unwrap());
    assert_eq!((bare.to_info_bytes(), &bare), (Bytes::from_static(KEY), &abc));
    assert_eq!(abc.key_identifier().to_string(), DIGITS);
    assert!(abc.allow_rpki_cert() && !abc.allow_router_cert());
    assert_eq!(PublicKey::decode([KEY, b"\x00"].concat()), Err(DecodeError::Trailing));
    // A key of no bits, whose identifier is the SHA-1 digest of nothing (FIPS 180-4).
    let empty = PublicKey::decode([b"\x30\x12", &algorithm[..], b"\x03\x01\x00"].concat()).unwrap();
    assert_eq!(empty.key_identifier().to_string(), "DA39A3EE5E6B4B0D3255BFEF95601890AFD80709");
    assert_eq!(PublicKey::decode(&b"\x31\x00"[..]), Err(DecodeError::Unexpected));
    assert_eq!(PublicKey::decode(&b"\x30\x81\x00"[..]), Err(DecodeError::BadLength));
    // A real size: 2,048 bits.
    let modulus: Vec<u8> = (0..256).map(|number| (number % 251) as u8 + 1).collect();
    let large = PublicKey::rsa_from_components(&modulus, &[1, 0, 1]).unwrap();
    assert_eq!(PublicKey::decode(large.to_info_bytes()), Ok(large.clone()));
    assert_eq!((large.bits().len(), large.algorithm()), (4 + 4 + 256 + 5, PublicKeyFormat::Rsa));
}

#[test]
fn key_identifiers() {
    let identifier: KeyIdentifier = DIGITS.parse().unwrap();
    assert_eq!(DIGITS.to_lowercase().parse::<KeyIdentifier>().unwrap(), identifier);
    assert_eq!((&identifier.into_hex()[..], identifier.to_string()), (DIGITS.as_bytes(), DIGITS.to_string()));
    assert_eq!(format!("{identifier:?}"), format!("KeyIdentifier({DIGITS})"));
    assert_eq!(KeyIdentifier::try_from(identifier.as_slice()).unwrap(), identifier);
    assert_eq!(KeyIdentifier::from(<[u8; 20]>::from(identifier)), identifier);
    assert!(identifier == *identifier.as_slice() && KeyIdentifier::from([0; 20]) < identifier);
    assert!(KeyIdentifier::try_from(&[0u8; 19][..]).is_err());
    let plus = format!("+F{}", &DIGITS[2..]);
    assert!([&DIGITS[1..], &plus, "", &DIGITS.replace('9', "g")]
        .iter()
        .all(|text| text.parse::<KeyIdentifier>().is_err()));
    let octets = [b"\x04\x14", identifier.as_slice()].concat();
    assert_eq!(KeyIdentifier::decode(&octets), Ok(identifier));
    assert_eq!(KeyIdentifier::decode(&[&octets[..], b"\x00"].concat()), Err(DecodeError::Trailing));
    assert_eq!(KeyIdentifier::decode(&octets[..21]), Err(DecodeError::Truncated));
    assert_eq!(KeyIdentifier::decode(&[b"\x04\x13", &octets[3..]].concat()), Err(DecodeError::Content));
    assert_eq!(KeyIdentifier::decode(b"\x05\x00"), Err(DecodeError::Unexpected));
}

#[test]
fn names() {
    let printable = Name::decode(&b"\x30\x0c\x31\x0a\x30\x08\x06\x03\x55\x04\x03\x13\x01\x41"[..]).unwrap();
    assert!(printable.inspect_rpki(true).is_ok() && printable.inspect_router(true).is_ok());
    let utf8 = Name::decode(&b"\x30\x0c\x31\x0a\x30\x08\x06\x03\x55\x04\x03\x0c\x01\x41"[..]).unwrap();
    assert!(utf8.inspect_rpki(true).is_err() && utf8.inspect_router(true).is_ok() && utf8.inspect_rpki(false).is_ok());
    assert_ne!(printable, utf8);
    for octets in [&b"\x30\x00"[..], b"\x30\x02\x31\x00", b"\x30\x09\x31\x07\x30\x05\x06\x03\x55\x04\x03"] {
        assert_eq!(Name::decode(octets), Err(DecodeError::Content));
    }
    // Of a common name, a serial number and an organization name: what is wrong under both profiles.
    let (common, number) =
        ("\x31\n\x30\x08\x06\x03\x55\x04\x03\x13\x01A", "\x31\n\x30\x08\x06\x03\x55\x04\x05\x13\x01A");
    let organization = "\x31\n\x30\x08\x06\x03\x55\x04\n\x13\x01B";
    let rows = [
        (vec![common], None),
        (vec![number], Some("missing common name")),
        (vec![common, common], Some("multiple common names")),
        (vec![common, number], None),
        (vec![organization, common], None),
        (vec![organization], Some("missing common name")),
        (vec![organization, organization, common], Some("multiple organization names")),
    ];
    for (parts, error) in rows {
        let parts = parts.concat();
        let name = Name::decode([&[0x30, parts.len() as u8], parts.as_bytes()].concat()).unwrap();
        for inspected in [name.inspect_rpki(true), name.inspect_router(true)] {
            assert_eq!(inspected.err().map(|error| error.to_string()).as_deref(), error);
        }
        assert!(name.inspect_rpki(false).is_ok() && name.inspect_router(false).is_ok());
    }
    let subject = Name::from_pub_key(&PublicKey::decode(KEY).unwrap());
    let octets = [b"\x30\x33\x31\x31\x30\x2f\x06\x03\x55\x04\x03\x13\x28", DIGITS.as_bytes()].concat();
    assert_eq!((subject.as_slice(), subject.to_bytes()), (&octets[..], Bytes::from(octets.clone())));
    assert!(subject.inspect_rpki(true).is_ok() && subject.inspect_router(true).is_ok());
    let twice =
        Name::decode(&b"\x30\x15\x31\x13\x30\x08\x06\x03\x55\x04\x03\x13\x01A\x30\x07\x06\x03\x55\x04\x03\x13\x00"[..]);
    assert_eq!(twice.unwrap().inspect_rpki(true).unwrap_err().to_string(), "multiple common names");
}

#[test]
fn signed_data() {
    let algorithm = b"\x30\x0d\x06\x09\x2a\x86\x48\x86\xf7\x0d\x01\x01\x0b\x05\x00";
    let row = [b"\x30\x15\x30\x00", &algorithm[..], b"\x03\x02\x00\xaa"].concat();
    let signed = SignedData::decode(row.clone()).unwrap();
    assert_eq!((signed.data(), signed.to_bytes()), (&Bytes::from_static(b"\x30\x00"), Bytes::from(row.clone())));
    for size in 0..row.len() {
        assert_eq!(SignedData::decode(row[..size].to_vec()), Err(DecodeError::Truncated), "{size}");
    }
    assert_eq!(SignedData::decode([&row[..], b"\x00"].concat()), Err(DecodeError::Trailing));
    let bare = b"\x30\x13\x30\x00\x30\x0b\x06\x09\x2a\x86\x48\x86\xf7\x0d\x01\x01\x0b\x03\x02\x00\xaa";
    let bare = SignedData::decode(&bare[..]).unwrap();
    assert_ne!(bare, signed);
    assert_eq!(bare.to_bytes(), row);
    let one_bit = SignedData::decode([&row[..21], b"\x01\xaa"].concat()).unwrap();
    assert_eq!((&one_bit, one_bit.to_bytes()), (&signed, Bytes::from(row.clone())));
    assert_eq!(SignedData::decode([&row[..21], b"\x02\xaa"].concat()), Err(DecodeError::Content));
    let past = [b"\x30\x17\x30\x02\x04\x05", &algorithm[..], b"\x03\x02\x00\xaa"].concat();
    assert_eq!(SignedData::decode(past), Err(DecodeError::Truncated));
    let again = SignedData::new(&b"\x30\x00"[..], signed.signature().clone()).unwrap();
    assert_eq!(again, signed);
    assert_eq!(SignedData::new(&b"\x30\x00\x30\x00"[..], signed.signature().clone()), Err(DecodeError::Trailing));
    let key = PublicKey::decode(KEY).unwrap();
    assert!(
        signed.verify_signature_with(&Says(true), &key).is_ok()
            && signed.verify_signature_with(&Says(false), &key).is_err()
    );
}

/// The provider is asked with exactly the bits of the key, the octets that were signed, and those of the signature; and
/// not at all where the key is of another format.
#[test]
fn the_right_question_is_asked() {
    struct Asked;
    impl Provider for Asked {
        fn rsa_check(&self, bits: &[u8], message: &[u8], signature: &[u8]) -> bool {
            (bits, message, signature) == (b"abc", b"message", b"signature")
        }
    }
    let key = PublicKey::decode(KEY).unwrap();
    let signature: RpkiSignature = Signature::new(RpkiSignatureAlgorithm::default(), Bytes::from_static(b"signature"));
    assert!(key.verify_with(&Asked, b"message", &signature).is_ok());
    assert!(key.verify_with(&Asked, b"another", &signature).is_err());
    let point =
        b"\x30\x19\x30\x13\x06\x07\x2a\x86\x48\xce\x3d\x02\x01\x06\x08\x2a\x86\x48\xce\x3d\x03\x01\x07\x03\x02\x00\x04";
    let point = PublicKey::decode(&point[..]).unwrap();
    assert_eq!((point.algorithm(), point.allow_router_cert()), (PublicKeyFormat::EcdsaP256, true));
    let error = point.verify_with(&Says(true), b"message", &signature).unwrap_err();
    assert_eq!(VerificationError::from(error).to_string(), "signature verification failed");
    assert_eq!(signature.algorithm().signing_algorithm(), SigningAlgorithm::RsaSha256);
    assert_eq!(signature.unwrap().1, &b"signature"[..]);
}

#[test]
fn extensions_identifiers_errors() {
    let extension = encode_extension(&oid::CE_BASIC_CONSTRAINTS, false, b"\x30\x00");
    assert_eq!(extension, &b"\x30\x09\x06\x03\x55\x1d\x13\x04\x02\x30\x00"[..]);
    let long = encode_extension(&oid::CE_CRL_NUMBER, true, &[0; 65_536]);
    let read = rpki::view::Extension::decode(&long).unwrap();
    assert_eq!((read.octets().len(), read.is_critical(), read.id().to_string()), (65_536, true, "2.5.29.20".into()));
    assert_eq!(oid::SHA256_WITH_RSA_ENCRYPTION.to_string(), "1.2.840.113549.1.1.11");
    assert_eq!(oid::AD_RPKI_NOTIFY, oid::Oid(vec![43, 6, 1, 5, 5, 7, 48, 13]));
    let mut first = None;
    let all: Result<(), DecodeError> = [1, 2].into_iter().try_for_each(|x| update_first(&mut first, || Ok(Some(x))));
    assert_eq!((all, first), (Ok(()), Some(1)));
    let error = InspectionError::new(ContentError::from_static("a text"));
    assert_eq!(ValidationError::from(error).to_string(), "a text");
    let boxed: Box<dyn Error> = DecodeError::Trailing.into();
    assert_eq!(boxed.to_string(), "octets after the value");
}

// ---- Texts ----

/// The vectors of RFC 4648 section 10, and what each flavour refuses.
#[test]
fn base_64() {
    let vectors = ["", "f", "fo", "foo", "foob", "fooba", "foobar"];
    let texts = ["", "Zg==", "Zm8=", "Zm9v", "Zm9vYg==", "Zm9vYmE=", "Zm9vYmFy"];
    for (octets, text) in vectors.iter().zip(texts) {
        let octets = octets.as_bytes();
        assert_eq!((base64::Serde.encode(octets), base64::Xml.encode(octets)), (text.into(), text.to_string()));
        assert_eq!(base64::Slurm.encode(octets), text.trim_end_matches('='));
        assert_eq!(base64::Slurm.display(octets).to_string(), text.trim_end_matches('='));
        for read in [base64::Serde.decode(text), base64::Xml.decode(text), base64::Slurm.decode(text)] {
            assert_eq!(read.as_deref(), Ok(octets));
        }
        assert_eq!(base64::Slurm.decode(text.trim_end_matches('=')).as_deref(), Ok(octets));
    }
    assert_eq!(base64::Xml.decode("Zm9v\n YmFy\t\x0c\r").as_deref(), Ok(&b"foobar"[..]));
    assert_eq!((base64::Slurm.encode(b"\xfb\xff"), base64::Serde.encode(b"\xfb\xff")), ("-_8".into(), "+/8=".into()));
    let bad = ["Zg", "Zg=", "Zh==", "Z", "Zg===", "Zm9v=", "Zm9v====", "Zm 9v", "-_8=", "Zg==Zg==", "Zm9vZ", "="];
    for text in bad {
        assert!(base64::Serde.decode(text).is_err(), "{text}");
    }
    assert_eq!(base64::Serde.decode("Zm9v*"), Err(base64::DecodeError::InvalidByte(4, b'*')));
    assert_eq!(base64::Xml.decode("Zm 9v\n*"), Err(base64::DecodeError::InvalidByte(4, b'*')));
    assert_eq!(base64::Xml.decode_bytes(b"Zm 9v\xff"), Err(base64::DecodeError::InvalidByte(5, 0xff)));
    assert_eq!(base64::Xml.decode_bytes(b"Z\xff"), Err(base64::DecodeError::InvalidByte(1, 0xff)));
    assert_eq!(base64::Slurm.display(b"\xfb\xff").to_string(), "-_8");
    assert_eq!(base64::Slurm.decode("Zh"), Err(base64::DecodeError::InvalidLastSymbol(1, b'h')));
    for size in [0, 1, 127, 128, 255, 256, 65_535, 65_536, 1_000_000] {
        let octets: Vec<u8> = (0..size).map(|place: u32| (place * 7 % 256) as u8).collect();
        assert!(base64::Xml.decode(&base64::Xml.encode(&octets)) == Ok(octets.clone()), "{size}");
        assert!(base64::Slurm.decode(&base64::Slurm.encode(&octets)) == Ok(octets), "{size}");
    }
    // Of padding there may be less (the crate base64, `DecodePaddingMode::Indifferent`).
    assert_eq!(base64::Slurm.decode("Zg=").as_deref(), Ok(&b"f"[..]));
    assert!(["+/8", "Zg===", "Zh", "Z"].iter().all(|text| base64::Slurm.decode(text).is_err()));
    let all: Vec<u8> = (0..=255).collect();
    assert_eq!(base64::Serde.decode(&base64::Serde.encode(&all)), Ok(all));
}

#[test]
fn hexadecimal_digits() {
    let mut buffer = [0xff; 5];
    assert_eq!(hex::encode(&[0xab, 1], &mut buffer), "AB01");
    assert_eq!(buffer, *b"AB01\xff");
    assert!((0..=255).all(|octet| hex::encode_u8(octet) == format!("{octet:02X}").as_bytes()));
}

// ---- Features ----

#[cfg(feature = "serde")]
#[test]
fn serialized_values() {
    fn both<T: serde::Serialize + for<'a> serde::Deserialize<'a> + PartialEq + std::fmt::Debug>(value: T, text: &str) {
        assert_eq!(serde_json::to_string(&value).unwrap(), text);
        assert_eq!(serde_json::from_str::<T>(text).unwrap(), value);
        assert_eq!(serde_json::from_reader::<_, T>(text.as_bytes()).unwrap(), value);
    }
    both(rsync("rsync://host/module/a"), "\"rsync://host/module/a\"");
    both(https("https://example.com/a"), "\"https://example.com/a\"");
    both(Serial::from(383_822u64), "\"383822\"");
    both(Time::utc(2020, 2, 29, 16, 39, 57), "\"2020-02-29T16:39:57Z\"");
    both(DIGITS.parse::<KeyIdentifier>().unwrap(), &format!("\"{DIGITS}\""));
    both(PublicKey::decode(KEY).unwrap(), "\"MBUwDQYJKoZIhvcNAQEBBQADBABhYmM=\"");
    let day = Time::utc(2020, 1, 1, 0, 0, 0);
    let text = r#"{"not_before":"2020-01-01T00:00:00Z","not_after":"2020-01-01T00:00:00Z"}"#;
    both(Validity::new(day, day), text);
    assert!(serde_json::from_str::<Rsync>("\"rsync://host/\"").is_err());
    assert!(serde_json::from_str::<Serial>("\"x\"").is_err());
    assert!(serde_json::from_str::<Https>("1").is_err());
}

#[cfg(feature = "chrono")]
#[test]
fn times_of_chrono() {
    use chrono::{DateTime, TimeZone, Utc};
    for text in ["2020-02-29T16:39:57Z", "1969-12-31T23:59:59Z", "0000-01-01T00:00:00Z", "9999-12-31T23:59:59Z"] {
        let time: Time = text.parse().unwrap();
        let other: DateTime<Utc> = time.into();
        assert_eq!((format!("{other:?}"), Time::from(other)), (text.to_string(), time));
    }
    let half = Utc.timestamp_opt(-1, 500_000_000).unwrap();
    assert_eq!(Time::new(half).to_binary_time(), -1);
    let day = Time::utc(2020, 1, 1, 0, 0, 0);
    assert_eq!(day + chrono::Duration::days(1) - chrono::Duration::hours(24), day);
}
