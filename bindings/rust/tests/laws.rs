//! Laws of every type: equality is one of equivalence, equal values are hashed alike, order agrees with equality, texts
//! are read again, and what is serialized is that text.

use bytes::Bytes;
use rpki::crypto::{
    BgpsecSignatureAlgorithm, DigestAlgorithm, KeyIdentifier, PublicKey, PublicKeyFormat, RpkiSignatureAlgorithm,
    Signature, SignatureAlgorithm, SigningAlgorithm,
};
use rpki::oid::Oid;
use rpki::repository::x509::{Name, Serial, SignedData, Time, Validity};
use rpki::uri::{Https, Rsync, Scheme};
use rpki::view;
use rpki_proved as rpki;
use std::collections::hash_map::RandomState;
use std::fmt::{Debug, Display};
use std::hash::{BuildHasher, Hash, Hasher};
use std::str::FromStr;

/// Equality of each two is that of the numbers beside them.
fn equality<T: Eq + Debug>(values: &[(u32, T)]) {
    for (one, first) in values {
        for (other, second) in values {
            assert_eq!(first == second, one == other, "{first:?} {second:?}");
            assert_eq!(first != second, one != other, "{first:?} {second:?}");
        }
    }
}

/// Those of one number are hashed alike, and no others, whatever the keys of the hasher are.
fn hashes<T: Hash + Debug>(values: &[(u32, T)]) {
    let keys = RandomState::new();
    let hash = |value: &T| {
        let mut state = keys.build_hasher();
        value.hash(&mut state);
        state.finish()
    };
    for (one, first) in values {
        for (other, second) in values {
            assert_eq!(hash(first) == hash(second), one == other, "{first:?} {second:?}");
        }
    }
}

/// Order is that of the numbers.
fn order<T: Ord + Debug>(values: &[(u32, T)]) {
    for (one, first) in values {
        for (other, second) in values {
            assert_eq!(first.cmp(second), one.cmp(other), "{first:?} {second:?}");
            assert_eq!(first.partial_cmp(second), Some(one.cmp(other)), "{first:?} {second:?}");
        }
    }
}

/// The text of a value is read as that value, and a copy of it is the value.
fn texts<T: Eq + Clone + Debug + Display + FromStr>(values: &[(u32, T)])
where
    T::Err: Debug,
{
    for (_, value) in values {
        assert_eq!(&value.to_string().parse::<T>().unwrap(), value);
        assert_eq!(&value.clone(), value);
    }
}

/// A value is serialized as this text, which is read as the value, from octets that are borrowed and that are not.
#[cfg(feature = "serde")]
fn serialized<T>(values: &[(u32, T)], text: impl Fn(&T) -> String)
where
    T: Eq + Debug + serde::Serialize + for<'a> serde::Deserialize<'a>,
{
    for (_, value) in values {
        let wanted = format!("\"{}\"", text(value));
        assert_eq!(serde_json::to_string(value).unwrap(), wanted);
        assert_eq!(&serde_json::from_str::<T>(&wanted).unwrap(), value);
        assert_eq!(&serde_json::from_reader::<_, T>(wanted.as_bytes()).unwrap(), value);
        assert_eq!(&serde_json::from_value::<T>(serde_json::to_value(value).unwrap()).unwrap(), value);
    }
}

fn read<T: FromStr>(texts: &[(u32, &str)]) -> Vec<(u32, T)>
where
    T::Err: Debug,
{
    texts.iter().map(|(number, text)| (*number, text.parse().unwrap())).collect()
}

#[test]
fn rsync_uris() {
    let values: Vec<(u32, Rsync)> = read(&[
        (0, "rsync://host/module/path"),
        (0, "RSYNC://HOST/module/path"),
        (0, "rsync://hOst/module/path"),
        (1, "rsync://host/module/path/"),
        (2, "rsync://host/module/"),
        (3, "rsync://host/Module/path"),
        (4, "rsync://host/module/Path"),
        (5, "rsync://host:873/module/path"),
        (6, "rsync://hostm/odule/path"),
        (7, "rsync://hos/tmodule/path"),
    ]);
    equality(&values);
    hashes(&values);
    texts(&values);
    #[cfg(feature = "serde")]
    serialized(&values, |uri| uri.as_str().into());
}

#[test]
fn https_uris() {
    let values: Vec<(u32, Https)> = read(&[
        (0, "https://host/path"),
        (0, "HTTPS://HOST/path"),
        (1, "https://host/Path"),
        (2, "https://host/path/"),
        (3, "https://host"),
        (3, "https://HOST"),
        (4, "https://host/"),
        (5, "https://"),
        (6, "https:///host"),
    ]);
    equality(&values);
    hashes(&values);
    texts(&values);
    #[cfg(feature = "serde")]
    serialized(&values, |uri| uri.as_str().into());
}

#[test]
fn serial_numbers() {
    let values: Vec<(u32, Serial)> = read(&[
        (0, "0"),
        (0, "000"),
        (1, "1"),
        (1, "01"),
        (2, "255"),
        (3, "256"),
        (4, "18446744073709551616"),
        (5, "730750818665451459101842416358141509827966271487"),
    ]);
    equality(&values);
    hashes(&values);
    order(&values);
    texts(&values);
    for (_, serial) in &values {
        assert_eq!(Serial::decode(&serial.encode()), Ok(*serial));
        assert_eq!(Serial::from_array(serial.into_array()), Ok(*serial));
        assert_eq!(Serial::try_from(String::from(*serial)), Ok(*serial));
    }
    #[cfg(feature = "serde")]
    serialized(&values, |serial| serial.to_string());
    let shown = values.iter().map(|(_, serial)| serial.to_string());
    let wanted = ["0", "0", "1", "1", "255", "256", "18446744073709551616"];
    assert!(shown.zip(wanted).all(|(shown, wanted)| shown == wanted));
}

#[test]
fn times() {
    let values: Vec<(u32, Time)> = read(&[
        (0, "0000-01-01T00:00:00Z"),
        (1, "1949-12-31T23:59:59Z"),
        (2, "1950-01-01 00:00:00 UTC"),
        (2, "1950-01-01T01:00:00+01:00"),
        (2, "1950-01-01T00:00:00.9Z"),
        (3, "1969-12-31T23:59:59Z"),
        (4, "1970-01-01T00:00:00Z"),
        (5, "2050-01-01T00:00:00Z"),
        (6, "9999-12-31T23:59:59Z"),
    ]);
    equality(&values);
    hashes(&values);
    order(&values);
    texts(&values);
    for (_, time) in &values {
        assert_eq!(Time::decode(&time.encode_varied()), Ok(*time));
        assert_eq!(Time::decode(&time.encode_generalized_time()), Ok(*time));
        let (date, clock) = ((time.year(), time.month(), time.day()), (time.hour(), time.minute(), time.second()));
        assert_eq!(Time::utc(date.0, date.1, date.2, clock.0, clock.1, clock.2), *time);
        assert_eq!(view::Time::from(*time).seconds(), time.to_binary_time());
    }
    #[cfg(feature = "serde")]
    serialized(&values, |time| view::Time::from(*time).to_string());
    let periods = |(number, from): &(u32, Time)| {
        values.iter().map(|(other, to)| (10 * number + other, Validity::new(*from, *to))).collect::<Vec<_>>()
    };
    let periods: Vec<(u32, Validity)> = values.iter().flat_map(periods).collect();
    equality(&periods);
    hashes(&periods);
    for (_, period) in &periods {
        assert_eq!(Validity::decode(&period.encode()), Ok(*period));
        assert_eq!((period.trim(*period), Validity::new(period.not_before(), period.not_after())), (*period, *period));
    }
}

#[test]
fn key_identifiers() {
    let digits = |octet: &str| octet.repeat(20);
    let values: Vec<(u32, KeyIdentifier)> = read(&[
        (0, &digits("00")),
        (1, &(digits("00")[2..].to_string() + "ff")),
        (1, &(digits("00")[2..].to_string() + "FF")),
        (2, &("01".to_string() + &digits("00")[2..])),
        (3, &digits("7f")),
        (4, &digits("80")),
        (5, &digits("fF")),
    ]);
    equality(&values);
    hashes(&values);
    order(&values);
    texts(&values);
    for (_, identifier) in &values {
        assert_eq!(KeyIdentifier::decode(&identifier.encode()), Ok(*identifier));
        assert_eq!(identifier.into_hex()[..], *identifier.to_string().as_bytes());
    }
    #[cfg(feature = "serde")]
    serialized(&values, |identifier| identifier.to_string());
}

/// The identifiers of RSA with NULL and without, and of P-256.
const RSA: &str = "\x30\x0d\x06\x09\x2a\u{86}\x48\u{86}\u{f7}\x0d\x01\x01\x01\x05\x00";
const BARE_RSA: &str = "\x30\x0b\x06\x09\x2a\u{86}\x48\u{86}\u{f7}\x0d\x01\x01\x01";
const P256: &str = "\x30\x13\x06\x07\x2a\u{86}\x48\u{ce}\x3d\x02\x01\x06\x08\x2a\u{86}\x48\u{ce}\x3d\x03\x01\x07";
const SHA256_RSA: &str = "\x30\x0d\x06\x09\x2a\u{86}\x48\u{86}\u{f7}\x0d\x01\x01\x0b\x05\x00";
const BARE_SHA256_RSA: &str = "\x30\x0b\x06\x09\x2a\u{86}\x48\u{86}\u{f7}\x0d\x01\x01\x0b";

/// A SEQUENCE of what the texts spell, an octet a character, of fewer than 128.
fn sequence(parts: &[&str]) -> Bytes {
    let contents: Vec<u8> = parts.concat().chars().map(|character| character as u8).collect();
    [&[0x30, contents.len() as u8], &contents[..]].concat().into()
}

#[test]
fn keys() {
    let key = |algorithm, bits| PublicKey::decode(sequence(&[algorithm, "\x03\x03", bits])).unwrap();
    let values = [
        (0, key(RSA, "\x00\x01\x04")),
        (0, key(BARE_RSA, "\x00\x01\x04")),
        (1, key(RSA, "\x02\x01\x04")),
        (2, key(RSA, "\x00\x01\x05")),
        (3, key(P256, "\x00\x01\x04")),
    ];
    equality(&values);
    let hashed: Vec<(u32, PublicKey)> = values.iter().filter(|(number, _)| matches!(number, 0 | 2)).cloned().collect();
    hashes(&hashed);
    for (_, key) in &values {
        assert_eq!(PublicKey::decode(key.to_info_bytes()).as_ref(), Ok(key));
    }
    #[cfg(feature = "serde")]
    serialized(&values, |key| rpki::util::base64::Serde.encode(&key.to_info_bytes()));
}

#[test]
fn signed_data() {
    let signed = |algorithm, bits| SignedData::decode(sequence(&["\x30\x00", algorithm, "\x03\x02", bits])).unwrap();
    let values = [
        (0, signed(SHA256_RSA, "\x00\u{a8}")),
        (0, signed(SHA256_RSA, "\x03\u{a8}")),
        (1, signed(BARE_SHA256_RSA, "\x00\u{a8}")),
        (2, signed(SHA256_RSA, "\x00\u{a0}")),
        (3, SignedData::decode(sequence(&["\x05\x00", SHA256_RSA, "\x03\x02\x00\u{a8}"])).unwrap()),
    ];
    equality(&values);
    let signatures: Vec<_> = values[..4].iter().map(|(number, it)| (*number, it.signature().clone())).collect();
    equality(&signatures);
    for (_, signed) in &values {
        let written = SignedData::decode(signed.to_bytes()).unwrap();
        assert_eq!((written.data(), written.signature().value()), (signed.data(), signed.signature().value()));
        assert_eq!(written.to_bytes(), signed.to_bytes());
        assert_eq!(*written.signature().algorithm(), RpkiSignatureAlgorithm::default());
    }
}

#[test]
fn names() {
    let name = |string: &str| Name::decode(sequence(&["\x31\x0a\x30\x08\x06\x03\x55\x04\x03", string])).unwrap();
    let values = [(0, name("\x13\x01A")), (1, name("\x13\x01B")), (2, name("\x0c\x01A"))];
    equality(&values);
    for (_, name) in &values {
        assert_eq!(Name::decode(name.to_bytes()).as_ref(), Ok(name));
        assert_eq!((name.as_ref(), &name.to_bytes()[..]), (name.as_slice(), name.as_slice()));
    }
    #[cfg(feature = "serde")]
    serialized(&values, |name| rpki::util::base64::Serde.encode(name.as_slice()));
}

#[test]
fn small_types() {
    equality(&[(0, PublicKeyFormat::Rsa), (1, PublicKeyFormat::EcdsaP256)]);
    equality(&[(0, SigningAlgorithm::RsaSha256), (1, SigningAlgorithm::EcdsaP256Sha256)]);
    equality(&[(0, Scheme::Https), (1, Scheme::Rsync)]);
    equality(&[(0, BgpsecSignatureAlgorithm::default())]);
    let digests = [(0, DigestAlgorithm::default()), (0, DigestAlgorithm::sha256())];
    equality(&digests);
    hashes(&digests);
    let octets = |text: &str| text.chars().map(|character| character as u8).collect::<Vec<u8>>();
    let algorithm = |text| RpkiSignatureAlgorithm::x509_decode(&octets(text)).unwrap();
    let algorithms =
        [(0, RpkiSignatureAlgorithm::default()), (0, algorithm(SHA256_RSA)), (1, algorithm(BARE_SHA256_RSA))];
    equality(&algorithms);
    hashes(&algorithms);
    let value = |octet: u8| Bytes::copy_from_slice(&[octet]);
    let signatures = algorithms.map(|(number, it)| (number, Signature::new(it, value(1))));
    equality(&signatures);
    assert_ne!(Signature::new(algorithms[0].1, value(1)), Signature::new(algorithms[0].1, value(2)));
    let identifiers = [(0, Oid(vec![85, 4, 3])), (1, Oid(vec![85, 4, 5])), (2, Oid(vec![85, 4]))];
    equality(&identifiers);
    hashes(&identifiers);
    assert!(identifiers[0].1 == rpki::oid::AT_COMMON_NAME);
}

/// The types of `view`, which borrow their octets or are numbers.
#[test]
fn views() {
    let serial = |octets: &[u8]| view::Serial::decode(octets).unwrap();
    let serials = [(0, serial(b"\x02\x01\x00")), (1, serial(b"\x02\x01\x7f")), (2, serial(b"\x02\x02\x00\x80"))];
    equality(&serials);
    hashes(&serials);
    order(&serials);
    let identifiers = [0u8, 1, 0x80].map(|octet| (u32::from(octet), view::KeyIdentifier::from([octet; 20])));
    equality(&identifiers);
    hashes(&identifiers);
    order(&identifiers);
    let time = |octets: &[u8]| view::Time::decode(octets).unwrap();
    let times = [
        (0, time(b"\x18\x0f00000101000000Z")),
        (1, time(b"\x17\x0d500101000000Z")),
        (1, time(b"\x18\x0f19500101000000Z")),
        (2, time(b"\x17\x0d691231235959Z")),
        (3, time(b"\x17\x0d700101000000Z")),
        (4, time(b"\x18\x0f20500101000000Z")),
    ];
    equality(&times);
    hashes(&times);
    order(&times);
    let header = |octets: &[u8]| view::Header::read(octets).unwrap();
    equality(&[
        (0, header(b"\x30\x00")),
        (0, header(b"\x30\x00\xff")),
        (1, header(b"\x30\x01")),
        (2, header(b"\x04\x00")),
    ]);
    let extension = |octets: &'static [u8]| view::Extension::decode(octets).unwrap().id();
    let identifiers = [
        (0, extension(b"\x30\x07\x06\x03\x55\x1d\x13\x04\x00")),
        (0, extension(b"\x30\x08\x06\x03\x55\x1d\x13\x04\x01\x00")),
        (1, extension(b"\x30\x07\x06\x03\x55\x1d\x0f\x04\x00")),
    ];
    equality(&identifiers);
    hashes(&identifiers);
    let version = |major, minor, patch| rpki::Version { major, minor, patch };
    let versions = [(0, version(0, 1, 0)), (1, version(0, 1, 2)), (2, version(0, 2, 0)), (3, version(1, 0, 0))];
    equality(&versions);
    hashes(&versions);
    order(&versions);
}

/// What is wrong with a serialized text is said with its place, at the top as inside of others; so is another type.
#[cfg(feature = "serde")]
#[test]
fn errors_of_serialized_texts_have_a_place() {
    fn told<T: for<'a> serde::Deserialize<'a> + Debug>(text: &str) -> [String; 2] {
        let alone = serde_json::from_str::<T>(text).unwrap_err().to_string();
        [alone, serde_json::from_str::<Vec<T>>(&format!("[{text}]")).unwrap_err().to_string()]
    }
    let of = |text: &str, column: usize| [column, column + 1].map(|column| format!("{text} at line 1 column {column}"));
    assert_eq!(told::<Rsync>("\"rsync://\""), of("bad URI", 10));
    assert_eq!(told::<Https>("\"http://a\""), of("bad URI scheme", 10));
    assert_eq!(told::<Serial>("\"x\""), of("wrong representation format", 3));
    assert_eq!(told::<KeyIdentifier>("\"+F\""), of("invalid key identifier", 4));
    assert_eq!(told::<Time>("\"2020\""), of("malformed time value", 6));
    assert_eq!(told::<PublicKey>("\"MAA=\""), of("truncated value", 6));
    assert_eq!(told::<PublicKey>("\"Zg\""), of("Invalid padding", 4));
    assert_eq!(told::<Name>("\"MAA=\""), of("malformed contents", 6));
    let expected = [
        told::<Rsync>("1"),
        told::<Https>("1"),
        told::<Serial>("1"),
        told::<KeyIdentifier>("1"),
        told::<Time>("1"),
        told::<PublicKey>("1"),
        told::<Name>("1"),
    ];
    for (number, text) in expected.iter().enumerate() {
        assert!(text[0].starts_with("invalid type: integer `1`, expected a"), "{number}: {}", text[0]);
        assert!(text[0].ends_with(" at line 1 column 1"), "{number}: {}", text[0]);
    }
}

/// The text that the crate rpki serializes of the number 0 is read, and not written; no text but digits is a number.
#[cfg(feature = "serde")]
#[test]
fn serial_zero() {
    assert_eq!(serde_json::from_str::<Serial>("\"\"").unwrap(), Serial::default());
    assert_eq!(serde_json::to_string(&Serial::default()).unwrap(), "\"0\"");
    assert!("".parse::<Serial>().is_err());
}
