//! What the rows don't see of the values that this package makes: texts, bounds, and octets around values.

use rpki_proved::view::*;
use std::error::Error;

/// A period has both of its ends (RFC 5280 4.1.2.5): from 1970-01-01 00:00:00 to 1970-01-01 00:00:09.
#[test]
fn periods_have_both_ends() {
    let period = Validity::decode(b"\x30\x1e\x17\x0d700101000000Z\x17\x0d700101000009Z").unwrap();
    for (seconds, is_in) in [(-1, false), (0, true), (5, true), (9, true), (10, false)] {
        assert_eq!(period.contains(seconds), is_in, "{seconds}");
    }
}

/// Years have four digits, in generalized time (X.680 46) as in RFC 3339.
#[test]
fn years_have_four_digits() {
    let rows = [
        ("00000101000000Z", "0000-01-01T00:00:00Z"),
        ("00070203040506Z", "0007-02-03T04:05:06Z"),
        ("09991231235959Z", "0999-12-31T23:59:59Z"),
        ("99991231235959Z", "9999-12-31T23:59:59Z"),
    ];
    for (text, shown) in rows {
        let time = Time::decode(&[b"\x18\x0f", text.as_bytes()].concat()).unwrap();
        assert_eq!(time.to_string(), shown);
    }
}

#[test]
fn serial_numbers_are_shown() {
    let rows: [(&[u8], &str); 5] = [
        (b"\x02\x01\x00", "00"),
        (b"\x02\x01\x07", "07"),
        (b"\x02\x02\x00\xff", "FF"),
        (b"\x02\x03\x01\x00\x00", "010000"),
        (
            b"\x02\x14\x7f\x00\x02\x03\x04\x05\x06\x07\x08\x09\x0a\x0b\x0c\x0d\x0e\x0f\x10\x11\x12\x13",
            "7F0002030405060708090A0B0C0D0E0F10111213",
        ),
    ];
    for (octets, shown) in rows {
        assert_eq!(Serial::decode(octets).unwrap().to_string(), shown);
    }
}

/// An index has the octets of its value and an entry for each header, and no more.
#[test]
fn an_index_ends_with_its_value() {
    let index = Index::of(b"\x30\x04\x05\x00\x05\x00\xff\xff").unwrap();
    assert_eq!(index.octets(), b"\x30\x04\x05\x00\x05\x00");
    assert_eq!((index.len(), index.entries().count()), (3, 3));
    assert_eq!(index.get(2).unwrap().octets(), b"\x05\x00");
    assert!(index.get(3).is_none());
    assert_eq!(index.get(1).unwrap().descendants().count(), 0);
    assert!(index.root().child(2).is_none());
    assert_eq!(Index::of(&[0xff; 1 << 20]).unwrap_err(), DecodeError::BadTag);
}

/// An index of few entries is found in one call, and of more in two.
#[test]
fn an_index_has_as_many_entries_as_there_are_headers() {
    for (count, header) in [(126, &b"\x30\x81\xfc"[..]), (127, b"\x30\x81\xfe"), (128, b"\x30\x82\x01\x00")] {
        let octets = [header, &[5, 0].repeat(count)].concat();
        let index = Index::of(&octets).unwrap();
        assert_eq!((index.len(), index.root().children().count()), (count + 1, count));
        assert_eq!(index.get(count).unwrap().start(), octets.len() - 2, "of {count} NULLs");
    }
}

/// A value keeps all of the octets that it was read from.
#[test]
fn values_keep_their_octets() {
    let signed = b"\x30\x15\x30\x00\x30\x0d\x06\x09\x2a\x86\x48\x86\xf7\x0d\x01\x01\x0b\x05\x00\x03\x02\x00\xaa";
    assert_eq!(SignedData::decode(signed).unwrap().octets(), signed);
    let key = b"\x30\x15\x30\x0d\x06\x09\x2a\x86\x48\x86\xf7\x0d\x01\x01\x01\x05\x00\x03\x04\x00abc";
    assert_eq!(PublicKey::decode(key).unwrap().octets(), key);
    let name = b"\x30\x0c\x31\x0a\x30\x08\x06\x03\x55\x04\x03\x13\x01A";
    assert_eq!(Name::decode(name).unwrap().octets(), name);
    let walked = walk(b"\x30\x00\xff").unwrap();
    assert_eq!((walked.octets(), walked.headers()), (&b"\x30\x00"[..], 1));
}

/// Bases and paths of each length up to 300 come through whole.
#[test]
fn joined_texts_are_whole() {
    for length in 1..=240 {
        let (folder, last) = ("a".repeat(length), "b".repeat(241 - length));
        let base = format!("rsync://host/module/{folder}");
        let text = format!("{base}/{last}");
        let mut room = vec![0; text.len()];
        let base = Rsync::parse(&base).unwrap();
        assert_eq!(base.join(&last), Ok(text.clone()));
        assert_eq!(base.join_into(&last, &mut room), Ok(&text[..]));
        let whole = Rsync::parse(&text).unwrap();
        assert_eq!(whole.relative_to(&base), Some(&last[..]));
        assert_eq!(whole.parent().unwrap().as_str(), &text[..=base.as_str().len()]);
    }
    let base = Rsync::parse("rsync://host/module/").unwrap();
    assert_eq!(base.join("a".repeat(1 << 20)), Err(UriError::LongUri));
}

/// A base of 3,079 octets, the most that is read, is joined with no path.
#[test]
fn the_longest_text_is_joined_with_nothing() {
    let text = format!("rsync://host/module/{}{}", format!("{}/", "a".repeat(255)).repeat(11), "a".repeat(243));
    assert_eq!(text.len(), 3_079);
    assert_eq!(Rsync::parse(&text).unwrap().join(""), Ok(text.clone()));
    assert_eq!(Rsync::parse(&format!("{text}a")).unwrap_err(), UriError::LongUri);
}

/// A path is asked for once: one that answers differently each time changes nothing.
#[test]
fn a_path_is_asked_for_once() {
    struct Once(std::cell::Cell<bool>);
    impl AsRef<[u8]> for Once {
        fn as_ref(&self) -> &[u8] {
            if self.0.replace(true) {
                b"another/and/a/longer/path"
            } else {
                b"a"
            }
        }
    }
    let base = Rsync::parse("rsync://host/module/").unwrap();
    assert_eq!(base.join(Once(Default::default())).unwrap(), "rsync://host/module/a");
    assert_eq!(base.join_into(Once(Default::default()), &mut [0; 21]), Ok("rsync://host/module/a"));
}

/// The texts of all errors; those of URIs are those of the crate rpki 0.20.1.
#[test]
fn errors_have_texts() {
    let decoding = [
        (DecodeError::Truncated, "truncated value"),
        (DecodeError::BadTag, "malformed tag"),
        (DecodeError::BadLength, "malformed length"),
        (DecodeError::Unexpected, "unexpected value"),
        (DecodeError::Content, "malformed contents"),
        (DecodeError::Trailing, "octets after the value"),
        (DecodeError::OutOfMemory, "out of memory"),
        (DecodeError::OtherAlgorithm, "another algorithm"),
        (DecodeError::TooLong, "too long to be written"),
    ];
    for (error, text) in decoding {
        assert_eq!(error.to_string(), text);
        assert_eq!(InspectError::from(error).to_string(), text);
        assert_eq!(InspectError::from(error).source().unwrap().to_string(), text);
    }
    let uris = [
        (UriError::InvalidCharacters, "invalid characters"),
        (UriError::BadUri, "bad URI"),
        (UriError::LongUri, "URI exceeds 3072 characters"),
        (UriError::BadScheme, "bad URI scheme"),
        (UriError::DotSegments, "URI with dot path segments"),
        (UriError::EmptySegments, "URI with empty path segments"),
        (UriError::LongSegments, "one or more segments are longer than 255 characters"),
    ];
    for (error, text) in uris {
        assert_eq!(error.to_string(), text);
        assert_eq!(JoinError::from(error).to_string(), text);
        assert_eq!(JoinError::from(error).source().unwrap().to_string(), text);
    }
    let rules = [
        (InspectError::MissingCommonName, "missing common name"),
        (InspectError::SecondCommonName, "multiple common names"),
        (InspectError::SecondSerialNumber, "multiple serial numbers"),
        (InspectError::SecondOrganizationName, "multiple organization names"),
        (InspectError::StringNotPermitted, "unpermitted string in name"),
        (InspectError::AttributeNotPermitted, "unpermitted attribute in name"),
    ];
    for (error, text) in rules {
        assert_eq!(error.to_string(), text);
        assert!(error.source().is_none());
    }
    assert_eq!(JoinError::TooSmall.to_string(), "buffer too small");
    assert!(JoinError::TooSmall.source().is_none());
}

/// The library that is linked is of this package's version.
#[test]
fn the_version_is_the_packages() {
    assert_eq!(rpki_proved::library_version().to_string(), env!("CARGO_PKG_VERSION"));
}
