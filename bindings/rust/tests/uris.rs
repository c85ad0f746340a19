//! URIs beside the standards and the calls of the library: characters, equality, order of segments, texts.

use bytes::Bytes;
use rpki_proved::uri::{check_uri_ascii, starts_with_ignore_case, Error, Https, Rsync, Scheme};
use rpki_proved::view;
use std::hash::{BuildHasher, Hash, Hasher};

fn rsync(text: &str) -> Rsync {
    text.parse().unwrap_or_else(|error| panic!("{text}: {error}"))
}

/// Pairs of paths, each in one module: with every relation that two lists of segments have.
const PATHS: [&str; 14] =
    ["", "a", "a/", "A", "ab", "ab/", "a/b", "a/b/", "a/B", "a/b/c", "a/bc", "b", "aa/b", "a%2Fb"];

/// Fronts, of which the first three differ in case alone, where case counts for nothing.
const FRONTS: [&str; 7] = [
    "rsync://host/module/",
    "RSYNC://HOST/module/",
    "rsync://hOst/module/",
    "rsync://host/Module/",
    "rsync://host2/module/",
    "rsync://host/modul/",
    "rsync://hos/tmodule/",
];

fn uris() -> Vec<String> {
    FRONTS.iter().flat_map(|front| PATHS.iter().map(move |path| format!("{front}{path}"))).collect()
}

/// What plain Rust says of two URIs is what the library says of their texts.
#[test]
fn relations_are_those_of_the_library() {
    let texts = uris();
    for one in &texts {
        for other in &texts {
            let told = view::Rsync::parse(one).unwrap().relative_to(&view::Rsync::parse(other).unwrap());
            let (uri, base) = (rsync(one), rsync(other));
            assert_eq!(uri.relative_to(&base), told, "{one} {other}");
            assert_eq!(base.is_parent_of(&uri), told.map_or(false, |path| !path.is_empty()), "{one} {other}");
            assert_eq!(base.is_identical_to(&uri), told == Some(""), "{one} {other}");
        }
    }
}

/// Two URIs are one where their texts are, but for the case of scheme and authority (RFC 3986 6.2.2.1): a slash last,
/// and the case of the rest, make another.
#[test]
fn uris_are_one_where_their_texts_are() {
    let canonical = |text: &str| {
        let end = 8 + text[8..].find('/').unwrap_or(text.len() - 8);
        text[..end].to_ascii_lowercase() + &text[end..]
    };
    let texts = uris();
    for one in &texts {
        for other in &texts {
            let is_one = canonical(one) == canonical(other);
            assert_eq!(rsync(one) == rsync(other), is_one, "{one} {other}");
            let others = (other.as_str(), other.as_bytes(), other.clone(), Bytes::from(other.clone()));
            let is_equal =
                [rsync(one) == others.0, rsync(one) == others.1, rsync(one) == others.2, rsync(one) == others.3];
            assert_eq!(is_equal, [is_one; 4], "{one} {other}");
            let as_https = |text: &str| text.replacen("rsync", "https", 1).replacen("RSYNC", "HTTPS", 1);
            let (uri, text): (Https, _) = (as_https(one).parse().unwrap(), as_https(other));
            assert_eq!((uri == text.parse::<Https>().unwrap(), uri == text), (is_one, is_one), "{one} {other}");
        }
    }
}

/// The parts of a URI are the text between slashes, in one spelling and in the canonical one.
#[test]
fn parts_are_between_slashes() {
    for text in uris() {
        let uri = rsync(&text);
        let parts: Vec<&str> = text[8..].splitn(3, '/').collect();
        assert_eq!([uri.authority(), uri.module_name(), uri.path()], parts[..], "{text}");
        assert_eq!(uri.path_bytes(), parts[2].as_bytes());
        assert_eq!(uri.module(), &text[..text.len() - parts[2].len()], "{text}");
        assert_eq!(uri.canonical_authority(), parts[0].to_ascii_lowercase(), "{text}");
        let module = format!("rsync://{}/{}/", parts[0].to_ascii_lowercase(), parts[1]);
        assert_eq!(uri.canonical_module(), module, "{text}");
    }
}

/// The characters of URIs: those that RFC 3986 appendix A has, but `?`, `#`, `[` and `]`.
#[test]
fn characters() {
    let unreserved = |octet: u8| octet.is_ascii_alphanumeric() || b"-._~".contains(&octet);
    for octet in 0..=255 {
        let is_one = unreserved(octet) || b"!$&'()*+,;=:@/%".contains(&octet);
        // `@` is one of the characters that the crate does not take.
        let wanted = if is_one && octet != b'@' { Ok(()) } else { Err(Error::InvalidCharacters) };
        assert_eq!(check_uri_ascii([octet]), wanted, "{octet}");
        assert_eq!(check_uri_ascii([b'a', octet, b'a']), wanted, "{octet}");
    }
    assert_eq!(check_uri_ascii(""), Ok(()));
}

/// The path alone is looked at, not the text.
#[test]
fn a_path_ends() {
    let uri = rsync("rsync://host/module/a.mft");
    assert!(uri.ends_with("a.mft") && uri.ends_with("") && !uri.ends_with("/a.mft") && !uri.ends_with("module/a.mft"));
    assert!(!rsync("rsync://host/module/").ends_with("/") && rsync("rsync://host/module/a/").ends_with("/"));
}

/// A text that is no longer shared is elsewhere.
#[test]
fn unshared_texts_stand_elsewhere() {
    let shared = Bytes::from_static(b"rsync://host/module/a");
    let mut uri = Rsync::from_bytes(shared.clone()).unwrap();
    assert_eq!(uri.as_slice().as_ptr(), shared.as_ptr());
    uri.unshare();
    assert!(uri.as_slice().as_ptr() != shared.as_ptr());
    assert_eq!(uri.as_slice(), &shared[..]);
    let shared = Bytes::from_static(b"https://host/a");
    let mut uri = Https::from_bytes(shared.clone()).unwrap();
    uri.unshare();
    assert!(uri.as_slice().as_ptr() != shared.as_ptr() && uri == shared);
}

/// What is shared stays: a copy and a parent are in the same memory.
#[test]
fn copies_and_parents_are_shared() {
    let uri = rsync("rsync://host/module/a/b");
    let (copy, parent) = (uri.clone(), uri.parent().unwrap());
    assert_eq!(copy.as_slice().as_ptr(), uri.as_slice().as_ptr());
    assert_eq!(parent.as_slice().as_ptr(), uri.as_slice().as_ptr());
    assert_eq!(uri.to_bytes().as_ptr(), uri.as_slice().as_ptr());
}

/// Authorities of every length up to the longest, 255, are compared and hashed in either case.
#[test]
fn authorities_of_every_length() {
    let keys = std::collections::hash_map::RandomState::new();
    for size in [1, 7, 8, 9, 31, 32, 33, 57, 58, 59, 60, 254, 255] {
        let (lower, upper) = ("a".repeat(size), "A".repeat(size));
        let of = |text: &str| [format!("rsync://{text}/m/{text}"), format!("https://{text}/{lower}")];
        let ([one, https], [other, https_other]) = (of(&lower), of(&upper));
        let rsync_hash = |text: &str| {
            let mut state = keys.build_hasher();
            rsync(text).hash(&mut state);
            state.finish()
        };
        assert!(rsync(&one) != rsync(&other) && rsync_hash(&one) != rsync_hash(&other), "{size}");
        let same = one.replacen(&lower, &upper, 1);
        assert!(rsync(&one) == rsync(&same) && rsync_hash(&one) == rsync_hash(&same), "{size}");
        let mut known = std::collections::HashSet::new();
        assert!(known.insert(https.parse::<Https>().unwrap()) && !known.insert(https_other.parse().unwrap()), "{size}");
    }
}

#[test]
fn schemes() {
    for (scheme, is_https, text) in [(Scheme::Https, true, "https"), (Scheme::Rsync, false, "rsync")] {
        assert_eq!((scheme.is_https(), scheme.is_rsync(), scheme.as_str()), (is_https, !is_https, text));
        assert_eq!((scheme.to_string(), scheme.into_string()), (format!("{text}://"), format!("{text}://")));
    }
    let uri: Https = "HTTPS://host/".parse().unwrap();
    assert_eq!(uri.scheme(), Scheme::Https);
}

#[test]
fn fronts_without_case() {
    let rows = [("", "", true), ("a", "", true), ("rSync://", "rsync://", true), ("rsync:/", "rsync://", false)];
    for (text, front, begins) in rows {
        assert_eq!(starts_with_ignore_case(text.as_bytes(), front.as_bytes()), begins, "{text}");
    }
    assert!(!starts_with_ignore_case(b"https://", b"rsync://"));
}

/// The text under the context-specific tag 6 (RFC 5280 4.2.1.6), as it is spelled.
#[test]
fn general_names() {
    let uri = rsync("rSync://hOst/module/");
    assert_eq!(uri.encode_general_name(), [&b"\x86\x14"[..], b"rSync://hOst/module/"].concat());
    let long = rsync(&format!("rsync://host/module/{}", "a/".repeat(120)));
    assert_eq!(long.encode_general_name(), [&b"\x86\x82\x01\x04"[..], long.as_slice()].concat());
    let uri: Https = "https://host".parse().unwrap();
    assert_eq!(uri.encode_general_name(), [&b"\x86\x0c"[..], b"https://host"].concat());
}
