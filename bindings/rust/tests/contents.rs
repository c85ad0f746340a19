//! What signed objects contain, read by [ManifestContent], [RouteOriginAttestation] and [AsProviderAttestation],
//! compared with rows that tests/linked/contents/rows.py writes: those that tests/linked/samples.py picks of them for
//! rows/contents.txt, and all, where the variable `RPKI_CONTENT_ROWS` names their file.

use rpki_proved::repository::aspa::{AsProviderAttestation, AspaError};
use rpki_proved::repository::manifest::{ManifestContent, ManifestError};
use rpki_proved::repository::resources::Prefix;
use rpki_proved::repository::roa::{
    FriendlyRoaIpAddress, RoaError, RoaIpAddress, RoaIpAddresses, RouteOriginAttestation,
};
use rpki_proved::uri;
use rpki_proved::view::DecodeError;
use std::collections::HashSet;
use std::str::FromStr;

/// The errors by their statuses, and their texts.
const MANIFEST_ERRORS: [(usize, ManifestError, &str); 7] = [
    (138, ManifestError::Manifest, "not a manifest"),
    (139, ManifestError::Number, "malformed number of the manifest"),
    (140, ManifestError::ThisUpdate, "malformed time of issue of the manifest"),
    (141, ManifestError::NextUpdate, "malformed time of the next manifest"),
    (142, ManifestError::HashAlgorithm, "algorithm of digests is not SHA-256"),
    (143, ManifestError::FileList, "malformed list of files"),
    (144, ManifestError::Order, "next update not after this update"),
];

const ROA_ERRORS: [(usize, RoaError, &str); 3] = [
    (145, RoaError::Attestation, "not a route origin attestation"),
    (146, RoaError::AsId, "malformed AS number"),
    (147, RoaError::AddressBlocks, "malformed list of prefixes"),
];

const ASPA_ERRORS: [(usize, AspaError, &str); 4] = [
    (148, AspaError::Attestation, "not an attestation of providers"),
    (149, AspaError::Version, "other version of the attestation"),
    (150, AspaError::Customer, "malformed customer"),
    (151, AspaError::Providers, "malformed list of providers"),
];

/// What may be wrong with a part, by its number from 1 on.
const REASONS: [DecodeError; 6] = [
    DecodeError::Truncated,
    DecodeError::BadTag,
    DecodeError::BadLength,
    DecodeError::Unexpected,
    DecodeError::Content,
    DecodeError::Trailing,
];

fn octets(digits: &str) -> Vec<u8> {
    let digits = if digits == "-" { "" } else { digits };
    (0..digits.len()).step_by(2).map(|at| u8::from_str_radix(&digits[at..at + 2], 16).unwrap()).collect()
}

fn hexadecimal(octets: &[u8]) -> String {
    octets.iter().map(|octet| format!("{octet:02x}")).collect()
}

fn number(word: &str) -> usize {
    word.parse().unwrap()
}

/// The octets from the place that two words tell; none where there is no place.
fn part<'a>(all: &'a [u8], words: &[&str]) -> &'a [u8] {
    if words[0] == "-" {
        return &[];
    }
    &all[number(words[0])..][..number(words[1])]
}

fn error_of<E: Copy, const N: usize>(errors: &[(usize, E, &str); N], status: usize) -> E {
    errors.iter().find(|(number, ..)| *number == status).expect("a status").1
}

/// What is wrong with the part, by the words that follow its status.
fn reason_of(words: &[&str]) -> DecodeError {
    REASONS[number(words[0]) - 1]
}

/// The names of the files that the words of a row tell.
fn names<'a>(all: &'a [u8], words: &[&str]) -> Vec<&'a [u8]> {
    let mut rest = part(all, &words[0..2]);
    let mut found = Vec::new();
    for file in words[6..].chunks(4) {
        let (entry, following) = rest.split_at(number(file[2]));
        found.push(part(entry, &file[0..2]));
        rest = following;
    }
    found
}

/// What the manifest says is what the words of a row say, or two of its files have the same name.
fn compare_manifest(all: &[u8], words: &[&str]) {
    let names = names(all, words);
    let found = ManifestContent::decode(all.to_vec());
    assert_eq!(ManifestContent::reason(all), None);
    if names.iter().collect::<HashSet<_>>().len() < names.len() {
        assert_eq!(found.unwrap_err(), ManifestError::FileTwice);
        return;
    }
    let manifest = found.unwrap();
    assert_eq!(manifest.len().to_string(), words[2]);
    assert_eq!(manifest.is_empty(), words[2] == "0");
    assert_eq!(manifest.this_update().timestamp().to_string(), words[3]);
    assert_eq!(manifest.next_update().timestamp().to_string(), words[4]);
    assert_eq!(hexadecimal(&manifest.manifest_number().into_array()), words[5]);
    let base = uri::Rsync::from_str("rsync://example.org/module/").unwrap();
    let uris = manifest.iter_uris(&base);
    let mut rest = manifest.iter();
    assert_eq!(rest.len(), names.len());
    rest.next();
    assert_eq!(rest.len(), names.len().saturating_sub(1));
    for (((file, name), words), uri) in manifest.iter().zip(names).zip(words[6..].chunks(4)).zip(uris) {
        assert_eq!(file.file(), name);
        assert_eq!(hexadecimal(file.hash().as_slice()), words[3]);
        let (uri, hash) = uri.unwrap();
        assert_eq!(uri.as_slice(), [b"rsync://example.org/module/", name].concat());
        assert_eq!((file.hash(), &file.clone().into_pair().0[..]), (&hash, name));
    }
}

/// What one prefix says, in the words of a row.
fn told(address: RoaIpAddress, v4: bool) -> Vec<String> {
    let bits = address.prefix().addr().to_bits().to_be_bytes();
    let lowest = if v4 { [&address.prefix().to_v4().octets()[..], &[0; 12]].concat() } else { bits.to_vec() };
    let length = address.prefix().addr_len();
    let most = address.max_length();
    let is_there = u8::from(most.is_some()).to_string();
    vec![hexadecimal(&lowest), length.to_string(), most.unwrap_or(length).to_string(), is_there]
}

fn compare_family(all: &[u8], found: &RoaIpAddresses, v4: bool, words: &[&str], entries: &[&[&str]]) {
    assert_eq!(found.as_slice(), part(all, &words[0..2]));
    assert_eq!((found.len(), found.is_empty()), (entries.len(), entries.is_empty()));
    let listed: Vec<Vec<String>> = found.into_iter().map(|address| told(address, v4)).collect();
    let wanted: Vec<&[&str]> = entries.iter().map(|entry| &entry[..4]).collect();
    assert_eq!(listed, wanted);
}

fn compare_roa(all: &[u8], roa: &RouteOriginAttestation, words: &[&str]) {
    assert_eq!(RouteOriginAttestation::reason(all, false), None);
    assert_eq!(roa.as_id().into_u32().to_string(), words[0]);
    let entries: Vec<&[&str]> = words[7..].chunks(5).collect();
    let (v4, v6) = entries.split_at(number(words[3]));
    assert_eq!(v6.len(), number(words[6]));
    compare_family(all, roa.v4_addrs(), true, &words[1..4], v4);
    compare_family(all, roa.v6_addrs(), false, &words[4..7], v6);
    let friendly: Vec<_> = roa.iter().collect();
    assert_eq!(friendly.len(), entries.len());
    for (place, (found, words)) in friendly.iter().zip(&entries).enumerate() {
        assert_eq!((found.is_v4(), found.address().is_ipv4()), (place < v4.len(), place < v4.len()));
        assert_eq!(found.address_length().to_string(), words[1]);
        assert_eq!(found.max_length().to_string(), words[2]);
        assert_eq!(found.to_string().contains('-'), words[3] == "1");
    }
}

fn compare_aspa(all: &[u8], aspa: &AsProviderAttestation, words: &[&str]) {
    let providers = aspa.provider_as_set();
    assert_eq!(AsProviderAttestation::reason(all), None);
    assert_eq!(aspa.customer_as().into_u32().to_string(), words[0]);
    assert_eq!(providers.as_slice(), part(all, &words[1..3]));
    assert_eq!((providers.len().to_string(), providers.is_empty()), (words[3].to_string(), false));
    let numbers: Vec<String> = providers.into_iter().map(|provider| provider.into_u32().to_string()).collect();
    assert_eq!(numbers, words[4..].iter().step_by(2).copied().collect::<Vec<_>>());
}

/// Whether the content of a row is read, and is what the row says; or it has the error that the row says.
fn compare(kind: &str, all: &[u8], status: usize, words: &[&str]) {
    match (kind, status) {
        ("manifest", 0) => compare_manifest(all, words),
        ("manifest", _) => {
            let error = ManifestContent::decode(all.to_vec()).unwrap_err();
            assert_eq!(error, error_of(&MANIFEST_ERRORS, status));
            assert_eq!(ManifestContent::reason(all), Some((error, reason_of(words))));
        }
        ("aspa", 0) => compare_aspa(all, &AsProviderAttestation::decode(all.to_vec()).unwrap(), words),
        ("aspa", _) => {
            let error = AsProviderAttestation::decode(all.to_vec()).unwrap_err();
            assert_eq!(error, error_of(&ASPA_ERRORS, status));
            assert_eq!(AsProviderAttestation::reason(all), Some((error, reason_of(words))));
        }
        (_, 0) => compare_roa(all, &RouteOriginAttestation::decode(all.to_vec(), kind == "roa1").unwrap(), words),
        (_, _) => {
            let error = RouteOriginAttestation::decode(all.to_vec(), kind == "roa1").unwrap_err();
            assert_eq!(error, error_of(&ROA_ERRORS, status));
            assert_eq!(RouteOriginAttestation::reason(all, kind == "roa1"), Some((error, reason_of(words))));
        }
    }
}

/// How many contents of the rows were read, and how many refused.
fn compare_rows(rows: &str) -> (usize, usize) {
    let (mut read, mut refused) = (0, 0);
    for row in rows.lines() {
        let words: Vec<&str> = row.split(' ').collect();
        if !["manifest", "roa0", "roa1", "aspa"].contains(&words[0]) {
            continue;
        }
        let status = number(words[2]);
        compare(words[0], &octets(words[1]), status, &words[3..]);
        read += usize::from(status == 0);
        refused += usize::from(status != 0);
    }
    (read, refused)
}

#[test]
fn rows() {
    let (read, refused) = compare_rows(include_str!("rows/contents.txt"));
    assert!(read >= 50 && refused >= 17, "{read} read, {refused} refused");
    if let Ok(file) = std::env::var("RPKI_CONTENT_ROWS") {
        let (read, refused) = compare_rows(&std::fs::read_to_string(file).unwrap());
        assert!(read > 1000 && refused > 5000, "{read} read, {refused} refused");
    }
}

/// A file that is listed twice is refused, whatever is between.
#[test]
fn files_differ() {
    let file = |name: &[u8]| {
        let entry = [&[0x16, name.len() as u8][..], name, b"\x03\x21\0", &[0xAA; 32]].concat();
        [&[0x30, entry.len() as u8][..], &entry].concat()
    };
    let manifest = |names: [&[u8]; 3]| {
        let files: Vec<u8> = names.iter().flat_map(|name| file(name)).collect();
        let front =
            b"\x02\x01\x07\x18\x0f20260101000000Z\x18\x0f20260201000000Z\x06\x09\x60\x86\x48\x01\x65\x03\x04\x02\x01";
        let all = [&front[..], &[0x30, 0x81, files.len() as u8], &files].concat();
        ManifestContent::decode([&[0x30, 0x81, all.len() as u8][..], &all].concat())
    };
    assert_eq!(manifest([b"a.roa", b"b.roa", b"c.roa"]).unwrap().len(), 3);
    assert_eq!(manifest([b"a.roa", b"b.roa", b"a.roa"]).unwrap_err(), ManifestError::FileTwice);
    // That was due in February of 2026.
    assert!(manifest([b"a.roa", b"b.roa", b"c.roa"]).unwrap().is_stale());
}

/// The lowest address, and both ends, of a prefix of each family.
#[test]
fn ends_of_prefixes() {
    let v6 = RoaIpAddress::new(Prefix::from_v6_str("2001:db8::/32").unwrap(), Some(48));
    let v4 = RoaIpAddress::new(Prefix::from_v4_str("10.0.0.0/8").unwrap(), None);
    for (address, lowest, highest, is_v4) in
        [(v6, "2001:db8::", "2001:db8:ffff:ffff:ffff:ffff:ffff:ffff", false), (v4, "10.0.0.0", "10.255.255.255", true)]
    {
        assert_eq!(FriendlyRoaIpAddress::new(address, is_v4).address().to_string(), lowest);
        assert_eq!(address.range(), address.prefix().range());
        let high = if is_v4 { address.range().1.to_v4().to_string() } else { address.range().1.to_v6().to_string() };
        assert_eq!(high, highest);
    }
}

#[test]
fn texts() {
    for (_, error, text) in MANIFEST_ERRORS {
        assert_eq!(error.to_string(), text);
    }
    assert_eq!(ManifestError::FileTwice.to_string(), "file listed twice");
    for (_, error, text) in ROA_ERRORS {
        assert_eq!(error.to_string(), text);
    }
    for (_, error, text) in ASPA_ERRORS {
        assert_eq!(error.to_string(), text);
    }
}
