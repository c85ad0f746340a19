//! Revocation lists, read by [Crl], compared with rows that tests/linked/lists/rows.py writes: those that
//! tests/linked/samples.py picks of them for rows/lists.txt, and all, where the variable `RPKI_LIST_ROWS` names their
//! file; and the list below, of tests/python/makers/lists.py.

use rpki_proved::crypto::RpkiSignatureAlgorithm;
use rpki_proved::repository::crl::{Crl, CrlEntry, CrlError, CrlStore};
use rpki_proved::repository::x509::{Serial, Time};
use rpki_proved::uri;
use rpki_proved::view::DecodeError;

const LIST: &str =
    "3081b330819a020101300d06092a864886f70d01010b0500300c310a30080603550403130141170d32363031303130303030\
30305a170d3236303230313030303030305a30293012020105170d3235313233313233353935395a30130202012c170d32353132333132333539\
35395aa02f302d301f0603551d230418301680140102030405060708090a0b0c0d0e0f1011121314300a0603551d140403020107300d06092a86\
4886f70d01010b0500030500aaaaaaaa";

/// The errors by their statuses, and their texts.
const ERRORS: [(usize, CrlError, &str); 13] = [
    (64, CrlError::List, "not a revocation list"),
    (65, CrlError::Signed, "malformed signed data"),
    (66, CrlError::Algorithm, "signature algorithm is not the RPKI's"),
    (67, CrlError::Signature, "malformed signature"),
    (68, CrlError::Tbs, "malformed revocation list"),
    (69, CrlError::Version, "other version"),
    (71, CrlError::TbsAlgorithm, "signed algorithm is not the RPKI's"),
    (72, CrlError::Issuer, "malformed issuer"),
    (76, CrlError::Extensions, "malformed extensions"),
    (79, CrlError::SameAlgorithm, "signature algorithms differ"),
    (120, CrlError::ThisUpdate, "malformed time of issue"),
    (121, CrlError::NextUpdate, "malformed time of the next list"),
    (122, CrlError::RevokedCerts, "malformed entry of a revoked certificate"),
];

/// What is wrong with a part, by its number less one.
const REASONS: [DecodeError; 6] = [
    DecodeError::Truncated,
    DecodeError::BadTag,
    DecodeError::BadLength,
    DecodeError::Unexpected,
    DecodeError::Content,
    DecodeError::Trailing,
];

fn octets(digits: &str) -> Vec<u8> {
    let digits = if digits == "-" { "" } else { digits };
    (0..digits.len()).step_by(2).map(|at| u8::from_str_radix(&digits[at..at + 2], 16).unwrap()).collect()
}

fn hexadecimal(octets: &[u8]) -> String {
    octets.iter().map(|octet| format!("{octet:02x}")).collect()
}

/// The octets from the place that two words tell.
fn part<'a>(all: &'a [u8], words: &[&str]) -> &'a [u8] {
    let (start, length): (usize, usize) = (words[0].parse().unwrap(), words[1].parse().unwrap());
    &all[start..start + length]
}

/// What the list says is what the words of a row say.
fn compare(all: &[u8], list: &mut Crl, words: &[&str]) {
    assert_eq!(list.to_bytes(), all);
    assert_eq!(list.signed(), part(all, &words[0..2]));
    assert_eq!(list.signature().value(), part(all, &words[4..6]));
    assert_eq!(list.issuer().as_slice(), part(all, &words[6..8]));
    assert_eq!(list.revoked_certs().as_slice(), part(all, &words[8..10]));
    assert_eq!(list.this_update().timestamp().to_string(), words[10]);
    assert_eq!(list.next_update().timestamp().to_string(), words[11]);
    assert_eq!(hexadecimal(&list.crl_number().into_array()), words[12]);
    assert_eq!(hexadecimal(list.authority_key_identifier().as_slice()), words[13]);
    let is_default = *list.signature().algorithm() == RpkiSignatureAlgorithm::default();
    assert_eq!(is_default, words[14] == "1");
    let serials: Vec<Serial> = words[15..].iter().map(|word| Serial::from_slice(&octets(word)).unwrap()).collect();
    let entries: Vec<Serial> = list.revoked_certs().into_iter().map(CrlEntry::user_certificate).collect();
    assert_eq!(entries, serials);
    for _ in 0..2 {
        for &serial in &serials {
            assert!(list.contains(serial));
            let mut other = serial.into_array();
            other[0] ^= 0x40;
            let other = Serial::from_array(other).unwrap();
            assert_eq!(list.contains(other), serials.contains(&other));
        }
        assert!(serials.contains(&Serial::from(0x1234_5678u64)) || !list.contains(Serial::from(0x1234_5678u64)));
        list.cache_serials();
    }
}

/// How many lists of the rows were read, and how many refused.
fn compare_rows(rows: &str) -> (usize, usize) {
    let (mut read, mut refused) = (0, 0);
    for row in rows.lines() {
        let words: Vec<&str> = row.split(' ').collect();
        if words[0] != "list" {
            continue;
        }
        let all = octets(words[1]);
        let status: usize = words[2].parse().unwrap();
        match Crl::decode(all.clone()) {
            Ok(mut list) => {
                assert_eq!(status, 0, "{row}");
                assert_eq!(Crl::reason(&all), None);
                compare(&all, &mut list, &words[3..]);
                read += 1;
            }
            Err(error) => {
                let known = ERRORS.iter().find(|(number, ..)| *number == status).expect("a status of a list");
                assert_eq!(error, known.1, "{row}");
                assert_eq!(error.to_string(), known.2);
                let reason = REASONS[words[3].parse::<usize>().unwrap() - 1];
                assert_eq!(Crl::reason(&all), Some((error, reason)), "{row}");
                refused += 1;
            }
        }
    }
    (read, refused)
}

#[test]
fn rows() {
    let (read, refused) = compare_rows(include_str!("rows/lists.txt"));
    assert!(read >= 4 && refused >= 12, "{read} read, {refused} refused");
    if let Ok(file) = std::env::var("RPKI_LIST_ROWS") {
        let (read, refused) = compare_rows(&std::fs::read_to_string(file).unwrap());
        assert!(read > 500 && refused > 1000, "{read} read, {refused} refused");
    }
}

fn list() -> Crl {
    Crl::decode(octets(LIST)).unwrap()
}

#[test]
fn a_list() {
    let mut list = list();
    assert_eq!(list.this_update(), Time::utc(2026, 1, 1, 0, 0, 0));
    assert_eq!(list.next_update(), Time::utc(2026, 2, 1, 0, 0, 0));
    assert!(list.is_stale());
    assert_eq!(list.crl_number(), Serial::from(7u64));
    assert_eq!(list.authority_key_identifier().to_string(), "0102030405060708090A0B0C0D0E0F1011121314");
    assert_eq!(list.signature().value(), &b"\xaa\xaa\xaa\xaa"[..]);
    let revoked = Time::utc(2025, 12, 31, 23, 59, 59);
    let entries = [CrlEntry::new(Serial::from(5u64), revoked), CrlEntry::new(Serial::from(300u64), revoked)];
    assert!(list.revoked_certs().iter().eq(entries));
    assert_eq!(list.revoked_certs().iter().next().unwrap().revocation_date(), revoked);
    for is_cached in [false, true] {
        if is_cached {
            list.cache_serials();
        }
        assert!(list.contains(Serial::from(5u64)) && list.contains(Serial::from(300u64)));
        assert!(!list.contains(Serial::from(0u64)) && !list.contains(Serial::from(6u64)));
    }
}

/// Each octet changed, each left out, and one more: a list that says something else, or none.
#[test]
fn changed_lists() {
    let all = octets(LIST);
    for at in 0..all.len() {
        assert_eq!(Crl::decode(all[..at].to_vec()).unwrap_err(), CrlError::List);
        let mut changed = all.clone();
        changed[at] ^= 1;
        if let Ok(list) = Crl::decode(changed.clone()) {
            assert_eq!(list.to_bytes(), changed);
            assert!(list.signed() != self::list().signed() || list.signature() != self::list().signature());
        }
    }
    assert_eq!(Crl::decode([&all[..], &[0]].concat()).unwrap_err(), CrlError::List);
}

#[test]
fn a_store() {
    let uri = |text: &str| uri::Rsync::from_string(text.to_string()).unwrap();
    for is_cached in [false, true] {
        let mut store = CrlStore::new();
        if is_cached {
            store.enable_serial_caching();
        }
        assert!(store.get(&uri("rsync://a/m/1.crl")).is_none());
        store.push(uri("rsync://a/m/1.crl"), list());
        assert!(store.get(&uri("rsync://a/m/1.crl")).unwrap().contains(Serial::from(5u64)));
        assert!(store.get(&uri("rsync://a/m/2.crl")).is_none());
        assert!(store.get(&uri("rsync://a/m/")).is_none() && store.get(&uri("rsync://a/m/1.crl/x")).is_none());
        // The first of a URI that was put in is the one that is found.
        let other = Crl::decode(&include_bytes!("repository/rpki.example/repo/ca/ca.crl")[..]).unwrap();
        store.push(uri("rsync://a/m/1.crl"), other.clone());
        assert_eq!(store.get(&uri("rsync://a/m/1.crl")).unwrap().to_bytes(), list().to_bytes());
        store.push(uri("rsync://a/m/3.crl"), other.clone());
        assert_eq!(store.get(&uri("rsync://a/m/3.crl")).unwrap().to_bytes(), other.to_bytes());
    }
}

/// The entries say when each was revoked: those of a list by openssl, of 1 certificate revoked when it was made.
#[test]
fn entries_of_openssl() {
    let list = Crl::decode(&include_bytes!("repository/rpki.example/repo/ca/ca.crl")[..]).unwrap();
    let entries: Vec<CrlEntry> = list.revoked_certs().iter().collect();
    assert_eq!(entries.len(), 1);
    assert!(entries[0].revocation_date() > list.this_update() && entries[0].revocation_date() < list.next_update());
    assert!(!list.is_stale());
}
