//! Keys, signatures, algorithm identifiers and key identifiers: what a provider is asked, what is equal, what is
//! written.

use bytes::Bytes;
use rpki::crypto::keys::{InvalidInteger, SignatureVerificationError};
use rpki::crypto::{
    BgpsecSignatureAlgorithm, DigestAlgorithm, KeyIdentifier, Provider, PublicKey, PublicKeyFormat,
    RpkiSignatureAlgorithm, RsaProvider, Signature, SignatureAlgorithm, SigningAlgorithm,
};
use rpki::repository::x509::{Name, SignedData};
use rpki::DecodeError;
use rpki_proved as rpki;
use std::cell::RefCell;

/// A SubjectPublicKeyInfo of this algorithm identifier, and of these bits after their count of
/// unused ones.
fn key_of(algorithm: &[u8], bits: &[u8]) -> Vec<u8> {
    let bits = [&[3, bits.len() as u8], bits].concat();
    [&[0x30, (algorithm.len() + bits.len()) as u8], algorithm, &bits].concat()
}

/// The identifiers of RFC 3279 2.3.1, with NULL and without, and of RFC 5480 2.1.1 with the curve of RFC 7935 (P-256).
const RSA: &[u8] = b"\x30\x0d\x06\x09\x2a\x86\x48\x86\xf7\x0d\x01\x01\x01\x05\x00";
const BARE_RSA: &[u8] = b"\x30\x0b\x06\x09\x2a\x86\x48\x86\xf7\x0d\x01\x01\x01";
const P256: &[u8] = b"\x30\x13\x06\x07\x2a\x86\x48\xce\x3d\x02\x01\x06\x08\x2a\x86\x48\xce\x3d\x03\x01\x07";
/// sha256WithRSAEncryption (RFC 4055 5), with NULL and without.
const SHA256_RSA: &[u8] = b"\x30\x0d\x06\x09\x2a\x86\x48\x86\xf7\x0d\x01\x01\x0b\x05\x00";
const BARE_SHA256_RSA: &[u8] = b"\x30\x0b\x06\x09\x2a\x86\x48\x86\xf7\x0d\x01\x01\x0b";
/// ecdsa-with-SHA256 (RFC 5758 3.2).
const ECDSA: &[u8] = b"\x30\x0a\x06\x08\x2a\x86\x48\xce\x3d\x04\x03\x02";
/// id-sha256 (RFC 5754 2.2), without parameters and with NULL.
const SHA256: &[u8] = b"\x30\x0b\x06\x09\x60\x86\x48\x01\x65\x03\x04\x02\x01";
const SHA256_NULL: &[u8] = b"\x30\x0d\x06\x09\x60\x86\x48\x01\x65\x03\x04\x02\x01\x05\x00";

fn key(algorithm: &[u8], bits: &[u8]) -> PublicKey {
    PublicKey::decode(key_of(algorithm, bits)).unwrap()
}

/// What a provider was asked: of which algorithm, and with which bits, message and signature.
type Question = (&'static str, Vec<u8>, Vec<u8>, Vec<u8>);

#[derive(Default)]
struct Listens(RefCell<Vec<Question>>);

impl Listens {
    fn note(&self, of: &'static str, bits: &[u8], message: &[u8], signature: &[u8]) -> bool {
        self.0.borrow_mut().push((of, bits.into(), message.into(), signature.into()));
        true
    }
}

impl Provider for Listens {
    fn rsa_check(&self, bits: &[u8], message: &[u8], signature: &[u8]) -> bool {
        self.note("RSA", bits, message, signature)
    }

    fn ecdsa_check(&self, bits: &[u8], message: &[u8], signature: &[u8]) -> bool {
        self.note("ECDSA", bits, message, signature)
    }
}

/// A provider that knows RSA alone.
struct RsaAlone;

impl Provider for RsaAlone {
    fn rsa_check(&self, _: &[u8], _: &[u8], _: &[u8]) -> bool {
        true
    }
}

#[test]
fn the_question_is_of_the_keys_algorithm() {
    let (listens, value) = (Listens::default(), Bytes::from_static(b"signature"));
    let rpki = Signature::new(RpkiSignatureAlgorithm::default(), value.clone());
    let bgpsec = Signature::new(BgpsecSignatureAlgorithm::default(), value);
    let (rsa, point) = (key(RSA, b"\x00abc"), key(P256, b"\x00\x04point"));
    assert!(rsa.verify_with(&listens, b"message", &rpki).is_ok());
    assert!(point.verify_with(&listens, b"message", &bgpsec).is_ok());
    // No signature is of the other's format.
    assert!(rsa.verify_with(&listens, b"message", &bgpsec).is_err());
    let told: SignatureVerificationError = point.verify_with(&listens, b"message", &rpki).unwrap_err();
    assert_eq!(told.to_string(), "signature verification failed");
    let of = |of, bits: &[u8]| (of, bits.to_vec(), b"message".to_vec(), b"signature".to_vec());
    assert_eq!(listens.0.take(), [of("RSA", b"abc"), of("ECDSA", b"\x04point")]);
    // Where a provider knows no ECDSA, no such signature is good.
    assert!(point.verify_with(&RsaAlone, b"message", &bgpsec).is_err());
    assert!(rsa.verify_with(&RsaAlone, b"message", &rpki).is_ok());
}

/// All of the signed octets are handed over, and the bits of the signature without their count.
#[test]
fn signed_data_asks_of_all_that_is_signed() {
    let listens = Listens::default();
    let signed = SignedData::decode([b"\x30\x17\x30\x02\x05\x00", SHA256_RSA, b"\x03\x02\x00\xaa"].concat()).unwrap();
    assert!(signed.verify_signature_with(&listens, &key(RSA, b"\x00abc")).is_ok());
    let asked = ("RSA", b"abc".to_vec(), b"\x30\x02\x05\x00".to_vec(), b"\xaa".to_vec());
    assert_eq!(listens.0.take(), [asked]);
}

/// The formats of the keys of each algorithm (RFC 7935 3, RFC 8608 3).
#[test]
fn algorithms_have_formats() {
    let rows = [
        (SigningAlgorithm::RsaSha256, PublicKeyFormat::Rsa, true),
        (SigningAlgorithm::EcdsaP256Sha256, PublicKeyFormat::EcdsaP256, false),
    ];
    for (algorithm, format, is_rpki) in rows {
        assert_eq!(algorithm.public_key_format(), format);
        assert_eq!((format.allow_rpki_cert(), format.allow_router_cert()), (is_rpki, !is_rpki));
    }
    let (rpki, bgpsec) = (RpkiSignatureAlgorithm::default(), BgpsecSignatureAlgorithm::default());
    assert_eq!((rpki.signing_algorithm(), rpki.public_key_format()), (rows[0].0, rows[0].1));
    assert_eq!((bgpsec.signing_algorithm(), bgpsec.public_key_format()), (rows[1].0, rows[1].1));
    assert_eq!(PublicKeyFormat::from(rpki), PublicKeyFormat::Rsa);
}

/// An algorithm identifier of each kind, how it is read, and how it is written (RFC 7935 2 and 3, RFC 8608 2).
#[test]
fn algorithm_identifiers() {
    let full = RpkiSignatureAlgorithm::default();
    assert_eq!(RpkiSignatureAlgorithm::x509_decode(SHA256_RSA), Ok(full));
    let bare = RpkiSignatureAlgorithm::x509_decode(BARE_SHA256_RSA).unwrap();
    assert_ne!(bare, full);
    for (octets, value) in [(RSA, full), (BARE_RSA, bare), (SHA256_RSA, full), (BARE_SHA256_RSA, bare)] {
        assert_eq!(RpkiSignatureAlgorithm::cms_decode(octets), Ok(value));
        assert_eq!((value.x509_encode(), value.cms_encode()), (SHA256_RSA, RSA));
    }
    let bgpsec = BgpsecSignatureAlgorithm::default();
    assert_eq!((BgpsecSignatureAlgorithm::x509_decode(ECDSA), bgpsec.x509_encode()), (Ok(bgpsec), ECDSA));
    let formats = [(RSA, PublicKeyFormat::Rsa), (BARE_RSA, PublicKeyFormat::Rsa), (P256, PublicKeyFormat::EcdsaP256)];
    for (octets, format) in formats {
        assert_eq!(PublicKeyFormat::decode(octets), Ok(format));
    }
    assert_eq!((PublicKeyFormat::Rsa.encode(), PublicKeyFormat::EcdsaP256.encode()), (RSA, P256));
}

/// Each reader of an algorithm identifier refuses every spelling that is not its own, by the same errors.
#[test]
fn other_algorithm_identifiers() {
    type Reader = fn(&[u8]) -> Result<(), DecodeError>;
    let readers: [(Reader, &[&[u8]]); 7] = [
        (|octets| RpkiSignatureAlgorithm::x509_decode(octets).map(|_| ()), &[SHA256_RSA, BARE_SHA256_RSA]),
        (
            |octets| RpkiSignatureAlgorithm::cms_decode(octets).map(|_| ()),
            &[RSA, BARE_RSA, SHA256_RSA, BARE_SHA256_RSA],
        ),
        (|octets| BgpsecSignatureAlgorithm::x509_decode(octets).map(|_| ()), &[ECDSA]),
        (|octets| PublicKeyFormat::decode(octets).map(|_| ()), &[RSA, BARE_RSA, P256]),
        (|octets| DigestAlgorithm::decode(octets).map(|_| ()), &[SHA256, SHA256_NULL]),
        (|octets| DigestAlgorithm::decode_set(octets).map(|_| ()), &[]),
        (|octets| DigestAlgorithm::decode_oid(octets).map(|_| ()), &[]),
    ];
    let spellings = [RSA, BARE_RSA, P256, SHA256_RSA, BARE_SHA256_RSA, ECDSA, SHA256, SHA256_NULL];
    // ECDSA with NULL (RFC 5758 3.2 has none), SHA-256 with `05 01`, with an integer, and two of three identifiers.
    let others: [&[u8]; 5] = [
        b"\x30\x0c\x06\x08\x2a\x86\x48\xce\x3d\x04\x03\x02\x05\x00",
        b"\x30\x0e\x06\x09\x60\x86\x48\x01\x65\x03\x04\x02\x01\x05\x01\x00",
        b"\x30\x0e\x06\x09\x60\x86\x48\x01\x65\x03\x04\x02\x01\x02\x01\x00",
        b"\x30\x00",
        b"\x05\x00",
    ];
    for (number, (reader, own)) in readers.iter().enumerate() {
        for octets in spellings.iter().chain(&others) {
            let wanted = if own.contains(octets) { Ok(()) } else { Err(DecodeError::OtherAlgorithm) };
            assert_eq!(reader(octets), wanted, "{number} {octets:x?}");
            assert_eq!(reader(&[octets, &b"\x00"[..]].concat()), Err(DecodeError::Trailing), "{number} {octets:x?}");
            assert_eq!(reader(&octets[..octets.len() - 1]), Err(DecodeError::Truncated), "{number} {octets:x?}");
        }
        assert_eq!(reader(b""), Err(DecodeError::Truncated), "{number}");
    }
}

/// SHA-256 (RFC 5754 2.2; in signed objects RFC 6488 2.1.2 has a SET of one), as it is read and written.
#[test]
fn digest_algorithms() {
    let sha256 = DigestAlgorithm::sha256();
    assert_eq!((sha256, sha256.is_sha256(), sha256.digest_len()), (DigestAlgorithm::default(), true, 32));
    let set = [b"\x31\x0d", SHA256].concat();
    let oid = &SHA256[2..];
    assert_eq!((sha256.encode(), sha256.encode_set(), sha256.encode_oid()), (SHA256, &set[..], oid));
    assert_eq!((DigestAlgorithm::decode(SHA256), DigestAlgorithm::decode(SHA256_NULL)), (Ok(sha256), Ok(sha256)));
    assert_eq!(DigestAlgorithm::decode_set(&set), Ok(sha256));
    assert_eq!(DigestAlgorithm::decode_set(&[b"\x31\x0f", SHA256_NULL].concat()), Ok(sha256));
    assert_eq!(DigestAlgorithm::decode_oid(oid), Ok(sha256));
    for octets in [&b"\x31\x00"[..], &[b"\x31\x1a", SHA256, SHA256].concat(), &[b"\x30\x0d", SHA256].concat()] {
        assert_eq!(DigestAlgorithm::decode_set(octets), Err(DecodeError::OtherAlgorithm));
    }
}

/// Two keys are one where format, bits and their count of unused bits are; not by their spelling.
#[test]
fn keys_are_compared() {
    let keys = [key(RSA, b"\x00\x04"), key(P256, b"\x00\x04"), key(RSA, b"\x02\x04"), key(RSA, b"\x00\x05")];
    for (number, one) in keys.iter().enumerate() {
        for (other, key) in keys.iter().enumerate() {
            assert_eq!(one == key, number == other, "{number} {other}");
        }
    }
    assert_eq!(key(BARE_RSA, b"\x00\x04"), keys[0]);
}

/// What is written is what was read, but for the parameters of RSA, which are NULL; nothing is copied where both are
/// one.
#[test]
fn keys_are_written() {
    for bits in [&b"\x00\x04"[..], b"\x02\x04", b"\x00"] {
        for algorithm in [RSA, P256] {
            let octets = Bytes::from(key_of(algorithm, bits));
            let written = PublicKey::decode(octets.clone()).unwrap().to_info_bytes();
            assert_eq!((&written, written.as_ptr()), (&octets, octets.as_ptr()));
        }
        assert_eq!(key(BARE_RSA, bits).to_info_bytes(), key_of(RSA, bits));
    }
    // Of 2,048 bits, whose lengths have three octets.
    let large = PublicKey::rsa_from_components(&[0xa5; 256], &[1, 0, 1]).unwrap();
    let bits = [&b"\x30\x82\x01\x0a\x02\x82\x01\x01\x00"[..], &[0xa5; 256], b"\x02\x03\x01\x00\x01"].concat();
    let inner = |algorithm: &[u8]| [algorithm, b"\x03\x82\x01\x0f\x00", &bits].concat();
    let whole = |algorithm: &[u8], length| [&[0x30, 0x82, 0x01, length], &inner(algorithm)[..]].concat();
    assert_eq!(large.to_info_bytes(), whole(RSA, 0x22));
    assert_eq!(PublicKey::decode(whole(BARE_RSA, 0x20)).unwrap().to_info_bytes(), whole(RSA, 0x22));
}

/// Signed data is written with parameters and with no unused bits, and what is that already isn't copied.
#[test]
fn signed_data_is_written() {
    let of = |length, algorithm: &[u8], bits: &[u8]| [&[0x30, length, 0x30, 0x00], algorithm, bits].concat();
    let written = of(0x15, SHA256_RSA, b"\x03\x02\x00\xa8");
    let octets = Bytes::from(written.clone());
    let again = SignedData::decode(octets.clone()).unwrap().to_bytes();
    assert_eq!((&again, again.as_ptr()), (&octets, octets.as_ptr()));
    let others = [
        of(0x13, BARE_SHA256_RSA, b"\x03\x02\x00\xa8"),
        of(0x15, SHA256_RSA, b"\x03\x02\x03\xa8"),
        of(0x13, BARE_SHA256_RSA, b"\x03\x02\x03\xa8"),
    ];
    for octets in others {
        assert_eq!(SignedData::decode(octets).unwrap().to_bytes(), written);
    }
    let made: SignedData<RpkiSignatureAlgorithm> =
        SignedData::new(&b"\x30\x00"[..], Signature::new(Default::default(), Bytes::from_static(b"\xa8"))).unwrap();
    assert_eq!(made.to_bytes(), written);
}

/// Each case of what is wrong with the numbers of a key.
#[test]
fn numbers_of_keys() {
    for (modulus, exponent) in [(&b""[..], &b"\x01"[..]), (b"\x01", b""), (b"", b"")] {
        assert_eq!(PublicKey::rsa_from_components(modulus, exponent), Err(InvalidInteger::Empty));
    }
    let texts = [
        (InvalidInteger::Empty, "empty number"),
        (InvalidInteger::TooLong, "number too long"),
        (InvalidInteger::OutOfMemory, "out of memory"),
    ];
    for (error, text) in texts {
        assert_eq!(error.to_string(), text);
    }
}

#[test]
fn key_identifiers() {
    let octets: [u8; 20] = std::array::from_fn(|number| 0xf0 ^ (number as u8 * 7));
    let identifier = KeyIdentifier::from(octets);
    assert_eq!(identifier.encode(), [&b"\x04\x14"[..], &octets].concat());
    assert_eq!(KeyIdentifier::decode(&identifier.encode()), Ok(identifier));
    assert!(identifier == octets && identifier == octets[..] && identifier == octets.to_vec());
    assert!(identifier == Bytes::copy_from_slice(&octets) && identifier != [0; 20] && identifier != octets[..19]);
    // Each octet counts in the order, the first most.
    for place in 0..20 {
        let mut larger = octets;
        larger[place] += 1;
        larger[place + 1..].fill(0);
        assert!(identifier < KeyIdentifier::from(larger) && identifier != larger, "{place}");
    }
}

/// The name of a subject is the digits of its key's identifier (RFC 6487 4.5), by each of its names.
#[test]
fn names_of_subjects() {
    let subject = key(RSA, b"\x00abc");
    let digits = subject.key_identifier().to_string();
    let octets = [&b"\x30\x33\x31\x31\x30\x2f\x06\x03\x55\x04\x03\x13\x28"[..], digits.as_bytes()].concat();
    assert_eq!(subject.encode_subject_name(), octets);
    assert_eq!(
        (subject.to_subject_name(), Name::from_pub_key(&subject)),
        (Name::decode(octets.clone()).unwrap(), Name::decode(octets).unwrap())
    );
}

/// An identifier is that of its twenty octets, and not of more or fewer.
#[test]
fn identifiers_have_twenty_octets() {
    let identifier = KeyIdentifier::from([7; 20]);
    assert!(identifier == [7; 20] && identifier != [7; 21] && identifier != [7; 19]);
}

/// The octets of two hexadecimal digits each.
fn octets(digits: &str) -> Vec<u8> {
    (0..digits.len()).step_by(2).map(|at| u8::from_str_radix(&digits[at..at + 2], 16).unwrap()).collect()
}

/// A signature by openssl is verified by its key; with an octet of it or of the message changed it is not, nor by
/// another key. The row is the first of those that `tests/signatures/rows.py` of the repository makes.
#[test]
fn a_signature_is_verified() {
    let row: Vec<Vec<u8>> = include_str!("signature.txt").trim().split(' ').map(octets).collect();
    let (bits, message, value) = (&row[0], &row[1], &row[2]);
    let key = PublicKey::rsa_from_bits_bytes(bits.clone().into()).unwrap();
    let signature = |value: &[u8]| Signature::new(RpkiSignatureAlgorithm::default(), Bytes::copy_from_slice(value));
    assert_eq!(key.verify(message, &signature(value)), Ok(()));
    assert_eq!(key.verify_with(&RsaProvider, message, &signature(value)), Ok(()));
    assert!(RsaProvider.rsa_check(bits, message, value) && !RsaProvider.ecdsa_check(bits, message, value));
    for at in 0..value.len() {
        let mut changed = value.clone();
        changed[at] ^= 1;
        assert!(key.verify(message, &signature(&changed)).is_err(), "octet {at}");
    }
    assert!(key.verify(b"another", &signature(value)).is_err());
    assert!(key.verify(message, &signature(&value[1..])).is_err());
    let bgpsec = Signature::new(BgpsecSignatureAlgorithm::default(), Bytes::copy_from_slice(value));
    assert!(key.verify(message, &bgpsec).is_err());
    let other = PublicKey::rsa_from_components(&[0x80; 256], &[3]).unwrap();
    assert!(other.verify(message, &signature(value)).is_err());
}

/// The same answers by OpenSSL; but of keys that certificates of the RPKI haven't (RFC 7935 3), one of 3,072 bits and
/// one of the exponent 3, whose rows are among those of `tests/signatures/rows.py` too, no signature is good.
#[cfg(feature = "openssl")]
#[test]
fn openssl_says_the_same() {
    use rpki_proved::crypto::OpenSslProvider;
    let row: Vec<Vec<u8>> = include_str!("signature.txt").trim().split(' ').map(octets).collect();
    assert!(OpenSslProvider.rsa_check(&row[0], &row[1], &row[2]));
    assert!(!OpenSslProvider.rsa_check(&row[0], b"another", &row[2]));
    assert!(!OpenSslProvider.rsa_check(b"no key", &row[1], &row[2]));
    assert_eq!(OpenSslProvider.sha256(b"abc")[..4], [0xba, 0x78, 0x16, 0xbf]);
    let others = include_str!("signatures.txt").lines();
    for row in others.map(|row| row.split(' ').map(octets).collect::<Vec<_>>()) {
        assert!(RsaProvider.rsa_check(&row[0], &row[1], &row[2]));
        assert!(!OpenSslProvider.rsa_check(&row[0], &row[1], &row[2]));
    }
}
