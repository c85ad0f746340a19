//! Signed objects, read by [SignedObject], compared with rows that tests/linked/objects/rows.py writes: those that
//! tests/linked/samples.py picks of them for rows/objects.txt, and all, where the variable `RPKI_OBJECT_ROWS` names
//! their file.

use rpki_proved::crypto::{Provider, RpkiSignatureAlgorithm};
use rpki_proved::oid::Oid;
use rpki_proved::repository::cert::{Cert, CertPart, CertRule};
use rpki_proved::repository::error::ValidationError;
use rpki_proved::repository::sigobj::{MessageDigest, ObjectVerificationError, SignedObject, SignedObjectError};
use rpki_proved::view::DecodeError;

/// The errors by their statuses, and their texts.
const ERRORS: [(usize, SignedObjectError, &str); 15] = [
    (123, SignedObjectError::Object, "not a signed object"),
    (124, SignedObjectError::ObjectType, "type is not that of signed data"),
    (125, SignedObjectError::SignedData, "malformed signed object"),
    (126, SignedObjectError::Version, "other version of signed data"),
    (127, SignedObjectError::DigestAlgorithms, "digest algorithms are not SHA-256 alone"),
    (128, SignedObjectError::Content, "malformed content"),
    (129, SignedObjectError::Certificates, "missing certificate"),
    (130, SignedObjectError::Signers, "no signers, or more than these"),
    (131, SignedObjectError::Signer, "not one signer"),
    (132, SignedObjectError::SignerVersion, "other version of the signer"),
    (133, SignedObjectError::SignerIdentifier, "malformed key identifier of the signer"),
    (134, SignedObjectError::SignerDigestAlgorithm, "digest algorithm of the signer is not SHA-256"),
    (135, SignedObjectError::SignedAttrs, "signed attributes that no signed object has"),
    (136, SignedObjectError::SignatureAlgorithm, "other algorithm of the signature"),
    (137, SignedObjectError::Signature, "malformed signature of the object"),
];

/// What is wrong with a part, by its number less one.
const REASONS: [DecodeError; 6] = [
    DecodeError::Truncated,
    DecodeError::BadTag,
    DecodeError::BadLength,
    DecodeError::Unexpected,
    DecodeError::Content,
    DecodeError::Trailing,
];

/// A provider that says one thing of all.
struct Says(bool);

impl Provider for Says {
    fn rsa_check(&self, _: &[u8], _: &[u8], _: &[u8]) -> bool {
        self.0
    }
}

fn octets(digits: &str) -> Vec<u8> {
    let digits = if digits == "-" { "" } else { digits };
    (0..digits.len()).step_by(2).map(|at| u8::from_str_radix(&digits[at..at + 2], 16).unwrap()).collect()
}

fn hexadecimal(octets: &[u8]) -> String {
    octets.iter().map(|octet| format!("{octet:02x}")).collect()
}

/// The octets from the place that two words tell.
fn part<'a>(all: &'a [u8], words: &[&str]) -> &'a [u8] {
    let (start, length): (usize, usize) = (words[0].parse().unwrap(), words[1].parse().unwrap());
    &all[start..start + length]
}

fn number(found: Option<impl ToString>) -> String {
    found.map_or("-".to_string(), |number| number.to_string())
}

/// What the object says is what the words of a row say, after the status.
fn compare(all: &[u8], object: &SignedObject, words: &[&str]) {
    let attributes = object.signed_attrs();
    assert_eq!(object.to_bytes(), all);
    assert_eq!(*object.content_type(), Oid(part(all, &words[0..2])));
    assert_eq!(object.content(), part(all, &words[2..4]));
    assert_eq!(attributes.encode_verify(), [b"\x31", &part(all, &words[4..6])[1..]].concat());
    assert_eq!(object.signature().value(), part(all, &words[6..8]));
    assert_eq!(hexadecimal(attributes.message_digest().as_slice()), words[8]);
    assert_eq!(hexadecimal(object.sid().as_slice()), words[9]);
    assert_eq!(number(object.signing_time().map(|time| time.timestamp())), words[10]);
    assert_eq!(number(object.binary_signing_time()), words[11]);
    assert_eq!(attributes.signing_time(), object.signing_time());
    assert_eq!(attributes.binary_signing_time(), object.binary_signing_time());
    assert_eq!(object.is_type_signed(), words[12] == "1");
    let is_default = *object.signature().algorithm() == RpkiSignatureAlgorithm::default();
    assert_eq!(is_default, words[13] == "1");
}

/// The error of a row with what is wrong, and what an object says, if it has none.
fn expected<'a>(all: &[u8], words: &'a [&'a str]) -> Result<&'a [&'a str], (SignedObjectError, DecodeError)> {
    let error = |words: &[&str]| {
        let known = ERRORS.iter().find(|(number, ..)| number.to_string() == words[0]).expect("a status");
        (known.1, REASONS[words[1].parse::<usize>().unwrap() - 1])
    };
    if words[2] != "0" {
        return Err(error(&words[2..]));
    }
    let cert = Cert::decode(part(all, &words[3..5]).to_vec());
    cert.map_err(|error| (SignedObjectError::Certificate(error.part()), error.reason()))?;
    match words[5] {
        "0" => Ok(&words[6..]),
        _ => Err(error(&words[5..])),
    }
}

/// The certificate of an object says what it says alone.
fn compare_certificates(row: &str, cert: &Cert) {
    let alone = Cert::decode(cert.to_bytes()).unwrap();
    assert_eq!(cert, &alone, "{row}");
    assert_eq!(cert.known_extensions(), alone.known_extensions(), "{row}");
    let inspected = |cert: &Cert| {
        [true, false].map(|strict| {
            let authorities = [cert.inspect_ta(strict), cert.inspect_ca(strict)];
            (authorities, cert.inspect_ee(strict), cert.inspect_detached_ee(strict), cert.inspect_router(strict))
        })
    };
    assert_eq!(inspected(cert), inspected(&alone), "{row}");
}

/// How many objects of the rows were read, how many refused, and of how many only the certificate is wrong.
fn compare_rows(rows: &str) -> (usize, usize, usize) {
    let (mut read, mut refused, mut verified) = (0, 0, 0);
    for row in rows.lines() {
        let words: Vec<&str> = row.split(' ').collect();
        let all = octets(words[0]);
        let found = SignedObject::decode(all.clone(), words[1] == "1");
        match expected(&all, &words) {
            Ok(said) => {
                let object = found.unwrap();
                compare(&all, &object, said);
                assert_eq!(SignedObject::reason(&all, words[1] == "1"), None);
                compare_certificates(row, object.cert());
                read += 1;
                let verdict = object.verify_signature();
                verified += usize::from(matches!(verdict, Err(ObjectVerificationError::Certificate(_))));
            }
            Err((error, reason)) => {
                assert_eq!(found.unwrap_err(), error, "{row}");
                assert_eq!(SignedObject::reason(&all, words[1] == "1"), Some((error, reason)), "{row}");
                refused += 1;
            }
        }
    }
    (read, refused, verified)
}

#[test]
fn rows() {
    let (read, refused, _) = compare_rows(include_str!("rows/objects.txt"));
    assert!(read >= 4 && refused >= 15, "{read} read, {refused} refused");
    if let Ok(file) = std::env::var("RPKI_OBJECT_ROWS") {
        let (read, refused, verified) = compare_rows(&std::fs::read_to_string(file).unwrap());
        assert!(read > 5000 && refused > 2000, "{read} read, {refused} refused");
        // Those of openssl, whose certificates are not of the profile.
        assert_eq!(verified, 6);
    }
}

/// A file of the example repository.
const ROA: &[u8] = include_bytes!("repository/rpki.example/repo/ca/roa.roa");

/// The first place of these octets in others, and the last.
fn places(all: &[u8], part: &[u8]) -> (usize, usize) {
    let mut found = all.windows(part.len()).enumerate().filter(|(_, octets)| *octets == part).map(|(at, _)| at);
    let first = found.next().expect("a part of the object");
    (first, found.next_back().unwrap_or(first))
}

/// The object with one bit changed.
fn changed(at: usize) -> SignedObject {
    let mut octets = ROA.to_vec();
    octets[at] ^= 1;
    SignedObject::decode(octets, true).unwrap()
}

/// An object of the example repository is signed by its certificate's key; with one bit changed it is not.
#[test]
fn signatures() {
    let object = SignedObject::decode(ROA, true).unwrap();
    assert_eq!(object.verify_signature(), Ok(()));
    assert_eq!(object.verify_signature_with(&Says(true)), Ok(()));
    assert_eq!(object.verify_signature_with(&Says(false)), Err(ObjectVerificationError::Signature));
    let content_type = places(ROA, object.content_type().0.as_ref());
    for (at, error) in [
        (content_type.0 + object.content_type().0.len() - 1, ObjectVerificationError::ContentType),
        (content_type.1 + object.content_type().0.len() - 1, ObjectVerificationError::ContentType),
        (places(ROA, object.content()).0, ObjectVerificationError::MessageDigest),
        (places(ROA, object.signed_attrs().message_digest().as_slice()).1, ObjectVerificationError::MessageDigest),
        (places(ROA, object.sid().as_slice()).1, ObjectVerificationError::SubjectKeyIdentifier),
        (places(ROA, object.sid().as_slice()).0, ObjectVerificationError::SubjectKeyIdentifier),
    ] {
        assert_eq!(changed(at).verify_signature(), Err(error), "{at}");
        assert_eq!(changed(at).verify_signature_with(&Says(true)), Err(error), "{at}");
        assert!(!error.to_string().is_empty());
    }
    assert_eq!(changed(ROA.len() - 1).verify_signature(), Err(ObjectVerificationError::Signature));
}

/// A provider is asked for the digest of the content, and for the signature of the attributes.
#[test]
fn provider_is_asked_the_right_question() {
    struct Asks<'a>(&'a SignedObject);
    impl Provider for Asks<'_> {
        fn sha256(&self, octets: &[u8]) -> [u8; 32] {
            assert_eq!(octets, self.0.content().as_slice());
            let mut digest = [0; 32];
            digest.copy_from_slice(self.0.signed_attrs().message_digest().as_slice());
            digest
        }

        fn rsa_check(&self, bits: &[u8], message: &[u8], signature: &[u8]) -> bool {
            bits == self.0.cert().subject_public_key_info().bits_bytes()
                && message == self.0.signed_attrs().encode_verify()
                && signature == self.0.signature().value()
        }
    }
    let object = SignedObject::decode(ROA, true).unwrap();
    assert_eq!(object.verify_signature_with(&Asks(&object)), Ok(()));
    // The digest is that of the provider.
    let content = places(ROA, object.content()).0;
    let other = changed(content);
    assert_eq!(other.verify_signature_with(&Asks(&other)), Ok(()));
}

/// A certificate without a subject key identifier, and one that is no end entity's, sign no object.
#[test]
fn certificates_of_signers() {
    let object = SignedObject::decode(ROA, true).unwrap();
    // The identifiers of the subject key identifier, and of the certificate policies: another extension each.
    for (id, error) in [
        (&b"\x06\x03\x55\x1d\x0e"[..], ObjectVerificationError::SubjectKeyIdentifier),
        (b"\x06\x03\x55\x1d\x20", ObjectVerificationError::Certificate(CertRule::CriticalExtensions)),
    ] {
        let certificate = places(ROA, &object.cert().to_bytes()).0;
        let at = certificate + places(&object.cert().to_bytes(), id).0 + 4;
        let mut octets = ROA.to_vec();
        octets[at] = 0x7F;
        let other = SignedObject::decode(octets, true).unwrap();
        assert_eq!(other.verify_signature_with(&Says(true)), Err(error));
        // The signature is of the attributes, and not of the certificate.
        assert_eq!(other.verify_signature(), Err(error));
        assert!(!error.to_string().is_empty());
    }
}

/// The examples of FIPS 180-4.
#[test]
fn digests() {
    for (octets, digits) in [
        (&b"abc"[..], "ba7816bf8f01cfea414140de5dae2223b00361a396177a9cb410ff61f20015ad"),
        (
            b"abcdbcdecdefdefgefghfghighijhijkijkljklmklmnlmnomnopnopq",
            "248d6a61d20638b8e5c026930c3e6039a33ce45964ff2167f6ecedd419db06c1",
        ),
    ] {
        assert_eq!(MessageDigest::of(octets).as_slice(), self::octets(digits));
    }
}

#[test]
fn texts() {
    for (_, error, text) in ERRORS {
        assert_eq!(error.to_string(), text);
    }
    let certificate = SignedObjectError::Certificate(CertPart::Validity);
    assert_eq!(certificate.to_string(), CertPart::Validity.to_string());
    for (error, text) in [
        (ObjectVerificationError::ContentType, "content type mismatch"),
        (ObjectVerificationError::MessageDigest, "message digest mismatch"),
        (ObjectVerificationError::SubjectKeyIdentifier, "subject key identifier mismatch"),
        (ObjectVerificationError::Signature, "signature verification failed"),
        (ObjectVerificationError::Certificate(CertRule::Issuer), "issuer has no name of the RPKI"),
    ] {
        assert_eq!(error.to_string(), text);
        assert_eq!(ValidationError::from(error).to_string(), text);
    }
    for end in 0..3 {
        assert_eq!(
            SignedObject::decode(b"\x30\x80\x06"[..end].to_vec(), false).unwrap_err(),
            SignedObjectError::Object
        );
    }
}
