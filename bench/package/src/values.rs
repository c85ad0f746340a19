//! Keys and signed data, as they are written.

use crate::{row, title};
use bytes::Bytes;
use rpki_proved::crypto::PublicKey;
use rpki_proved::repository::x509::SignedData;
use std::hint::black_box;

/// Writes the header of a value.
fn header(octets: &mut Vec<u8>, tag: u8, length: usize) {
    octets.push(tag);
    match length {
        0..=0x7f => octets.push(length as u8),
        0x80..=0xff => octets.extend([0x81, length as u8]),
        _ => octets.extend([0x82, (length >> 8) as u8, length as u8]),
    }
}

/// How many octets a header has.
fn size(length: usize) -> usize {
    match length {
        0..=0x7f => 2,
        0x80..=0xff => 3,
        _ => 4,
    }
}

/// A SEQUENCE of what goes before, an algorithm identifier, and a BIT STRING of octets: as an encoder writes it that
/// counts first.
fn write(before: &[u8], algorithm: &[u8], bits: &[u8]) -> Bytes {
    let length = before.len() + algorithm.len() + size(bits.len() + 1) + bits.len() + 1;
    let mut octets = Vec::with_capacity(size(length) + length);
    header(&mut octets, 0x30, length);
    octets.extend_from_slice(before);
    octets.extend_from_slice(algorithm);
    header(&mut octets, 3, bits.len() + 1);
    octets.push(0);
    octets.extend_from_slice(bits);
    octets.into()
}

const RSA: &[u8] = b"\x30\x0d\x06\x09\x2a\x86\x48\x86\xf7\x0d\x01\x01\x01\x05\x00";
const SHA256_RSA: &[u8] = b"\x30\x0d\x06\x09\x2a\x86\x48\x86\xf7\x0d\x01\x01\x0b\x05\x00";

pub fn measure() {
    title("values, beside a plain encoder");
    let key = PublicKey::rsa_from_components(&[0xa5; 256], &[1, 0, 1]).unwrap();
    assert_eq!(key.to_info_bytes(), write(b"", RSA, key.bits()));
    row(
        "to_info_bytes",
        || _ = black_box(black_box(&key).to_info_bytes()),
        || _ = black_box(write(b"", RSA, black_box(&key).bits())),
    );
    assert_eq!(key.key_identifier().as_slice(), openssl::sha::sha1(key.bits()));
    row(
        "key_identifier, beside OpenSSL",
        || _ = black_box(black_box(&key).key_identifier()),
        || _ = black_box(openssl::sha::sha1(black_box(&key).bits())),
    );
    let mut data = Vec::new();
    header(&mut data, 0x30, 1_000);
    header(&mut data, 4, 996);
    data.extend([7; 996]);
    let octets = write(&data, SHA256_RSA, &[9; 256]);
    let signed = SignedData::decode(octets.clone()).unwrap();
    assert_eq!(signed.to_bytes(), octets);
    row(
        "to_bytes",
        || _ = black_box(black_box(&signed).to_bytes()),
        || _ = black_box(write(black_box(&signed).data(), SHA256_RSA, signed.signature().value())),
    );
    let other = PublicKey::decode(key.to_info_bytes().to_vec()).unwrap();
    row(
        "==, keys",
        || _ = black_box(black_box(&key) == black_box(&other)),
        || _ = black_box(black_box(&key).bits() == black_box(&other).bits()),
    );
}
