//! Hexadecimal digits.

use crate::{row, title};
use rpki_proved::crypto::KeyIdentifier;
use rpki_proved::util::hex;
use std::hint::black_box;

fn digits_of(octet: u8) -> [u8; 2] {
    const DIGITS: &[u8; 16] = b"0123456789ABCDEF";
    [DIGITS[usize::from(octet >> 4)], DIGITS[usize::from(octet & 15)]]
}

/// Two digits at a time, as the crate rpki writes them.
fn encode<'a>(octets: &[u8], out: &'a mut [u8]) -> &'a str {
    let size = 2 * octets.len();
    for (octet, pair) in octets.iter().zip(out.chunks_mut(2)) {
        pair.copy_from_slice(&digits_of(*octet));
    }
    std::str::from_utf8(&out[..size]).unwrap()
}

/// An identifier that is shown by its digits.
struct Identifier([u8; 20]);

impl std::fmt::Display for Identifier {
    fn fmt(&self, f: &mut std::fmt::Formatter) -> std::fmt::Result {
        f.write_str(encode(&self.0, &mut [0; 40]))
    }
}

pub fn measure() {
    title("hexadecimal digits");
    let octets: [u8; 20] = std::array::from_fn(|number| 13 * number as u8);
    let identifier = KeyIdentifier::from(octets);
    assert_eq!(identifier.to_string(), encode(&octets, &mut [0; 40]));
    row("encode_u8", || _ = black_box(hex::encode_u8(black_box(0xab))), || _ = black_box(digits_of(black_box(0xab))));
    row(
        "into_hex",
        || _ = black_box(black_box(identifier).into_hex()),
        || {
            let mut digits = [0; 40];
            encode(black_box(&octets), &mut digits);
            black_box(digits);
        },
    );
    let plain = Identifier(octets);
    assert_eq!(identifier.to_string(), plain.to_string());
    row(
        "to_string",
        || _ = black_box(black_box(&identifier).to_string()),
        || {
            black_box(black_box(&plain).to_string());
        },
    );
    let large = [0xa5; 1_296];
    let (mut ours, mut theirs) = ([0; 2_592], [0; 2_592]);
    row(
        "encode, 1,296 octets",
        || _ = black_box(hex::encode(black_box(&large), &mut ours)),
        || _ = black_box(encode(black_box(&large), &mut theirs)),
    );
}
