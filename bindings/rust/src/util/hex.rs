//! Octets as hexadecimal digits in upper case (RFC 4648 8).

/// The two digits of each octet, the high one first.
const PAIRS: [[u8; 2]; 256] = pairs();

const fn pairs() -> [[u8; 2]; 256] {
    const DIGITS: &[u8; 16] = b"0123456789ABCDEF";
    let mut pairs = [[0; 2]; 256];
    let mut octet = 0;
    while octet < 256 {
        pairs[octet] = [DIGITS[octet >> 4], DIGITS[octet & 15]];
        octet += 1;
    }
    pairs
}

/// Writes two digits for each octet to the front of the buffer, and returns them. What is after
/// them stays.
///
/// ```
/// let mut buffer = [b'-'; 5];
/// assert_eq!(rpki_proved::util::hex::encode(b"\xab\x01", &mut buffer), "AB01");
/// assert_eq!(&buffer, b"AB01-");
/// ```
///
/// # Panics
/// If the buffer has fewer octets than twice those.
pub fn encode<'a>(src: &[u8], dest: &'a mut [u8]) -> &'a str {
    let digits = dest.get_mut(..2 * src.len()).expect("room for two digits an octet");
    write(src, digits);
    std::str::from_utf8(digits).expect("digits")
}

/// Writes two digits for each octet to a buffer of as many.
#[inline]
pub(crate) fn write(src: &[u8], digits: &mut [u8]) {
    for (octet, pair) in src.iter().zip(digits.chunks_exact_mut(2)) {
        pair.copy_from_slice(&encode_u8(*octet));
    }
}

/// The two digits of an octet, the high one first.
#[inline]
pub fn encode_u8(byte: u8) -> [u8; 2] {
    PAIRS[usize::from(byte)]
}

#[cfg(test)]
mod tests {
    use super::encode;
    use crate::ffi;

    /// The digits of each octet, and of many, are those that the library writes.
    #[test]
    fn digits_are_those_of_the_library() {
        let octets: Vec<u8> = (0..=255).collect();
        let mut digits = [0; 512];
        assert_eq!(ffi::hex_into(&octets, &mut digits), Ok(512));
        assert_eq!(encode(&octets, &mut [0; 512]).as_bytes(), digits);
    }
}
