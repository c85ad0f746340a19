//! Values in DER whose contents are at hand (X.690 8.1).

use bytes::{BufMut, Bytes, BytesMut};

/// The identifier octet of an INTEGER.
pub(crate) const INTEGER: u8 = 0x02;
/// The identifier octet of a BIT STRING.
pub(crate) const BIT_STRING: u8 = 0x03;
/// The identifier octet of NULL.
pub(crate) const NULL: u8 = 0x05;
/// The identifier octet of a SEQUENCE.
pub(crate) const SEQUENCE: u8 = 0x30;
/// The identifier octet of the constructed form of the context-specific tag 0.
pub(crate) const CONSTRUCTED_0: u8 = 0xa0;
/// The identifier octet of an OCTET STRING.
pub(crate) const OCTET_STRING: u8 = 0x04;
/// The identifier octet of the context-specific tag 6: of a URI among general names.
pub(crate) const CONTEXT_6: u8 = 0x86;

/// The primitive or constructed value of this identifier octet and these contents, of which there are fewer than 2^32.
pub(crate) fn value(identifier: u8, contents: &[u8]) -> Bytes {
    let length = u32::try_from(contents.len()).expect("contents of fewer than 2^32 octets").to_be_bytes();
    let mut octets = BytesMut::with_capacity(6 + contents.len());
    octets.put_u8(identifier);
    match contents.len() {
        0..=0x7f => octets.put_u8(length[3]),
        size => {
            let zeros = (size as u32).leading_zeros() as usize / 8;
            octets.put_u8(0x80 + (4 - zeros) as u8);
            octets.put_slice(&length[zeros..]);
        }
    }
    octets.put_slice(contents);
    octets.freeze()
}

#[cfg(test)]
mod tests {
    use super::{value, OCTET_STRING};

    /// The lengths where the octets of the length become more (X.690 8.1.3, 10.1).
    #[test]
    fn lengths() {
        let rows: [(usize, &[u8]); 6] = [
            (0, b"\x04\x00"),
            (127, b"\x04\x7f"),
            (128, b"\x04\x81\x80"),
            (255, b"\x04\x81\xff"),
            (256, b"\x04\x82\x01\x00"),
            (65_536, b"\x04\x83\x01\x00\x00"),
        ];
        for (size, header) in rows {
            let contents = vec![7; size];
            assert_eq!(value(OCTET_STRING, &contents), [header, &contents].concat(), "{size}");
        }
    }
}
