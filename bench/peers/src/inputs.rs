//! What is read: a certificate, and two of the values that bench/linked.c makes. All of them are signed data.

use bytes::Bytes;
use rpki_proved::view::{walk, SignedData};
use rpki_proved::DecodeError;

const SMALL: usize = 1 << 20;
const LEVELS: usize = 1_000_000;

/// SEQUENCE { OBJECT IDENTIFIER, SET { PrintableString, INTEGER } }
const UNIT: &[u8] = b"\x30\x10\x06\x03\x55\x04\x03\x31\x09\x13\x04name\x02\x01\x01";

/// An algorithm identifier and a signature.
const ENDING: &[u8] = b"\x30\x0d\x06\x09\x2a\x86\x48\x86\xf7\x0d\x01\x01\x0b\x05\x00\x03\x02\x00\xaa";

pub struct Input {
    pub name: &'static str,
    pub octets: Bytes,
    /// Calls a round.
    pub repeats: u32,
    pub headers: u64,
    /// How many octets the signed value has, and the signature.
    pub data: usize,
    pub signature: usize,
}

impl Input {
    fn new(name: &'static str, octets: Vec<u8>, repeats: u32) -> Result<Input, DecodeError> {
        let octets = Bytes::from(octets);
        let headers = walk(&octets)?.headers();
        let signed = SignedData::decode(&octets)?;
        let (data, signature) = (signed.data().len(), signed.signature().len());
        Ok(Input { name, octets, repeats, headers, data, signature })
    }

    pub fn certificate(octets: Vec<u8>) -> Result<Input, DecodeError> {
        Input::new("a certificate", octets, 20_000)
    }

    /// About 1 MB, nearly all of it short values three deep.
    pub fn small_values() -> Result<Input, DecodeError> {
        let mut room = Backwards::default();
        room.put(ENDING);
        (0..SMALL / UNIT.len()).for_each(|_| room.put(UNIT));
        room.put_header(room.size() - ENDING.len());
        Input::new("1 MB of small values", room.signed(), 10)
    }

    /// SEQUENCEs, one inside the other.
    pub fn nested() -> Result<Input, DecodeError> {
        let mut room = Backwards::default();
        room.put(ENDING);
        (0..LEVELS).for_each(|_| room.put_header(room.size() - ENDING.len()));
        Input::new("1,000,000 deep", room.signed(), 1)
    }
}

/// Octets, the last one first, so that a header is put when its length is known.
#[derive(Default)]
struct Backwards(Vec<u8>);

impl Backwards {
    fn size(&self) -> usize {
        self.0.len()
    }

    fn put(&mut self, octets: &[u8]) {
        self.0.extend(octets.iter().rev());
    }

    /// Puts the header of a SEQUENCE.
    fn put_header(&mut self, length: usize) {
        let octets = length.to_be_bytes();
        let zeros = octets.iter().take_while(|octet| **octet == 0).count();
        let count = octets.len() - zeros;
        if length < 0x80 {
            self.0.push(length as u8);
        } else {
            self.put(&octets[zeros..]);
            self.0.push(0x80 + count as u8);
        }
        self.0.push(0x30);
    }

    /// All of the octets as the contents of a SEQUENCE, the first one first.
    fn signed(mut self) -> Vec<u8> {
        self.put_header(self.size());
        self.0.reverse();
        self.0
    }
}
