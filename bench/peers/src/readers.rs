//! The calls that are timed. Each tells whether it found what the input says.

use crate::inputs::Input;
use bcder::{decode, ConstOid, Mode, Oid};
use rpki_proved::view::{self, SignedData};

pub struct Reader {
    pub name: &'static str,
    pub call: fn(&Input) -> bool,
}

/// The first is ours, and what the ratios are to. The last is recursive.
pub const WALKS: &[Reader] = &[
    Reader { name: "rpki_proved::walk", call: walk },
    Reader { name: "bcder, skip", call: bcder_skip },
    Reader { name: "bcder, capture_one", call: bcder_capture },
    Reader { name: "asn1, recursion", call: asn1_walk },
];
pub const RECURSION: &Reader = &WALKS[WALKS.len() - 1];

/// The first is ours, and what the ratios are to. The last does not look inside the signed value.
pub const SIGNED: &[Reader] = &[
    Reader { name: "SignedData::decode", call: signed },
    Reader { name: "bcder, signed data", call: bcder_signed },
    Reader { name: "asn1, value not looked into", call: asn1_signed },
];

// ---- Walks ----

fn walk(input: &Input) -> bool {
    view::walk(&input.octets)
        .is_ok_and(|walked| (walked.octets().len(), walked.headers()) == (input.octets.len(), input.headers))
}

/// Counts the headers.
fn bcder_skip(input: &Input) -> bool {
    let mut left = &input.octets[..];
    let mut headers = 0;
    let skipped = Mode::Der.decode(&mut left, |cons| {
        cons.skip(|_, _, _| {
            headers += 1;
            Ok(())
        })
    });
    skipped.is_ok() && left.is_empty() && headers == input.headers
}

/// Shares the octets, and does not tell how many headers there are.
fn bcder_capture(input: &Input) -> bool {
    Mode::Der
        .decode(input.octets.clone(), |cons| cons.capture_one())
        .is_ok_and(|captured| captured.len() == input.octets.len())
}

/// The headers of the values that are left, and of those inside them.
fn count_headers(parser: &mut asn1::Parser) -> asn1::ParseResult<u64> {
    let mut headers = 0;
    while !parser.is_empty() {
        let value = parser.read_element::<asn1::Tlv>()?;
        headers += 1;
        if value.full_data().first().is_some_and(|first| first & 0x20 != 0) {
            headers += asn1::parse(value.data(), count_headers)?;
        }
    }
    Ok(headers)
}

fn asn1_walk(input: &Input) -> bool {
    asn1::parse(&input.octets, count_headers).is_ok_and(|headers| headers == input.headers)
}

// ---- Signed data ----

/// What the readers have to agree on: the signed value, the octets of the signature's bits, and how many bits of the
/// last of them are unused.
#[derive(PartialEq)]
struct Parts<'a> {
    data: &'a [u8],
    signature: &'a [u8],
    unused_bits: u8,
}

trait Signed {
    fn parts(&self) -> Parts<'_>;

    fn is_of(&self, input: &Input) -> bool {
        let parts = self.parts();
        (parts.data.len(), parts.signature.len()) == (input.data, input.signature)
    }
}

impl Signed for SignedData<'_> {
    fn parts(&self) -> Parts<'_> {
        Parts { data: self.data(), signature: self.signature(), unused_bits: self.unused_bits() }
    }
}

fn signed(input: &Input) -> bool {
    SignedData::decode(&input.octets).is_ok_and(|signed| signed.is_of(input))
}

/// As the crate rpki has it: the value is walked and captured, the algorithm compared.
struct BcderSigned {
    data: bcder::Captured,
    signature: bcder::BitString,
}

impl Signed for BcderSigned {
    fn parts(&self) -> Parts<'_> {
        let signature = self.signature.octet_slice().unwrap_or_default();
        Parts { data: self.data.as_slice(), signature, unused_bits: self.signature.unused() }
    }
}

const BCDER_ALGORITHM: ConstOid = Oid(b"\x2a\x86\x48\x86\xf7\x0d\x01\x01\x0b");

/// Shares the octets.
fn bcder_read(input: &Input) -> Result<BcderSigned, decode::Error> {
    Mode::Der.decode(input.octets.clone(), |cons| {
        cons.take_sequence(|cons| {
            let data = cons.capture_one()?;
            cons.take_sequence(|cons| {
                BCDER_ALGORITHM.skip_if(cons)?;
                cons.take_opt_null()
            })?;
            Ok(BcderSigned { data, signature: bcder::BitString::take_from(cons)? })
        })
    })
}

fn bcder_signed(input: &Input) -> bool {
    bcder_read(input).is_ok_and(|signed| signed.is_of(input))
}

/// What is inside of the value is not looked at.
#[derive(asn1::Asn1Read)]
struct Asn1Signed<'a> {
    data: asn1::Tlv<'a>,
    algorithm: Asn1Algorithm,
    signature: asn1::BitString<'a>,
}

#[derive(asn1::Asn1Read)]
struct Asn1Algorithm {
    id: asn1::ObjectIdentifier,
    _parameters: Option<asn1::Null>,
}

impl Signed for Asn1Signed<'_> {
    fn parts(&self) -> Parts<'_> {
        let (signature, unused_bits) = (self.signature.as_bytes(), self.signature.padding_bits());
        Parts { data: self.data.full_data(), signature, unused_bits }
    }
}

const ASN1_ALGORITHM: asn1::ObjectIdentifier = asn1::oid!(1, 2, 840, 113549, 1, 1, 11);

fn asn1_read(input: &Input) -> Option<Asn1Signed<'_>> {
    let signed: Asn1Signed = asn1::parse_single(&input.octets).ok()?;
    (signed.algorithm.id == ASN1_ALGORITHM).then_some(signed)
}

fn asn1_signed(input: &Input) -> bool {
    asn1_read(input).is_some_and(|signed| signed.is_of(input))
}

/// Whether the three readers find the same parts.
pub fn agree(input: &Input) -> bool {
    let ours = SignedData::decode(&input.octets);
    let (Ok(ours), Ok(bcder), Some(asn1)) = (ours, bcder_read(input), asn1_read(input)) else {
        return false;
    };
    bcder.parts() == ours.parts() && asn1.parts() == ours.parts()
}
