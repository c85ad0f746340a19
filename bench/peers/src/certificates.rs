//! Whole certificates: the call of the C library and the type of the Cargo package over it, and a reader that the crate
//! asn1 derives, which looks into no value that it doesn't name.

use crate::inputs::Input;
use crate::readers::Reader;
use rpki_proved::repository::cert::Cert;
use std::mem::MaybeUninit;

/// The first is ours, and what the ratios are to.
pub const CERTIFICATES: &[Reader] = &[
    Reader { name: "rpki_certificate", call: opened },
    Reader { name: "Cert::decode", call: decoded },
    Reader { name: "asn1, derived", call: derived },
];

/// Room for the parts: struct rpki_certificate_parts has 200 octets.
#[repr(C, align(8))]
struct Parts([MaybeUninit<u8>; 200]);

extern "C" {
    fn rpki_certificate(octets: *const u8, size: usize, out: *mut Parts) -> i32;
}

fn opened(input: &Input) -> bool {
    let mut parts = Parts([MaybeUninit::uninit(); 200]);
    // SAFETY: the octets are as many as is said, and the room is that of the struct which the call writes.
    unsafe { rpki_certificate(input.octets.as_ptr(), input.octets.len(), &mut parts) == 0 }
}

fn decoded(input: &Input) -> bool {
    Cert::decode(input.octets.clone()).is_ok()
}

#[derive(asn1::Asn1Read)]
struct Certificate<'a> {
    tbs: Tbs<'a>,
    _algorithm: Algorithm<'a>,
    _signature: asn1::BitString<'a>,
}

#[derive(asn1::Asn1Read)]
struct Algorithm<'a> {
    _id: asn1::ObjectIdentifier,
    _parameters: Option<asn1::Tlv<'a>>,
}

type Name<'a> = asn1::SequenceOf<'a, asn1::SetOf<'a, Attribute<'a>>>;

#[derive(asn1::Asn1Read, PartialEq, Eq, Hash, Clone)]
struct Attribute<'a> {
    _id: asn1::ObjectIdentifier,
    _value: asn1::Tlv<'a>,
}

/// Read, and not looked at.
#[allow(dead_code)]
#[derive(asn1::Asn1Read)]
enum Time {
    Utc(asn1::UtcTime),
    Generalized(asn1::GeneralizedTime),
}

#[derive(asn1::Asn1Read)]
struct Validity {
    _not_before: Time,
    _not_after: Time,
}

#[derive(asn1::Asn1Read)]
struct Key<'a> {
    _algorithm: Algorithm<'a>,
    _bits: asn1::BitString<'a>,
}

#[derive(asn1::Asn1Read, PartialEq, Eq, Hash, Clone)]
struct Extension<'a> {
    _id: asn1::ObjectIdentifier,
    #[default(false)]
    _critical: bool,
    _octets: &'a [u8],
}

#[derive(asn1::Asn1Read)]
struct Tbs<'a> {
    #[explicit(0)]
    version: Option<u8>,
    _serial: asn1::BigInt<'a>,
    _algorithm: Algorithm<'a>,
    _issuer: Name<'a>,
    _validity: Validity,
    _subject: Name<'a>,
    _key: Key<'a>,
    #[explicit(3)]
    extensions: Option<asn1::SequenceOf<'a, Extension<'a>>>,
}

fn derived(input: &Input) -> bool {
    asn1::parse_single::<Certificate>(&input.octets)
        .is_ok_and(|cert| cert.tbs.version == Some(2) && cert.tbs.extensions.is_some())
}
