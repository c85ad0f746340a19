//! Values that are read, beside the crate rpki's own readers of them over the crate bcder.

use crate::{row, title};
use bcder::decode::{Constructed, Malformed, Primitive, Source};
use bcder::{BitString, Captured, ConstOid, Mode, OctetString, Oid, Tag};
use bytes::Bytes;
use chrono::{DateTime, TimeZone, Utc};
use rpki_proved::crypto::PublicKey;
use rpki_proved::repository::cert::Cert;
use rpki_proved::repository::x509::{Name, Serial, SignedData, Time};
use std::hint::black_box;

const RSA: ConstOid = Oid(b"\x2a\x86\x48\x86\xf7\x0d\x01\x01\x01");
const SHA256_RSA: ConstOid = Oid(b"\x2a\x86\x48\x86\xf7\x0d\x01\x01\x0b");
const EC: ConstOid = Oid(b"\x2a\x86\x48\xce\x3d\x02\x01");
const P256: ConstOid = Oid(b"\x2a\x86\x48\xce\x3d\x03\x01\x07");
const COMMON_NAME: ConstOid = Oid(b"\x55\x04\x03");
const SERIAL_NUMBER: ConstOid = Oid(b"\x55\x04\x05");

/// Reads all of the octets, which it shares.
fn decode<T>(
    octets: &Bytes,
    read: impl FnOnce(&mut Constructed<Bytes>) -> Result<T, bcder::decode::Error>,
) -> Option<T> {
    Mode::Der.decode(octets.clone(), read).ok()
}

/// Whether the key is RSA's, and its bits.
fn take_key<S: Source>(cons: &mut Constructed<S>) -> Result<(bool, BitString), S::Err> {
    cons.take_sequence(|cons| {
        let is_rsa = cons.take_sequence(|cons| {
            let id = Oid::take_from(cons)?;
            if id == RSA {
                cons.take_opt_null()?;
                return Ok(true);
            }
            if id == EC {
                P256.skip_if(cons)?;
                return Ok(false);
            }
            Err(Malformed.into())
        })?;
        Ok((is_rsa, BitString::take_from(cons)?))
    })
}

/// A name, whose relative distinguished names are looked into.
fn take_name<S: Source>(cons: &mut Constructed<S>) -> Result<Captured, S::Err> {
    cons.capture(|cons| {
        cons.take_sequence(|cons| {
            cons.take_set(take_attributes)?;
            while cons.take_opt_set(take_attributes)?.is_some() {}
            Ok(())
        })
    })
}

fn take_attributes<S: Source>(cons: &mut Constructed<S>) -> Result<(), S::Err> {
    let attribute = |cons: &mut Constructed<S>| {
        Oid::skip_in(cons)?;
        cons.skip_one()?.ok_or_else(|| Malformed.into())
    };
    cons.take_sequence(attribute)?;
    while cons.take_opt_sequence(attribute)?.is_some() {}
    Ok(())
}

/// Whether a name has one common name, a PrintableString, and at most one serial number (RFC 6487 4.4).
fn is_of_rpki(name: &Bytes) -> bool {
    let mut found = [0; 2];
    let looked = decode(name, |cons| {
        cons.take_sequence(|cons| {
            while cons
                .take_opt_set(|cons| {
                    while cons.take_opt_sequence(|cons| count_attribute(cons, &mut found))?.is_some() {}
                    Ok(())
                })?
                .is_some()
            {}
            Ok(())
        })
    });
    looked.is_some() && found[0] == 1 && found[1] < 2
}

fn count_attribute<S: Source>(cons: &mut Constructed<S>, found: &mut [u32; 2]) -> Result<(), S::Err> {
    let id = Oid::take_from(cons)?;
    let kind = usize::from(if id == COMMON_NAME {
        false
    } else if id == SERIAL_NUMBER {
        true
    } else {
        return Err(Malformed.into());
    });
    found[kind] += 1;
    bcder::PrintableString::take_from(cons)?;
    Ok(())
}

/// The twenty octets of a serial number.
fn take_serial<S: Source>(cons: &mut Constructed<S>) -> Result<[u8; 20], S::Err> {
    let number = bcder::Unsigned::take_from(cons)?;
    let octets: &[u8] = number.as_ref();
    let mut array = [0; 20];
    let start = array.len().checked_sub(octets.len()).ok_or(Malformed)?;
    array[start..].copy_from_slice(octets);
    Ok(array)
}

fn take_time<S: Source>(cons: &mut Constructed<S>) -> Result<DateTime<Utc>, S::Err> {
    cons.take_primitive(|tag, content| match tag {
        Tag::UTC_TIME => {
            let year = take_pair(content)?;
            take_moment(content, if year >= 50 { year + 1900 } else { year + 2000 })
        }
        Tag::GENERALIZED_TIME => {
            let year = 100 * take_pair(content)? + take_pair(content)?;
            take_moment(content, year)
        }
        _ => Err(Malformed.into()),
    })
}

fn take_moment<S: Source>(content: &mut Primitive<S>, year: u32) -> Result<DateTime<Utc>, S::Err> {
    let [month, day, hour, minute, second] = {
        let mut pairs = [0; 5];
        for pair in &mut pairs {
            *pair = take_pair(content)?;
        }
        pairs
    };
    if content.take_u8()? != b'Z' {
        return Err(Malformed.into());
    }
    Utc.with_ymd_and_hms(year as i32, month, day, hour, minute, second).single().ok_or_else(|| Malformed.into())
}

fn take_pair<S: Source>(content: &mut Primitive<S>) -> Result<u32, S::Err> {
    let digits = [content.take_u8()?, content.take_u8()?];
    std::str::from_utf8(&digits).ok().and_then(|text| text.parse().ok()).ok_or_else(|| Malformed.into())
}

fn take_algorithm<S: Source>(cons: &mut Constructed<S>) -> Result<(), S::Err> {
    cons.take_sequence(|cons| {
        SHA256_RSA.skip_if(cons)?;
        cons.take_opt_null()
    })
}

/// The signed value, walked and captured, and the signature.
fn take_signed<S: Source>(cons: &mut Constructed<S>) -> Result<(Captured, BitString), S::Err> {
    cons.take_sequence(|cons| {
        let data = cons.capture_one()?;
        take_algorithm(cons)?;
        Ok((data, BitString::take_from(cons)?))
    })
}

/// How many extensions a certificate has whose parts are read.
fn extensions(octets: &Bytes) -> Option<u32> {
    let (data, _) = decode(octets, take_signed)?;
    decode(&data.into_bytes(), |cons| {
        cons.take_sequence(|cons| {
            cons.take_constructed_if(Tag::CTX_0, |cons| cons.skip_u8_if(2))?;
            take_serial(cons)?;
            take_algorithm(cons)?;
            take_name(cons)?;
            cons.take_sequence(|cons| Ok((take_time(cons)?, take_time(cons)?)))?;
            take_name(cons)?;
            take_key(cons)?;
            cons.take_constructed_if(Tag::CTX_3, |cons| {
                cons.take_sequence(|cons| {
                    let mut count = 0;
                    while cons.take_opt_sequence(take_extension)?.is_some() {
                        count += 1;
                    }
                    Ok(count)
                })
            })
        })
    })
}

fn take_extension<S: Source>(cons: &mut Constructed<S>) -> Result<(), S::Err> {
    Oid::<Bytes>::take_from(cons)?;
    cons.take_opt_bool()?;
    OctetString::take_from(cons)?;
    Ok(())
}

/// Times both readers of octets that both of them take.
fn rows<T, U>(name: &str, octets: &Bytes, ours: impl Fn(&Bytes) -> Option<T>, other: impl Fn(&Bytes) -> Option<U>) {
    assert!(ours(octets).is_some() && other(octets).is_some(), "{name}");
    row(name, || _ = black_box(ours(black_box(octets))), || _ = black_box(other(black_box(octets))));
}

pub fn measure() {
    title("values, beside bcder");
    let certificate = Bytes::from_static(include_bytes!("../../../examples/certificate.der"));
    let cert = Cert::decode(certificate.clone()).unwrap();
    // Ours reads what the extensions say too, and inspects the certificate.
    rows("certificate, inspected", &certificate, |octets| Cert::decode(octets.clone()).ok(), extensions);
    rows(
        "signed data",
        &certificate,
        |octets| SignedData::decode(octets.clone()).ok(),
        |octets| decode(octets, take_signed),
    );
    rows(
        "key",
        &cert.subject_public_key_info().to_info_bytes(),
        |octets| PublicKey::decode(octets.clone()).ok(),
        |octets| decode(octets, take_key),
    );
    let name = Bytes::copy_from_slice(cert.subject().as_ref());
    rows("name", &name, |octets| Name::decode(octets.clone()).ok(), |octets| decode(octets, take_name));
    let subject = Name::decode(name.clone()).unwrap();
    assert!(subject.inspect_rpki(true).is_ok() && is_of_rpki(&name));
    row(
        "name, inspect_rpki",
        || _ = black_box(black_box(&subject).inspect_rpki(true)),
        || _ = black_box(is_of_rpki(black_box(&name))),
    );
    let serial = cert.serial_number().encode();
    rows("serial", &serial, |octets| Serial::decode(octets).ok(), |octets| decode(octets, take_serial));
    measure_times();
    measure_texts(cert.serial_number());
}

fn measure_times() {
    for (kind, octets) in [("UTC", &b"\x17\x0d200229163957Z"[..]), ("generalized", b"\x18\x0f20640229163957Z")] {
        let octets = Bytes::from_static(octets);
        rows(&format!("time, {kind}"), &octets, |octets| Time::decode(octets).ok(), |octets| decode(octets, take_time));
    }
}

/// The number of decimal digits, by multiplying twenty octets for each.
fn number_of(digits: &str) -> Option<[u8; 20]> {
    let mut array = [0; 20];
    for digit in digits.bytes() {
        let mut carry = u32::from(digit.checked_sub(b'0').filter(|digit| *digit < 10)?);
        for octet in array.iter_mut().rev() {
            let sum = u32::from(*octet) * 10 + carry;
            *octet = sum as u8;
            carry = sum >> 8;
        }
        if carry != 0 {
            return None;
        }
    }
    Some(array)
}

fn measure_texts(serial: Serial) {
    let digits = serial.to_string();
    assert_eq!(digits.parse::<Serial>().unwrap().into_array(), number_of(&digits).unwrap());
    row(
        "serial, from_str",
        || _ = black_box(black_box(&digits).parse::<Serial>()),
        || _ = black_box(number_of(black_box(&digits))),
    );
    let (time, other) = (Time::from_timestamp(1_800_000_000).unwrap(), Utc.timestamp_opt(1_800_000_000, 0).unwrap());
    let written = |time: &DateTime<Utc>| Bytes::from(format!("\x17\x0d{}", time.format("%y%m%d%H%M%SZ")));
    assert_eq!(time.encode_varied(), written(&other));
    row(
        "time, encode_varied",
        || _ = black_box(black_box(time).encode_varied()),
        || _ = black_box(written(black_box(&other))),
    );
}
