//! Opens a certificate and prints what a relying party looks at first, and last the three things to verify: that the
//! signature signs exactly the octets of the signed part.
//!
//! usage: certificate FILE

use rpki_proved::crypto::PublicKeyFormat;
use rpki_proved::repository::cert::Cert;
use rpki_proved::repository::x509::Name;
use rpki_proved::view::{self, Index, SignedData};
use std::error::Error;

fn yes(is: bool) -> &'static str {
    if is {
        "yes"
    } else {
        "no"
    }
}

/// A name's first attribute, and which profiles the name is of.
fn print_name(what: &str, name: &Name) -> Result<(), Box<dyn Error>> {
    let index = Index::of(name.as_slice())?;
    let attribute = index.root().child(0).and_then(|names| names.child(0));
    let text = attribute.and_then(|attribute| attribute.child(1)).ok_or("a name without an attribute")?;
    println!(
        "{what}: {} (RPKI {}, router {})",
        String::from_utf8_lossy(text.contents()),
        yes(name.inspect_rpki(true).is_ok()),
        yes(name.inspect_router(true).is_ok())
    );
    Ok(())
}

/// The key, and its identifier, which is that of the extension (RFC 6487 4.8.2).
fn print_key(cert: &Cert) -> Result<(), Box<dyn Error>> {
    let key = cert.subject_public_key_info();
    let format = match key.algorithm() {
        PublicKeyFormat::Rsa => "RSA",
        _ => "ECDSA P-256",
    };
    println!("public key: {format}, {} octets", key.bits().len());
    println!("key identifier: {}", key.key_identifier());
    if cert.known_extensions()?.subject_key != Some(key.key_identifier()) {
        return Err("subject key identifier: not that of the key".into());
    }
    Ok(())
}

fn main() -> Result<(), Box<dyn Error>> {
    let path = std::env::args().nth(1).ok_or("usage: certificate FILE")?;
    let octets = std::fs::read(path)?;
    let cert = Cert::decode(octets.clone())?;
    println!("certificate: {} octets, {} headers", octets.len(), view::walk(&octets)?.headers());
    println!("version: 3");
    println!("serial number: {}", view::Serial::decode(&cert.serial_number().encode())?);
    println!("not before: {}", view::Time::from(cert.validity().not_before()));
    println!("not after: {}", view::Time::from(cert.validity().not_after()));
    print_name("issuer", cert.issuer())?;
    print_name("subject", cert.subject())?;
    print_key(&cert)?;
    for extension in cert.extensions() {
        let critical = if extension.is_critical() { "critical" } else { "not critical" };
        println!("extension {}: {critical}, {} octets", extension.id(), extension.octets().len());
    }

    // The parts are slices of the octets: where one is is how far it is from their front.
    let signed = SignedData::decode(&octets)?;
    let place = |part: &[u8]| part.as_ptr() as usize - octets.as_ptr() as usize;
    let with = if signed.has_parameters() { "with" } else { "without" };
    println!("to verify:");
    println!("signed: {} octets at {}", signed.data().len(), place(signed.data()));
    println!("algorithm: {} octets at {}, {with} parameters", signed.algorithm().len(), place(signed.algorithm()));
    println!("signature: {} octets at {}", signed.signature().len(), place(signed.signature()));
    Ok(())
}
