//! Verifies the signature of a certificate: reads it and the key of its issuer, and asks the proved library.
//!
//! usage: verify CERTIFICATE KEY      (both DER; the key a SubjectPublicKeyInfo)

use rpki_proved::crypto::PublicKey;
use rpki_proved::repository::x509::SignedData;
use std::error::Error;
use std::fs::read;

fn main() -> Result<(), Box<dyn Error>> {
    let words: Vec<String> = std::env::args().collect();
    let (certificate, key) = match &words[..] {
        [_, certificate, key] => (certificate, key),
        _ => return Err("usage: verify CERTIFICATE KEY".into()),
    };
    let signed = SignedData::decode(read(certificate)?)?;
    let key = PublicKey::decode(read(key)?)?;
    signed.verify_signature(&key)?;
    println!("{} octets are signed by {}", signed.data().len(), key.key_identifier());
    Ok(())
}
