//! Attestations of the providers of an autonomous system (draft-ietf-sidrops-aspa-profile, version 1).

use crate::ffi::{self, Status};
use crate::octets::IntoOctets;
use crate::repository::cert::{Cert, ResourceCert};
use crate::repository::error::{MalformedError, ValidationError};
use crate::repository::resources::Asn;
use crate::repository::sigobj::SignedObject;
use crate::repository::x509::Time;
use crate::resources::SmallAsnSet;
use crate::view::DecodeError;
use bytes::Bytes;
use std::error::Error;
use std::fmt;

/// The leftmost part of an attestation of providers that is wrong.
#[derive(Clone, Copy, Debug, PartialEq, Eq, Hash)]
#[non_exhaustive]
pub enum AspaError {
    /// The SEQUENCE around all isn't there, or something follows it.
    Attestation,
    /// The version is not 1.
    Version,
    /// The customer is no INTEGER below 2^32.
    Customer,
    /// There are no providers, one of them is no such INTEGER, not above the one before it, or the customer; or
    /// something follows.
    Providers,
}

impl AspaError {
    fn from_status(status: Status) -> AspaError {
        match status {
            ffi::PART_ASPA => AspaError::Attestation,
            ffi::PART_ASPA_VERSION => AspaError::Version,
            ffi::PART_CUSTOMER => AspaError::Customer,
            ffi::PART_PROVIDERS => AspaError::Providers,
            _ => unreachable!("{status} is no status of an attestation of providers"),
        }
    }
}

impl AspaError {
    /// What is said of it.
    pub(crate) fn text(&self) -> &'static str {
        match self {
            AspaError::Attestation => "not an attestation of providers",
            AspaError::Version => "other version of the attestation",
            AspaError::Customer => "malformed customer",
            AspaError::Providers => "malformed list of providers",
        }
    }
}

impl fmt::Display for AspaError {
    fn fmt(&self, f: &mut fmt::Formatter) -> fmt::Result {
        f.write_str(self.text())
    }
}

impl Error for AspaError {}

/// What an attestation of providers says. The providers share the octets that it was read from.
///
/// ```
/// use rpki_proved::repository::aspa::{AsProviderAttestation, AspaError};
///
/// let octets = b"\x30\x11\xa0\x03\x02\x01\x01\x02\x02\x10\x00\x30\x06\x02\x01\x05\x02\x01\x07";
/// let aspa = AsProviderAttestation::decode(&octets[..]).unwrap();
/// assert_eq!(aspa.customer_as().into_u32(), 4096);
/// let providers: Vec<u32> = aspa.provider_as_set().iter().map(u32::from).collect();
/// assert_eq!(providers, [5, 7]);
/// assert_eq!(AsProviderAttestation::decode(&b"\x30\x00"[..]).unwrap_err(), AspaError::Version);
/// ```
#[derive(Clone, Debug, PartialEq, Eq, Hash)]
pub struct AsProviderAttestation {
    customer_as: Asn,
    provider_as_set: ProviderAsSet,
}

impl AsProviderAttestation {
    /// Reads an attestation that is all of the octets.
    ///
    /// # Errors
    /// The malformed part.
    pub fn decode(octets: impl IntoOctets) -> Result<Self, AspaError> {
        let octets = octets.into_octets();
        let found = ffi::aspa(&octets).map_err(AspaError::from_status)?;
        let providers = ProviderAsSet { octets: octets.slice(found.providers.range(&octets)), len: found.count };
        Ok(AsProviderAttestation { customer_as: Asn::from_u32(found.customer), provider_as_set: providers })
    }

    /// Why octets are no attestation: the malformed part, and the leftmost error in it, as a reader of that part
    /// returns it. None where they are one.
    pub fn reason(octets: &[u8]) -> Option<(AspaError, DecodeError)> {
        let (part, error) = ffi::aspa_error(octets).err()?;
        Some((AspaError::from_status(part), DecodeError::from_status(error)))
    }

    /// The customer.
    pub fn customer_as(&self) -> Asn {
        self.customer_as
    }

    /// The providers.
    pub fn provider_as_set(&self) -> &ProviderAsSet {
        &self.provider_as_set
    }
}

/// The providers of a customer: one at least, ascending, and none is the customer.
#[derive(Clone, Debug, PartialEq, Eq, Hash)]
pub struct ProviderAsSet {
    octets: Bytes,
    len: usize,
}

impl ProviderAsSet {
    /// How many providers there are.
    pub fn len(&self) -> usize {
        self.len
    }

    /// Whether there is no provider, which never is.
    pub fn is_empty(&self) -> bool {
        self.len == 0
    }

    /// The octets of the providers, in sequence.
    pub fn as_slice(&self) -> &[u8] {
        &self.octets
    }

    /// The providers, ascending.
    pub fn iter(&self) -> Providers<'_> {
        Providers { rest: &self.octets }
    }

    /// The providers as a set.
    #[must_use]
    pub fn to_set(&self) -> SmallAsnSet {
        self.iter().collect()
    }
}

impl<'a> IntoIterator for &'a ProviderAsSet {
    type Item = Asn;
    type IntoIter = Providers<'a>;

    fn into_iter(self) -> Providers<'a> {
        self.iter()
    }
}

/// The providers of a customer, ascending.
#[derive(Clone, Debug)]
pub struct Providers<'a> {
    rest: &'a [u8],
}

impl Iterator for Providers<'_> {
    type Item = Asn;

    fn next(&mut self) -> Option<Asn> {
        if self.rest.is_empty() {
            return None;
        }
        let (number, rest) = ffi::aspa_provider(self.rest).expect("a provider that was read");
        self.rest = rest;
        Some(Asn::from_u32(number))
    }
}

/// An attestation of providers: a signed object with its content (RFC 6488, draft-ietf-sidrops-aspa-profile).
#[derive(Clone, Debug, PartialEq, Eq)]
pub struct Aspa {
    object: SignedObject,
    content: AsProviderAttestation,
}

crate::captured::captured!(Aspa);

impl Aspa {
    /// Reads a signed object, and its content, of this type; `strict` is as of [SignedObject::decode]. Nothing is
    /// verified.
    ///
    /// # Errors
    /// The malformed part; the content is of another type.
    pub fn decode(octets: impl IntoOctets, strict: bool) -> Result<Self, ValidationError> {
        let object = SignedObject::decode_of(octets, strict, ffi::TYPE_ASPA)?;
        let reason = || AsProviderAttestation::reason(object.content()).map(|(_, reason)| reason);
        let content = AsProviderAttestation::decode(object.content());
        let content = content.map_err(|part| MalformedError::new(part, reason()))?;
        Ok(Aspa { object, content })
    }

    /// The signed object.
    pub fn object(&self) -> &SignedObject {
        &self.object
    }

    /// The octets of the object.
    pub fn to_bytes(&self) -> Bytes {
        self.object.to_bytes()
    }

    /// The certificate of its signer, of which nothing is verified.
    pub fn cert(&self) -> &Cert {
        self.object.cert()
    }

    /// The content, of which nothing is verified: [Aspa::process] gives it with the certificate that is.
    pub fn content(&self) -> &AsProviderAttestation {
        &self.content
    }

    /// Checks the object and its certificate, as [SignedObject::process] does;
    /// and that the certificate lists AS numbers alone, and has the customer's.
    ///
    /// # Errors
    /// The first that doesn't hold.
    pub fn process<F>(
        self,
        issuer: &ResourceCert,
        strict: bool,
        check_crl: F,
    ) -> Result<(ResourceCert, AsProviderAttestation), ValidationError>
    where
        F: FnOnce(&Cert) -> Result<(), ValidationError>,
    {
        self.process_at(issuer, strict, Time::now(), check_crl)
    }

    /// The same at this moment.
    ///
    /// # Errors
    /// The first that doesn't hold.
    pub fn process_at<F>(
        self,
        issuer: &ResourceCert,
        strict: bool,
        now: Time,
        check_crl: F,
    ) -> Result<(ResourceCert, AsProviderAttestation), ValidationError>
    where
        F: FnOnce(&Cert) -> Result<(), ValidationError>,
    {
        let (cert, octets) = self.object.process_at(issuer, strict, now, check_crl)?;
        ffi::aspa_signer(&cert.to_bytes()).map_err(ValidationError::from_status)?;
        ffi::aspa_is_within(&octets, &cert.as_resources().entries()).map_err(ValidationError::from_status)?;
        Ok((cert, self.content))
    }
}
