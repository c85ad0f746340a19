//! Route origin attestations (RFC 9582 4).

use crate::ffi::{self, Status};
use crate::octets::IntoOctets;
use crate::repository::cert::{Cert, ResourceCert};
use crate::repository::error::{MalformedError, ValidationError};
use crate::repository::resources::{Addr, AddressFamily, Asn, Prefix};
use crate::repository::sigobj::SignedObject;
use crate::repository::x509::Time;
use crate::resources::{addr, MaxLenPrefix};
use crate::view::DecodeError;
use bytes::Bytes;
use std::error::Error;
use std::fmt;
use std::net::{IpAddr, Ipv4Addr};

/// The leftmost part of a route origin attestation that is wrong.
#[derive(Clone, Copy, Debug, PartialEq, Eq, Hash)]
#[non_exhaustive]
pub enum RoaError {
    /// The SEQUENCE around all isn't there, or something follows it.
    Attestation,
    /// The AS number is no INTEGER below 2^32.
    AsId,
    /// The families, one of their prefixes, or something that follows.
    AddressBlocks,
}

impl RoaError {
    fn from_status(status: Status) -> RoaError {
        match status {
            ffi::PART_ROA => RoaError::Attestation,
            ffi::PART_AS_ID => RoaError::AsId,
            ffi::PART_ADDRESS_BLOCKS => RoaError::AddressBlocks,
            _ => unreachable!("{status} is no status of a route origin attestation"),
        }
    }
}

impl RoaError {
    /// What is said of it.
    pub(crate) fn text(&self) -> &'static str {
        match self {
            RoaError::Attestation => "not a route origin attestation",
            RoaError::AsId => "malformed AS number",
            RoaError::AddressBlocks => "malformed list of prefixes",
        }
    }
}

impl fmt::Display for RoaError {
    fn fmt(&self, f: &mut fmt::Formatter) -> fmt::Result {
        f.write_str(self.text())
    }
}

impl Error for RoaError {}

/// What a route origin attestation says: which prefixes an AS number may announce. The prefixes share the octets that
/// it was read from.
///
/// ```
/// use rpki_proved::repository::roa::{RoaError, RouteOriginAttestation};
///
/// // AS64496 may announce 10.0.0.0/8, and prefixes in it of up to 24 bits.
/// let octets = b"\x30\x18\x02\x03\x00\xfb\xf0\x30\x11\x30\x0f\x04\x02\x00\x01\x30\x09\x30\x07\
///     \x03\x02\x00\x0a\x02\x01\x18";
/// let roa = RouteOriginAttestation::decode(&octets[..], true).unwrap();
/// let texts: Vec<String> = roa.iter().map(|address| address.to_string()).collect();
/// assert_eq!(texts, ["10.0.0.0/8-24"]);
/// assert_eq!(RouteOriginAttestation::decode(&b"\x30\x00"[..], true).unwrap_err(), RoaError::AsId);
/// ```
#[derive(Clone, Debug, PartialEq, Eq, Hash)]
pub struct RouteOriginAttestation {
    as_id: Asn,
    v4_addrs: RoaIpAddresses,
    v6_addrs: RoaIpAddresses,
}

impl RouteOriginAttestation {
    /// Reads an attestation that is all of the octets. If `strict`, IP version 4 is in front of IP version 6 (RFC 9582
    /// 4.3.3).
    ///
    /// # Errors
    /// The malformed part.
    pub fn decode(octets: impl IntoOctets, strict: bool) -> Result<Self, RoaError> {
        let octets = octets.into_octets();
        let found = ffi::roa(&octets, strict).map_err(RoaError::from_status)?;
        let addresses =
            |family, part: ffi::Span, len| RoaIpAddresses { family, octets: octets.slice(part.range(&octets)), len };
        Ok(RouteOriginAttestation {
            as_id: Asn::from_u32(found.as_id),
            v4_addrs: addresses(AddressFamily::Ipv4, found.v4, found.v4_count),
            v6_addrs: addresses(AddressFamily::Ipv6, found.v6, found.v6_count),
        })
    }

    /// Why octets are no attestation: the malformed part, and the leftmost error in it, as a reader of that part
    /// returns it. None where they are one.
    pub fn reason(octets: &[u8], strict: bool) -> Option<(RoaError, DecodeError)> {
        let (part, error) = ffi::roa_error(octets, strict).err()?;
        Some((RoaError::from_status(part), DecodeError::from_status(error)))
    }

    /// The AS number that may announce the prefixes.
    pub fn as_id(&self) -> Asn {
        self.as_id
    }

    /// The prefixes of IP version 4.
    pub fn v4_addrs(&self) -> &RoaIpAddresses {
        &self.v4_addrs
    }

    /// The prefixes of IP version 6.
    pub fn v6_addrs(&self) -> &RoaIpAddresses {
        &self.v6_addrs
    }

    /// All prefixes with their families: those of IP version 4 first.
    pub fn iter(&self) -> impl Iterator<Item = FriendlyRoaIpAddress> + '_ {
        self.v4_addrs
            .iter()
            .map(|address| FriendlyRoaIpAddress::new(address, true))
            .chain(self.v6_addrs.iter().map(|address| FriendlyRoaIpAddress::new(address, false)))
    }

    /// What may be announced, in the same order.
    pub fn iter_origins(&self) -> impl Iterator<Item = RouteOrigin> + '_ {
        self.iter().map(move |address| RouteOrigin { prefix: address.into(), asn: self.as_id })
    }
}

/// A prefix, and an AS number that may announce it. The crate rpki has it in `rtr::payload`.
#[derive(Clone, Copy, Debug, PartialEq, Eq, Hash, PartialOrd, Ord)]
pub struct RouteOrigin {
    /// The prefix, and how long those in it may be.
    pub prefix: MaxLenPrefix,
    /// The AS number.
    pub asn: Asn,
}

/// The prefixes of one family, in the order of the attestation.
#[derive(Clone, Debug, PartialEq, Eq, Hash)]
pub struct RoaIpAddresses {
    family: AddressFamily,
    octets: Bytes,
    len: usize,
}

impl RoaIpAddresses {
    /// How many prefixes there are.
    pub fn len(&self) -> usize {
        self.len
    }

    /// Whether there is no prefix, which is where the family isn't there.
    pub fn is_empty(&self) -> bool {
        self.len == 0
    }

    /// The octets of the prefixes, in sequence.
    pub fn as_slice(&self) -> &[u8] {
        &self.octets
    }

    /// The prefixes, in order.
    pub fn iter(&self) -> Addresses<'_> {
        Addresses { family: self.family, rest: &self.octets }
    }
}

impl<'a> IntoIterator for &'a RoaIpAddresses {
    type Item = RoaIpAddress;
    type IntoIter = Addresses<'a>;

    fn into_iter(self) -> Addresses<'a> {
        self.iter()
    }
}

/// The prefixes of one family, in order.
#[derive(Clone, Debug)]
pub struct Addresses<'a> {
    family: AddressFamily,
    rest: &'a [u8],
}

impl Iterator for Addresses<'_> {
    type Item = RoaIpAddress;

    fn next(&mut self) -> Option<RoaIpAddress> {
        if self.rest.is_empty() {
            return None;
        }
        let family = match self.family {
            AddressFamily::Ipv4 => ffi::IPV4,
            AddressFamily::Ipv6 => ffi::IPV6,
        };
        let (found, rest) = ffi::roa_address(self.rest, family).expect("a prefix that was read");
        self.rest = rest;
        let [a, b, c, d, ..] = found.address;
        let address = match self.family {
            AddressFamily::Ipv4 => Addr::from(Ipv4Addr::new(a, b, c, d)),
            AddressFamily::Ipv6 => Addr::from_bits(u128::from_be_bytes(found.address)),
        };
        let max_length = if found.has_max_length { Some(found.max_length) } else { None };
        Some(RoaIpAddress::new(Prefix::new(address, found.length), max_length))
    }
}

/// A prefix, whose family is told apart, and how long the prefixes in it that are announced may be.
#[derive(Clone, Copy, Debug, PartialEq, Eq, Hash)]
pub struct RoaIpAddress {
    prefix: Prefix,
    max_length: Option<u8>,
}

impl RoaIpAddress {
    /// A prefix with a maximum length in bits; with none, only the prefix itself may be announced.
    pub fn new(prefix: Prefix, max_length: Option<u8>) -> Self {
        RoaIpAddress { prefix, max_length }
    }

    /// The prefix of so many first bits of an address, with a maximum length in bits.
    pub fn new_addr(addr: IpAddr, len: u8, max_length: Option<u8>) -> Self {
        RoaIpAddress::new(Prefix::new(addr, len), max_length)
    }

    /// The prefix.
    pub fn prefix(self) -> Prefix {
        self.prefix
    }

    /// The maximum length, in bits, where it is there.
    pub fn max_length(self) -> Option<u8> {
        self.max_length
    }

    /// The lowest and the highest address.
    pub fn range(self) -> (Addr, Addr) {
        self.prefix.range()
    }
}

/// A prefix with its family, and how long the prefixes in it that are announced may be.
#[derive(Clone, Copy, Debug, PartialEq, Eq, Hash)]
pub struct FriendlyRoaIpAddress {
    addr: RoaIpAddress,
    v4: bool,
}

impl FriendlyRoaIpAddress {
    /// The prefix, of IP version 4 or else of IP version 6.
    pub fn new(addr: RoaIpAddress, v4: bool) -> Self {
        FriendlyRoaIpAddress { addr, v4 }
    }

    /// Whether it is of IP version 4.
    pub fn is_v4(&self) -> bool {
        self.v4
    }

    /// The prefix.
    pub fn prefix(&self) -> Prefix {
        self.addr.prefix
    }

    /// The lowest address.
    pub fn address(&self) -> IpAddr {
        if self.v4 {
            IpAddr::V4(self.addr.prefix.to_v4())
        } else {
            IpAddr::V6(self.addr.prefix.to_v6())
        }
    }

    /// How many bits the prefix has.
    pub fn address_length(&self) -> u8 {
        self.addr.prefix.addr_len()
    }

    /// How many bits a prefix in it that is announced may have: the prefix's own length, where that isn't told.
    pub fn max_length(&self) -> u8 {
        self.addr.max_length.unwrap_or_else(|| self.address_length())
    }
}

/// A prefix that was read has a length of its family, and its maximum length is not below that; of others each is made
/// so.
impl From<FriendlyRoaIpAddress> for MaxLenPrefix {
    fn from(address: FriendlyRoaIpAddress) -> Self {
        MaxLenPrefix::saturating_new(addr::Prefix::saturating_new(address), address.addr.max_length)
    }
}

impl fmt::Display for FriendlyRoaIpAddress {
    /// `10.0.0.0/8`, and after it `-24` where the maximum length is there.
    fn fmt(&self, f: &mut fmt::Formatter) -> fmt::Result {
        write!(f, "{}/{}", self.address(), self.address_length())?;
        match self.addr.max_length {
            Some(length) => write!(f, "-{length}"),
            None => Ok(()),
        }
    }
}

/// A route origin attestation: a signed object with its content (RFC 6488, RFC 9582).
#[derive(Clone, Debug, PartialEq, Eq)]
pub struct Roa {
    object: SignedObject,
    content: RouteOriginAttestation,
}

crate::captured::captured!(Roa);

impl Roa {
    /// Reads a signed object, and its content, of this type; `strict` is as of [SignedObject::decode], and of
    /// [RouteOriginAttestation::decode]. Nothing is verified.
    ///
    /// # Errors
    /// The malformed part; the content is of another type.
    pub fn decode(octets: impl IntoOctets, strict: bool) -> Result<Self, ValidationError> {
        let object = SignedObject::decode_of(octets, strict, ffi::TYPE_ROA)?;
        let reason = || RouteOriginAttestation::reason(object.content(), strict).map(|(_, reason)| reason);
        let content = RouteOriginAttestation::decode(object.content(), strict);
        let content = content.map_err(|part| MalformedError::new(part, reason()))?;
        Ok(Roa { object, content })
    }

    /// The signed object.
    pub fn object(&self) -> &SignedObject {
        &self.object
    }

    /// The octets of the object.
    pub fn to_bytes(&self) -> Bytes {
        self.object.to_bytes()
    }

    /// The certificate of its signer, of which nothing is verified.
    pub fn cert(&self) -> &Cert {
        self.object.cert()
    }

    /// The content, of which nothing is verified: [Roa::process] gives it with the certificate that is.
    pub fn content(&self) -> &RouteOriginAttestation {
        &self.content
    }

    /// Checks the object and its certificate, as [SignedObject::process] does;
    /// and that the certificate lists addresses alone, and has all of the content's prefixes (RFC 9582 5).
    ///
    /// # Errors
    /// The first that doesn't hold.
    pub fn process<F>(
        self,
        issuer: &ResourceCert,
        strict: bool,
        check_crl: F,
    ) -> Result<(ResourceCert, RouteOriginAttestation), ValidationError>
    where
        F: FnOnce(&Cert) -> Result<(), ValidationError>,
    {
        self.process_at(issuer, strict, Time::now(), check_crl)
    }

    /// The same at this moment.
    ///
    /// # Errors
    /// The first that doesn't hold.
    pub fn process_at<F>(
        self,
        issuer: &ResourceCert,
        strict: bool,
        now: Time,
        check_crl: F,
    ) -> Result<(ResourceCert, RouteOriginAttestation), ValidationError>
    where
        F: FnOnce(&Cert) -> Result<(), ValidationError>,
    {
        let (cert, octets) = self.object.process_at(issuer, strict, now, check_crl)?;
        ffi::roa_signer(&cert.to_bytes()).map_err(ValidationError::from_status)?;
        ffi::roa_is_within(&octets, false, &cert.ip_entries()).map_err(ValidationError::from_status)?;
        Ok((cert, self.content))
    }
}
