//! Prefixes that know their family, and how long those in them may be.

use crate::repository::resources::{self, Addr};
use crate::repository::roa::FriendlyRoaIpAddress;
use std::error::Error;
use std::fmt;
use std::net::{IpAddr, Ipv4Addr, Ipv6Addr};
use std::str::FromStr;

/// Why an address and a count of bits are no prefix.
#[derive(Clone, Copy, Debug, PartialEq, Eq)]
pub enum PrefixError {
    /// There are more bits than an address of the family has.
    LenOverflow,
    /// A bit of the address after those is 1.
    NonZeroHost,
}

impl fmt::Display for PrefixError {
    fn fmt(&self, f: &mut fmt::Formatter) -> fmt::Result {
        f.write_str(match self {
            PrefixError::LenOverflow => "prefix length too large",
            PrefixError::NonZeroHost => "non-zero host portion",
        })
    }
}

impl Error for PrefixError {}

/// Why a text is no prefix.
#[derive(Clone, Debug, PartialEq, Eq)]
pub enum ParsePrefixError {
    /// It has no slash.
    MissingLen,
    /// What is before the slash is no address.
    InvalidAddr,
    /// What follows it are no digits of a number.
    InvalidLen,
    /// The address and the number are no prefix.
    InvalidPrefix(PrefixError),
}

impl fmt::Display for ParsePrefixError {
    fn fmt(&self, f: &mut fmt::Formatter) -> fmt::Result {
        match self {
            ParsePrefixError::MissingLen => f.write_str("missing length portion"),
            ParsePrefixError::InvalidAddr => f.write_str("invalid address"),
            ParsePrefixError::InvalidLen => f.write_str("invalid length"),
            ParsePrefixError::InvalidPrefix(error) => error.fmt(f),
        }
    }
}

impl Error for ParsePrefixError {}

/// The number of these digits, and of nothing else.
fn number(digits: &str) -> Option<u8> {
    if !digits.bytes().all(|digit| digit.is_ascii_digit()) {
        return None;
    }
    digits.parse().ok()
}

/// The addresses of a family that begin alike.
///
/// ```
/// use rpki_proved::resources::Prefix;
///
/// let prefix: Prefix = "192.0.2.0/25".parse()?;
/// assert_eq!((prefix.addr(), prefix.len()), ("192.0.2.0".parse().unwrap(), 25));
/// assert!(prefix.covers("192.0.2.64/26".parse()?) && !prefix.covers("192.0.2.0/24".parse()?));
/// assert!("192.0.2.1/25".parse::<Prefix>().is_err());
/// # Ok::<(), rpki_proved::resources::addr::ParsePrefixError>(())
/// ```
#[derive(Clone, Copy, Debug, PartialEq, Eq, Hash, PartialOrd, Ord)]
pub struct Prefix {
    addr: IpAddr,
    len: u8,
}

// A prefix always has an address.
#[allow(clippy::len_without_is_empty)]
impl Prefix {
    /// The prefix of so many first bits of this address.
    ///
    /// # Errors
    /// There are not so many, or a bit after them is 1.
    pub fn new(addr: IpAddr, len: u8) -> Result<Self, PrefixError> {
        let prefix = Prefix::new_relaxed(addr, len)?;
        if prefix.addr != addr {
            return Err(PrefixError::NonZeroHost);
        }
        Ok(prefix)
    }

    /// The same, where bits after those are made 0.
    ///
    /// # Errors
    /// There are not so many bits.
    pub fn new_relaxed(addr: IpAddr, len: u8) -> Result<Self, PrefixError> {
        if len > width(addr) {
            return Err(PrefixError::LenOverflow);
        }
        Ok(Prefix { addr: in_family_of(addr, resources::Prefix::new(addr, len).addr()), len })
    }

    /// The prefix of IP version 4.
    ///
    /// # Errors
    /// Those of [Prefix::new].
    pub fn new_v4(addr: Ipv4Addr, len: u8) -> Result<Self, PrefixError> {
        Prefix::new(addr.into(), len)
    }

    /// The prefix of IP version 6.
    ///
    /// # Errors
    /// Those of [Prefix::new].
    pub fn new_v6(addr: Ipv6Addr, len: u8) -> Result<Self, PrefixError> {
        Prefix::new(addr.into(), len)
    }

    /// The prefix of an attestation, whose length is made one of its family.
    pub(crate) fn saturating_new(address: FriendlyRoaIpAddress) -> Self {
        let addr = address.address();
        let len = address.address_length().min(width(addr));
        Prefix { addr: in_family_of(addr, resources::Prefix::new(addr, len).addr()), len }
    }

    /// Whether it is of IP version 4.
    pub fn is_v4(self) -> bool {
        self.addr.is_ipv4()
    }

    /// Whether it is of IP version 6.
    pub fn is_v6(self) -> bool {
        self.addr.is_ipv6()
    }

    /// The lowest address.
    pub fn addr(self) -> IpAddr {
        self.addr
    }

    /// How many bits the addresses share.
    pub fn len(self) -> u8 {
        self.len
    }

    /// The address and the count of bits.
    pub fn addr_and_len(self) -> (IpAddr, u8) {
        (self.addr, self.len)
    }

    /// The lowest address.
    pub fn min_addr(self) -> IpAddr {
        self.addr
    }

    /// The highest address.
    pub fn max_addr(self) -> IpAddr {
        in_family_of(self.addr, resources::Prefix::from(self).max())
    }

    /// Whether each address of the other is one of this: which of the same family alone.
    pub fn covers(self, other: Self) -> bool {
        let (own, its) = (resources::Prefix::from(self), resources::Prefix::from(other));
        self.is_v4() == other.is_v4() && own.min() <= its.min() && its.max() <= own.max()
    }
}

/// How many bits an address of this family has.
fn width(addr: IpAddr) -> u8 {
    match addr {
        IpAddr::V4(_) => 32,
        IpAddr::V6(_) => 128,
    }
}

/// An address, in the family of another.
fn in_family_of(other: IpAddr, addr: Addr) -> IpAddr {
    match other {
        IpAddr::V4(_) => addr.to_v4().into(),
        IpAddr::V6(_) => addr.to_v6().into(),
    }
}

/// An address, a slash, and the digits of the count of bits; all bits after those are 0.
impl FromStr for Prefix {
    type Err = ParsePrefixError;

    fn from_str(s: &str) -> Result<Self, ParsePrefixError> {
        let (addr, len) = s.split_once('/').ok_or(ParsePrefixError::MissingLen)?;
        let addr = addr.parse().map_err(|_| ParsePrefixError::InvalidAddr)?;
        let len = number(len).ok_or(ParsePrefixError::InvalidLen)?;
        Prefix::new(addr, len).map_err(ParsePrefixError::InvalidPrefix)
    }
}

/// `192.0.2.0/25`. Addresses are shown as the standard library does.
impl fmt::Display for Prefix {
    fn fmt(&self, f: &mut fmt::Formatter) -> fmt::Result {
        write!(f, "{}/{}", self.addr, self.len)
    }
}

/// The same addresses, without their family.
impl From<Prefix> for resources::Prefix {
    fn from(prefix: Prefix) -> Self {
        resources::Prefix::new(prefix.addr, prefix.len)
    }
}

/// Why a count of bits is no maximum length of a prefix.
#[derive(Clone, Copy, Debug, PartialEq, Eq)]
pub enum MaxLenError {
    /// It is above that of an address of the family.
    Overflow,
    /// It is below the prefix's own.
    Underflow,
}

impl fmt::Display for MaxLenError {
    fn fmt(&self, f: &mut fmt::Formatter) -> fmt::Result {
        f.write_str(match self {
            MaxLenError::Overflow => "maximum prefix length too large",
            MaxLenError::Underflow => "maximum prefix length smaller than prefix length",
        })
    }
}

impl Error for MaxLenError {}

/// Why a text is no prefix with a maximum length.
#[derive(Clone, Debug, PartialEq, Eq)]
pub enum ParseMaxLenPrefixError {
    /// What is before the hyphen is no prefix.
    InvalidPrefix(ParsePrefixError),
    /// What follows it are no digits of a number.
    InvalidMaxLenFormat,
    /// The number is no maximum length of the prefix.
    InvalidMaxLenValue(MaxLenError),
}

impl fmt::Display for ParseMaxLenPrefixError {
    fn fmt(&self, f: &mut fmt::Formatter) -> fmt::Result {
        match self {
            ParseMaxLenPrefixError::InvalidPrefix(error) => error.fmt(f),
            ParseMaxLenPrefixError::InvalidMaxLenFormat => f.write_str("invalid max length format"),
            ParseMaxLenPrefixError::InvalidMaxLenValue(error) => error.fmt(f),
        }
    }
}

impl Error for ParseMaxLenPrefixError {}

/// A prefix, and how long the prefixes in it that are announced may be.
///
/// ```
/// use rpki_proved::resources::MaxLenPrefix;
///
/// let prefix: MaxLenPrefix = "192.0.2.0/24-26".parse()?;
/// assert_eq!((prefix.prefix_len(), prefix.max_len(), prefix.resolved_max_len()), (24, Some(26), 26));
/// assert_eq!("192.0.2.0/24".parse::<MaxLenPrefix>()?.resolved_max_len(), 24);
/// # Ok::<(), rpki_proved::resources::addr::ParseMaxLenPrefixError>(())
/// ```
#[derive(Clone, Copy, Debug, PartialEq, Eq, Hash, PartialOrd, Ord)]
pub struct MaxLenPrefix {
    prefix: Prefix,
    max_len: Option<u8>,
}

impl MaxLenPrefix {
    /// The prefix with a maximum length in bits; with none, only the prefix itself may be announced.
    ///
    /// # Errors
    /// The maximum is above the length of an address, or below that of the prefix.
    pub fn new(prefix: Prefix, max_len: Option<u8>) -> Result<Self, MaxLenError> {
        match max_len {
            Some(len) if len > width(prefix.addr) => Err(MaxLenError::Overflow),
            Some(len) if len < prefix.len => Err(MaxLenError::Underflow),
            _ => Ok(MaxLenPrefix { prefix, max_len }),
        }
    }

    /// The same, where a maximum below or above what it may be is made the nearest.
    pub fn saturating_new(prefix: Prefix, max_len: Option<u8>) -> Self {
        MaxLenPrefix { prefix, max_len: max_len.map(|len| len.clamp(prefix.len, width(prefix.addr))) }
    }

    /// The prefix.
    pub fn prefix(self) -> Prefix {
        self.prefix
    }

    /// The lowest address.
    pub fn addr(self) -> IpAddr {
        self.prefix.addr
    }

    /// How many bits the prefix has.
    pub fn prefix_len(self) -> u8 {
        self.prefix.len
    }

    /// The maximum length, in bits, where it is there.
    pub fn max_len(self) -> Option<u8> {
        self.max_len
    }

    /// The maximum length: the prefix's own, where it isn't there.
    pub fn resolved_max_len(self) -> u8 {
        self.max_len.unwrap_or(self.prefix.len)
    }
}

impl From<Prefix> for MaxLenPrefix {
    fn from(prefix: Prefix) -> Self {
        MaxLenPrefix { prefix, max_len: None }
    }
}

/// A prefix, and after a hyphen the digits of the maximum length, where it is there.
impl FromStr for MaxLenPrefix {
    type Err = ParseMaxLenPrefixError;

    fn from_str(s: &str) -> Result<Self, ParseMaxLenPrefixError> {
        let (prefix, max_len) = match s.split_once('-') {
            Some((prefix, len)) => (prefix, Some(number(len).ok_or(ParseMaxLenPrefixError::InvalidMaxLenFormat)?)),
            None => (s, None),
        };
        let prefix = prefix.parse().map_err(ParseMaxLenPrefixError::InvalidPrefix)?;
        MaxLenPrefix::new(prefix, max_len).map_err(ParseMaxLenPrefixError::InvalidMaxLenValue)
    }
}

/// `192.0.2.0/24`, and after it `-26` where the maximum length is there.
impl fmt::Display for MaxLenPrefix {
    fn fmt(&self, f: &mut fmt::Formatter) -> fmt::Result {
        self.prefix.fmt(f)?;
        match self.max_len {
            Some(len) => write!(f, "-{len}"),
            None => Ok(()),
        }
    }
}

#[cfg(feature = "serde")]
crate::texts::serialized_as_text! {
    Prefix, "a prefix";
    MaxLenPrefix, "a prefix with a maximum length";
}
