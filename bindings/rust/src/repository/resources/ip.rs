//! Addresses, blocks of them, and what certificates have of them (RFC 3779 2).
//!
//! An address of either family is a number of 128 bits: one of IP version 4 is in the first 32, so that blocks of both
//! families are alike. What has a text says of which family that is.

use super::choice::{InheritedResources, ResourcesChoice};
use super::encode;
use super::numbers::{self, Ends};
use crate::encode::{value, OCTET_STRING, SEQUENCE};
use crate::ffi;
use crate::repository::error::VerificationError;
use crate::view::DecodeError;
use bytes::Bytes;
use std::error::Error;
use std::fmt;
use std::hash::{Hash, Hasher};
use std::net::{IpAddr, Ipv4Addr, Ipv6Addr};
use std::ops::Deref;
use std::str::FromStr;

/// A text is no prefix, no range, or no list of them.
#[derive(Clone, Copy, Debug, PartialEq, Eq)]
pub struct FromStrError(());

impl fmt::Display for FromStrError {
    fn fmt(&self, f: &mut fmt::Formatter) -> fmt::Result {
        f.write_str("invalid block of addresses")
    }
}

impl Error for FromStrError {}

/// Addresses of IP version 6 where those of IP version 4 are asked for.
#[derive(Clone, Copy, Debug, PartialEq, Eq)]
pub struct OtherFamily;

impl fmt::Display for OtherFamily {
    fn fmt(&self, f: &mut fmt::Formatter) -> fmt::Result {
        f.write_str("block of another family of addresses")
    }
}

impl Error for OtherFamily {}

/// A family of addresses (RFC 3779 2.2.3.3).
#[derive(Clone, Copy, Debug, PartialEq, Eq, Hash)]
pub enum AddressFamily {
    /// IP version 4.
    Ipv4,
    /// IP version 6.
    Ipv6,
}

impl AddressFamily {
    /// How many bits an address has.
    fn width(self) -> u8 {
        match self {
            AddressFamily::Ipv4 => 32,
            AddressFamily::Ipv6 => 128,
        }
    }

    /// The octets that name it.
    fn octets(self) -> &'static [u8] {
        match self {
            AddressFamily::Ipv4 => &[0, 1],
            AddressFamily::Ipv6 => &[0, 2],
        }
    }

    /// The address of this family that a text is.
    fn address(self, s: &str) -> Result<Addr, FromStrError> {
        let address = match self {
            AddressFamily::Ipv4 => Ipv4Addr::from_str(s).map(Addr::from),
            AddressFamily::Ipv6 => Ipv6Addr::from_str(s).map(Addr::from),
        };
        address.map_err(|_| FromStrError(()))
    }

    /// The family of the addresses in a text: those of IP version 6 alone have a colon.
    fn of_text(s: &str) -> Self {
        if s.contains(':') {
            AddressFamily::Ipv6
        } else {
            AddressFamily::Ipv4
        }
    }

    /// The block that ends with the address of this family which begins so.
    fn last(self, address: Addr) -> Addr {
        address.to_max(self.width())
    }

    /// How a block is passed to the library.
    fn entry(self, (low, high): (Addr, Addr)) -> ffi::IpBlock {
        let passed = |address: Addr| match self {
            AddressFamily::Ipv4 => address.to_min(32).0.to_be_bytes(),
            AddressFamily::Ipv6 => address.0.to_be_bytes(),
        };
        let family = match self {
            AddressFamily::Ipv4 => ffi::IPV4,
            AddressFamily::Ipv6 => ffi::IPV6,
        };
        ffi::IpBlock { low: passed(low), high: passed(high), family, is_inherited: false }
    }

    /// Writes an address: the library's text of the block that has it alone, without the count of bits. What the
    /// standard library writes of IP version 6 differs among its versions.
    fn write(self, address: Addr, f: &mut fmt::Formatter) -> fmt::Result {
        let mut text = [0; 79];
        let size = ffi::ip_block_text(&self.entry((address, address)), &mut text).expect("a block");
        let text = std::str::from_utf8(&text[..size]).expect("a text of ASCII");
        f.write_str(text.split_once('/').expect("a prefix").0)
    }

    fn write_block(self, block: &IpBlock, f: &mut fmt::Formatter) -> fmt::Result {
        self.write(block.min(), f)?;
        match block {
            IpBlock::Prefix(prefix) => write!(f, "/{}", prefix.len),
            IpBlock::Range(range) => {
                f.write_str("-")?;
                self.write(range.max, f)
            }
        }
    }
}

/// `IPv4`, or `IPv6`.
impl fmt::Display for AddressFamily {
    fn fmt(&self, f: &mut fmt::Formatter) -> fmt::Result {
        f.write_str(match self {
            AddressFamily::Ipv4 => "IPv4",
            AddressFamily::Ipv6 => "IPv6",
        })
    }
}

/// An address of either family.
#[derive(Clone, Copy, Debug, PartialEq, Eq, Hash, PartialOrd, Ord)]
pub struct Addr(u128);

impl Addr {
    /// The address of these bits; one of IP version 4 has them first.
    pub fn from_bits(bits: u128) -> Self {
        Addr(bits)
    }

    /// Its bits.
    pub fn to_bits(self) -> u128 {
        self.0
    }

    /// The address of IP version 4 that its first 32 bits are.
    pub fn to_v4(self) -> Ipv4Addr {
        let [a, b, c, d, ..] = self.0.to_be_bytes();
        Ipv4Addr::new(a, b, c, d)
    }

    /// The address of IP version 6 that it is.
    pub fn to_v6(self) -> Ipv6Addr {
        self.0.into()
    }

    /// The lowest address with the same first bits, as many.
    #[must_use]
    pub fn to_min(self, prefix_len: u8) -> Self {
        Addr(self.0 & !Addr::below(prefix_len))
    }

    /// The highest address with the same first bits, as many.
    #[must_use]
    pub fn to_max(self, prefix_len: u8) -> Self {
        Addr(self.0 | Addr::below(prefix_len))
    }

    /// Ones after so many bits.
    fn below(prefix_len: u8) -> u128 {
        u128::MAX.checked_shr(prefix_len.into()).unwrap_or(0)
    }
}

impl From<u128> for Addr {
    fn from(bits: u128) -> Self {
        Addr(bits)
    }
}

impl From<Ipv4Addr> for Addr {
    fn from(address: Ipv4Addr) -> Self {
        Addr(u128::from(u32::from(address)) << 96)
    }
}

impl From<Ipv6Addr> for Addr {
    fn from(address: Ipv6Addr) -> Self {
        Addr(address.into())
    }
}

impl From<IpAddr> for Addr {
    fn from(address: IpAddr) -> Self {
        match address {
            IpAddr::V4(address) => address.into(),
            IpAddr::V6(address) => address.into(),
        }
    }
}

/// The addresses that begin alike.
///
/// ```
/// use rpki_proved::repository::resources::Prefix;
/// use std::net::Ipv4Addr;
///
/// let prefix = Prefix::from_v4_str("10.1.0.0/16")?;
/// assert_eq!((prefix.to_v4(), prefix.addr_len()), (Ipv4Addr::new(10, 1, 0, 0), 16));
/// assert_eq!(prefix.max().to_v4(), Ipv4Addr::new(10, 1, 255, 255));
/// # Ok::<(), rpki_proved::repository::resources::FromStrError>(())
/// ```
#[derive(Clone, Copy, Debug, PartialEq, Eq, Hash)]
pub struct Prefix {
    addr: Addr,
    len: u8,
}

impl Prefix {
    /// The addresses that have so many first bits of this one, at most 128.
    pub fn new(addr: impl Into<Addr>, len: u8) -> Self {
        let len = len.min(128);
        Prefix { addr: addr.into().to_min(len), len }
    }

    /// All addresses.
    pub fn all() -> Self {
        Prefix::new(0, 0)
    }

    /// The lowest address.
    pub fn addr(self) -> Addr {
        self.addr
    }

    /// How many bits the addresses share.
    pub fn addr_len(self) -> u8 {
        self.len
    }

    /// The lowest address, as one of IP version 4.
    pub fn to_v4(self) -> Ipv4Addr {
        self.addr.to_v4()
    }

    /// The lowest address, as one of IP version 6.
    pub fn to_v6(self) -> Ipv6Addr {
        self.addr.to_v6()
    }

    /// The lowest and the highest address.
    pub fn range(self) -> (Addr, Addr) {
        (self.min(), self.max())
    }

    /// The lowest address.
    pub fn min(self) -> Addr {
        self.addr
    }

    /// The highest address.
    pub fn max(self) -> Addr {
        self.addr.to_max(self.len)
    }

    /// The prefix of IP version 4 that a text is, as `10.0.0.0/8`. Bits after the shared ones are
    /// made 0.
    ///
    /// # Errors
    /// Another text.
    pub fn from_v4_str(s: &str) -> Result<Self, FromStrError> {
        Prefix::read(AddressFamily::Ipv4, s)
    }

    /// The prefix of IP version 6 that a text is, as `2001:db8::/32`. Bits after the shared ones
    /// are made 0.
    ///
    /// # Errors
    /// Another text.
    pub fn from_v6_str(s: &str) -> Result<Self, FromStrError> {
        Prefix::read(AddressFamily::Ipv6, s)
    }

    fn read(family: AddressFamily, s: &str) -> Result<Self, FromStrError> {
        let (address, len) = s.split_once('/').ok_or(FromStrError(()))?;
        if !len.bytes().all(|digit| digit.is_ascii_digit()) {
            return Err(FromStrError(()));
        }
        let len = len.parse().ok().filter(|len| *len <= family.width()).ok_or(FromStrError(()))?;
        Ok(Prefix::new(family.address(address)?, len))
    }
}

/// The addresses from one to another.
#[derive(Clone, Copy, Debug, PartialEq, Eq, Hash)]
pub struct AddressRange {
    min: Addr,
    max: Addr,
}

impl AddressRange {
    /// The addresses from the one to the other, of which either may be the lower.
    pub fn new(min: Addr, max: Addr) -> Self {
        AddressRange { min: min.min(max), max: max.max(min) }
    }

    /// The lowest address.
    pub fn min(self) -> Addr {
        self.min
    }

    /// The highest address.
    pub fn max(self) -> Addr {
        self.max
    }

    /// The range of IP version 4 that a text is, as `10.0.0.0-10.0.0.5`.
    ///
    /// # Errors
    /// Another text; the second address is below the first.
    pub fn from_v4_str(s: &str) -> Result<Self, FromStrError> {
        AddressRange::read(AddressFamily::Ipv4, s)
    }

    /// The range of IP version 6 that a text is, as `2001:db8::-2001:db8::5`.
    ///
    /// # Errors
    /// Another text; the second address is below the first.
    pub fn from_v6_str(s: &str) -> Result<Self, FromStrError> {
        AddressRange::read(AddressFamily::Ipv6, s)
    }

    fn read(family: AddressFamily, s: &str) -> Result<Self, FromStrError> {
        let (min, max) = s.split_once('-').ok_or(FromStrError(()))?;
        let (min, max) = (family.address(min.trim())?, family.last(family.address(max.trim())?));
        if min > max {
            return Err(FromStrError(()));
        }
        Ok(AddressRange { min, max })
    }
}

/// A block of addresses: a prefix, or a range. Two are equal where their lowest and their highest addresses are.
#[derive(Clone, Copy, Debug)]
pub enum IpBlock {
    /// A prefix.
    Prefix(Prefix),
    /// A range.
    Range(AddressRange),
}

impl IpBlock {
    /// All addresses.
    pub fn all() -> Self {
        IpBlock::Prefix(Prefix::all())
    }

    /// The lowest address.
    pub fn min(&self) -> Addr {
        match self {
            IpBlock::Prefix(prefix) => prefix.min(),
            IpBlock::Range(range) => range.min,
        }
    }

    /// The highest address.
    pub fn max(&self) -> Addr {
        match self {
            IpBlock::Prefix(prefix) => prefix.max(),
            IpBlock::Range(range) => range.max,
        }
    }

    fn ends(&self) -> Ends {
        (self.min().0, self.max().0)
    }

    /// The block of these addresses: a prefix where it is one, else a range.
    fn of((low, high): Ends) -> Self {
        let len = (low ^ high).leading_zeros() as u8;
        let prefix = Prefix::new(low, len);
        if prefix.range() == (Addr(low), Addr(high)) {
            IpBlock::Prefix(prefix)
        } else {
            IpBlock::Range(AddressRange::new(Addr(low), Addr(high)))
        }
    }

    /// The block of IP version 4 that a text is: a prefix, a range, or an address.
    ///
    /// # Errors
    /// Another text.
    pub fn from_v4_str(s: &str) -> Result<Self, FromStrError> {
        IpBlock::read(AddressFamily::Ipv4, s)
    }

    /// The block of IP version 6 that a text is: a prefix, a range, or an address.
    ///
    /// # Errors
    /// Another text.
    pub fn from_v6_str(s: &str) -> Result<Self, FromStrError> {
        IpBlock::read(AddressFamily::Ipv6, s)
    }

    fn read(family: AddressFamily, s: &str) -> Result<Self, FromStrError> {
        if s.contains('/') {
            Prefix::read(family, s).map(IpBlock::Prefix)
        } else if s.contains('-') {
            AddressRange::read(family, s).map(IpBlock::Range)
        } else {
            Ok(IpBlock::Prefix(Prefix::new(family.address(s)?, family.width())))
        }
    }

    /// Its text, as one of IP version 4.
    pub fn display_v4(&self) -> impl fmt::Display + '_ {
        Shown(AddressFamily::Ipv4, std::slice::from_ref(self))
    }

    /// Its text, as one of IP version 6.
    pub fn display_v6(&self) -> impl fmt::Display + '_ {
        Shown(AddressFamily::Ipv6, std::slice::from_ref(self))
    }
}

impl PartialEq for IpBlock {
    fn eq(&self, other: &IpBlock) -> bool {
        self.ends() == other.ends()
    }
}

impl Eq for IpBlock {}

/// As it is compared.
impl Hash for IpBlock {
    fn hash<H: Hasher>(&self, state: &mut H) {
        self.ends().hash(state);
    }
}

impl From<Prefix> for IpBlock {
    fn from(prefix: Prefix) -> Self {
        IpBlock::Prefix(prefix)
    }
}

impl From<AddressRange> for IpBlock {
    fn from(range: AddressRange) -> Self {
        IpBlock::Range(range)
    }
}

impl From<(Addr, Addr)> for IpBlock {
    fn from((min, max): (Addr, Addr)) -> Self {
        IpBlock::of((min.min(max).0, max.max(min).0))
    }
}

/// A prefix, a range or an address, of either family.
impl FromStr for IpBlock {
    type Err = FromStrError;

    fn from_str(s: &str) -> Result<Self, FromStrError> {
        IpBlock::read(AddressFamily::of_text(s), s)
    }
}

/// A prefix of either family.
impl FromStr for Prefix {
    type Err = FromStrError;

    fn from_str(s: &str) -> Result<Self, FromStrError> {
        Prefix::read(AddressFamily::of_text(s), s)
    }
}

/// Of a block that knows no family: serialized as the text of its numbers as addresses of IP version 6, and read from a
/// text of either family.
#[cfg(feature = "serde")]
macro_rules! serialized_as_v6 {
    ($($name:ident, $expected:literal;)*) => {
        $(
            impl serde::Serialize for $name {
                /// Writes the text, as of addresses of IP version 6.
                fn serialize<S: serde::Serializer>(&self, serializer: S) -> Result<S::Ok, S::Error> {
                    serializer.collect_str(&IpBlock::from(*self).display_v6())
                }
            }

            impl<'de> serde::Deserialize<'de> for $name {
                /// Reads a text of either family.
                fn deserialize<D: serde::Deserializer<'de>>(deserializer: D) -> Result<Self, D::Error> {
                    crate::texts::borrowed(deserializer, $expected, str::parse)
                }
            }
        )*
    };
}

#[cfg(feature = "serde")]
serialized_as_v6! {
    IpBlock, "a block of addresses";
    Prefix, "a prefix";
}

/// Blocks of a family, with a comma and a space between them.
struct Shown<B>(AddressFamily, B);

impl<B: AsRef<[IpBlock]>> fmt::Display for Shown<B> {
    fn fmt(&self, f: &mut fmt::Formatter) -> fmt::Result {
        for (number, block) in self.1.as_ref().iter().enumerate() {
            if number > 0 {
                f.write_str(", ")?;
            }
            self.0.write_block(block, f)?;
        }
        Ok(())
    }
}

/// A set of addresses of one family, as blocks in canonical form: so a set has one list.
#[derive(Clone, Debug, Default, PartialEq, Eq, Hash)]
pub struct IpBlocks(Vec<Ends>);

impl IpBlocks {
    /// No address.
    pub fn empty() -> Self {
        IpBlocks::default()
    }

    /// All addresses.
    pub fn all() -> Self {
        IpBlocks(vec![IpBlock::all().ends()])
    }

    /// Whether there is no address.
    pub fn is_empty(&self) -> bool {
        self.0.is_empty()
    }

    /// The blocks, in order.
    pub fn iter(&self) -> impl Iterator<Item = IpBlock> + '_ {
        self.0.iter().copied().map(IpBlock::of)
    }

    /// Whether each address of the other set is in this one.
    #[must_use]
    pub fn contains(&self, other: &Self) -> bool {
        numbers::is_part(&other.0, &self.0)
    }

    /// Whether each address of the block is in the set.
    #[must_use]
    pub fn contains_block(&self, block: impl Into<IpBlock>) -> bool {
        numbers::is_part(&[block.into().ends()], &self.0)
    }

    /// The addresses of both sets.
    #[must_use]
    pub fn intersection(&self, other: &Self) -> Self {
        IpBlocks(numbers::shared(&self.0, &other.0))
    }

    /// The addresses of one of the sets, or of both.
    #[must_use]
    pub fn union(&self, other: &Self) -> Self {
        IpBlocks(numbers::canonical([&self.0[..], &other.0[..]].concat()))
    }

    /// The addresses of this set that are not in the other.
    #[must_use]
    pub fn difference(&self, other: &Self) -> Self {
        IpBlocks(numbers::lacking(&self.0, &other.0))
    }

    /// The text, as of addresses of IP version 4.
    pub fn as_v4(&self) -> impl fmt::Display {
        Shown(AddressFamily::Ipv4, self.iter().collect::<Vec<_>>())
    }

    /// The text, as of addresses of IP version 6.
    pub fn as_v6(&self) -> impl fmt::Display {
        Shown(AddressFamily::Ipv6, self.iter().collect::<Vec<_>>())
    }

    /// How the blocks are passed to the library, as of this family.
    pub(crate) fn entries(&self, family: AddressFamily) -> impl Iterator<Item = ffi::IpBlock> + '_ {
        self.0.iter().map(move |(low, high)| family.entry((Addr(*low), Addr(*high))))
    }

    /// The addresses of these entries, which are of one family; none is inherited.
    pub(crate) fn of_entries(family: AddressFamily, entries: &[ffi::IpBlock]) -> Self {
        let ends = |entry: &ffi::IpBlock| {
            let (low, high) = (u128::from_be_bytes(entry.low), u128::from_be_bytes(entry.high));
            (low, family.last(Addr(high)).0)
        };
        IpBlocks(entries.iter().map(ends).collect())
    }

    /// Leaves the addresses that are in the other set too.
    pub fn intersection_assign(&mut self, other: &Self) {
        *self = self.intersection(other);
    }

    /// Checks that each address of the set is in the other, the issuer's.
    ///
    /// # Errors
    /// One isn't.
    pub fn verify_covered(&self, issuer: &Self) -> Result<(), VerificationError> {
        if issuer.contains(self) {
            Ok(())
        } else {
            Err(VerificationError::new("addresses that the issuer does not have"))
        }
    }

    fn read(family: AddressFamily, s: &str) -> Result<Self, FromStrError> {
        if s.trim().is_empty() {
            return Ok(IpBlocks::empty());
        }
        s.split(',').map(|block| IpBlock::read(family, block.trim())).collect()
    }
}

/// Blocks of one family with commas between them, in any order; none in an empty text.
impl FromStr for IpBlocks {
    type Err = FromStrError;

    fn from_str(s: &str) -> Result<Self, FromStrError> {
        IpBlocks::read(AddressFamily::of_text(s), s)
    }
}

/// Blocks are put in one by one, in any order, and make a set.
#[derive(Clone, Debug, Default)]
pub struct IpBlocksBuilder(Vec<IpBlock>);

impl IpBlocksBuilder {
    /// No block yet.
    pub fn new() -> Self {
        IpBlocksBuilder::default()
    }

    /// Puts in a block.
    pub fn push(&mut self, block: impl Into<IpBlock>) {
        self.0.push(block.into());
    }

    /// The set of the blocks.
    #[must_use]
    pub fn finalize(self) -> IpBlocks {
        self.0.into_iter().collect()
    }
}

impl Extend<IpBlock> for IpBlocksBuilder {
    fn extend<I: IntoIterator<Item = IpBlock>>(&mut self, blocks: I) {
        self.0.extend(blocks);
    }
}

impl FromIterator<IpBlock> for IpBlocks {
    fn from_iter<I: IntoIterator<Item = IpBlock>>(iter: I) -> Self {
        IpBlocks(numbers::canonical(iter.into_iter().map(|block| block.ends()).collect()))
    }
}

/// A set of addresses of a known family, which so has a text.
macro_rules! of_family {
    ($name:ident, $family:expr, $number:literal) => {
        #[doc = concat!("A set of addresses of IP version ", $number, ".")]
        #[derive(Clone, Debug, Default, PartialEq, Eq, Hash)]
        pub struct $name(IpBlocks);

        impl Deref for $name {
            type Target = IpBlocks;

            fn deref(&self) -> &IpBlocks {
                &self.0
            }
        }

        impl From<IpBlocks> for $name {
            fn from(blocks: IpBlocks) -> Self {
                $name(blocks)
            }
        }

        impl From<$name> for IpBlocks {
            fn from(blocks: $name) -> Self {
                blocks.0
            }
        }

        /// Blocks with commas between them, in any order; none in an empty text.
        impl FromStr for $name {
            type Err = FromStrError;

            fn from_str(s: &str) -> Result<Self, FromStrError> {
                IpBlocks::read($family, s).map($name)
            }
        }

        /// The blocks, with a comma and a space between them.
        impl fmt::Display for $name {
            fn fmt(&self, f: &mut fmt::Formatter) -> fmt::Result {
                Shown($family, self.iter().collect::<Vec<_>>()).fmt(f)
            }
        }
    };
}

of_family!(Ipv4Blocks, AddressFamily::Ipv4, "4");
of_family!(Ipv6Blocks, AddressFamily::Ipv6, "6");

/// The addresses of one family of a certificate, as they are put together: none at first.
#[derive(Clone, Debug, Default)]
pub struct IpResourcesBuilder(Option<IpResources>);

impl IpResourcesBuilder {
    /// No addresses yet.
    pub fn new() -> Self {
        IpResourcesBuilder::default()
    }

    /// Those of the issuer, in place of what was there.
    pub fn inherit(&mut self) {
        self.0 = Some(IpResources::inherit());
    }

    /// Those that the function puts in, in place of what was there.
    pub fn blocks<F: FnOnce(&mut IpBlocksBuilder)>(&mut self, build: F) {
        let mut builder = IpBlocksBuilder::new();
        build(&mut builder);
        self.0 = Some(IpResources::blocks(builder.finalize()));
    }

    /// The addresses.
    #[must_use]
    pub fn finalize(self) -> IpResources {
        self.0.unwrap_or_else(IpResources::missing)
    }
}

/// The addresses of one family of a certificate (RFC 3779 2).
#[derive(Clone, Debug, PartialEq, Eq, Hash)]
pub struct IpResources(ResourcesChoice<IpBlocks>);

impl IpResources {
    /// None, to be lent.
    pub(crate) const MISSING: &'static Self = &IpResources(ResourcesChoice::Missing);

    /// Reads the contents of the extension id-pe-ipAddrBlocks (RFC 3779 2.2.3, RFC 6487 4.8.10): the addresses of IP
    /// version 4, and those of IP version 6; `None` where a family isn't named.
    ///
    /// # Errors
    /// Why the octets are no such contents: what is wrong first, from the left.
    ///
    /// ```
    /// use rpki_proved::repository::resources::{IpResources, Ipv4Blocks};
    ///
    /// let octets = b"\x30\x14\x30\x0a\x04\x02\x00\x01\x30\x04\x03\x02\x00\x0a\x30\x06\x04\x02\x00\x02\x05\x00";
    /// let (v4, v6) = IpResources::decode_families(octets)?;
    /// assert_eq!(Ipv4Blocks::from(v4.unwrap().to_blocks()?).to_string(), "10.0.0.0/8");
    /// assert!(v6.unwrap().is_inherited());
    /// # Ok::<(), Box<dyn std::error::Error>>(())
    /// ```
    pub fn decode_families(octets: &[u8]) -> Result<(Option<Self>, Option<Self>), DecodeError> {
        let entries = ffi::ip_blocks(octets).map_err(DecodeError::from_status)?;
        let (v4, v6) = entries.split_at(entries.iter().filter(|entry| entry.family == ffi::IPV4).count());
        Ok((IpResources::of(AddressFamily::Ipv4, v4), IpResources::of(AddressFamily::Ipv6, v6)))
    }

    /// The contents of the extension (RFC 3779 2.2.3), of which [decode_families](IpResources::decode_families) makes
    /// these resources; `None` where neither family has any.
    ///
    /// # Errors
    /// A block of `v4` begins or ends within an address of IP version 4: one of its ends differs in
    /// bits after the first 32 from the first and the last such address.
    ///
    /// ```
    /// use rpki_proved::repository::resources::{IpResources, Ipv4Blocks, Ipv6Blocks, OtherFamily};
    ///
    /// let v4 = IpResources::blocks("10.0.0.0/8".parse::<Ipv4Blocks>()?.into());
    /// let octets = IpResources::encode_families(&v4, &IpResources::inherit())?.unwrap();
    /// assert_eq!(IpResources::decode_families(&octets), Ok((Some(v4), Some(IpResources::inherit()))));
    ///
    /// let v6 = IpResources::blocks("2001:db8::-2001:db8::5".parse::<Ipv6Blocks>()?.into());
    /// assert_eq!(IpResources::encode_families(&v6, &v6), Err(OtherFamily));
    /// # Ok::<(), Box<dyn std::error::Error>>(())
    /// ```
    pub fn encode_families(v4: &Self, v6: &Self) -> Result<Option<Bytes>, OtherFamily> {
        if !v4.is_of(AddressFamily::Ipv4) {
            return Err(OtherFamily);
        }
        let families = [(AddressFamily::Ipv4, v4), (AddressFamily::Ipv6, v6)];
        let named: Vec<Bytes> =
            families.into_iter().filter_map(|(family, found)| found.encode_family(family)).collect();
        Ok((!named.is_empty()).then(|| value(SEQUENCE, &named.concat())))
    }

    /// Whether each block begins with the first bit of an address of the family, and ends with the last of one.
    fn is_of(&self, family: AddressFamily) -> bool {
        let width = family.width();
        let is_of = |(low, high): &Ends| Addr(*low).to_min(width).0 == *low && Addr(*high).to_max(width).0 == *high;
        match &self.0 {
            ResourcesChoice::Blocks(blocks) => blocks.0.iter().all(is_of),
            _ => true,
        }
    }

    /// The name of a family, and its addresses.
    fn encode_family(&self, family: AddressFamily) -> Option<Bytes> {
        let block = |ends: &Ends| encode::addresses(*ends, family.width());
        let choice = encode::choice(&self.0, |blocks| blocks.0.iter().map(block).collect())?;
        Some(value(SEQUENCE, &[value(OCTET_STRING, family.octets()), choice].concat()))
    }

    /// What the entries of a family say.
    fn of(family: AddressFamily, entries: &[ffi::IpBlock]) -> Option<Self> {
        let first = entries.first()?;
        if first.is_inherited {
            return Some(IpResources::inherit());
        }
        Some(IpResources::blocks(IpBlocks::of_entries(family, entries)))
    }

    /// None.
    pub fn missing() -> Self {
        IpResources(ResourcesChoice::Missing)
    }

    /// Those of the issuer.
    pub fn inherit() -> Self {
        IpResources(ResourcesChoice::Inherit)
    }

    /// These; none where there is no address.
    pub fn blocks(blocks: IpBlocks) -> Self {
        IpResources(if blocks.is_empty() { ResourcesChoice::Missing } else { ResourcesChoice::Blocks(blocks) })
    }

    /// Whether they are those of the issuer.
    pub fn is_inherited(&self) -> bool {
        self.0.is_inherited()
    }

    /// Whether there are any.
    pub fn is_present(&self) -> bool {
        self.0.is_present()
    }

    /// Which they are.
    #[must_use]
    pub fn as_choice(&self) -> &ResourcesChoice<IpBlocks> {
        &self.0
    }

    /// The addresses.
    ///
    /// # Errors
    /// Where they are those of the issuer.
    pub fn to_blocks(&self) -> Result<IpBlocks, InheritedResources> {
        self.0.to_blocks()
    }
}
