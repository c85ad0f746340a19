//! AS numbers, blocks of them, and what certificates have of them (RFC 3779 3).

use super::choice::{InheritedResources, ResourcesChoice};
use super::encode;
use super::numbers::{self, Ends};
use crate::encode::{value, CONSTRUCTED_0, SEQUENCE};
use crate::ffi;
use crate::repository::error::VerificationError;
use crate::view::DecodeError;
use bytes::Bytes;
use std::error::Error;
use std::fmt;
use std::hash::{Hash, Hasher};
use std::str::FromStr;

/// A text is no AS number, no block of them, or no list of blocks.
#[derive(Clone, Copy, Debug, PartialEq, Eq)]
pub struct ParseAsnError(());

impl fmt::Display for ParseAsnError {
    fn fmt(&self, f: &mut fmt::Formatter) -> fmt::Result {
        f.write_str("invalid AS number")
    }
}

impl Error for ParseAsnError {}

/// An AS number (RFC 6793).
///
/// ```
/// use rpki_proved::repository::resources::Asn;
///
/// assert_eq!(Asn::from_u32(64496).to_string(), "AS64496");
/// assert_eq!("as64496".parse(), Ok(Asn::from_u32(64496)));
/// ```
#[derive(Clone, Copy, Debug, Default, PartialEq, Eq, Hash, PartialOrd, Ord)]
pub struct Asn(u32);

impl Asn {
    /// The lowest number.
    pub const MIN: Asn = Asn(0);
    /// The highest number.
    pub const MAX: Asn = Asn(u32::MAX);

    /// The number.
    pub fn from_u32(value: u32) -> Self {
        Asn(value)
    }

    /// The number.
    pub fn into_u32(self) -> u32 {
        self.0
    }

    /// The octets of the number, the most significant first.
    pub fn to_raw(self) -> [u8; 4] {
        self.0.to_be_bytes()
    }
}

impl From<u32> for Asn {
    fn from(value: u32) -> Self {
        Asn(value)
    }
}

impl From<Asn> for u32 {
    fn from(value: Asn) -> Self {
        value.0
    }
}

/// Decimal digits, after `AS` in either case or without it.
impl FromStr for Asn {
    type Err = ParseAsnError;

    fn from_str(s: &str) -> Result<Self, ParseAsnError> {
        let digits = match s.get(..2) {
            Some(front) if front.eq_ignore_ascii_case("as") => &s[2..],
            _ => s,
        };
        if !digits.bytes().all(|digit| digit.is_ascii_digit()) {
            return Err(ParseAsnError(()));
        }
        digits.parse().map(Asn).map_err(|_| ParseAsnError(()))
    }
}

/// `AS64496`.
impl fmt::Display for Asn {
    fn fmt(&self, f: &mut fmt::Formatter) -> fmt::Result {
        write!(f, "AS{}", self.0)
    }
}

/// Serialized as the number; each other form has its functions, for `serialize_with` and `deserialize_with`.
#[cfg(feature = "serde")]
impl Asn {
    /// Writes the number.
    ///
    /// # Errors
    /// The serializer's.
    pub fn serialize_as_u32<S: serde::Serializer>(&self, serializer: S) -> Result<S::Ok, S::Error> {
        serializer.serialize_u32(self.0)
    }

    /// Writes the text, as `AS64496`.
    ///
    /// # Errors
    /// The serializer's.
    pub fn serialize_as_str<S: serde::Serializer>(&self, serializer: S) -> Result<S::Ok, S::Error> {
        serializer.collect_str(self)
    }

    /// Writes the digits, as a text.
    ///
    /// # Errors
    /// The serializer's.
    pub fn serialize_as_bare_str<S: serde::Serializer>(&self, serializer: S) -> Result<S::Ok, S::Error> {
        serializer.collect_str(&self.0)
    }

    /// Reads a number.
    ///
    /// # Errors
    /// The deserializer's; it is no number below 2^32.
    pub fn deserialize_from_u32<'de, D: serde::Deserializer<'de>>(deserializer: D) -> Result<Self, D::Error> {
        serde::Deserialize::deserialize(deserializer).map(Asn)
    }

    /// Reads a text, with `AS` or without.
    ///
    /// # Errors
    /// The deserializer's; the text is no AS number.
    pub fn deserialize_from_str<'de, D: serde::Deserializer<'de>>(deserializer: D) -> Result<Self, D::Error> {
        crate::texts::borrowed(deserializer, "an AS number", str::parse)
    }

    /// Reads a number, or a text, of a format that tells which it has.
    ///
    /// # Errors
    /// The deserializer's; it is neither.
    pub fn deserialize_from_any<'de, D: serde::Deserializer<'de>>(deserializer: D) -> Result<Self, D::Error> {
        struct Reading;

        impl serde::de::Visitor<'_> for Reading {
            type Value = Asn;

            fn expecting(&self, f: &mut fmt::Formatter) -> fmt::Result {
                f.write_str("an AS number")
            }

            fn visit_u64<E: serde::de::Error>(self, number: u64) -> Result<Asn, E> {
                number.try_into().map(Asn).map_err(E::custom)
            }

            fn visit_i64<E: serde::de::Error>(self, number: i64) -> Result<Asn, E> {
                number.try_into().map(Asn).map_err(E::custom)
            }

            fn visit_str<E: serde::de::Error>(self, text: &str) -> Result<Asn, E> {
                text.parse().map_err(E::custom)
            }
        }

        deserializer.deserialize_any(Reading)
    }
}

#[cfg(feature = "serde")]
impl serde::Serialize for Asn {
    fn serialize<S: serde::Serializer>(&self, serializer: S) -> Result<S::Ok, S::Error> {
        self.serialize_as_u32(serializer)
    }
}

#[cfg(feature = "serde")]
impl<'de> serde::Deserialize<'de> for Asn {
    fn deserialize<D: serde::Deserializer<'de>>(deserializer: D) -> Result<Self, D::Error> {
        Asn::deserialize_from_u32(deserializer)
    }
}

/// The AS numbers from one to another.
#[derive(Clone, Copy, Debug, PartialEq, Eq, Hash)]
pub struct AsRange {
    min: Asn,
    max: Asn,
}

impl AsRange {
    /// The numbers from the one to the other, of which either may be the lower.
    pub fn new(min: Asn, max: Asn) -> Self {
        AsRange { min: min.min(max), max: max.max(min) }
    }

    /// The lowest number.
    pub fn min(self) -> Asn {
        self.min
    }

    /// The highest number.
    pub fn max(self) -> Asn {
        self.max
    }
}

/// A block of AS numbers: one, or a range. Two are equal where their lowest and their highest numbers are.
#[derive(Clone, Copy, Debug)]
pub enum AsBlock {
    /// One number.
    Id(Asn),
    /// A range.
    Range(AsRange),
}

impl AsBlock {
    /// All numbers.
    pub fn all() -> AsBlock {
        AsBlock::Range(AsRange::new(Asn::MIN, Asn::MAX))
    }

    /// The lowest number.
    pub fn min(&self) -> Asn {
        match self {
            AsBlock::Id(id) => *id,
            AsBlock::Range(range) => range.min,
        }
    }

    /// The highest number.
    pub fn max(&self) -> Asn {
        match self {
            AsBlock::Id(id) => *id,
            AsBlock::Range(range) => range.max,
        }
    }

    /// How many numbers there are, up to 2^32 - 1.
    pub fn asn_count(&self) -> u32 {
        self.max().0.checked_sub(self.min().0).map_or(0, |more| more.saturating_add(1))
    }

    fn ends(&self) -> Ends {
        (self.min().0.into(), self.max().0.into())
    }

    fn of(min: u32, max: u32) -> AsBlock {
        if min == max {
            AsBlock::Id(Asn(min))
        } else {
            AsBlock::Range(AsRange::new(Asn(min), Asn(max)))
        }
    }
}

impl PartialEq for AsBlock {
    fn eq(&self, other: &AsBlock) -> bool {
        self.ends() == other.ends()
    }
}

impl Eq for AsBlock {}

/// As it is compared.
impl Hash for AsBlock {
    fn hash<H: Hasher>(&self, state: &mut H) {
        self.ends().hash(state);
    }
}

impl From<Asn> for AsBlock {
    fn from(id: Asn) -> Self {
        AsBlock::Id(id)
    }
}

impl From<AsRange> for AsBlock {
    fn from(range: AsRange) -> Self {
        AsBlock::Range(range)
    }
}

impl From<(Asn, Asn)> for AsBlock {
    fn from((min, max): (Asn, Asn)) -> Self {
        AsBlock::Range(AsRange::new(min, max))
    }
}

/// A number, or two with a hyphen between them, of which the second isn't below the first.
impl FromStr for AsBlock {
    type Err = ParseAsnError;

    fn from_str(s: &str) -> Result<Self, ParseAsnError> {
        match s.split_once('-') {
            None => s.parse().map(AsBlock::Id),
            Some((min, max)) => {
                let (min, max) = (Asn::from_str(min.trim())?, Asn::from_str(max.trim())?);
                if min > max {
                    return Err(ParseAsnError(()));
                }
                Ok(AsBlock::of(min.0, max.0))
            }
        }
    }
}

/// `AS64496`, or `AS1-AS5`.
impl fmt::Display for AsBlock {
    fn fmt(&self, f: &mut fmt::Formatter) -> fmt::Result {
        match self {
            AsBlock::Id(id) => id.fmt(f),
            AsBlock::Range(range) => write!(f, "{}-{}", range.min, range.max),
        }
    }
}

/// A set of AS numbers, as blocks in canonical form: so a set has one list.
///
/// ```
/// use rpki_proved::repository::resources::AsBlocks;
///
/// let blocks: AsBlocks = "AS7, AS1-AS3, AS4".parse()?;
/// assert_eq!(blocks.to_string(), "AS1-AS4, AS7");
/// assert!(blocks.contains(&"AS2-AS4".parse()?) && !blocks.contains(&"AS4-AS7".parse()?));
/// # Ok::<(), rpki_proved::repository::resources::ParseAsnError>(())
/// ```
#[derive(Clone, Debug, Default, PartialEq, Eq, Hash)]
pub struct AsBlocks(Vec<Ends>);

impl AsBlocks {
    /// No number.
    pub fn empty() -> Self {
        AsBlocks::default()
    }

    /// All numbers.
    pub fn all() -> Self {
        AsBlocks(vec![AsBlock::all().ends()])
    }

    /// Whether there is no number.
    pub fn is_empty(&self) -> bool {
        self.0.is_empty()
    }

    /// How the blocks are passed to the library.
    pub(crate) fn entries(&self) -> Vec<ffi::AsBlock> {
        let entry =
            |block: AsBlock| ffi::AsBlock { low: block.min().into(), high: block.max().into(), is_inherited: false };
        self.iter().map(entry).collect()
    }

    /// The numbers of these entries, none of which is inherited.
    pub(crate) fn of_entries(entries: &[ffi::AsBlock]) -> Self {
        AsBlocks(entries.iter().map(|entry| (entry.low.into(), entry.high.into())).collect())
    }

    /// A block as a number or a range (RFC 3779 3.2.3.6 to 3.2.3.8).
    fn encode_block((low, high): &Ends) -> Bytes {
        if low == high {
            return encode::number(*low);
        }
        value(SEQUENCE, &[encode::number(*low), encode::number(*high)].concat())
    }

    /// The blocks, in order.
    pub fn iter(&self) -> impl Iterator<Item = AsBlock> + '_ {
        // Ends are made of numbers below 2^32.
        self.0.iter().map(|(low, high)| AsBlock::of(*low as u32, *high as u32))
    }

    /// Whether each number of the other set is in this one.
    #[must_use]
    pub fn contains(&self, other: &Self) -> bool {
        numbers::is_part(&other.0, &self.0)
    }

    /// Whether each number of the block is in the set.
    #[must_use]
    pub fn contains_block(&self, block: impl Into<AsBlock>) -> bool {
        numbers::is_part(&[block.into().ends()], &self.0)
    }

    /// The numbers of both sets.
    #[must_use]
    pub fn intersection(&self, other: &Self) -> Self {
        AsBlocks(numbers::shared(&self.0, &other.0))
    }

    /// The numbers of one of the sets, or of both.
    #[must_use]
    pub fn union(&self, other: &Self) -> Self {
        AsBlocks(numbers::canonical([&self.0[..], &other.0[..]].concat()))
    }

    /// The numbers of this set that are not in the other.
    #[must_use]
    pub fn difference(&self, other: &Self) -> Self {
        AsBlocks(numbers::lacking(&self.0, &other.0))
    }
}

impl AsBlocks {
    /// Leaves the numbers that are in the other set too.
    pub fn intersection_assign(&mut self, other: &Self) {
        *self = self.intersection(other);
    }

    /// Checks that each number of the set is in the other, the issuer's.
    ///
    /// # Errors
    /// One isn't.
    pub fn verify_covered(&self, issuer: &Self) -> Result<(), VerificationError> {
        if issuer.contains(self) {
            Ok(())
        } else {
            Err(VerificationError::new("AS numbers that the issuer does not have"))
        }
    }

    /// The numbers, ascending. They may be 2^32: whoever takes them from what others wrote asks each of the
    /// [blocks](AsBlocks::iter) for its [AsBlock::asn_count] first.
    pub fn iter_asns(&self) -> impl Iterator<Item = Asn> + '_ {
        self.0.iter().flat_map(|(low, high)| *low as u32..=*high as u32).map(Asn)
    }
}

/// Blocks are put in one by one, in any order, and make a set.
#[derive(Clone, Debug, Default)]
pub struct AsBlocksBuilder(Vec<AsBlock>);

impl AsBlocksBuilder {
    /// No block yet.
    pub fn new() -> Self {
        AsBlocksBuilder::default()
    }

    /// Puts in a block.
    pub fn push(&mut self, block: impl Into<AsBlock>) {
        self.0.push(block.into());
    }

    /// The set of the blocks.
    #[must_use]
    pub fn finalize(self) -> AsBlocks {
        self.0.into_iter().collect()
    }
}

impl Extend<AsBlock> for AsBlocksBuilder {
    fn extend<I: IntoIterator<Item = AsBlock>>(&mut self, blocks: I) {
        self.0.extend(blocks);
    }
}

impl FromIterator<AsBlock> for AsBlocks {
    fn from_iter<I: IntoIterator<Item = AsBlock>>(iter: I) -> Self {
        AsBlocks(numbers::canonical(iter.into_iter().map(|block| block.ends()).collect()))
    }
}

/// Blocks with commas between them, in any order; none in an empty text.
impl FromStr for AsBlocks {
    type Err = ParseAsnError;

    fn from_str(s: &str) -> Result<Self, ParseAsnError> {
        if s.trim().is_empty() {
            return Ok(AsBlocks::empty());
        }
        s.split(',').map(|block| block.trim().parse()).collect::<Result<Vec<AsBlock>, _>>().map(AsBlocks::from_iter)
    }
}

/// The blocks, with a comma and a space between them.
impl fmt::Display for AsBlocks {
    fn fmt(&self, f: &mut fmt::Formatter) -> fmt::Result {
        for (number, block) in self.iter().enumerate() {
            write!(f, "{}{block}", if number > 0 { ", " } else { "" })?;
        }
        Ok(())
    }
}

/// The AS numbers of a certificate, as they are put together: none at first.
#[derive(Clone, Debug, Default)]
pub struct AsResourcesBuilder(Option<AsResources>);

impl AsResourcesBuilder {
    /// No numbers yet.
    pub fn new() -> Self {
        AsResourcesBuilder::default()
    }

    /// Those of the issuer, in place of what was there.
    pub fn inherit(&mut self) {
        self.0 = Some(AsResources::inherit());
    }

    /// Those that the function puts in, in place of what was there.
    pub fn blocks<F: FnOnce(&mut AsBlocksBuilder)>(&mut self, build: F) {
        let mut builder = AsBlocksBuilder::new();
        build(&mut builder);
        self.0 = Some(AsResources::blocks(builder.finalize()));
    }

    /// The numbers.
    #[must_use]
    pub fn finalize(self) -> AsResources {
        self.0.unwrap_or_else(AsResources::missing)
    }
}

/// The AS numbers of a certificate (RFC 3779 3).
#[derive(Clone, Debug, PartialEq, Eq, Hash)]
pub struct AsResources(ResourcesChoice<AsBlocks>);

impl AsResources {
    /// None, to be lent.
    pub(crate) const MISSING: &'static Self = &AsResources(ResourcesChoice::Missing);

    /// Reads the contents of the extension id-pe-autonomousSysIds (RFC 3779 3.2.3, RFC 6487 4.8.11).
    ///
    /// # Errors
    /// Why the octets are no such contents: what is wrong first, from the left.
    ///
    /// ```
    /// use rpki_proved::repository::resources::AsResources;
    ///
    /// let octets = b"\x30\x0c\xa0\x0a\x30\x08\x02\x02\x00\x87\x02\x02\x13\x89";
    /// assert_eq!(AsResources::decode(octets)?.to_string(), "AS135, AS5001");
    /// # Ok::<(), rpki_proved::DecodeError>(())
    /// ```
    pub fn decode(octets: &[u8]) -> Result<Self, DecodeError> {
        let entries = ffi::as_blocks(octets).map_err(DecodeError::from_status)?;
        if entries.iter().any(|entry| entry.is_inherited) {
            return Ok(AsResources::inherit());
        }
        Ok(AsResources::blocks(AsBlocks::of_entries(&entries)))
    }

    /// The contents of the extension (RFC 3779 3.2.3), of which [decode](AsResources::decode) makes these resources;
    /// `None` where there are none.
    ///
    /// ```
    /// use rpki_proved::repository::resources::AsResources;
    ///
    /// let numbers = AsResources::blocks("AS135, AS5001".parse()?);
    /// assert_eq!(numbers.encode().unwrap(), &b"\x30\x0c\xa0\x0a\x30\x08\x02\x02\x00\x87\x02\x02\x13\x89"[..]);
    /// # Ok::<(), rpki_proved::repository::resources::ParseAsnError>(())
    /// ```
    pub fn encode(&self) -> Option<Bytes> {
        let choice = encode::choice(&self.0, |blocks| blocks.0.iter().map(AsBlocks::encode_block).collect())?;
        Some(value(SEQUENCE, &value(CONSTRUCTED_0, &choice)))
    }

    /// None.
    pub fn missing() -> Self {
        AsResources(ResourcesChoice::Missing)
    }

    /// Those of the issuer.
    pub fn inherit() -> Self {
        AsResources(ResourcesChoice::Inherit)
    }

    /// These; none where there is no number.
    pub fn blocks(blocks: AsBlocks) -> Self {
        AsResources(if blocks.is_empty() { ResourcesChoice::Missing } else { ResourcesChoice::Blocks(blocks) })
    }

    /// Whether they are those of the issuer.
    pub fn is_inherited(&self) -> bool {
        self.0.is_inherited()
    }

    /// Whether there are any.
    pub fn is_present(&self) -> bool {
        self.0.is_present()
    }

    /// Which they are.
    #[must_use]
    pub fn as_choice(&self) -> &ResourcesChoice<AsBlocks> {
        &self.0
    }

    /// The numbers.
    ///
    /// # Errors
    /// Where they are those of the issuer.
    pub fn to_blocks(&self) -> Result<AsBlocks, InheritedResources> {
        self.0.to_blocks()
    }
}

/// `none`, `inherit`, or the blocks.
impl fmt::Display for AsResources {
    fn fmt(&self, f: &mut fmt::Formatter) -> fmt::Result {
        self.0.fmt(f)
    }
}
