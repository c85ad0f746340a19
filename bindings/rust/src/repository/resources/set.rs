//! What a certificate has of all three kinds.

use super::{AsBlocks, Asn, InheritedResources, IpBlocks, Ipv4Blocks, Ipv6Blocks, ParseAsnError};
use super::{AsResources, FromStrError, IpResources};
use crate::repository::cert::{Cert, ResourceCert};
use std::error::Error;
use std::fmt;

/// A set of AS numbers and one of addresses of each family.
///
/// ```
/// use rpki_proved::repository::resources::ResourceSet;
///
/// let all = ResourceSet::new("AS1-AS9".parse()?, "10.0.0.0/8".parse()?, "2001:db8::/32".parse()?);
/// let part = ResourceSet::new("AS5".parse()?, "10.1.0.0/16".parse()?, "".parse()?);
/// assert!(all.contains(&part) && !part.contains(&all));
/// assert_eq!(all.intersection(&part), part);
/// # Ok::<(), Box<dyn std::error::Error>>(())
/// ```
#[derive(Clone, Debug, Default, PartialEq, Eq, Hash)]
#[cfg_attr(feature = "serde", derive(serde::Serialize, serde::Deserialize))]
pub struct ResourceSet {
    asn: AsBlocks,
    #[cfg_attr(feature = "serde", serde(alias = "v4"))]
    ipv4: Ipv4Blocks,
    #[cfg_attr(feature = "serde", serde(alias = "v6"))]
    ipv6: Ipv6Blocks,
}

impl ResourceSet {
    /// These.
    pub fn new(asn: AsBlocks, ipv4: Ipv4Blocks, ipv6: Ipv6Blocks) -> Self {
        ResourceSet { asn, ipv4, ipv6 }
    }

    /// Those of three texts.
    ///
    /// # Errors
    /// The first that is no list of blocks of its kind.
    pub fn from_strs(asn: &str, ipv4: &str, ipv6: &str) -> Result<Self, ParseResourcesError> {
        Ok(ResourceSet::new(asn.parse()?, ipv4.parse()?, ipv6.parse()?))
    }

    /// None.
    pub fn empty() -> Self {
        ResourceSet::default()
    }

    /// All.
    pub fn all() -> Self {
        ResourceSet::new(AsBlocks::all(), IpBlocks::all().into(), IpBlocks::all().into())
    }

    /// The AS numbers.
    pub fn asn(&self) -> &AsBlocks {
        &self.asn
    }

    /// The addresses of IP version 4.
    pub fn ipv4(&self) -> &Ipv4Blocks {
        &self.ipv4
    }

    /// The addresses of IP version 6.
    pub fn ipv6(&self) -> &Ipv6Blocks {
        &self.ipv6
    }

    /// The AS numbers, as a certificate has them.
    #[must_use]
    pub fn to_as_resources(&self) -> AsResources {
        AsResources::blocks(self.asn.clone())
    }

    /// The addresses of IP version 4, as a certificate has them.
    #[must_use]
    pub fn to_ip_resources_v4(&self) -> IpResources {
        IpResources::blocks(self.ipv4.clone().into())
    }

    /// The addresses of IP version 6, as a certificate has them.
    #[must_use]
    pub fn to_ip_resources_v6(&self) -> IpResources {
        IpResources::blocks(self.ipv6.clone().into())
    }

    /// Whether there are none.
    pub fn is_empty(&self) -> bool {
        self.asn.is_empty() && self.ipv4.is_empty() && self.ipv6.is_empty()
    }

    /// Whether all of the other set are in this one.
    #[must_use]
    pub fn contains(&self, other: &ResourceSet) -> bool {
        self.asn.contains(&other.asn) && self.ipv4.contains(&other.ipv4) && self.ipv6.contains(&other.ipv6)
    }

    /// Whether this AS number is in the set.
    #[must_use]
    pub fn contains_asn(&self, asn: Asn) -> bool {
        self.asn.contains_block(asn)
    }

    /// Those of one of the sets, or of both.
    #[must_use]
    pub fn union(&self, other: &ResourceSet) -> Self {
        let (v4, v6) = (self.ipv4.union(&other.ipv4), self.ipv6.union(&other.ipv6));
        ResourceSet::new(self.asn.union(&other.asn), v4.into(), v6.into())
    }

    /// Those of both sets.
    #[must_use]
    pub fn intersection(&self, other: &ResourceSet) -> Self {
        let (v4, v6) = (self.ipv4.intersection(&other.ipv4), self.ipv6.intersection(&other.ipv6));
        ResourceSet::new(self.asn.intersection(&other.asn), v4.into(), v6.into())
    }

    /// Those of this set that are not in the other.
    #[must_use]
    pub fn difference(&self, other: &ResourceSet) -> Self {
        let (v4, v6) = (self.ipv4.difference(&other.ipv4), self.ipv6.difference(&other.ipv6));
        ResourceSet::new(self.asn.difference(&other.asn), v4.into(), v6.into())
    }
}

/// What a certificate claims. Whether it has it, [ResourceCert] says.
impl TryFrom<&Cert> for ResourceSet {
    type Error = InheritedResources;

    /// Fails where the certificate claims those of its issuer.
    fn try_from(cert: &Cert) -> Result<Self, InheritedResources> {
        let (v4, v6) = (cert.v4_resources().to_blocks()?, cert.v6_resources().to_blocks()?);
        Ok(ResourceSet::new(cert.as_resources().to_blocks()?, v4.into(), v6.into()))
    }
}

/// A text is no list of blocks.
#[derive(Clone, Copy, Debug, PartialEq, Eq)]
pub enum ParseResourcesError {
    /// Of AS numbers.
    Asn(ParseAsnError),
    /// Of addresses.
    Ip(FromStrError),
}

impl From<ParseAsnError> for ParseResourcesError {
    fn from(error: ParseAsnError) -> Self {
        ParseResourcesError::Asn(error)
    }
}

impl From<FromStrError> for ParseResourcesError {
    fn from(error: FromStrError) -> Self {
        ParseResourcesError::Ip(error)
    }
}

impl fmt::Display for ParseResourcesError {
    fn fmt(&self, f: &mut fmt::Formatter) -> fmt::Result {
        match self {
            ParseResourcesError::Asn(error) => error.fmt(f),
            ParseResourcesError::Ip(error) => error.fmt(f),
        }
    }
}

impl Error for ParseResourcesError {}

/// What a valid certificate has.
impl From<&ResourceCert> for ResourceSet {
    fn from(cert: &ResourceCert) -> Self {
        let (v4, v6) = (cert.v4_resources().clone(), cert.v6_resources().clone());
        ResourceSet::new(cert.as_resources().clone(), v4.into(), v6.into())
    }
}

/// The three sets: `asn: 'AS1-AS9', ipv4: '10.0.0.0/8', ipv6: '2001:db8::/32'`.
impl fmt::Display for ResourceSet {
    fn fmt(&self, f: &mut fmt::Formatter) -> fmt::Result {
        write!(f, "asn: '{}', ipv4: '{}', ipv6: '{}'", self.asn, self.ipv4, self.ipv6)
    }
}
