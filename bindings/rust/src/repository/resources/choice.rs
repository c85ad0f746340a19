//! Resources of one kind: those of the issuer, or a list (RFC 3779 2.2.3.4, 3.2.3.2).

use std::error::Error;
use std::fmt;

/// Resources of one kind.
#[derive(Clone, Debug, PartialEq, Eq, Hash)]
pub enum ResourcesChoice<T> {
    /// None: the kind isn't named.
    Missing,
    /// Those of the issuer.
    Inherit,
    /// These.
    Blocks(T),
}

/// Resources are those of the issuer, and not told.
#[derive(Clone, Copy, Debug, PartialEq, Eq)]
pub struct InheritedResources;

impl fmt::Display for InheritedResources {
    fn fmt(&self, f: &mut fmt::Formatter) -> fmt::Result {
        f.write_str("inherited resources")
    }
}

impl Error for InheritedResources {}

impl<T> ResourcesChoice<T> {
    /// Whether they are those of the issuer.
    pub fn is_inherited(&self) -> bool {
        matches!(self, ResourcesChoice::Inherit)
    }

    /// Whether the kind is named.
    pub fn is_present(&self) -> bool {
        !matches!(self, ResourcesChoice::Missing)
    }

    /// The same of what the function makes of the blocks.
    #[must_use]
    pub fn map_blocks<U, F: FnOnce(T) -> U>(self, op: F) -> ResourcesChoice<U> {
        match self {
            ResourcesChoice::Missing => ResourcesChoice::Missing,
            ResourcesChoice::Inherit => ResourcesChoice::Inherit,
            ResourcesChoice::Blocks(blocks) => ResourcesChoice::Blocks(op(blocks)),
        }
    }

    /// The blocks; none where the kind isn't named.
    ///
    /// # Errors
    /// Where they are those of the issuer.
    pub fn to_blocks(&self) -> Result<T, InheritedResources>
    where
        T: Clone + Default,
    {
        match self {
            ResourcesChoice::Missing => Ok(T::default()),
            ResourcesChoice::Inherit => Err(InheritedResources),
            ResourcesChoice::Blocks(blocks) => Ok(blocks.clone()),
        }
    }
}

/// `none`, `inherit`, or the blocks.
impl<T: fmt::Display> fmt::Display for ResourcesChoice<T> {
    fn fmt(&self, f: &mut fmt::Formatter) -> fmt::Result {
        match self {
            ResourcesChoice::Missing => f.write_str("none"),
            ResourcesChoice::Inherit => f.write_str("inherit"),
            ResourcesChoice::Blocks(blocks) => blocks.fmt(f),
        }
    }
}
