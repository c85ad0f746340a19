//! AS numbers, and sets of them.

pub use crate::repository::resources::{Asn, ParseAsnError};

/// A small set of AS numbers.
///
/// ```
/// use rpki_proved::resources::{Asn, SmallAsnSet};
///
/// let [one, two, three] = [1, 2, 3].map(Asn::from_u32);
/// let set: SmallAsnSet = [two, one, two].into_iter().collect();
/// let numbers: Vec<Asn> = set.iter().collect();
/// assert_eq!(numbers, [one, two]);
/// assert!(set.contains(one) && !set.contains(three));
/// ```
#[derive(Clone, Debug, Default, PartialEq, Eq, Hash)]
pub struct SmallAsnSet(Vec<Asn>);

impl SmallAsnSet {
    /// How many numbers there are.
    pub fn len(&self) -> usize {
        self.0.len()
    }

    /// Whether there is none.
    pub fn is_empty(&self) -> bool {
        self.0.is_empty()
    }

    /// The numbers, ascending.
    pub fn iter(&self) -> std::iter::Copied<std::slice::Iter<'_, Asn>> {
        self.0.iter().copied()
    }

    /// Whether this number is in the set.
    #[must_use]
    pub fn contains(&self, asn: Asn) -> bool {
        self.0.binary_search(&asn).is_ok()
    }
}

impl FromIterator<Asn> for SmallAsnSet {
    fn from_iter<I: IntoIterator<Item = Asn>>(numbers: I) -> Self {
        let mut numbers: Vec<Asn> = numbers.into_iter().collect();
        numbers.sort_unstable();
        numbers.dedup();
        SmallAsnSet(numbers)
    }
}

impl<'a> IntoIterator for &'a SmallAsnSet {
    type Item = Asn;
    type IntoIter = std::iter::Copied<std::slice::Iter<'a, Asn>>;

    fn into_iter(self) -> Self::IntoIter {
        self.iter()
    }
}
