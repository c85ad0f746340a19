//! The index of a value's headers.

use crate::ffi;
use crate::view::der::Class;
use crate::view::error::DecodeError;

/// A value and all that is nested in it, to any depth, by its headers: an entry for each, in order of place.
///
/// ```
/// use rpki_proved::view::{DecodeError, Index};
///
/// // A SEQUENCE of an INTEGER and a SEQUENCE of a NULL.
/// let index = Index::of(b"\x30\x07\x02\x01\x2a\x30\x02\x05\x00")?;
/// let numbers: Vec<u32> = index.root().children().map(|child| child.number()).collect();
/// assert_eq!(numbers, [2, 16]);
/// assert_eq!(index.root().child(0).unwrap().contents(), b"\x2a");
/// assert_eq!(index.len(), 4);
/// # Ok::<(), DecodeError>(())
/// ```
#[derive(Clone)]
pub struct Index<'a> {
    octets: &'a [u8],
    entries: Vec<ffi::Entry>,
}

impl<'a> Index<'a> {
    /// Makes the index of the value at the front of the octets. More may follow it: [`Index::octets`] are those of the
    /// value. Takes 40 octets a header, and up to 96 more while it is made; nothing where there is no value.
    ///
    /// # Errors
    /// Those of [`walk`](crate::view::walk); `OutOfMemory` also where there is no room for the entries.
    pub fn of(octets: &'a [u8]) -> Result<Index<'a>, DecodeError> {
        let entries = ffi::index(octets).map_err(DecodeError::from_status)?;
        Ok(Index { octets: &octets[..entries[0].end], entries })
    }

    /// The octets of the value.
    pub fn octets(&self) -> &'a [u8] {
        self.octets
    }

    /// How many headers there are: one or more.
    #[allow(clippy::len_without_is_empty)]
    pub fn len(&self) -> usize {
        self.entries.len()
    }

    /// The entry of the value itself.
    pub fn root(&self) -> Entry<'a, '_> {
        Entry { index: self, place: 0 }
    }

    /// The entry of this number, from 0 on in order of place.
    pub fn get(&self, place: usize) -> Option<Entry<'a, '_>> {
        (place < self.entries.len()).then_some(Entry { index: self, place })
    }

    /// All entries, in order of place: a value before those that are in it.
    pub fn entries(&self) -> Entries<'a, '_> {
        Entries { index: self, next: 0, end: self.entries.len(), nested: true }
    }
}

impl std::fmt::Debug for Index<'_> {
    fn fmt(&self, f: &mut std::fmt::Formatter) -> std::fmt::Result {
        f.debug_list().entries(self.entries()).finish()
    }
}

/// A header of an index, and the value that it begins.
#[derive(Clone, Copy)]
pub struct Entry<'a, 'i> {
    index: &'i Index<'a>,
    place: usize,
}

impl<'a, 'i> Entry<'a, 'i> {
    fn raw(&self) -> &'i ffi::Entry {
        &self.index.entries[self.place]
    }

    /// The number of the entry in its index.
    pub fn place(&self) -> usize {
        self.place
    }

    /// Where the header begins, counted from the first octet of the index.
    pub fn start(&self) -> usize {
        self.raw().start
    }

    /// The class of the tag.
    pub fn class(&self) -> Class {
        Class::from_number(self.raw().tag_class)
    }

    /// The number of the tag.
    pub fn number(&self) -> u32 {
        self.raw().number
    }

    /// Whether the contents are values, which then have entries.
    pub fn is_constructed(&self) -> bool {
        self.raw().constructed
    }

    /// The octets of the value, its header included.
    pub fn octets(&self) -> &'a [u8] {
        &self.index.octets[self.raw().start..self.raw().end]
    }

    /// The contents octets of the value.
    pub fn contents(&self) -> &'a [u8] {
        &self.index.octets[self.raw().contents..self.raw().end]
    }

    /// The entry of the value around this one; `None` for the first.
    #[must_use]
    pub fn parent(&self) -> Option<Entry<'a, 'i>> {
        let place = self.raw().parent;
        (place != ffi::NO_PARENT).then_some(Entry { place, ..*self })
    }

    /// The entries of the values that are the contents, in order; none of a primitive value.
    pub fn children(&self) -> Entries<'a, 'i> {
        Entries { nested: false, ..self.descendants() }
    }

    /// The child of this number, from 0 on.
    pub fn child(&self, number: usize) -> Option<Entry<'a, 'i>> {
        self.children().nth(number)
    }

    /// The entries of all values in the contents, at any depth, in order of place.
    pub fn descendants(&self) -> Entries<'a, 'i> {
        Entries { index: self.index, next: self.place + 1, end: self.past(), nested: true }
    }

    /// The number of the first entry after this value and all that is in it.
    fn past(&self) -> usize {
        let end = self.raw().end;
        let after = &self.index.entries[self.place + 1..];
        self.place + 1 + after.partition_point(|entry| entry.start < end)
    }
}

impl std::fmt::Debug for Entry<'_, '_> {
    fn fmt(&self, f: &mut std::fmt::Formatter) -> std::fmt::Result {
        f.debug_struct("Entry")
            .field("class", &self.class())
            .field("number", &self.number())
            .field("constructed", &self.is_constructed())
            .field("start", &self.raw().start)
            .field("contents", &self.raw().contents)
            .field("end", &self.raw().end)
            .finish()
    }
}

/// Entries of an index, in order of place.
#[derive(Clone, Debug)]
pub struct Entries<'a, 'i> {
    index: &'i Index<'a>,
    next: usize,
    end: usize,
    /// Whether what is in an entry comes after it.
    nested: bool,
}

impl<'a, 'i> Iterator for Entries<'a, 'i> {
    type Item = Entry<'a, 'i>;

    fn next(&mut self) -> Option<Entry<'a, 'i>> {
        if self.next >= self.end {
            return None;
        }
        let entry = Entry { index: self.index, place: self.next };
        self.next = if self.nested { self.next + 1 } else { entry.past() };
        Some(entry)
    }
}
