//! The texts that the crate takes.

use core::ops::Range;

/// A text: `str`, or `[u16]` for UTF-16.
///
/// The trait is sealed: no other type can implement it. Indexes and lengths count code units, which are bytes in UTF-8.
/// In UTF-16 an unpaired surrogate is allowed, and is the character U+FFFD.
pub trait TextSource<'text>: private::Sealed {
    /// Iterates over the characters.
    type CharIter: Iterator<Item = char>;
    /// Iterates over the characters, each with the index of its first code unit.
    type CharIndexIter: Iterator<Item = (usize, char)>;
    /// Iterates over the index and the length of each character.
    type IndexLenIter: Iterator<Item = (usize, usize)>;

    /// Returns the number of code units.
    #[doc(hidden)]
    fn len(&self) -> usize;

    /// Returns the character that begins at a code unit, and its length. Returns `None` if none begins there.
    #[doc(hidden)]
    fn char_at(&self, index: usize) -> Option<(char, usize)>;

    /// Returns a part of the text. Panics if it is out of range or, in UTF-8, cuts a character.
    #[doc(hidden)]
    fn subrange(&self, range: Range<usize>) -> &Self;

    /// Iterates over the characters.
    #[doc(hidden)]
    fn chars(&'text self) -> Self::CharIter;

    /// Iterates over the characters, each with the index of its first code unit.
    #[doc(hidden)]
    fn char_indices(&'text self) -> Self::CharIndexIter;

    /// Iterates over the index and the length of each character.
    #[doc(hidden)]
    fn indices_lengths(&'text self) -> Self::IndexLenIter;

    /// Returns the number of code units of a character.
    #[doc(hidden)]
    fn char_len(ch: char) -> usize;
}

pub(crate) mod private {
    use alloc::borrow::ToOwned;
    use alloc::vec::Vec;

    use crate::ffi;

    /// What the crate needs of a text to pass it to the library.
    pub trait Sealed: ToOwned {
        /// A code unit.
        type Unit: ffi::Unit;

        /// Returns the code units.
        fn units(&self) -> &[Self::Unit];

        /// Returns the text of code units that the library has written.
        fn from_units(units: Vec<Self::Unit>) -> Self::Owned;
    }
}
