//! The same types for texts of UTF-16, in the byte order of the machine.
//!
//! Indexes count `u16`s. An unpaired surrogate is allowed, and is the character U+FFFD. In the text of a line it is
//! unchanged if its level is even, and becomes U+FFFD if its level is odd.

use alloc::borrow::Cow;
use alloc::vec::Vec;
use core::char::{self, REPLACEMENT_CHARACTER};
use core::ops::Range;

use crate::displayed::AnalysedText;
use crate::ffi::{self, Analysis};
use crate::info::{self, Analysed};
use crate::level::has_rtl;
use crate::settings::{BaseLevel, Split};
use crate::sources;
use crate::text::private::Sealed;
use crate::{
    BidiClass, BidiDataSource, Direction, Level, LevelRun, ParagraphInfo, TextSource, LTR_LEVEL,
};

define_infos!([u16]);

impl Sealed for [u16] {
    type Unit = u16;

    fn units(&self) -> &[u16] {
        self
    }

    fn from_units(units: Vec<u16>) -> Vec<u16> {
        units
    }
}

/// Returns the first character and its length, of a text that is not empty.
#[inline]
fn first_char(text: &[u16]) -> Option<(char, usize)> {
    let decoded = char::decode_utf16(text.iter().copied()).next()?;
    let character = decoded.unwrap_or(REPLACEMENT_CHARACTER);
    Some((character, character.len_utf16()))
}

fn is_pair(high: u16, low: u16) -> bool {
    (0xD800..0xDC00).contains(&high) && (0xDC00..0xE000).contains(&low)
}

impl<'text> TextSource<'text> for [u16] {
    type CharIter = Utf16CharIter<'text>;
    type CharIndexIter = Utf16CharIndexIter<'text>;
    type IndexLenIter = Utf16IndexLenIter<'text>;

    fn len(&self) -> usize {
        self.len()
    }

    fn char_at(&self, index: usize) -> Option<(char, usize)> {
        let rest = self.get(index..)?;
        let is_inside = index > 0 && !rest.is_empty() && is_pair(self[index - 1], self[index]);
        if is_inside {
            return None;
        }
        first_char(rest)
    }

    fn subrange(&self, range: Range<usize>) -> &Self {
        &self[range]
    }

    fn chars(&'text self) -> Utf16CharIter<'text> {
        Utf16CharIter::new(self)
    }

    fn char_indices(&'text self) -> Utf16CharIndexIter<'text> {
        Utf16CharIndexIter::new(self)
    }

    fn indices_lengths(&'text self) -> Utf16IndexLenIter<'text> {
        Utf16IndexLenIter::new(self)
    }

    fn char_len(ch: char) -> usize {
        ch.len_utf16()
    }
}

/// Iterates over the characters of a text, from both ends.
#[derive(Debug)]
pub struct Utf16CharIter<'text> {
    rest: &'text [u16],
}

impl<'text> Utf16CharIter<'text> {
    /// Begins with the whole text.
    pub fn new(text: &'text [u16]) -> Self {
        Utf16CharIter { rest: text }
    }
}

impl Iterator for Utf16CharIter<'_> {
    type Item = char;

    #[inline]
    fn next(&mut self) -> Option<char> {
        let (character, len) = first_char(self.rest)?;
        self.rest = &self.rest[len..];
        Some(character)
    }
}

impl DoubleEndedIterator for Utf16CharIter<'_> {
    fn next_back(&mut self) -> Option<char> {
        let last = self.rest.len().checked_sub(1)?;
        let start = if last > 0 && is_pair(self.rest[last - 1], self.rest[last]) {
            last - 1
        } else {
            last
        };
        let (character, _) = first_char(&self.rest[start..])?;
        self.rest = &self.rest[..start];
        Some(character)
    }
}

/// Iterates over the characters of a text, each with the index of its first code unit.
#[derive(Debug)]
pub struct Utf16CharIndexIter<'text> {
    text: &'text [u16],
    index: usize,
}

impl<'text> Utf16CharIndexIter<'text> {
    /// Begins at the start of a text.
    pub fn new(text: &'text [u16]) -> Self {
        Utf16CharIndexIter { text, index: 0 }
    }
}

impl Iterator for Utf16CharIndexIter<'_> {
    type Item = (usize, char);

    #[inline]
    fn next(&mut self) -> Option<(usize, char)> {
        let index = self.index;
        let (character, len) = first_char(&self.text[index..])?;
        self.index += len;
        Some((index, character))
    }
}

/// Iterates over the index and the length of each character of a text.
#[derive(Debug)]
pub struct Utf16IndexLenIter<'text> {
    characters: Utf16CharIndexIter<'text>,
}

impl<'text> Utf16IndexLenIter<'text> {
    /// Begins at the start of a text.
    pub fn new(text: &'text [u16]) -> Self {
        Utf16IndexLenIter {
            characters: Utf16CharIndexIter::new(text),
        }
    }
}

impl Iterator for Utf16IndexLenIter<'_> {
    type Item = (usize, usize);

    #[inline]
    fn next(&mut self) -> Option<(usize, usize)> {
        let (index, character) = self.characters.next()?;
        Some((index, character.len_utf16()))
    }
}
