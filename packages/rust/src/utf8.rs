//! Texts of UTF-8.

use alloc::borrow::Cow;
use alloc::string::String;
use alloc::vec::Vec;
use core::ops::Range;
use core::str::{CharIndices, Chars};

use crate::displayed::AnalysedText;
use crate::ffi::{self, Analysis};
use crate::info::{self, Analysed};
use crate::level::has_rtl;
use crate::settings::{BaseLevel, Split};
use crate::sources;
use crate::text::private::Sealed;
use crate::{
    BidiClass, BidiDataSource, Direction, Level, LevelRun, ParagraphInfo, TextSource, LTR_LEVEL,
};

define_infos!(str);

impl Sealed for str {
    type Unit = u8;

    fn units(&self) -> &[u8] {
        self.as_bytes()
    }

    fn from_units(units: Vec<u8>) -> String {
        String::from_utf8(units).expect("the characters of a line are UTF-8 in any order")
    }
}

impl<'text> TextSource<'text> for str {
    type CharIter = Chars<'text>;
    type CharIndexIter = CharIndices<'text>;
    type IndexLenIter = Utf8IndexLenIter<'text>;

    fn len(&self) -> usize {
        self.len()
    }

    fn char_at(&self, index: usize) -> Option<(char, usize)> {
        let character = self.get(index..)?.chars().next()?;
        Some((character, character.len_utf8()))
    }

    fn subrange(&self, range: Range<usize>) -> &Self {
        &self[range]
    }

    fn chars(&'text self) -> Chars<'text> {
        self.chars()
    }

    fn char_indices(&'text self) -> CharIndices<'text> {
        self.char_indices()
    }

    fn indices_lengths(&'text self) -> Utf8IndexLenIter<'text> {
        Utf8IndexLenIter::new(self)
    }

    fn char_len(ch: char) -> usize {
        ch.len_utf8()
    }
}

/// Iterates over the index and the length of each character of a text, in bytes.
#[derive(Debug)]
pub struct Utf8IndexLenIter<'text> {
    characters: CharIndices<'text>,
}

impl<'text> Utf8IndexLenIter<'text> {
    /// Begins at the start of a text.
    pub fn new(text: &'text str) -> Self {
        Utf8IndexLenIter {
            characters: text.char_indices(),
        }
    }
}

impl Iterator for Utf8IndexLenIter<'_> {
    type Item = (usize, usize);

    #[inline]
    fn next(&mut self) -> Option<(usize, usize)> {
        let (index, character) = self.characters.next()?;
        Some((index, character.len_utf8()))
    }
}
