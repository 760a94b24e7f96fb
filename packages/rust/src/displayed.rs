//! Lines and texts as a device displays them, with both maps, and other calls that unicode-bidi 0.3.18 does not have.
//!
//! [`line()`] displays a line of an analysed text, and `text` analyses a text and displays it. `BidiInfo::reorder_line`
//! returns the characters of a line in visual order (L2). The calls here also mirror characters (L4), keep marks behind
//! their letters (L3) and leave out controls, by [`DisplayOptions`].
//!
//! ```
//! # #[cfg(feature = "hardcoded-data")] {
//! use unicode_bidi::displayed::{self, DisplayOptions};
//! use unicode_bidi::BidiInfo;
//!
//! let info = BidiInfo::new("(\u{5D0}\u{5D1}) a", None);
//! let paragraph = &info.paragraphs[0];
//! let options = DisplayOptions::default();
//! let line = displayed::line(&info, paragraph.level, paragraph.range.clone(), options);
//! assert_eq!(line.text, "a (\u{5D1}\u{5D0})");
//! // The last character is displayed first.
//! assert_eq!(line.order[0], 5);
//! assert_eq!(line.places[5], Some(0));
//! # }
//! ```
//!
//! Texts, classes and levels have an entry for each code unit. Both maps of a line or a text have an entry for each
//! character, and their indexes count characters.

use alloc::borrow::ToOwned;
use alloc::vec::Vec;
use core::ops::Range;

use crate::data_source::BidiMatchedOpeningBracket;
use crate::ffi::{self, Analysis};
use crate::sources::NormalForms;
use crate::text::private::Sealed;
use crate::{BidiClass, Level, ParagraphInfo, TextSource};

pub use crate::settings::{BaseLevel, Split};

/// What L2 moves as a whole. The characters of a cluster stay in the order of the text, at every level.
#[derive(Clone, Copy, Debug, PartialEq, Eq)]
#[repr(u8)]
pub enum Moves {
    /// Each character (L2).
    Characters = 0,
    /// A character with the nonspacing marks (NSM) that follow it at its level (L3).
    Marks = 1,
    /// A grapheme cluster (UAX #29) of the displayed characters.
    Clusters = 2,
}

/// Which characters are not displayed.
///
/// The twelve direction controls are ALM, LRM, RLM, LRE, RLE, PDF, LRO, RLO, LRI, RLI, FSI and PDI.
#[derive(Clone, Copy, Debug, PartialEq, Eq)]
#[repr(u8)]
pub enum Dropped {
    /// All characters are displayed.
    Nothing = 0,
    /// The twelve direction controls.
    Controls = 8,
    /// The same and the characters of class BN. Those are ZWJ and ZWNJ among others, which emoji and Persian words need.
    BoundaryNeutrals = 16,
}

/// How a line or a text is displayed.
#[derive(Clone, Copy, Debug, PartialEq, Eq)]
pub struct DisplayOptions {
    /// What L2 moves as a whole.
    pub moves: Moves,
    /// Whether characters at odd levels are displayed as their partners in Unicode's data (L4).
    pub mirror: bool,
    /// Which characters are not displayed.
    pub dropped: Dropped,
}

impl DisplayOptions {
    /// Returns the number of the options in the library.
    fn flags(self) -> u32 {
        self.moves as u32 + if self.mirror { 4 } else { 0 } + self.dropped as u32
    }
}

impl Default for DisplayOptions {
    /// Grapheme clusters move, characters are mirrored, and the twelve direction controls are not displayed.
    fn default() -> DisplayOptions {
        DisplayOptions {
            moves: Moves::Clusters,
            mirror: true,
            dropped: Dropped::Controls,
        }
    }
}

/// A displayed line. `S` is `String`, or `Vec<u16>` in UTF-16. The maps count from the line's first character.
#[derive(Clone, Debug, PartialEq, Eq)]
pub struct DisplayedLine<S> {
    /// The displayed characters from left to right.
    pub text: S,
    /// The index of the character at each visual index.
    pub order: Vec<usize>,
    /// The visual index of each character, or `None` if it is not displayed.
    pub places: Vec<Option<usize>>,
}

/// A displayed text. `S` is `String`, or `Vec<u16>` in UTF-16. The maps count from the text's first character.
#[derive(Clone, Debug, PartialEq, Eq)]
pub struct DisplayedText<S> {
    /// The displayed characters from left to right, one paragraph after another.
    pub text: S,
    /// The level of each code unit after L1.
    pub levels: Vec<Level>,
    /// The index of the character at each visual index.
    pub order: Vec<usize>,
    /// The visual index of each character, or `None` if it is not displayed.
    pub places: Vec<Option<usize>>,
}

/// The two maps of a line, from [`line_order`]. They count from the line's first character.
#[derive(Clone, Debug, PartialEq, Eq)]
pub struct Maps {
    /// The index of the character at each visual index.
    pub order: Vec<usize>,
    /// The visual index of each character.
    pub places: Vec<Option<usize>>,
}

/// The paragraphs of a text, from `paragraphs`.
#[derive(Clone, Debug, PartialEq)]
pub struct FoundParagraphs {
    /// The class of each code unit. An FSI has the class RLI or LRI if a character decides its direction (X5c).
    pub classes: Vec<BidiClass>,
    /// The paragraphs in the order of the text.
    pub paragraphs: Vec<ParagraphInfo>,
}

/// The analysis of a list of classes, from [`analyse_classes`].
#[derive(Clone, Debug, PartialEq)]
pub struct AnalysedClasses {
    /// The class of each character. An FSI has the class RLI or LRI if a character decides its direction (X5c).
    pub classes: Vec<BidiClass>,
    /// The level of each character (X1 to I2), before L1.
    pub levels: Vec<Level>,
    /// The paragraphs, with ranges that count characters.
    pub paragraphs: Vec<ParagraphInfo>,
}

/// An analysed text: `BidiInfo` or `ParagraphBidiInfo`, in UTF-8 or in UTF-16. No other type can implement it.
pub trait AnalysedText<'text> {
    /// The type of the text.
    type Text: TextSource<'text> + ?Sized;

    /// Returns a line, for the library.
    #[doc(hidden)]
    fn line(
        &self,
        paragraph_level: Level,
        range: Range<usize>,
    ) -> ffi::Line<'_, <Self::Text as Sealed>::Unit>;
}

/// Returns a line as a device displays it (L1 to L4), with both maps.
///
/// The line is a range of code units of the text. L1 uses the level of its paragraph. In UTF-16 an unpaired surrogate
/// becomes U+FFFD. The cost is that of the line, and the call allocates a few hundred bytes for each character.
///
/// # Panics
///
/// Panics if the line is out of range or reversed, or if it begins or ends inside a character. Panics with the name of
/// the fault if the fields of the analysis were changed so that they fit no more.
#[track_caller]
pub fn line<'text, A: AnalysedText<'text>>(
    info: &A,
    paragraph_level: Level,
    line: Range<usize>,
    options: DisplayOptions,
) -> DisplayedLine<<A::Text as ToOwned>::Owned> {
    let displayed = info.line(paragraph_level, line).display(options.flags());
    DisplayedLine {
        text: A::Text::from_units(displayed.text),
        order: displayed.order,
        places: places_of(&displayed.places),
    }
}

/// Analyses a text by Unicode's own data and displays it, each paragraph as one line (P1 to L4), with both maps.
///
/// The paragraphs follow one another. The separators at the end of a paragraph stay behind its displayed content. In
/// UTF-16 an unpaired surrogate becomes U+FFFD.
///
/// # Panics
///
/// Panics with `UNICODE_BIDI_BAD_BASE_LEVEL` if the base level is 126.
#[cfg(feature = "hardcoded-data")]
#[track_caller]
pub fn text<'text, T: TextSource<'text> + ?Sized>(
    text: &'text T,
    base: BaseLevel,
    split: Split,
    options: DisplayOptions,
) -> DisplayedText<T::Owned> {
    let (levels, displayed) = ffi::display_text(text.units(), base, split, options.flags());
    DisplayedText {
        text: T::from_units(displayed.text),
        levels,
        order: displayed.order,
        places: places_of(&displayed.places),
    }
}

/// Returns the paragraphs of a text by Unicode's own data, with their levels (P1 to P3), and the class of each code unit.
///
/// The call takes less time than an analysis.
///
/// # Panics
///
/// Panics with `UNICODE_BIDI_BAD_BASE_LEVEL` if the base level is 126.
#[cfg(feature = "hardcoded-data")]
#[track_caller]
pub fn paragraphs<'text, T: TextSource<'text> + ?Sized>(
    text: &'text T,
    base: BaseLevel,
    split: Split,
) -> FoundParagraphs {
    let (classes, paragraphs) = ffi::paragraphs(text.units(), base, split);
    FoundParagraphs {
        classes,
        paragraphs,
    }
}

/// Returns the levels and paragraphs of characters that have these classes and brackets, without a text.
///
/// `brackets` has an entry for each character, as [`bidi_matched_opening_bracket`] returns it, or is empty: then no
/// character is a bracket. A bracket counts only where the class is ON. A paragraph ends after each class B, unless the
/// list is one paragraph.
///
/// [`bidi_matched_opening_bracket`]: crate::BidiDataSource::bidi_matched_opening_bracket
///
/// # Panics
///
/// Panics with `UNICODE_BIDI_UNEQUAL_LENGTHS` if there are brackets, but not one entry for each class, and with
/// `UNICODE_BIDI_BAD_BASE_LEVEL` if the base level is 126.
#[track_caller]
pub fn analyse_classes(
    classes: &[BidiClass],
    brackets: &[Option<BidiMatchedOpeningBracket>],
    base: BaseLevel,
    split: Split,
) -> AnalysedClasses {
    let mut forms = NormalForms::default();
    let brackets: Vec<u32> = brackets
        .iter()
        .map(|&bracket| forms.number_of(bracket))
        .collect();
    let Analysis {
        classes,
        levels,
        paragraphs,
    } = ffi::analyse_classes(classes, &brackets, base, split);
    AnalysedClasses {
        classes,
        levels,
        paragraphs,
    }
}

/// Returns both maps of a line (L1 to L3), by the classes and levels of characters alone, without a text.
///
/// The line is a range of characters. L1 uses the level of its paragraph.
///
/// # Panics
///
/// Panics with `UNICODE_BIDI_UNEQUAL_LENGTHS` if there are not as many levels as classes, with `UNICODE_BIDI_BAD_LINE` if
/// the line is out of range or reversed, and with `UNICODE_BIDI_BAD_FLAGS` for [`Moves::Clusters`], which need a text.
#[track_caller]
pub fn line_order(
    classes: &[BidiClass],
    levels: &[Level],
    paragraph_level: Level,
    line: Range<usize>,
    moves: Moves,
) -> Maps {
    let (order, places) = ffi::line_order(classes, levels, paragraph_level, line, moves as u32);
    Maps {
        order,
        places: places_of(&places),
    }
}

/// Returns the inverse of a map, for so many characters: the first visual index at which `order` has each of them.
///
/// A character that `order` does not have is `None`. Entries of `order` that are not below `characters` are passed over.
pub fn places(order: &[usize], characters: usize) -> Vec<Option<usize>> {
    places_of(&ffi::places(order, characters))
}

/// Returns places as the library writes them.
fn places_of(places: &[usize]) -> Vec<Option<usize>> {
    let places = places.iter();
    places
        .map(|&place| {
            if place == ffi::NOWHERE {
                None
            } else {
                Some(place)
            }
        })
        .collect()
}
