//! The Unicode Bidirectional Algorithm ([UAX #9](https://www.unicode.org/reports/tr9/)): the order in which text with
//! Hebrew or Arabic in it is displayed.
//!
//! The crate has the names of the crate `unicode-bidi` 0.3.18, and can replace it. The algorithm is in a static library
//! that the crate contains. That library is written in Rattle, and proved to compute what UAX #9 says.
//!
//! ```
//! # #[cfg(feature = "hardcoded-data")] {
//! use unicode_bidi::BidiInfo;
//!
//! let info = BidiInfo::new("car (\u{5DE}\u{5DB}\u{5D5}\u{5E0}\u{5D9}\u{5EA}) 12", None);
//! let paragraph = &info.paragraphs[0];
//! assert_eq!(paragraph.level.number(), 0);
//!
//! let shown = info.reorder_line(paragraph, paragraph.range.clone());
//! assert_eq!(shown, "car (\u{5EA}\u{5D9}\u{5E0}\u{5D5}\u{5DB}\u{5DE}) 12");
//! # }
//! ```
//!
//! The module [`displayed`] has what that crate does not have: lines and texts as a device displays them, with mirrored
//! characters and both maps, paragraphs alone, and levels by classes without a text.
//!
//! Names such as L1, P2 and X9 are rules of UAX #9, revision 46. The library is for x86-64 Linux, and for processors of
//! level x86-64-v2.
//!
//! # Code units
//!
//! The types here take `str`, those of the module [`utf16`] take `[u16]`. Indexes and ranges count code units. A code
//! unit is a byte in `str`, and a `u16` in UTF-16. All code units of a character have its class and its level.
//!
//! # Panics
//!
//! A call that gets what it can't use panics. The message begins with the name of the fault in the C header, such as
//! `UNICODE_BIDI_CUT_CHARACTER`. If an allocation fails, a call ends as `Vec` does: by `handle_alloc_error`.
//!
//! # Threads
//!
//! A call keeps nothing afterwards. Any number of threads may call at the same time.
//!
//! # Features
//!
//! - `std` (default): links `std`. Without it the crate is `no_std` and needs `alloc`.
//! - `hardcoded-data` (default): the calls by Unicode's own classes, such as `BidiInfo::new` and `bidi_class`.
//! - `serde`, or `with_serde`: `Serialize` and `Deserialize` for [`Level`].
//! - `smallvec`: [`LevelRunVec`] is a `SmallVec`.
//! - `bench_it`, `flame_it` and `unstable`: nothing.

#![no_std]
#![deny(unsafe_code, missing_docs)]

extern crate alloc;
#[cfg(feature = "std")]
extern crate std;

#[macro_use]
mod info;

pub mod data_source;
pub mod deprecated;
pub mod displayed;
pub mod format_chars;
pub mod level;
pub mod utf16;

mod bidi_class;
#[allow(unsafe_code)]
mod ffi;
mod settings;
mod sources;
mod text;
mod utf8;

#[cfg(feature = "hardcoded-data")]
pub use crate::bidi_class::{bidi_class, HardcodedBidiData};
pub use crate::bidi_class::{BidiClass, UNICODE_VERSION};
pub use crate::data_source::BidiDataSource;
pub use crate::level::{Level, LTR_LEVEL, RTL_LEVEL};
pub use crate::text::TextSource;
pub use crate::utf8::{BidiInfo, InitialInfo, Paragraph, ParagraphBidiInfo, Utf8IndexLenIter};

use alloc::vec::Vec;
use core::ops::Range;

/// A range of code units that have one level.
pub type LevelRun = Range<usize>;

/// A list of level runs.
#[cfg(not(feature = "smallvec"))]
pub type LevelRunVec = Vec<LevelRun>;

/// A list of level runs, which does not allocate for up to eight.
#[cfg(feature = "smallvec")]
pub type LevelRunVec = smallvec::SmallVec<[LevelRun; 8]>;

/// The direction of a paragraph, or of a text.
#[derive(PartialEq, Debug)]
pub enum Direction {
    /// Left-to-right.
    Ltr,
    /// Right-to-left.
    Rtl,
    /// Of levels: some are even and some odd. Of a text: no character decides its base direction.
    Mixed,
}

/// A paragraph of a text.
#[derive(Clone, Debug, PartialEq)]
pub struct ParagraphInfo {
    /// The code units of the paragraph, including a separator that ends it.
    pub range: Range<usize>,

    /// The level of the paragraph (P3).
    pub level: Level,
}

impl ParagraphInfo {
    /// Returns the number of code units of the paragraph.
    ///
    /// # Panics
    ///
    /// Panics in a debug build if the range is reversed.
    #[allow(clippy::len_without_is_empty)]
    pub fn len(&self) -> usize {
        self.range.end - self.range.start
    }
}

/// Returns the base direction of the first paragraph, by Unicode's own data (P2, P3).
///
/// That is the direction of its first letter that is in no isolate. `Mixed` means that it has none. The call stops at
/// that letter and does not allocate.
#[cfg(feature = "hardcoded-data")]
#[track_caller]
pub fn get_base_direction<'a, T: TextSource<'a> + ?Sized>(text: &'a T) -> Direction {
    ffi::base_direction(text.units(), false)
}

/// Returns the base direction of the first paragraph that has one, by Unicode's own data.
#[cfg(feature = "hardcoded-data")]
#[track_caller]
pub fn get_base_direction_full<'a, T: TextSource<'a> + ?Sized>(text: &'a T) -> Direction {
    ffi::base_direction(text.units(), true)
}

/// Returns the base direction of the first paragraph, by a custom data source.
///
/// The source is asked about each character, up to some characters after the one that decides.
#[track_caller]
pub fn get_base_direction_with_data_source<'a, D: BidiDataSource, T: TextSource<'a> + ?Sized>(
    data_source: &D,
    text: &'a T,
) -> Direction {
    base_direction_by_source(data_source, text, false)
}

/// Returns the base direction of the first paragraph that has one, by a custom data source.
#[track_caller]
pub fn get_base_direction_full_with_data_source<
    'a,
    D: BidiDataSource,
    T: TextSource<'a> + ?Sized,
>(
    data_source: &D,
    text: &'a T,
) -> Direction {
    base_direction_by_source(data_source, text, true)
}

/// Asks the source about 64 characters, and then each time about as many more as before, until they decide. A text that
/// begins with characters that decide has the same direction as these.
#[track_caller]
fn base_direction_by_source<'a, D: BidiDataSource, T: TextSource<'a> + ?Sized>(
    data_source: &D,
    text: &'a T,
    full: bool,
) -> Direction {
    let mut characters = text.chars();
    let mut classes = Vec::new();
    loop {
        let known = classes.len();
        let more = characters.by_ref().take(known.max(64));
        classes.extend(more.map(|character| data_source.bidi_class(character)));
        let direction = ffi::base_direction_of_classes(&classes, full);
        if direction != Direction::Mixed || classes.len() == known {
            return direction;
        }
    }
}
