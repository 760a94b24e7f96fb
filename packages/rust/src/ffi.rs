//! The calls of the C library, as safe functions. All `unsafe` code of the crate is in this module.
//!
//! The header `unicode_bidi.h` describes the calls. The declarations here repeat its signatures, its structures and
//! its numbers.
//!
//! The library checks all its arguments except pointers. So a call is sound if each pointer points to as many elements
//! as the length behind it says, and if no buffer that it writes overlaps another argument. Pointers and lengths of
//! slices, and of the room in a vector, are so. A class that the library writes is one of the 23.

use alloc::alloc::{handle_alloc_error, Layout};
use alloc::vec;
use alloc::vec::Vec;
use core::convert::TryFrom;
use core::ops::Range;
use core::ptr::NonNull;
use core::slice;

#[cfg(feature = "hardcoded-data")]
use crate::bidi_class::CLASSES;
use crate::data_source::BidiMatchedOpeningBracket;
use crate::settings::{BaseLevel, Split};
use crate::{BidiClass, Direction, Level, LevelRun, ParagraphInfo, LTR_LEVEL};

const NO_MEMORY: i64 = -1;
const NO_ROOM: i64 = -12;

/// The faults, except `NO_MEMORY`.
const FAULTS: [(i64, &str); 14] = [
    (-2, "UNICODE_BIDI_NOT_UTF8: the text is not UTF-8"),
    (-3, "UNICODE_BIDI_NOT_SCALAR: a character is above U+10FFFF or a surrogate"),
    (-4, "UNICODE_BIDI_BAD_BASE_LEVEL: the level of a paragraph is above 125"),
    (-5, "UNICODE_BIDI_BAD_SPLIT: the number for the end of paragraphs is above 2"),
    (-6, "UNICODE_BIDI_BAD_CLASS: a class is above 22"),
    (-7, "UNICODE_BIDI_BAD_LEVEL: a level is above 126"),
    (-8, "UNICODE_BIDI_UNEQUAL_LENGTHS: lists with an entry for each unit do not have the same length"),
    (-9, "UNICODE_BIDI_BAD_LINE: the line is reversed or out of range"),
    (-10, "UNICODE_BIDI_CUT_CHARACTER: the line begins or ends inside a character"),
    (-11, "UNICODE_BIDI_UNEVEN_CHARACTER: the code units of one character differ in class or in level"),
    (NO_ROOM, "UNICODE_BIDI_NO_ROOM: a buffer is too short"),
    (-13, "UNICODE_BIDI_BAD_RANGES: the ranges of a table do not ascend"),
    (-14, "UNICODE_BIDI_BAD_BRACKET: there are too many different brackets"),
    (-15, "UNICODE_BIDI_BAD_FLAGS: there are no such options of a displayed line"),
];

/// The bit of a bracket's number if the bracket opens.
pub const OPENING: u32 = 0x8000_0000;

/// In place of the visual index of a character that is not displayed.
pub const NOWHERE: usize = usize::MAX;

/// A paragraph with its level.
#[repr(C)]
pub struct Paragraph {
    start: usize,
    end: usize,
    level: Level,
}

/// A visual run with its level.
#[repr(C)]
pub struct Run {
    start: usize,
    end: usize,
    _level: Level,
}

/// The classes and levels of a text, one a code unit, and its paragraphs.
pub struct Analysis {
    pub classes: Vec<BidiClass>,
    pub levels: Vec<Level>,
    pub paragraphs: Vec<ParagraphInfo>,
}

/// What is displayed: its code units, and both of its maps.
pub struct Displayed<U> {
    pub text: Vec<U>,
    pub order: Vec<usize>,
    pub places: Vec<usize>,
}

/// A line of a text with its classes and levels.
pub struct Line<'a, U> {
    pub text: &'a [U],
    pub classes: &'a [BidiClass],
    pub levels: &'a [Level],
    pub paragraph_level: Level,
    pub range: Range<usize>,
}

/// A code unit, with the calls over texts of such units. Each function returns what the call returns.
pub trait Unit: Copy + Default {
    /// Writes classes and levels, and as many paragraphs as there is capacity for.
    #[cfg(feature = "hardcoded-data")]
    fn analyse(
        text: &[Self],
        base: u8,
        split: Split,
        classes: &mut [BidiClass],
        levels: &mut [Level],
        paragraphs: &mut Vec<Paragraph>,
    ) -> i64;

    /// Writes classes, and as many paragraphs as there is capacity for.
    #[cfg(feature = "hardcoded-data")]
    fn paragraphs(
        text: &[Self],
        base: u8,
        split: Split,
        classes: &mut [BidiClass],
        paragraphs: &mut Vec<Paragraph>,
    ) -> i64;

    /// Writes what is displayed of a text, and how many characters are displayed, and how many there are.
    #[cfg(feature = "hardcoded-data")]
    fn display_text(
        text: &[Self],
        base: u8,
        split: Split,
        flags: u32,
        levels: &mut [Level],
        out: &mut Displayed<Self>,
        counts: &mut [usize; 2],
    ) -> i64;

    /// Returns the number of a direction.
    #[cfg(feature = "hardcoded-data")]
    fn first_direction(text: &[Self], full: bool) -> i64;

    /// Writes the levels, the runs and the text of a line. Skips a part without room.
    fn show_line(
        line: &Line<'_, Self>,
        levels: &mut [Level],
        runs: &mut Vec<Run>,
        shown: &mut [Self],
    ) -> i64;

    /// Writes what is displayed of a line, and how many characters are displayed, and how many there are.
    fn display_line(
        line: &Line<'_, Self>,
        flags: u32,
        out: &mut Displayed<Self>,
        counts: &mut [usize; 2],
    ) -> i64;
}

/// Declares the calls of an encoding, and implements `Unit` with them.
macro_rules! declare_encoding {
    (
        $unit:ty,
        $analyse:ident,
        $paragraphs:ident,
        $display_text:ident,
        $first_direction:ident,
        $show_line:ident,
        $display_line:ident
    ) => {
        extern "C" {
            #[cfg(feature = "hardcoded-data")]
            fn $analyse(
                text: *const $unit,
                text_len: usize,
                base: u8,
                split: Split,
                classes: *mut BidiClass,
                classes_len: usize,
                levels: *mut Level,
                levels_len: usize,
                paragraphs: *mut Paragraph,
                paragraphs_len: usize,
            ) -> i64;
            #[cfg(feature = "hardcoded-data")]
            fn $paragraphs(
                text: *const $unit,
                text_len: usize,
                base: u8,
                split: Split,
                classes: *mut BidiClass,
                classes_len: usize,
                paragraphs: *mut Paragraph,
                paragraphs_len: usize,
            ) -> i64;
            #[cfg(feature = "hardcoded-data")]
            fn $display_text(
                text: *const $unit,
                text_len: usize,
                base: u8,
                split: Split,
                flags: u32,
                levels: *mut Level,
                levels_len: usize,
                out: *mut $unit,
                out_len: usize,
                order: *mut usize,
                order_len: usize,
                places: *mut usize,
                places_len: usize,
                shown: *mut usize,
                characters: *mut usize,
            ) -> i64;
            #[cfg(feature = "hardcoded-data")]
            fn $first_direction(text: *const $unit, text_len: usize, full: u8) -> i64;
            fn $show_line(
                text: *const $unit,
                text_len: usize,
                classes: *const BidiClass,
                classes_len: usize,
                levels: *const Level,
                levels_len: usize,
                paragraph: *const Paragraph,
                start: usize,
                end: usize,
                line_levels: *mut Level,
                line_levels_len: usize,
                runs: *mut Run,
                runs_len: usize,
                order: *mut usize,
                order_len: usize,
                out: *mut $unit,
                out_len: usize,
                characters: *mut usize,
            ) -> i64;
            fn $display_line(
                text: *const $unit,
                text_len: usize,
                classes: *const BidiClass,
                classes_len: usize,
                levels: *const Level,
                levels_len: usize,
                paragraph: *const Paragraph,
                start: usize,
                end: usize,
                flags: u32,
                out: *mut $unit,
                out_len: usize,
                order: *mut usize,
                order_len: usize,
                places: *mut usize,
                places_len: usize,
                shown: *mut usize,
                characters: *mut usize,
            ) -> i64;
        }

        impl Unit for $unit {
            #[cfg(feature = "hardcoded-data")]
            fn analyse(
                text: &[$unit],
                base: u8,
                split: Split,
                classes: &mut [BidiClass],
                levels: &mut [Level],
                paragraphs: &mut Vec<Paragraph>,
            ) -> i64 {
                let room = paragraphs.capacity();
                // SAFETY: see the module. The call writes as many paragraphs as it returns, and no more than `room`.
                unsafe {
                    let result = $analyse(
                        text.as_ptr(),
                        text.len(),
                        base,
                        split,
                        classes.as_mut_ptr(),
                        classes.len(),
                        levels.as_mut_ptr(),
                        levels.len(),
                        paragraphs.as_mut_ptr(),
                        room,
                    );
                    paragraphs.set_len(written(result, room));
                    result
                }
            }

            #[cfg(feature = "hardcoded-data")]
            fn paragraphs(
                text: &[$unit],
                base: u8,
                split: Split,
                classes: &mut [BidiClass],
                paragraphs: &mut Vec<Paragraph>,
            ) -> i64 {
                let room = paragraphs.capacity();
                // SAFETY: see the module. The call writes as many paragraphs as it returns, and no more than `room`.
                unsafe {
                    let result = $paragraphs(
                        text.as_ptr(),
                        text.len(),
                        base,
                        split,
                        classes.as_mut_ptr(),
                        classes.len(),
                        paragraphs.as_mut_ptr(),
                        room,
                    );
                    paragraphs.set_len(written(result, room));
                    result
                }
            }

            #[cfg(feature = "hardcoded-data")]
            fn display_text(
                text: &[$unit],
                base: u8,
                split: Split,
                flags: u32,
                levels: &mut [Level],
                out: &mut Displayed<$unit>,
                counts: &mut [usize; 2],
            ) -> i64 {
                let [shown, characters] = counts;
                // SAFETY: see the module.
                unsafe {
                    $display_text(
                        text.as_ptr(),
                        text.len(),
                        base,
                        split,
                        flags,
                        levels.as_mut_ptr(),
                        levels.len(),
                        out.text.as_mut_ptr(),
                        out.text.len(),
                        out.order.as_mut_ptr(),
                        out.order.len(),
                        out.places.as_mut_ptr(),
                        out.places.len(),
                        shown,
                        characters,
                    )
                }
            }

            #[cfg(feature = "hardcoded-data")]
            fn first_direction(text: &[$unit], full: bool) -> i64 {
                // SAFETY: see the module.
                unsafe { $first_direction(text.as_ptr(), text.len(), full as u8) }
            }

            fn show_line(
                line: &Line<'_, $unit>,
                levels: &mut [Level],
                runs: &mut Vec<Run>,
                shown: &mut [$unit],
            ) -> i64 {
                let paragraph = line.paragraph();
                let room = runs.capacity();
                let mut characters = 0;
                // SAFETY: see the module. The call writes as many runs as it returns, and no more than `room`.
                unsafe {
                    let result = $show_line(
                        line.text.as_ptr(),
                        line.text.len(),
                        line.classes.as_ptr(),
                        line.classes.len(),
                        line.levels.as_ptr(),
                        line.levels.len(),
                        &paragraph,
                        line.range.start,
                        line.range.end,
                        levels.as_mut_ptr(),
                        levels.len(),
                        runs.as_mut_ptr(),
                        room,
                        NonNull::dangling().as_ptr(),
                        0,
                        shown.as_mut_ptr(),
                        shown.len(),
                        &mut characters,
                    );
                    runs.set_len(written(result, room));
                    result
                }
            }

            fn display_line(
                line: &Line<'_, $unit>,
                flags: u32,
                out: &mut Displayed<$unit>,
                counts: &mut [usize; 2],
            ) -> i64 {
                let paragraph = line.paragraph();
                let [shown, characters] = counts;
                // SAFETY: see the module.
                unsafe {
                    $display_line(
                        line.text.as_ptr(),
                        line.text.len(),
                        line.classes.as_ptr(),
                        line.classes.len(),
                        line.levels.as_ptr(),
                        line.levels.len(),
                        &paragraph,
                        line.range.start,
                        line.range.end,
                        flags,
                        out.text.as_mut_ptr(),
                        out.text.len(),
                        out.order.as_mut_ptr(),
                        out.order.len(),
                        out.places.as_mut_ptr(),
                        out.places.len(),
                        shown,
                        characters,
                    )
                }
            }
        }
    };
}

declare_encoding!(
    u8,
    unicode_bidi_analyse_utf8,
    unicode_bidi_paragraphs_utf8,
    unicode_bidi_display_text_utf8,
    unicode_bidi_first_direction_utf8,
    unicode_bidi_show_line_utf8,
    unicode_bidi_display_line_utf8
);

declare_encoding!(
    u16,
    unicode_bidi_analyse_utf16,
    unicode_bidi_paragraphs_utf16,
    unicode_bidi_display_text_utf16,
    unicode_bidi_first_direction_utf16,
    unicode_bidi_show_line_utf16,
    unicode_bidi_display_line_utf16
);

extern "C" {
    fn unicode_bidi_analyse_classes(
        classes: *const BidiClass,
        classes_len: usize,
        brackets: *const u32,
        brackets_len: usize,
        base: u8,
        split: Split,
        stored: *mut BidiClass,
        stored_len: usize,
        levels: *mut Level,
        levels_len: usize,
        paragraphs: *mut Paragraph,
        paragraphs_len: usize,
    ) -> i64;
    fn unicode_bidi_line_order(
        classes: *const BidiClass,
        classes_len: usize,
        levels: *const Level,
        levels_len: usize,
        paragraph: *const Paragraph,
        start: usize,
        end: usize,
        flags: u32,
        order: *mut usize,
        order_len: usize,
        places: *mut usize,
        places_len: usize,
    ) -> i64;
    fn unicode_bidi_places(
        order: *const usize,
        order_len: usize,
        places: *mut usize,
        places_len: usize,
    ) -> i64;
    fn unicode_bidi_line_runs(
        classes: *const BidiClass,
        classes_len: usize,
        levels: *const Level,
        levels_len: usize,
        paragraph: *const Paragraph,
        start: usize,
        end: usize,
        runs: *mut Run,
        runs_len: usize,
    ) -> i64;
    fn unicode_bidi_reorder_visual(
        levels: *const Level,
        levels_len: usize,
        order: *mut usize,
        order_len: usize,
    ) -> i64;
    #[cfg(feature = "hardcoded-data")]
    fn unicode_bidi_class_of(character: u32) -> i64;
    fn unicode_bidi_bracket_of(character: u32) -> i64;
    fn unicode_bidi_base_direction_of_classes(
        classes: *const BidiClass,
        classes_len: usize,
        full: u8,
    ) -> i64;
}

/// Analyses a text by Unicode's own data.
#[cfg(feature = "hardcoded-data")]
#[track_caller]
pub fn analyse<U: Unit>(text: &[U], base: BaseLevel, split: Split) -> Analysis {
    let mut classes = vec![BidiClass::L; text.len()];
    let mut levels = vec![LTR_LEVEL; text.len()];
    let paragraphs = with_paragraphs(text.len(), split, |paragraphs| {
        let (classes, levels) = (&mut classes, &mut levels);
        U::analyse(text, base.number(), split, classes, levels, paragraphs)
    });
    Analysis {
        classes,
        levels,
        paragraphs,
    }
}

/// Returns the classes and paragraphs of a text by Unicode's own data.
#[cfg(feature = "hardcoded-data")]
#[track_caller]
pub fn paragraphs<U: Unit>(
    text: &[U],
    base: BaseLevel,
    split: Split,
) -> (Vec<BidiClass>, Vec<ParagraphInfo>) {
    let mut classes = vec![BidiClass::L; text.len()];
    let paragraphs = with_paragraphs(text.len(), split, |paragraphs| {
        U::paragraphs(text, base.number(), split, &mut classes, paragraphs)
    });
    (classes, paragraphs)
}

/// Analyses characters by their classes and brackets. `brackets` is empty or has a number for each character.
#[track_caller]
pub fn analyse_classes(
    classes: &[BidiClass],
    brackets: &[u32],
    base: BaseLevel,
    split: Split,
) -> Analysis {
    let mut stored = vec![BidiClass::L; classes.len()];
    let mut levels = vec![LTR_LEVEL; classes.len()];
    let paragraphs = with_paragraphs(classes.len(), split, |paragraphs| {
        let room = paragraphs.capacity();
        // SAFETY: see the module. The call writes as many paragraphs as it returns, and no more than `room`.
        unsafe {
            let result = unicode_bidi_analyse_classes(
                classes.as_ptr(),
                classes.len(),
                brackets.as_ptr(),
                brackets.len(),
                base.number(),
                split,
                stored.as_mut_ptr(),
                stored.len(),
                levels.as_mut_ptr(),
                levels.len(),
                paragraphs.as_mut_ptr(),
                room,
            );
            paragraphs.set_len(written(result, room));
            result
        }
    });
    Analysis {
        classes: stored,
        levels,
        paragraphs,
    }
}

/// Returns the paragraphs that a call over so many code units writes, as many as there is capacity for. If there are more,
/// it is called again.
#[track_caller]
fn with_paragraphs(
    units: usize,
    split: Split,
    mut call: impl FnMut(&mut Vec<Paragraph>) -> i64,
) -> Vec<ParagraphInfo> {
    let mut paragraphs = Vec::with_capacity(usual_paragraphs(units, split));
    let mut result = call(&mut paragraphs);
    if result == NO_ROOM {
        paragraphs.reserve(units);
        result = call(&mut paragraphs);
    }
    checked(result, units);
    paragraphs.iter().map(Paragraph::info).collect()
}

/// How many paragraphs a text of so many code units usually has at most. It can have one a code unit, but a buffer for
/// so many would be 24 times as long as the text.
fn usual_paragraphs(units: usize, split: Split) -> usize {
    match split {
        Split::OneParagraph => 1,
        Split::EachSeparator | Split::CrLfTogether => 8 + units / 8,
    }
}

/// Analyses a text by Unicode's own data and displays it. Returns its levels after L1, and what is displayed.
#[cfg(feature = "hardcoded-data")]
#[track_caller]
pub fn display_text<U: Unit>(
    text: &[U],
    base: BaseLevel,
    split: Split,
    flags: u32,
) -> (Vec<Level>, Displayed<U>) {
    let mut levels = vec![LTR_LEVEL; text.len()];
    let displayed = with_displayed(text.len(), |out, counts| {
        U::display_text(text, base.number(), split, flags, &mut levels, out, counts)
    });
    (levels, displayed)
}

/// Returns what a call over so many code units writes. It also writes the numbers of entries of both maps.
#[track_caller]
fn with_displayed<U: Unit>(
    units: usize,
    call: impl FnOnce(&mut Displayed<U>, &mut [usize; 2]) -> i64,
) -> Displayed<U> {
    let mut displayed = Displayed {
        text: vec![U::default(); 2 * units],
        order: vec![0; units],
        places: vec![0; units],
    };
    let mut counts = [0; 2];
    let length = checked(call(&mut displayed, &mut counts), units);
    let [shown, characters] = counts;
    displayed.text.truncate(length);
    displayed.order.truncate(shown);
    displayed.places.truncate(characters);
    displayed
}

/// Returns both maps of a line by classes and levels alone.
#[track_caller]
pub fn line_order(
    classes: &[BidiClass],
    levels: &[Level],
    paragraph_level: Level,
    line: Range<usize>,
    flags: u32,
) -> (Vec<usize>, Vec<usize>) {
    let paragraph = Paragraph {
        start: 0,
        end: classes.len(),
        level: paragraph_level,
    };
    let room = line.len().min(classes.len());
    let (mut order, mut places) = (vec![0; room], vec![0; room]);
    // SAFETY: see the module.
    let result = unsafe {
        unicode_bidi_line_order(
            classes.as_ptr(),
            classes.len(),
            levels.as_ptr(),
            levels.len(),
            &paragraph,
            line.start,
            line.end,
            flags,
            order.as_mut_ptr(),
            order.len(),
            places.as_mut_ptr(),
            places.len(),
        )
    };
    order.truncate(checked(result, classes.len()));
    (order, places)
}

/// Returns the inverse of a map, for so many characters.
pub fn places(order: &[usize], characters: usize) -> Vec<usize> {
    let mut places = vec![NOWHERE; characters];
    // SAFETY: see the module.
    let result = unsafe {
        unicode_bidi_places(
            order.as_ptr(),
            order.len(),
            places.as_mut_ptr(),
            places.len(),
        )
    };
    checked(result, characters);
    places
}

/// Returns the base direction of a text by Unicode's own data (P2, P3).
#[cfg(feature = "hardcoded-data")]
#[track_caller]
pub fn base_direction<U: Unit>(text: &[U], full: bool) -> Direction {
    direction(checked(U::first_direction(text, full), text.len()))
}

/// Returns the base direction of a list of classes, one a character (P2, P3).
#[track_caller]
pub fn base_direction_of_classes(classes: &[BidiClass], full: bool) -> Direction {
    // SAFETY: see the module.
    let result = unsafe {
        unicode_bidi_base_direction_of_classes(classes.as_ptr(), classes.len(), full as u8)
    };
    direction(checked(result, classes.len()))
}

impl<U: Unit> Line<'_, U> {
    /// Writes the levels of the line after L1.
    #[track_caller]
    pub fn write_levels(&self, levels: &mut [Level]) {
        checked(
            U::show_line(self, levels, &mut Vec::new(), &mut []),
            self.text.len(),
        );
    }

    /// Writes the levels of the line after L1, and returns its runs in visual order (L2).
    #[track_caller]
    pub fn write_levels_and_runs(&self, levels: &mut [Level]) -> Vec<LevelRun> {
        let mut runs = Vec::with_capacity(self.room());
        checked(
            U::show_line(self, levels, &mut runs, &mut []),
            self.text.len(),
        );
        runs.iter().map(Run::range).collect()
    }

    /// Returns the levels of the line after L1, and its text in visual order (L2).
    #[track_caller]
    pub fn levels_and_text(&self) -> (Vec<Level>, Vec<U>) {
        let mut levels = vec![LTR_LEVEL; self.room()];
        let mut shown = vec![U::default(); self.room()];
        checked(
            U::show_line(self, &mut levels, &mut Vec::new(), &mut shown),
            self.text.len(),
        );
        (levels, shown)
    }

    /// Returns what is displayed of the line.
    #[track_caller]
    pub fn display(&self, flags: u32) -> Displayed<U> {
        with_displayed(self.room(), |out, counts| {
            U::display_line(self, flags, out, counts)
        })
    }

    /// The code units of the line. A line that the library rejects has at most as many as the text.
    fn room(&self) -> usize {
        self.range.len().min(self.text.len())
    }

    /// The whole text as a paragraph of the line's paragraph level, so that the line may be anywhere.
    fn paragraph(&self) -> Paragraph {
        Paragraph {
            start: 0,
            end: self.classes.len(),
            level: self.paragraph_level,
        }
    }
}

/// Returns the runs of a range of levels in visual order (L2). `classes` has the length of `levels`.
#[track_caller]
pub fn runs_of_levels(
    classes: &[BidiClass],
    levels: &[Level],
    range: Range<usize>,
) -> Vec<LevelRun> {
    let paragraph = Paragraph {
        start: 0,
        end: levels.len(),
        level: LTR_LEVEL,
    };
    let room = range.len().min(levels.len());
    let mut runs = Vec::<Run>::with_capacity(room);
    // SAFETY: see the module. The call writes as many runs as it returns, and no more than `room`.
    unsafe {
        let result = unicode_bidi_line_runs(
            classes.as_ptr(),
            classes.len(),
            levels.as_ptr(),
            levels.len(),
            &paragraph,
            range.start,
            range.end,
            runs.as_mut_ptr(),
            room,
        );
        runs.set_len(written(result, room));
        checked(result, levels.len());
    }
    runs.iter().map(Run::range).collect()
}

/// Returns the index of the item at each visual position, by the levels of the items (L2).
#[track_caller]
pub fn reorder_visual(levels: &[Level]) -> Vec<usize> {
    let mut order = vec![0; levels.len()];
    // SAFETY: see the module.
    let result = unsafe {
        unicode_bidi_reorder_visual(
            levels.as_ptr(),
            levels.len(),
            order.as_mut_ptr(),
            order.len(),
        )
    };
    checked(result, levels.len());
    order
}

/// Returns the class of a character in Unicode's own data.
#[cfg(feature = "hardcoded-data")]
pub fn class_of(character: char) -> BidiClass {
    // SAFETY: the call takes no pointer.
    let result = unsafe { unicode_bidi_class_of(u32::from(character)) };
    CLASSES[checked(result, 1)]
}

/// Returns the bracket that a character is in Unicode's own data.
pub fn bracket_of(character: char) -> Option<BidiMatchedOpeningBracket> {
    // SAFETY: the call takes no pointer.
    let result = unsafe { unicode_bidi_bracket_of(u32::from(character)) };
    let bracket = u32::try_from(checked(result, 1)).expect("a bracket has 32 bits");
    if bracket == 0 {
        return None;
    }
    Some(BidiMatchedOpeningBracket {
        opening: char::try_from(bracket & !OPENING).expect("a normal form is a character"),
        is_open: bracket & OPENING != 0,
    })
}

/// Returns the numbers as levels, without a check.
pub fn levels_of_numbers(numbers: &[u8]) -> &[Level] {
    // SAFETY: `Level` is transparent over `u8`, and each number is a value of it. The result borrows the same memory.
    unsafe { slice::from_raw_parts(numbers.as_ptr() as *const Level, numbers.len()) }
}

impl Paragraph {
    fn info(&self) -> ParagraphInfo {
        ParagraphInfo {
            range: self.start..self.end,
            level: self.level,
        }
    }
}

impl Run {
    fn range(&self) -> LevelRun {
        self.start..self.end
    }
}

fn direction(number: usize) -> Direction {
    match number {
        0 => Direction::Ltr,
        1 => Direction::Rtl,
        _ => Direction::Mixed,
    }
}

/// How many elements a call has written to a buffer with room for so many: as many as it returns, and none after a
/// fault. A buffer without room is not written.
fn written(result: i64, room: usize) -> usize {
    usize::try_from(result).map_or(0, |count| count.min(room))
}

/// Returns what a call over so many code units has returned. If it is a fault, panics with its name. If it is a failed
/// allocation, ends the program as a failed allocation of `alloc` does.
#[track_caller]
fn checked(result: i64, units: usize) -> usize {
    match usize::try_from(result) {
        Ok(number) => number,
        Err(_) => fail(result, units),
    }
}

#[cold]
#[track_caller]
fn fail(fault: i64, units: usize) -> ! {
    if fault == NO_MEMORY {
        // The library does not say how much it asked for. The size here is that of an index for each code unit.
        handle_alloc_error(Layout::array::<usize>(units).unwrap_or_else(|_| Layout::new::<usize>()))
    }
    match FAULTS.iter().find(|named| named.0 == fault) {
        Some(named) => panic!("{}", named.1),
        None => panic!("the library returned {}, which is no fault", fault),
    }
}
