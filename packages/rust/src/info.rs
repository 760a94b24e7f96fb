//! What the analyses of both encodings have in common.

use alloc::borrow::Cow;
use alloc::vec;
use alloc::vec::Vec;
use core::ops::Range;

use crate::ffi;
use crate::level::has_rtl;
use crate::{BidiClass, Direction, Level, LevelRun, ParagraphInfo, TextSource};

/// Gives each paragraph a level, if there is one, even if it is 126.
pub(crate) fn set_levels(paragraphs: &mut [ParagraphInfo], level: Option<Level>) {
    if let Some(level) = level {
        for paragraph in paragraphs {
            paragraph.level = level;
        }
    }
}

/// Returns whether no character has a class that can make a paragraph of level 0 other than left-to-right.
pub(crate) fn is_pure_ltr(classes: &[BidiClass]) -> bool {
    use BidiClass::*;
    !classes
        .iter()
        .any(|class| matches!(class, R | AL | AN | LRE | RLE | LRO | RLO | LRI | RLI | FSI))
}

/// Returns the direction of a paragraph with these levels. Without any level it is `Rtl`.
pub(crate) fn direction_of(levels: &[Level]) -> Direction {
    match (levels.iter().any(Level::is_ltr), has_rtl(levels)) {
        (true, true) => Direction::Mixed,
        (true, false) => Direction::Ltr,
        (false, _) => Direction::Rtl,
    }
}

/// Returns the runs of a line, which the library has found. It finds none in an empty line, but the crate returns the
/// line itself.
#[track_caller]
pub(crate) fn runs_of_line(runs: Vec<LevelRun>, line: Range<usize>, units: usize) -> Vec<LevelRun> {
    if !line.is_empty() {
        return runs;
    }
    assert!(
        line.start < units,
        "an empty line at the end of the text has no visual run"
    );
    vec![line]
}

/// An analysed text, to display lines of it that belong to a paragraph of some level.
pub(crate) struct Analysed<'a, 'text, T: ?Sized> {
    pub text: &'text T,
    pub classes: &'a [BidiClass],
    pub levels: &'a [Level],
    pub paragraph_level: Level,
}

impl<'a, 'text: 'a, T: TextSource<'text> + ?Sized> Analysed<'a, 'text, T> {
    pub fn line(&self, range: Range<usize>) -> ffi::Line<'a, T::Unit> {
        ffi::Line {
            text: self.text.units(),
            classes: self.classes,
            levels: self.levels,
            paragraph_level: self.paragraph_level,
            range,
        }
    }

    #[track_caller]
    pub fn reordered_levels(&self, line: Range<usize>) -> Vec<Level> {
        let mut levels = self.levels.to_vec();
        let of_line = levels.get_mut(line.clone()).unwrap_or_default();
        self.line(line).write_levels(of_line);
        levels
    }

    #[track_caller]
    pub fn reordered_levels_per_char(&self, line: Range<usize>) -> Vec<Level> {
        let levels = self.reordered_levels(line);
        self.text
            .char_indices()
            .map(|(index, _)| levels[index])
            .collect()
    }

    #[track_caller]
    pub fn visual_runs(&self, line: Range<usize>) -> (Vec<Level>, Vec<LevelRun>) {
        let mut levels = self.levels.to_vec();
        let of_line = levels.get_mut(line.clone()).unwrap_or_default();
        let runs = self.line(line.clone()).write_levels_and_runs(of_line);
        let runs = runs_of_line(runs, line, levels.len());
        (levels, runs)
    }

    #[track_caller]
    pub fn reorder_line(&self, line: Range<usize>) -> Cow<'text, T> {
        let (levels, shown) = self.line(line.clone()).levels_and_text();
        if has_rtl(&levels) {
            Cow::Owned(T::from_units(shown))
        } else {
            Cow::Borrowed(self.text.subrange(line))
        }
    }
}

/// Defines what the two types of an analysed text have in common: lines of it that belong to a paragraph of some level.
macro_rules! define_analysed {
    ($Info:ident, $Text:ty) => {
        impl<'text> $Info<'text> {
            fn analysed_at(&self, paragraph_level: Level) -> Analysed<'_, 'text, $Text> {
                Analysed {
                    text: self.text,
                    classes: &self.original_classes,
                    levels: &self.levels,
                    paragraph_level,
                }
            }
        }

        impl<'text> AnalysedText<'text> for $Info<'text> {
            type Text = $Text;

            fn line(
                &self,
                paragraph_level: Level,
                range: Range<usize>,
            ) -> ffi::Line<'_, <$Text as Sealed>::Unit> {
                self.analysed_at(paragraph_level).line(range)
            }
        }
    };
}

/// Defines the types of an analysis for texts of the type `$Text`.
macro_rules! define_infos {
    ($Text:ty) => {
        /// The classes and paragraphs of a text, without its levels.
        #[derive(PartialEq, Debug)]
        pub struct InitialInfo<'text> {
            /// The text.
            pub text: &'text $Text,

            /// The class of each code unit, which is the class of its character. An FSI has the class RLI or LRI if a
            /// character decides its direction (X5c).
            pub original_classes: Vec<BidiClass>,

            /// The paragraphs in the order of the text.
            pub paragraphs: Vec<ParagraphInfo>,
        }

        impl<'text> InitialInfo<'text> {
            /// Returns the classes and paragraphs of a text, by Unicode's own data.
            ///
            /// With `None` each paragraph finds its own level (P2, P3). The call takes less time than `BidiInfo::new`.
            #[cfg(feature = "hardcoded-data")]
            #[track_caller]
            pub fn new(text: &$Text, default_para_level: Option<Level>) -> InitialInfo<'_> {
                let base = BaseLevel::from(default_para_level.map(|_| LTR_LEVEL));
                let found = ffi::paragraphs(text.units(), base, Split::EachSeparator);
                InitialInfo::of(text, found, default_para_level)
            }

            /// Returns the classes and paragraphs of a text, by a custom data source.
            #[track_caller]
            pub fn new_with_data_source<'a, D: BidiDataSource>(
                data_source: &D,
                text: &'a $Text,
                default_para_level: Option<Level>,
            ) -> InitialInfo<'a> {
                let base = BaseLevel::from(default_para_level.map(|_| LTR_LEVEL));
                let found = sources::paragraphs(data_source, text, base, Split::EachSeparator);
                InitialInfo::of(text, found, default_para_level)
            }

            fn of(
                text: &'text $Text,
                found: (Vec<BidiClass>, Vec<ParagraphInfo>),
                level: Option<Level>,
            ) -> Self {
                let (original_classes, mut paragraphs) = found;
                info::set_levels(&mut paragraphs, level);
                InitialInfo {
                    text,
                    original_classes,
                    paragraphs,
                }
            }
        }

        /// A text with its classes, paragraphs and levels.
        ///
        /// The fields are public, and the calls on lines read them. A call that finds them changed so that they fit no
        /// more panics with the name of the fault, for example `UNICODE_BIDI_UNEQUAL_LENGTHS`.
        ///
        /// The calls on lines take any range of the text as the line, even one across paragraphs. Of the paragraph they
        /// use the level alone. They panic if the line is out of range or reversed, or if it begins or ends inside a
        /// character.
        #[derive(Debug, PartialEq)]
        pub struct BidiInfo<'text> {
            /// The text.
            pub text: &'text $Text,

            /// The class of each code unit, which is the class of its character. An FSI has the class RLI or LRI if a
            /// character decides its direction (X5c).
            pub original_classes: Vec<BidiClass>,

            /// The level of each code unit (X1 to I2), before L1.
            pub levels: Vec<Level>,

            /// The paragraphs in the order of the text. Each ends after a character of class B (P1).
            pub paragraphs: Vec<ParagraphInfo>,
        }

        impl<'text> BidiInfo<'text> {
            /// Returns the analysis of a text, by Unicode's own data.
            ///
            /// With `None` each paragraph finds its own level (P2, P3).
            ///
            /// # Panics
            ///
            /// Panics with `UNICODE_BIDI_BAD_BASE_LEVEL` if the level is 126.
            #[cfg(feature = "hardcoded-data")]
            #[track_caller]
            pub fn new(text: &$Text, default_para_level: Option<Level>) -> BidiInfo<'_> {
                let base = BaseLevel::from(default_para_level);
                BidiInfo::of(text, ffi::analyse(text.units(), base, Split::EachSeparator))
            }

            /// Returns the analysis of a text, by a custom data source.
            ///
            /// The source is asked about each character of the text, in its order.
            ///
            /// # Panics
            ///
            /// Panics with `UNICODE_BIDI_BAD_BASE_LEVEL` if the level is 126.
            #[track_caller]
            pub fn new_with_data_source<'a, D: BidiDataSource>(
                data_source: &D,
                text: &'a $Text,
                default_para_level: Option<Level>,
            ) -> BidiInfo<'a> {
                let base = BaseLevel::from(default_para_level);
                let analysis = sources::analyse(data_source, text, base, Split::EachSeparator);
                BidiInfo::of(text, analysis)
            }

            fn of(text: &'text $Text, analysis: Analysis) -> Self {
                let Analysis {
                    classes,
                    levels,
                    paragraphs,
                } = analysis;
                BidiInfo {
                    text,
                    original_classes: classes,
                    levels,
                    paragraphs,
                }
            }

            /// Returns the levels of the whole text, one a code unit. Those of the line are the levels after L1.
            ///
            /// The call copies the levels of the whole text.
            #[track_caller]
            pub fn reordered_levels(&self, para: &ParagraphInfo, line: Range<usize>) -> Vec<Level> {
                self.analysed(para).reordered_levels(line)
            }

            /// Returns the levels of the whole text, one a character. Those of the line are the levels after L1.
            #[track_caller]
            pub fn reordered_levels_per_char(
                &self,
                para: &ParagraphInfo,
                line: Range<usize>,
            ) -> Vec<Level> {
                self.analysed(para).reordered_levels_per_char(line)
            }

            /// Returns the text of a line from left to right (L1, L2).
            ///
            /// It borrows the text if no level of the line is odd. It does not mirror characters (L4) and does not move
            /// marks (L3). The call costs the line.
            #[track_caller]
            pub fn reorder_line(
                &self,
                para: &ParagraphInfo,
                line: Range<usize>,
            ) -> Cow<'text, $Text> {
                self.analysed(para).reorder_line(line)
            }

            /// Returns the index of the item at each visual position, from left to right (L2).
            ///
            /// The items can be anything that has a level after L1, such as characters or words.
            ///
            /// ```
            /// use unicode_bidi::{BidiInfo, Level};
            ///
            /// let levels = Level::vec(&[0, 1, 1, 0]);
            /// assert_eq!(BidiInfo::reorder_visual(&levels), [0, 2, 1, 3]);
            /// ```
            #[track_caller]
            pub fn reorder_visual(levels: &[Level]) -> Vec<usize> {
                ffi::reorder_visual(levels)
            }

            /// Returns what [`reordered_levels`](Self::reordered_levels) returns, and the runs of the line from left to
            /// right (L2).
            ///
            /// A run is a range of code units that have one level after L1. Display a run of an odd level from right to
            /// left. An empty line has one empty run.
            ///
            /// # Panics
            ///
            /// Panics also if the line is empty and at the end of the text.
            #[track_caller]
            pub fn visual_runs(
                &self,
                para: &ParagraphInfo,
                line: Range<usize>,
            ) -> (Vec<Level>, Vec<LevelRun>) {
                self.analysed(para).visual_runs(line)
            }

            /// Returns whether some level is odd.
            pub fn has_rtl(&self) -> bool {
                has_rtl(&self.levels)
            }

            fn analysed(&self, para: &ParagraphInfo) -> Analysed<'_, 'text, $Text> {
                self.analysed_at(para.level)
            }
        }

        define_analysed!(BidiInfo, $Text);

        /// A text that is one paragraph, with its classes and levels. Separators in it end nothing.
        ///
        /// The calls on lines are those of [`BidiInfo`], and panic for the same reasons.
        #[derive(Debug, PartialEq)]
        pub struct ParagraphBidiInfo<'text> {
            /// The text.
            pub text: &'text $Text,

            /// The class of each code unit, which is the class of its character. An FSI has the class RLI or LRI if a
            /// character decides its direction (X5c).
            pub original_classes: Vec<BidiClass>,

            /// The level of each code unit (X1 to I2), before L1.
            pub levels: Vec<Level>,

            /// The level of the paragraph.
            pub paragraph_level: Level,

            /// Whether no character is right-to-left, an Arabic number, or opens an embedding, override or isolate.
            pub is_pure_ltr: bool,
        }

        impl<'text> ParagraphBidiInfo<'text> {
            /// Returns the analysis of a paragraph, by Unicode's own data.
            ///
            /// With `None` the paragraph finds its own level (P2, P3).
            ///
            /// # Panics
            ///
            /// Panics with `UNICODE_BIDI_BAD_BASE_LEVEL` if the level is 126.
            #[cfg(feature = "hardcoded-data")]
            #[track_caller]
            pub fn new(text: &$Text, default_para_level: Option<Level>) -> ParagraphBidiInfo<'_> {
                let base = BaseLevel::from(default_para_level);
                ParagraphBidiInfo::of(text, ffi::analyse(text.units(), base, Split::OneParagraph))
            }

            /// Returns the analysis of a paragraph, by a custom data source.
            ///
            /// The source is asked about each character of the text, in its order.
            ///
            /// # Panics
            ///
            /// Panics with `UNICODE_BIDI_BAD_BASE_LEVEL` if the level is 126.
            #[track_caller]
            pub fn new_with_data_source<'a, D: BidiDataSource>(
                data_source: &D,
                text: &'a $Text,
                default_para_level: Option<Level>,
            ) -> ParagraphBidiInfo<'a> {
                let base = BaseLevel::from(default_para_level);
                let analysis = sources::analyse(data_source, text, base, Split::OneParagraph);
                ParagraphBidiInfo::of(text, analysis)
            }

            fn of(text: &'text $Text, analysis: Analysis) -> Self {
                let Analysis {
                    classes,
                    levels,
                    paragraphs,
                } = analysis;
                ParagraphBidiInfo {
                    text,
                    is_pure_ltr: info::is_pure_ltr(&classes),
                    original_classes: classes,
                    levels,
                    paragraph_level: paragraphs[0].level,
                }
            }

            /// Returns the levels of the whole text, one a code unit. Those of the line are the levels after L1.
            #[track_caller]
            pub fn reordered_levels(&self, line: Range<usize>) -> Vec<Level> {
                self.analysed().reordered_levels(line)
            }

            /// Returns the levels of the whole text, one a character. Those of the line are the levels after L1.
            #[track_caller]
            pub fn reordered_levels_per_char(&self, line: Range<usize>) -> Vec<Level> {
                self.analysed().reordered_levels_per_char(line)
            }

            /// Returns the text of a line from left to right, as [`BidiInfo::reorder_line`] does.
            #[track_caller]
            pub fn reorder_line(&self, line: Range<usize>) -> Cow<'text, $Text> {
                self.analysed().reorder_line(line)
            }

            /// Returns the index of the item at each visual position, as [`BidiInfo::reorder_visual`] does.
            #[track_caller]
            pub fn reorder_visual(levels: &[Level]) -> Vec<usize> {
                ffi::reorder_visual(levels)
            }

            /// Returns levels and the runs of a line from left to right, as [`BidiInfo::visual_runs`] does.
            #[track_caller]
            pub fn visual_runs(&self, line: Range<usize>) -> (Vec<Level>, Vec<LevelRun>) {
                self.analysed().visual_runs(line)
            }

            /// Returns whether some level is odd.
            pub fn has_rtl(&self) -> bool {
                has_rtl(&self.levels)
            }

            /// Returns the direction of the levels: `Mixed` if some are even and some odd. Without any level it is
            /// `Rtl`.
            pub fn direction(&self) -> Direction {
                info::direction_of(&self.levels)
            }

            fn analysed(&self) -> Analysed<'_, 'text, $Text> {
                self.analysed_at(self.paragraph_level)
            }
        }

        define_analysed!(ParagraphBidiInfo, $Text);

        /// One paragraph of a [`BidiInfo`].
        #[derive(Debug)]
        pub struct Paragraph<'a, 'text> {
            /// The analysis.
            pub info: &'a BidiInfo<'text>,

            /// The paragraph, one of `info.paragraphs`.
            pub para: &'a ParagraphInfo,
        }

        impl<'a, 'text> Paragraph<'a, 'text> {
            /// Returns a paragraph of an analysis.
            pub fn new(info: &'a BidiInfo<'text>, para: &'a ParagraphInfo) -> Paragraph<'a, 'text> {
                Paragraph { info, para }
            }

            /// Returns the direction of the paragraph's levels: `Mixed` if some are even and some odd. Without any
            /// level it is `Rtl`.
            ///
            /// # Panics
            ///
            /// Panics if the paragraph is out of the range of the levels.
            pub fn direction(&self) -> Direction {
                info::direction_of(&self.info.levels[self.para.range.clone()])
            }

            /// Returns the level of a code unit, before L1. `pos` counts code units from the start of the paragraph.
            ///
            /// # Panics
            ///
            /// Panics if `pos` is out of the range of the levels.
            pub fn level_at(&self, pos: usize) -> Level {
                self.info.levels[self.para.range.start + pos]
            }
        }
    };
}
