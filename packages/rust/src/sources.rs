//! Analyses by a custom data source. The library gets the classes and brackets of the characters in place of their text.

use alloc::collections::BTreeMap;
use alloc::vec;
use alloc::vec::Vec;

use crate::data_source::BidiMatchedOpeningBracket;
use crate::ffi::{self, Analysis, OPENING};
use crate::settings::{BaseLevel, Split};
use crate::{BidiClass, BidiDataSource, ParagraphInfo, TextSource, LTR_LEVEL};

/// Returns the analysis of a text.
#[track_caller]
pub fn analyse<'text, D: BidiDataSource, T: TextSource<'text> + ?Sized>(
    source: &D,
    text: &'text T,
    base: BaseLevel,
    split: Split,
) -> Analysis {
    let classes = classes_of(source, text);
    let mut forms = NormalForms::default();
    let mut brackets = Vec::with_capacity(classes.len());
    brackets.extend(
        text.chars()
            .zip(&classes)
            .map(|(character, class)| match class {
                BidiClass::ON => forms.number_of(source.bidi_matched_opening_bracket(character)),
                _ => 0,
            }),
    );
    by_units(text, ffi::analyse_classes(&classes, &brackets, base, split))
}

/// Returns the classes and paragraphs of a text. Brackets change neither, so the source is not asked about them.
#[track_caller]
pub fn paragraphs<'text, D: BidiDataSource, T: TextSource<'text> + ?Sized>(
    source: &D,
    text: &'text T,
    base: BaseLevel,
    split: Split,
) -> (Vec<BidiClass>, Vec<ParagraphInfo>) {
    let classes = classes_of(source, text);
    let analysis = by_units(text, ffi::analyse_classes(&classes, &[], base, split));
    (analysis.classes, analysis.paragraphs)
}

/// Returns the class of each character.
fn classes_of<'text, D: BidiDataSource, T: TextSource<'text> + ?Sized>(
    source: &D,
    text: &'text T,
) -> Vec<BidiClass> {
    let mut classes = Vec::with_capacity(text.len());
    classes.extend(text.chars().map(|character| source.bidi_class(character)));
    classes
}

/// Returns an analysis of characters as that of their text, with an entry for each code unit.
fn by_units<'text, T: TextSource<'text> + ?Sized>(text: &'text T, listed: Analysis) -> Analysis {
    if listed.levels.len() == text.len() {
        return listed;
    }
    let mut classes = vec![BidiClass::L; text.len()];
    let mut levels = vec![LTR_LEVEL; text.len()];
    let mut paragraphs = listed.paragraphs;
    let mut places = text.indices_lengths();
    let mut end = 0;
    // Every character is in a paragraph, and the paragraphs follow one another.
    for paragraph in &mut paragraphs {
        let start = end;
        for (character, (index, len)) in paragraph.range.clone().zip(&mut places) {
            let (class, level) = (listed.classes[character], listed.levels[character]);
            end = index + len;
            for unit in index..end {
                classes[unit] = class;
                levels[unit] = level;
            }
        }
        paragraph.range = start..end;
    }
    Analysis {
        classes,
        levels,
        paragraphs,
    }
}

/// The numbers by which the library pairs brackets: one for each normal form, in the order in which they come.
#[derive(Default)]
pub struct NormalForms(BTreeMap<char, u32>);

impl NormalForms {
    /// The library takes the numbers of the characters from U+0020 to U+7FFFF. After this one there are no surrogates.
    const FIRST: u32 = 0xE000;

    /// Returns the number of a bracket, or 0 for none.
    pub fn number_of(&mut self, bracket: Option<BidiMatchedOpeningBracket>) -> u32 {
        let bracket = match bracket {
            Some(bracket) => bracket,
            None => return 0,
        };
        let next = NormalForms::FIRST + self.0.len() as u32;
        let number = *self.0.entry(bracket.opening).or_insert(next);
        if bracket.is_open {
            number | OPENING
        } else {
            number
        }
    }
}
