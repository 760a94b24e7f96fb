//! What differs from unicode-bidi 0.3.18, as docs/RUST.md lists it. The results are those of UAX #9.

use unicode_bidi::data_source::BidiMatchedOpeningBracket;
use unicode_bidi::level::Level;
use unicode_bidi::{utf16, BidiClass, BidiDataSource, BidiInfo, ParagraphBidiInfo};
use unicode_bidi_tests::sources::Sources;

/// Some classes, with z as an opening bracket that pairs with `)`.
struct Source;

impl BidiDataSource for Source {
    fn bidi_class(&self, c: char) -> BidiClass {
        match c {
            'f' => BidiClass::FSI,
            'z' => BidiClass::BN,
            ',' => BidiClass::CS,
            ')' => BidiClass::ON,
            '\u{5D0}'..='\u{5EA}' => BidiClass::R,
            _ => BidiClass::L,
        }
    }

    fn bidi_matched_opening_bracket(&self, c: char) -> Option<BidiMatchedOpeningBracket> {
        match c {
            'z' | ')' => Some(BidiMatchedOpeningBracket {
                opening: 'z',
                is_open: c == 'z',
            }),
            _ => None,
        }
    }
}

fn level(number: u8) -> Option<Level> {
    Some(Level::from(number))
}

/// The levels of a text that is one paragraph, one a character.
fn levels(source: &impl BidiDataSource, text: &str, base: Option<Level>) -> Vec<u8> {
    let info = ParagraphBidiInfo::new_with_data_source(source, text, base);
    text.char_indices()
        .map(|(index, _)| info.levels[index].number())
        .collect()
}

#[test]
fn x5c_changes_the_class_of_the_fsi_alone() {
    use BidiClass::{R, RLI};
    let info = BidiInfo::new_with_data_source(&Source, "f\u{5D0}", None);
    assert_eq!(info.original_classes, [RLI, R, R]);
}

#[test]
fn runs_join_by_matching_isolates() {
    let sample = Sources::read();
    let text = "\u{5D0}\u{2066}a\n\u{2069}\u{202B}\u{5D0}\u{202C}\u{2069}\u{5D0}";
    assert_eq!(levels(sample.named("sample"), text, level(0))[1], 0);
    // The last PDI matches nothing, and is in the embedding.
    let text = "\u{2066}\u{5D0}\n\u{2069}\u{202B}\u{2069}";
    let found = levels(sample.named("sample"), text, None);
    assert_eq!(found.last(), Some(&1));
}

#[test]
fn the_64th_opening_bracket_ends_the_search_for_pairs() {
    let sample = Sources::read();
    let text = format!("a\u{5D0}{}\u{2066}x\u{2069}\u{5D1}}}", "{".repeat(64));
    assert_eq!(levels(sample.named("sample"), &text, None).last(), Some(&0));
}

#[test]
fn a_removed_character_is_no_bracket() {
    let found = levels(&Source, "\u{5D0},z\u{5D1})", level(0));
    assert_eq!(found.last(), Some(&0));
}

#[test]
fn n0_takes_its_context_from_the_nearest_character() {
    let sample = Sources::read();
    let text = "a\u{5D0}\u{2066}x\u{2069}(\u{5D1})";
    let found = levels(sample.named("sample"), text, None);
    assert_eq!(found, [0, 1, 1, 2, 1, 1, 1, 1]);
}

#[test]
fn has_rtl_says_whether_a_level_is_odd() {
    let sample = Sources::read();
    let text = "\u{2066}a\u{2069}";
    let info = ParagraphBidiInfo::new_with_data_source(sample.named("sample"), text, level(0));
    assert!(!info.has_rtl());
    assert!(!info.is_pure_ltr);
}

#[test]
fn reorder_line_applies_l1_first() {
    let sample = Sources::read();
    let info = ParagraphBidiInfo::new_with_data_source(sample.named("sample"), "a b", level(1));
    assert_eq!(info.reorder_line(0..2), " a");
    let text = "a\u{AD}";
    let info = ParagraphBidiInfo::new_with_data_source(sample.named("sample"), text, level(1));
    assert_eq!(info.reorder_line(0..text.len()), "\u{AD}a");
}

#[test]
#[allow(deprecated, clippy::single_range_in_vec_init)]
fn a_line_of_level_126_is_one_run() {
    let info = ParagraphBidiInfo::new_with_data_source(&Source, "a", level(125));
    assert_eq!(info.visual_runs(0..1), (Level::vec(&[126]), vec![0..1]));
    let runs = unicode_bidi::deprecated::visual_runs(0..1, &Level::vec(&[126]));
    assert_eq!(runs, [0..1]);
}

#[test]
fn the_ends_of_an_iterator_over_utf16_meet() {
    let text = [0xD800, 0xD800, 0xDC00, 0xDC00];
    let mut characters = utf16::Utf16CharIter::new(&text);
    assert_eq!(characters.next(), Some('\u{FFFD}'));
    assert_eq!(characters.next_back(), Some('\u{FFFD}'));
    assert_eq!(characters.next(), Some('\u{10000}'));
    assert_eq!(characters.next(), None);
}
