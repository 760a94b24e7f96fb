//! The module `displayed`, with results worked by hand from UAX #9. `rows.rs` runs the test vectors.

use unicode_bidi::data_source::BidiMatchedOpeningBracket;
use unicode_bidi::displayed::{self, BaseLevel, DisplayOptions, Dropped, Moves, Split};
use unicode_bidi::{
    utf16, BidiClass, BidiDataSource, BidiInfo, Level, ParagraphBidiInfo, ParagraphInfo,
};

use BidiClass::{B, EN, L, NSM, ON, R, WS};

/// A letter with a point, a mark (RLM), and brackets.
const TEXT: &str = "a (\u{5D0}\u{5B8}\u{200F}\u{5D1})";

/// The classes of `TEXT` in Unicode's data.
struct Hebrew;

impl BidiDataSource for Hebrew {
    fn bidi_class(&self, c: char) -> BidiClass {
        match c {
            'a' => L,
            ' ' => WS,
            '(' | ')' => ON,
            '\u{5B8}' => NSM,
            _ => R,
        }
    }
}

const PLAIN: DisplayOptions = DisplayOptions {
    moves: Moves::Characters,
    mirror: false,
    dropped: Dropped::Nothing,
};

fn numbers(levels: &[Level]) -> Vec<u8> {
    levels.iter().map(Level::number).collect()
}

fn some(places: &[usize]) -> Vec<Option<usize>> {
    places.iter().copied().map(Some).collect()
}

/// The text of level 1. L4 mirrors the brackets. L3 keeps the point behind its letter. The mark is not displayed.
#[test]
fn lines() {
    let info = ParagraphBidiInfo::new_with_data_source(&Hebrew, TEXT, Some(Level::rtl()));
    let level = info.paragraph_level;
    let units = 0..TEXT.len();
    let line = displayed::line(&info, level, units.clone(), DisplayOptions::default());
    assert_eq!(line.text, "(\u{5D1}\u{5D0}\u{5B8}) a");
    assert_eq!(line.order, [7, 6, 3, 4, 2, 1, 0]);
    let places = [
        Some(6),
        Some(5),
        Some(4),
        Some(2),
        Some(3),
        None,
        Some(1),
        Some(0),
    ];
    assert_eq!(line.places, places);
    let line = displayed::line(&info, level, units, PLAIN);
    assert_eq!(line.text, TEXT.chars().rev().collect::<String>());
    assert_eq!(line.order, [7, 6, 5, 4, 3, 2, 1, 0]);
    assert_eq!(line.places, some(&[7, 6, 5, 4, 3, 2, 1, 0]));
    // The word alone, in code units, and nothing.
    let line = displayed::line(&info, level, 3..12, DisplayOptions::default());
    assert_eq!(line.text, "\u{5D1}\u{5D0}\u{5B8}");
    assert_eq!(line.order, [3, 0, 1]);
    let line = displayed::line(&info, level, 3..3, DisplayOptions::default());
    assert!(line.text.is_empty() && line.order.is_empty() && line.places.is_empty());
}

/// All analyses of a text have the same lines. The level of the paragraph is that of L1.
#[test]
fn analyses() {
    let text = "\u{5D0} ";
    let units: Vec<u16> = text.encode_utf16().collect();
    let options = DisplayOptions::default();
    for &(level, shown) in &[(0, text), (1, " \u{5D0}")] {
        let level = Level::from(level);
        let info = BidiInfo::new_with_data_source(&Hebrew, text, Some(level));
        let line = displayed::line(&info, level, 0..text.len(), options);
        assert_eq!(line.text, shown);
        let one = ParagraphBidiInfo::new_with_data_source(&Hebrew, text, Some(level));
        assert_eq!(line, displayed::line(&one, level, 0..text.len(), options));
        let info = utf16::BidiInfo::new_with_data_source(&Hebrew, &units, Some(level));
        let wide = displayed::line(&info, level, 0..units.len(), options);
        assert_eq!(wide.text, shown.encode_utf16().collect::<Vec<_>>());
        assert_eq!((&wide.order, &wide.places), (&line.order, &line.places));
        let one = utf16::ParagraphBidiInfo::new_with_data_source(&Hebrew, &units, Some(level));
        assert_eq!(wide, displayed::line(&one, level, 0..units.len(), options));
    }
    // An unpaired surrogate is displayed as U+FFFD.
    let units = [0xD800, 0x5D0];
    let info = utf16::BidiInfo::new_with_data_source(&Hebrew, &units, None);
    let line = displayed::line(&info, Level::rtl(), 0..2, options);
    assert_eq!(line.text, [0x5D0, 0xFFFD]);
}

/// P3: digits decide nothing, so the level is the fallback.
#[test]
fn classes() {
    let level_of = |base| {
        let found = displayed::analyse_classes(&[EN], &[], base, Split::EachSeparator);
        found.paragraphs[0].level.number()
    };
    assert_eq!(level_of(BaseLevel::AutoLtr), 0);
    assert_eq!(level_of(BaseLevel::default()), 0);
    assert_eq!(level_of(None.into()), 0);
    assert_eq!(level_of(BaseLevel::AutoRtl), 1);
    assert_eq!(level_of(Level::from(2).into()), 2);
    assert_eq!(level_of(Some(Level::from(3)).into()), 3);

    // N0c: a pair that encloses an L behind an L is L. Without brackets, N2 gives the last character the level 1.
    let bracket = |opening, is_open| Some(BidiMatchedOpeningBracket { opening, is_open });
    let levels = |brackets: &[_]| {
        let base = BaseLevel::Of(Level::rtl());
        let found =
            displayed::analyse_classes(&[L, ON, L, ON], brackets, base, Split::OneParagraph);
        numbers(&found.levels)
    };
    let pair = [None, bracket('(', true), None, bracket('(', false)];
    assert_eq!(levels(&pair), [2, 2, 2, 2]);
    let other = [None, bracket('[', true), None, bracket('(', false)];
    assert_eq!(levels(&other), [2, 2, 2, 1]);
    assert_eq!(levels(&[]), [2, 2, 2, 1]);

    // P1: a paragraph ends after each B, unless the list is one paragraph. Ranges count characters.
    let paragraphs =
        |split| displayed::analyse_classes(&[L, B, R], &[], BaseLevel::AutoLtr, split).paragraphs;
    let (ltr, rtl) = (Level::ltr(), Level::rtl());
    let paragraph = |range, level| ParagraphInfo { range, level };
    let split = [paragraph(0..2, ltr), paragraph(2..3, rtl)];
    assert_eq!(paragraphs(Split::EachSeparator), split);
    assert_eq!(paragraphs(Split::OneParagraph), [paragraph(0..3, ltr)]);
}

/// L3: the marks of a letter stay behind it. L1 gives the space at the end the level of the paragraph.
#[test]
fn maps() {
    let levels = [Level::rtl(); 5];
    let order = |line, moves| {
        displayed::line_order(&[R, R, NSM, NSM, R], &levels, Level::rtl(), line, moves)
    };
    let marks = order(0..5, Moves::Marks);
    assert_eq!(marks.order, [4, 1, 2, 3, 0]);
    assert_eq!(marks.places, some(&[4, 1, 2, 3, 0]));
    let characters = order(1..4, Moves::Characters);
    assert_eq!(characters.order, [2, 1, 0]);
    assert_eq!(characters.places, some(&[2, 1, 0]));
    assert!(order(2..2, Moves::Marks).order.is_empty());
    let levels = Level::vec(&[0, 1, 1, 1]);
    let spaced = displayed::line_order(
        &[L, R, R, WS],
        &levels,
        Level::ltr(),
        0..4,
        Moves::Characters,
    );
    assert_eq!(spaced.order, [0, 2, 1, 3]);

    // What the order does not have has no place, and what it has twice has the first one.
    let places = displayed::places(&[2, 0, 2, 9], 4);
    assert_eq!(places, [Some(1), None, Some(0), None]);
    assert_eq!(displayed::places(&[], 2), [None, None]);
    assert!(displayed::places(&[1, 0], 0).is_empty());
}

#[cfg(feature = "hardcoded-data")]
mod by_unicodes_data {
    use super::*;

    /// Each paragraph is a line. Its separator stays behind it, and L1 gives it the level of the paragraph.
    #[test]
    fn texts() {
        let text = "\u{5D0}b\r\n\u{5D1}!\n";
        let options = DisplayOptions::default();
        let shown = displayed::text(text, BaseLevel::AutoLtr, Split::CrLfTogether, options);
        assert_eq!(shown.text, "b\u{5D0}\r\n!\u{5D1}\n");
        assert_eq!(numbers(&shown.levels), [1, 1, 2, 1, 1, 1, 1, 1, 1]);
        assert_eq!(shown.order, [1, 0, 2, 3, 5, 4, 6]);
        assert_eq!(shown.places, some(&[1, 0, 2, 3, 5, 4, 6]));
        let units: Vec<u16> = text.encode_utf16().collect();
        let base = BaseLevel::AutoLtr;
        let wide = displayed::text(units.as_slice(), base, Split::CrLfTogether, options);
        assert_eq!(wide.text, shown.text.encode_utf16().collect::<Vec<_>>());
        assert_eq!(numbers(&wide.levels), [1, 2, 1, 1, 1, 1, 1]);
        assert_eq!((&wide.order, &wide.places), (&shown.order, &shown.places));

        let fallback = |base| displayed::text("1.", base, Split::OneParagraph, options).text;
        assert_eq!(fallback(BaseLevel::AutoLtr), "1.");
        assert_eq!(fallback(BaseLevel::AutoRtl), ".1");
        let plain = displayed::text(TEXT, Level::rtl().into(), Split::OneParagraph, PLAIN);
        assert_eq!(plain.text, TEXT.chars().rev().collect::<String>());
        let empty = displayed::text("", BaseLevel::AutoLtr, Split::EachSeparator, options);
        assert!(empty.text.is_empty() && empty.levels.is_empty() && empty.places.is_empty());
    }

    /// P1 to P3. X5c: the FSI has the class of an isolate of its first strong character.
    #[test]
    fn paragraphs() {
        use BidiClass::{PDI, RLI};

        let text: Vec<u16> = "\u{2068}\u{5D0}\u{2069}a\r\n1\u{5D0}"
            .encode_utf16()
            .collect();
        let base = BaseLevel::AutoLtr;
        let found = displayed::paragraphs(text.as_slice(), base, Split::CrLfTogether);
        assert_eq!(found.classes, [RLI, R, PDI, L, B, B, EN, R]);
        let ranges: Vec<_> = found.paragraphs.iter().map(|p| p.range.clone()).collect();
        assert_eq!(ranges, [0..6, 6..8]);
        assert_eq!(found.paragraphs[0].level, Level::ltr());
        assert_eq!(found.paragraphs[1].level, Level::rtl());
        let count = |text: &str, split| displayed::paragraphs(text, base, split).paragraphs.len();
        assert_eq!(count("a\r\nb", Split::EachSeparator), 3);
        assert_eq!(count("", Split::EachSeparator), 0);
        assert_eq!(count("", Split::OneParagraph), 1);
        assert_eq!(count(&"\n".repeat(1000), Split::EachSeparator), 1000);
    }
}
