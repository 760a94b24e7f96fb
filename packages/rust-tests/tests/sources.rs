//! Data sources of a program's own, with results that the rules of UAX #9 give.

use std::cell::RefCell;

use unicode_bidi::data_source::BidiMatchedOpeningBracket;
use unicode_bidi::{
    utf16, BidiClass, BidiDataSource, BidiInfo, Direction, Level, ParagraphBidiInfo,
};
use unicode_bidi_tests::sources::Sources;

/// Capital letters are right-to-left, digits are numbers, and the rest of ASCII that is no letter is neutral.
struct Capitals;

impl BidiDataSource for Capitals {
    fn bidi_class(&self, c: char) -> BidiClass {
        match c {
            'A'..='Z' => BidiClass::R,
            '0'..='9' => BidiClass::EN,
            ' ' => BidiClass::WS,
            '\n' => BidiClass::B,
            '\0'..='\x7F' if !c.is_ascii_lowercase() => BidiClass::ON,
            _ => BidiClass::L,
        }
    }
}

fn numbers(levels: &[Level]) -> Vec<u8> {
    levels.iter().map(Level::number).collect()
}

fn shown(source: &impl BidiDataSource, text: &str) -> String {
    let info = ParagraphBidiInfo::new_with_data_source(source, text, None);
    info.reorder_line(0..text.len()).into_owned()
}

#[test]
fn capitals_are_right_to_left() {
    assert_eq!(shown(&Capitals, "car (CAR) 12"), "car (RAC) 12");
    assert_eq!(shown(&Capitals, "CAR 12 car"), "car 12 RAC");
    let info = BidiInfo::new_with_data_source(&Capitals, "ab CD\nEF 1", None);
    assert_eq!(info.paragraphs.len(), 2);
    assert_eq!(info.paragraphs[0].level, Level::ltr());
    assert_eq!(info.paragraphs[1].level, Level::rtl());
    assert_eq!(numbers(&info.levels), [0, 0, 0, 1, 1, 0, 1, 1, 1, 2]);
}

/// N0c1: the brackets take the direction of the text before them, since it is that of the text inside.
#[test]
fn brackets_are_unicodes_own_by_default() {
    let rtl = Some(Level::rtl());
    let info = ParagraphBidiInfo::new_with_data_source(&Capitals, "a(b)", rtl);
    assert_eq!(numbers(&info.levels), [2, 2, 2, 2]);
    // Without a pair, N2 gives the last character the direction of the paragraph.
    let info = ParagraphBidiInfo::new_with_data_source(&Capitals, "a(b]", rtl);
    assert_eq!(numbers(&info.levels), [2, 2, 2, 1]);
}

/// The classes of `Capitals`, with brackets of its own.
struct Brackets<'a>(&'a [(char, char, bool)]);

impl BidiDataSource for Brackets<'_> {
    fn bidi_class(&self, c: char) -> BidiClass {
        Capitals.bidi_class(c)
    }

    fn bidi_matched_opening_bracket(&self, c: char) -> Option<BidiMatchedOpeningBracket> {
        let &(_, opening, is_open) = self.0.iter().find(|bracket| bracket.0 == c)?;
        Some(BidiMatchedOpeningBracket { opening, is_open })
    }
}

/// Whether the last character of `a?b?` takes part in a pair, at level 1.
fn pairs(source: &Brackets, text: &str) -> bool {
    let info = ParagraphBidiInfo::new_with_data_source(source, text, Some(Level::rtl()));
    let units: Vec<u16> = text.encode_utf16().collect();
    let same = utf16::ParagraphBidiInfo::new_with_data_source(source, &units, Some(Level::rtl()));
    assert_eq!(info.levels, same.levels);
    info.levels[text.len() - 1].number() == 2
}

#[test]
fn brackets_of_ones_own() {
    // Two openings and two closings of one normal form, which is a character that no text here has.
    let source = Brackets(&[
        ('<', '#', true),
        ('(', '#', true),
        ('>', '#', false),
        (')', '#', false),
    ]);
    for text in &["a<b>", "a(b)", "a<b)", "a(b>"] {
        assert!(pairs(&source, text), "{}", text);
    }
    // A closing without its opening, an opening without its closing, and characters that are no brackets.
    for text in &["a>b>", "a<b<", "a[b]", "a!b!", "a)b("] {
        assert!(!pairs(&source, text), "{}", text);
    }
    // The normal form is in the text, but is no bracket there, or one of another form.
    assert!(pairs(
        &Brackets(&[('<', '#', true), ('>', '#', false)]),
        "a#<b>"
    ));
    assert!(!pairs(&Brackets(&[('>', '<', false)]), "a<b>"));
    let crossed = Brackets(&[
        ('<', '(', true),
        ('>', '(', false),
        ('(', '<', true),
        (')', '<', false),
    ]);
    assert!(pairs(&crossed, "a<b>"));
    assert!(pairs(&crossed, "a(b)"));
    assert!(!pairs(&crossed, "a<b)"));
}

/// BD16: the 64th opening bracket that waits ends the search for pairs.
#[test]
fn openings_without_a_closing_count() {
    let source = Brackets(&[('<', '<', true), ('(', '(', true), (')', '(', false)]);
    let text = |waiting: usize| format!("a{}(b)", "<".repeat(waiting));
    assert!(pairs(&source, &text(62)));
    assert!(!pairs(&source, &text(63)));
}

/// A normal form can be any character, also one that the library would not take as a number.
#[test]
fn any_normal_form() {
    for &form in &['\0', '\u{1F}', 'a', '\u{80000}', '\u{10FFFF}'] {
        assert!(pairs(
            &Brackets(&[('<', form, true), ('>', form, false)]),
            "a<b>"
        ));
        let other = if form == 'a' { 'b' } else { 'a' };
        assert!(!pairs(
            &Brackets(&[('<', form, true), ('>', other, false)]),
            "a<b>"
        ));
    }
}

/// Keeps the characters about which it is asked, and those about whose brackets it is asked.
#[derive(Default)]
struct Counting(RefCell<Vec<char>>, RefCell<Vec<char>>);

impl BidiDataSource for Counting {
    fn bidi_class(&self, c: char) -> BidiClass {
        self.0.borrow_mut().push(c);
        Capitals.bidi_class(c)
    }

    fn bidi_matched_opening_bracket(&self, c: char) -> Option<BidiMatchedOpeningBracket> {
        self.1.borrow_mut().push(c);
        Capitals.bidi_matched_opening_bracket(c)
    }
}

#[test]
fn an_analysis_asks_about_each_character_in_order() {
    let text = "ab (BA) \u{10000}!";
    let units: Vec<u16> = text.encode_utf16().collect();
    let analyses: [&dyn Fn(&Counting); 4] = [
        &|source| drop(BidiInfo::new_with_data_source(source, text, None)),
        &|source| drop(ParagraphBidiInfo::new_with_data_source(source, text, None)),
        &|source| drop(utf16::BidiInfo::new_with_data_source(source, &units, None)),
        &|source| {
            drop(utf16::ParagraphBidiInfo::new_with_data_source(
                source, &units, None,
            ))
        },
    ];
    for analyse in &analyses {
        let source = Counting::default();
        analyse(&source);
        assert_eq!(source.0.into_inner(), text.chars().collect::<Vec<_>>());
        assert_eq!(source.1.into_inner(), ['(', ')', '!']);
    }
    let source = Counting::default();
    unicode_bidi::InitialInfo::new_with_data_source(&source, text, None);
    assert_eq!(source.0.into_inner(), text.chars().collect::<Vec<_>>());
    assert!(source.1.into_inner().is_empty());
}

/// A source can say of each character of a text what it wants, also of equal ones.
#[test]
fn each_character_has_what_the_source_says_of_it() {
    struct Second(RefCell<usize>);

    impl BidiDataSource for Second {
        fn bidi_class(&self, _: char) -> BidiClass {
            *self.0.borrow_mut() += 1;
            if *self.0.borrow() == 2 {
                BidiClass::R
            } else {
                BidiClass::L
            }
        }
    }

    let info = BidiInfo::new_with_data_source(&Second(RefCell::new(0)), "aaa", None);
    assert_eq!(numbers(&info.levels), [0, 1, 0]);
}

/// The entries of a character are those of all its code units, and paragraphs count code units.
#[test]
fn code_units_of_characters() {
    let text = "\u{10000}A\n\u{5D0}B";
    let info = BidiInfo::new_with_data_source(&Capitals, text, Some(Level::rtl()));
    assert_eq!(numbers(&info.levels), [2, 2, 2, 2, 1, 1, 2, 2, 1]);
    assert_eq!(info.paragraphs[1].range, 6..9);
    let units: Vec<u16> = text.encode_utf16().collect();
    let info = utf16::BidiInfo::new_with_data_source(&Capitals, &units, Some(Level::rtl()));
    assert_eq!(numbers(&info.levels), [2, 2, 1, 1, 2, 1]);
    assert_eq!(info.paragraphs[1].range, 4..6);
}

#[test]
fn the_base_direction_asks_about_the_first_characters() {
    let source = Counting::default();
    let text = format!("A{}", "b".repeat(1000));
    let found = unicode_bidi::get_base_direction_with_data_source(&source, text.as_str());
    assert_eq!(found, Direction::Rtl);
    assert!(source.0.borrow().len() <= 64);
    // The deciding character is far from the start.
    let text = format!("{}A", "!".repeat(1000));
    let found = unicode_bidi::get_base_direction_with_data_source(&source, text.as_str());
    assert_eq!(found, Direction::Rtl);
    let units: Vec<u16> = text.encode_utf16().collect();
    let found = unicode_bidi::get_base_direction_with_data_source(&source, units.as_slice());
    assert_eq!(found, Direction::Rtl);
    let text = format!("{}\n{}a", "!".repeat(100), "!".repeat(100));
    let found = unicode_bidi::get_base_direction_with_data_source(&source, text.as_str());
    assert_eq!(found, Direction::Mixed);
    let found = unicode_bidi::get_base_direction_full_with_data_source(&source, text.as_str());
    assert_eq!(found, Direction::Ltr);
}

/// A text has more paragraphs than the crate first makes room for.
#[test]
fn many_paragraphs() {
    for &paragraphs in &[1, 7, 8, 9, 100, 5000] {
        let text = "\n".repeat(paragraphs);
        let info = BidiInfo::new_with_data_source(&Capitals, &text, None);
        assert_eq!(info.paragraphs.len(), paragraphs);
        assert!(info
            .paragraphs
            .iter()
            .enumerate()
            .all(|(i, p)| p.range == (i..i + 1)));
    }
}

#[test]
fn a_source_of_the_test_vectors() {
    let sources = Sources::read();
    let info = BidiInfo::new_with_data_source(sources.named("sample"), "\u{5D0}\u{5D1} ab", None);
    assert_eq!(numbers(&info.levels), [1, 1, 1, 1, 1, 2, 2]);
}

#[cfg(feature = "hardcoded-data")]
#[test]
fn unicodes_own_data_as_a_source() {
    use unicode_bidi::{HardcodedBidiData, InitialInfo};
    use unicode_bidi_tests::rows;
    use unicode_bidi_tests::texts::Text;

    let mut texts = 0;
    for file in rows::files() {
        for row in rows::read(&file) {
            let text = match Text::of(&row, "text") {
                Some(text) if row.get("base") != Some("126") => text,
                _ => continue,
            };
            texts += 1;
            let base = row.base();
            let units = text.utf16.text.as_slice();
            let by_source = utf16::BidiInfo::new_with_data_source(&HardcodedBidiData, units, base);
            assert_eq!(
                utf16::BidiInfo::new(units, base),
                by_source,
                "{}",
                row.title()
            );
            let by_source =
                utf16::ParagraphBidiInfo::new_with_data_source(&HardcodedBidiData, units, base);
            assert_eq!(
                utf16::ParagraphBidiInfo::new(units, base),
                by_source,
                "{}",
                row.title()
            );
            if let Some(text) = &text.utf8 {
                let text = text.text.as_str();
                let by_source = BidiInfo::new_with_data_source(&HardcodedBidiData, text, base);
                assert_eq!(BidiInfo::new(text, base), by_source, "{}", row.title());
                let by_source =
                    ParagraphBidiInfo::new_with_data_source(&HardcodedBidiData, text, base);
                assert_eq!(
                    ParagraphBidiInfo::new(text, base),
                    by_source,
                    "{}",
                    row.title()
                );
                let by_source = InitialInfo::new_with_data_source(&HardcodedBidiData, text, base);
                assert_eq!(InitialInfo::new(text, base), by_source, "{}", row.title());
                for &full in &[false, true] {
                    let (by_data, by_source) = if full {
                        (
                            unicode_bidi::get_base_direction_full(text),
                            unicode_bidi::get_base_direction_full_with_data_source(
                                &HardcodedBidiData,
                                text,
                            ),
                        )
                    } else {
                        (
                            unicode_bidi::get_base_direction(text),
                            unicode_bidi::get_base_direction_with_data_source(
                                &HardcodedBidiData,
                                text,
                            ),
                        )
                    };
                    assert_eq!(by_data, by_source, "{}", row.title());
                }
            }
        }
    }
    assert!(texts > 0);
}
