//! The public names of unicode-bidi 0.3.18, each with its type, and the numbers that the C header gives.

use std::borrow::Cow;
use std::fmt::Debug;
use std::ops::Range;

use unicode_bidi::data_source::BidiMatchedOpeningBracket;
use unicode_bidi::level::{self, Error};
use unicode_bidi::*;

/// Every character is L.
struct Source;

impl BidiDataSource for Source {
    fn bidi_class(&self, _: char) -> BidiClass {
        BidiClass::L
    }
}

fn is_compared_and_printed<T: PartialEq + Debug>(_: &T) {}

macro_rules! tests_of_types {
    ($name:ident, $types:path, $Text:ty, $text:expr) => {
        mod $name {
            use super::*;
            use $types::{BidiInfo, InitialInfo, Paragraph, ParagraphBidiInfo};

            fn of_bidi_info<'t>(info: &BidiInfo<'t>, para: &ParagraphInfo, line: Range<usize>) {
                let _: Vec<Level> = info.reordered_levels(para, line.clone());
                let _: Vec<Level> = info.reordered_levels_per_char(para, line.clone());
                let _: Cow<'t, $Text> = info.reorder_line(para, line.clone());
                let _: (Vec<Level>, Vec<LevelRun>) = info.visual_runs(para, line);
                let _: bool = info.has_rtl();
                let _: fn(&[Level]) -> Vec<usize> = BidiInfo::reorder_visual;
                is_compared_and_printed(info);
            }

            fn of_paragraph_bidi_info<'t>(info: &ParagraphBidiInfo<'t>, line: Range<usize>) {
                let _: Vec<Level> = info.reordered_levels(line.clone());
                let _: Vec<Level> = info.reordered_levels_per_char(line.clone());
                let _: Cow<'t, $Text> = info.reorder_line(line.clone());
                let _: (Vec<Level>, Vec<LevelRun>) = info.visual_runs(line);
                let _: bool = info.has_rtl();
                let _: Direction = info.direction();
                let _: fn(&[Level]) -> Vec<usize> = ParagraphBidiInfo::reorder_visual;
                is_compared_and_printed(info);
            }

            fn of_paragraph<'a, 't>(info: &'a BidiInfo<'t>, para: &'a ParagraphInfo) {
                let paragraph: Paragraph<'a, 't> = Paragraph::new(info, para);
                let _: Direction = paragraph.direction();
                let _: Level = paragraph.level_at(0);
                let same = Paragraph { info, para };
                assert_eq!(format!("{:?}", same), format!("{:?}", paragraph));
            }

            #[test]
            fn calls() {
                let text: &$Text = $text;
                let info: BidiInfo = BidiInfo::new_with_data_source(&Source, text, None);
                of_bidi_info(&info, &info.paragraphs[0], 0..1);
                of_paragraph(&info, &info.paragraphs[0]);
                let one: ParagraphBidiInfo =
                    ParagraphBidiInfo::new_with_data_source(&Source, text, None);
                of_paragraph_bidi_info(&one, 0..1);
                let initial: InitialInfo = InitialInfo::new_with_data_source(&Source, text, None);
                is_compared_and_printed(&initial);
            }

            #[cfg(feature = "hardcoded-data")]
            #[test]
            fn calls_by_unicodes_data() {
                let text: &$Text = $text;
                let level = Some(Level::rtl());
                assert_eq!(BidiInfo::new(text, None).paragraphs.len(), 1);
                assert_eq!(
                    ParagraphBidiInfo::new(text, level).paragraph_level,
                    Level::rtl()
                );
                assert_eq!(
                    InitialInfo::new(text, level).original_classes,
                    [BidiClass::L]
                );
                let _: Direction = get_base_direction(text);
                let _: Direction = get_base_direction_full(text);
            }

            #[test]
            fn fields() {
                let text: &$Text = $text;
                let level = Level::ltr();
                let paragraphs = vec![ParagraphInfo { range: 0..1, level }];
                let original_classes = vec![BidiClass::L];
                let levels = vec![level];
                let by_call = InitialInfo::new_with_data_source(&Source, text, None);
                assert_eq!(
                    InitialInfo {
                        text,
                        original_classes: original_classes.clone(),
                        paragraphs: paragraphs.clone(),
                    },
                    by_call
                );
                let by_call = ParagraphBidiInfo::new_with_data_source(&Source, text, None);
                assert_eq!(
                    ParagraphBidiInfo {
                        text,
                        original_classes: original_classes.clone(),
                        levels: levels.clone(),
                        paragraph_level: level,
                        is_pure_ltr: true,
                    },
                    by_call
                );
                let by_call = BidiInfo::new_with_data_source(&Source, text, None);
                assert_eq!(
                    BidiInfo {
                        text,
                        original_classes,
                        levels,
                        paragraphs,
                    },
                    by_call
                );
                assert_eq!(by_call.paragraphs[0].clone().len(), 1);
            }
        }
    };
}

tests_of_types!(in_utf8, unicode_bidi, str, "a");
tests_of_types!(in_utf16, unicode_bidi::utf16, [u16], &[0x61]);

#[test]
fn calls_of_levels() {
    let _: [fn() -> Level; 2] = [Level::ltr, Level::rtl];
    let _: [fn() -> u8; 2] = [Level::max_implicit_depth, Level::max_explicit_depth];
    let _: [fn(u8) -> Result<Level, Error>; 2] = [Level::new, Level::new_explicit];
    let _: fn(&Level) -> u8 = Level::number;
    let _: [fn(&Level) -> bool; 2] = [Level::is_ltr, Level::is_rtl];
    type Change = fn(&mut Level, u8) -> Result<(), Error>;
    let _: [Change; 3] = [Level::raise, Level::raise_explicit, Level::lower];
    type Next = fn(&Level) -> Result<Level, Error>;
    let _: [Next; 3] = [
        Level::new_explicit_next_ltr,
        Level::new_explicit_next_rtl,
        Level::new_lowest_ge_rtl,
    ];
    let _: fn(&Level) -> BidiClass = Level::bidi_class;
    let _: fn(&[u8]) -> Vec<Level> = Level::vec;
    let _: fn(&[u8]) -> &[Level] = Level::from_slice_unchecked;
    let _: fn(&[Level]) -> bool = level::has_rtl;
    assert_eq!(
        (level::MAX_EXPLICIT_DEPTH, level::MAX_IMPLICIT_DEPTH),
        (125, 126)
    );
    assert_eq!((LTR_LEVEL, RTL_LEVEL), (Level::ltr(), Level::rtl()));
    assert_eq!(
        (level::LTR_LEVEL, level::RTL_LEVEL),
        (Level::from(0), Level::from(1))
    );
    assert!(LTR_LEVEL < RTL_LEVEL);
    assert_eq!(std::mem::size_of::<Level>(), 1);
    assert_eq!(
        format!("{:?} {:?}", LTR_LEVEL, Error::OutOfRangeNumber),
        "Level(0) OutOfRangeNumber"
    );
}

#[test]
fn other_names() {
    let _: Utf8IndexLenIter = Utf8IndexLenIter::new("");
    let _: utf16::Utf16CharIter = utf16::Utf16CharIter::new(&[]);
    let _: utf16::Utf16CharIndexIter = utf16::Utf16CharIndexIter::new(&[]);
    let _: utf16::Utf16IndexLenIter = utf16::Utf16IndexLenIter::new(&[]);
    let _: fn(Range<usize>, &[Level]) -> Vec<LevelRun> = {
        #[allow(deprecated)]
        deprecated::visual_runs
    };
    let runs: LevelRunVec = Default::default();
    assert!(runs.is_empty());
    let bracket = BidiMatchedOpeningBracket {
        opening: '(',
        is_open: true,
    };
    assert_eq!(
        format!("{:?}", bracket),
        "BidiMatchedOpeningBracket { opening: '(', is_open: true }"
    );
    assert_ne!(Direction::Ltr, Direction::Mixed);
    #[cfg(feature = "hardcoded-data")]
    {
        let _: fn(char) -> BidiClass = bidi_class;
        let _ = HardcodedBidiData;
    }
}

#[test]
fn iterators_of_texts() {
    let text = "a";
    let _: std::str::Chars = TextSource::chars(text);
    let _: std::str::CharIndices = TextSource::char_indices(text);
    let _: Utf8IndexLenIter = TextSource::indices_lengths(text);
    let text: &[u16] = &[0x61];
    let _: utf16::Utf16CharIter = TextSource::chars(text);
    let _: utf16::Utf16CharIndexIter = TextSource::char_indices(text);
    let _: utf16::Utf16IndexLenIter = TextSource::indices_lengths(text);
}

/// The numbers are those of the enumeration in `unicode_bidi.h`, in its order.
#[test]
fn numbers_of_classes() {
    let header = include_str!("../../../crates/bidi_c/unicode_bidi.h");
    let start = header
        .find("UNICODE_BIDI_L,")
        .expect("the classes in the header");
    let end = start
        + header[start..]
            .find('}')
            .expect("the end of the enumeration");
    let names: Vec<&str> = header[start..end]
        .split(',')
        .map(|name| name.trim().trim_start_matches("UNICODE_BIDI_"))
        .collect();
    use BidiClass::*;
    let classes = [
        L, R, AL, EN, ES, ET, AN, CS, NSM, BN, B, S, WS, ON, LRE, LRO, RLE, RLO, PDF, LRI, RLI,
        FSI, PDI,
    ];
    assert_eq!(names.len(), classes.len());
    for (number, (class, name)) in classes.iter().zip(names).enumerate() {
        assert_eq!(format!("{:?}", class), name);
        assert_eq!(*class as usize, number);
    }
    assert_eq!(std::mem::size_of::<BidiClass>(), 1);
}

#[test]
fn versions_are_those_of_the_library() {
    extern "C" {
        fn unicode_bidi_unicode_version() -> i64;
        fn unicode_bidi_version() -> i64;
    }
    let number =
        |(major, minor, patch): (u64, u64, u64)| (10000 * major + 100 * minor + patch) as i64;
    // Names the crate, so that its library is linked.
    let _ = unicode_bidi::BidiInfo::reorder_visual(&[]);
    assert_eq!(number(UNICODE_VERSION), unsafe {
        unicode_bidi_unicode_version()
    });
    let manifest = include_str!("../../rust/Cargo.toml");
    let version = manifest
        .lines()
        .find_map(|line| line.strip_prefix("version = \"0.3.18+yoqanchu."))
        .expect("the version in the manifest");
    let parts: Vec<u64> = version
        .trim_end_matches('"')
        .split('.')
        .map(|part| part.parse().expect("a number"))
        .collect();
    assert_eq!(number((parts[0], parts[1], parts[2])), unsafe {
        unicode_bidi_version()
    });
}
