//! Where the crate panics, and with which fault.

use std::panic::{self, AssertUnwindSafe};

use unicode_bidi::displayed::{self, BaseLevel, DisplayOptions, Moves, Split};
use unicode_bidi::{BidiClass, BidiDataSource, Level, ParagraphInfo};

/// Hebrew letters are R, other characters L.
struct Letters;

impl BidiDataSource for Letters {
    fn bidi_class(&self, c: char) -> BidiClass {
        if ('\u{5D0}'..='\u{5EA}').contains(&c) {
            BidiClass::R
        } else {
            BidiClass::L
        }
    }
}

/// Returns the message with which a call panics.
fn message<T>(call: impl FnOnce() -> T) -> String {
    let panicked = panic::catch_unwind(AssertUnwindSafe(|| drop(call())));
    let payload = panicked.expect_err("no panic");
    match payload.downcast_ref::<String>() {
        Some(message) => message.clone(),
        None => payload
            .downcast_ref::<&str>()
            .expect("a message")
            .to_string(),
    }
}

/// Checks that a call panics with a fault of the header.
fn expect_fault<T>(fault: &str, call: impl FnOnce() -> T) {
    let found = message(call);
    let start = format!("UNICODE_BIDI_{}: ", fault);
    assert!(found.starts_with(&start), "{} instead of {}", found, fault);
}

/// Checks that each call on a line panics with a fault.
macro_rules! expect_line_fault {
    ($fault:literal, $info:expr, $paragraph:expr, $line:expr) => {
        expect_fault($fault, || $info.reordered_levels($paragraph, $line));
        expect_fault($fault, || {
            $info.reordered_levels_per_char($paragraph, $line)
        });
        expect_fault($fault, || $info.visual_runs($paragraph, $line));
        expect_fault($fault, || $info.reorder_line($paragraph, $line));
        expect_fault($fault, || {
            let level = $paragraph.level;
            displayed::line(&$info, level, $line, DisplayOptions::default())
        });
    };
}

macro_rules! tests_of_lines {
    ($name:ident, $types:path, $text:expr, $inside:expr) => {
        mod $name {
            use super::*;
            use $types::{BidiInfo, InitialInfo, Paragraph, ParagraphBidiInfo};

            #[test]
            fn lines_out_of_range_or_reversed() {
                let text = $text;
                let info = BidiInfo::new_with_data_source(&Letters, &text[..], None);
                let paragraph = &info.paragraphs[0];
                let len = text.len();
                expect_line_fault!("BAD_LINE", info, paragraph, 0..len + 1);
                expect_line_fault!("BAD_LINE", info, paragraph, len + 1..len + 1);
                expect_line_fault!("BAD_LINE", info, paragraph, 0..usize::MAX);
                #[allow(clippy::reversed_empty_ranges)]
                {
                    expect_line_fault!("BAD_LINE", info, paragraph, 1..0);
                }
                let one = ParagraphBidiInfo::new_with_data_source(&Letters, &text[..], None);
                expect_fault("BAD_LINE", || one.reordered_levels(0..len + 1));
                expect_fault("BAD_LINE", || one.reordered_levels_per_char(0..len + 1));
                expect_fault("BAD_LINE", || one.visual_runs(0..len + 1));
                expect_fault("BAD_LINE", || one.reorder_line(0..len + 1));
                expect_fault("BAD_LINE", || {
                    let level = one.paragraph_level;
                    displayed::line(&one, level, 0..len + 1, DisplayOptions::default())
                });
            }

            #[test]
            fn lines_that_cut_a_character() {
                let text = $text;
                let info = BidiInfo::new_with_data_source(&Letters, &text[..], None);
                let paragraph = &info.paragraphs[0];
                expect_line_fault!("CUT_CHARACTER", info, paragraph, 0..$inside);
                expect_line_fault!("CUT_CHARACTER", info, paragraph, $inside..text.len());
            }

            #[test]
            #[allow(clippy::single_range_in_vec_init)]
            fn an_empty_line_has_one_empty_run_but_not_at_the_end() {
                let text = $text;
                let info = BidiInfo::new_with_data_source(&Letters, &text[..], None);
                let paragraph = &info.paragraphs[0];
                assert_eq!(
                    info.visual_runs(paragraph, 0..0),
                    (info.levels.clone(), vec![0..0])
                );
                assert!(info.reorder_line(paragraph, 0..0).is_empty());
                let end = text.len();
                assert!(info.reorder_line(paragraph, end..end).is_empty());
                assert_eq!(info.reordered_levels(paragraph, end..end), info.levels);
                assert!(message(|| info.visual_runs(paragraph, end..end)).contains("empty line"));
            }

            #[test]
            fn base_level_126() {
                let text = $text;
                let level = Some(Level::from(126));
                expect_fault("BAD_BASE_LEVEL", || {
                    BidiInfo::new_with_data_source(&Letters, &text[..], level)
                });
                expect_fault("BAD_BASE_LEVEL", || {
                    ParagraphBidiInfo::new_with_data_source(&Letters, &text[..], level)
                });
                let info = InitialInfo::new_with_data_source(&Letters, &text[..], level);
                assert_eq!(info.paragraphs[0].level.number(), 126);
                let unchecked = Some(Level::from_slice_unchecked(&[255])[0]);
                expect_fault("BAD_BASE_LEVEL", || {
                    BidiInfo::new_with_data_source(&Letters, &text[..], unchecked)
                });
            }

            #[test]
            fn changed_fields() {
                let text = $text;
                let new = || BidiInfo::new_with_data_source(&Letters, &text[..], None);
                let paragraph = &new().paragraphs[0];
                let mut info = new();
                info.levels.pop();
                expect_line_fault!("UNEQUAL_LENGTHS", info, paragraph, 0..1);
                let mut info = new();
                info.original_classes.pop();
                expect_line_fault!("UNEQUAL_LENGTHS", info, paragraph, 0..1);
                let mut info = new();
                info.text = &text[..0];
                expect_line_fault!("UNEQUAL_LENGTHS", info, paragraph, 0..1);
                let mut info = new();
                info.levels[0] = Level::from_slice_unchecked(&[127])[0];
                expect_line_fault!("BAD_LEVEL", info, paragraph, 0..text.len());
                let of_level_127 = ParagraphInfo {
                    range: 0..text.len(),
                    level: Level::from_slice_unchecked(&[127])[0],
                };
                expect_line_fault!("BAD_LEVEL", new(), &of_level_127, 0..text.len());
                let mut info = new();
                info.levels[$inside] = Level::from(7);
                expect_line_fault!("UNEVEN_CHARACTER", info, paragraph, 0..text.len());
            }

            #[test]
            fn paragraphs_out_of_range() {
                let text = $text;
                let info = BidiInfo::new_with_data_source(&Letters, &text[..], None);
                let longer = ParagraphInfo {
                    range: 0..text.len() + 1,
                    level: Level::ltr(),
                };
                let paragraph = Paragraph::new(&info, &longer);
                message(|| paragraph.direction());
                message(|| paragraph.level_at(text.len()));
            }
        }
    };
}

// Each text has a character that ends after the index that the test uses.
tests_of_lines!(in_utf8, unicode_bidi, "a\u{5D0}b", 2);
tests_of_lines!(
    in_utf16,
    unicode_bidi::utf16,
    [0x61, 0xD800, 0xDC00, 0x5D0],
    2
);

#[test]
fn levels() {
    message(|| Level::from(127));
    message(|| Level::vec(&[0, 127]));
    let unchecked = Level::from_slice_unchecked(&[0, 127]);
    expect_fault("BAD_LEVEL", || {
        unicode_bidi::BidiInfo::reorder_visual(unchecked)
    });
    for &number in &[126, 127, 253, 254, 255] {
        let level = Level::from_slice_unchecked(&[number])[0];
        assert!(level.new_explicit_next_ltr().is_err());
        assert!(level.new_explicit_next_rtl().is_err());
    }
}

#[test]
fn lists_of_classes() {
    use BidiClass::{L, R};

    let ltr = Level::ltr();
    let unchecked = Level::from_slice_unchecked(&[127, 0]);
    let order = |classes: &[BidiClass], levels: &[Level], level, line, moves| {
        displayed::line_order(classes, levels, level, line, moves)
    };
    let marks = Moves::Marks;
    expect_fault("UNEQUAL_LENGTHS", || order(&[R], &[], ltr, 0..1, marks));
    expect_fault("BAD_LINE", || order(&[R], &[ltr], ltr, 0..2, marks));
    #[allow(clippy::reversed_empty_ranges)]
    {
        expect_fault("BAD_LINE", || order(&[R], &[ltr], ltr, 1..0, marks));
    }
    expect_fault("BAD_LEVEL", || order(&[R, L], unchecked, ltr, 0..2, marks));
    expect_fault("BAD_LEVEL", || {
        order(&[R], &[ltr], unchecked[0], 0..1, marks)
    });
    expect_fault("BAD_FLAGS", || {
        order(&[R], &[ltr], ltr, 0..1, Moves::Clusters)
    });
    let analyse = |brackets: &[_], base| {
        displayed::analyse_classes(&[R, L], brackets, base, Split::EachSeparator)
    };
    expect_fault("UNEQUAL_LENGTHS", || analyse(&[None], BaseLevel::AutoLtr));
    for &number in &[126, 127, 253, 254, 255] {
        let level = Level::from_slice_unchecked(&[number])[0];
        expect_fault("BAD_BASE_LEVEL", || analyse(&[], BaseLevel::Of(level)));
    }
}

#[cfg(feature = "hardcoded-data")]
#[test]
fn displayed_texts() {
    let base = BaseLevel::Of(Level::from(126));
    expect_fault("BAD_BASE_LEVEL", || {
        displayed::text("a", base, Split::OneParagraph, DisplayOptions::default())
    });
    expect_fault("BAD_BASE_LEVEL", || {
        displayed::paragraphs(&[0x61][..], base, Split::EachSeparator)
    });
}

#[test]
#[allow(
    deprecated,
    clippy::reversed_empty_ranges,
    clippy::single_range_in_vec_init
)]
fn deprecated_visual_runs() {
    use unicode_bidi::deprecated::visual_runs;

    let levels = Level::vec(&[0, 1]);
    expect_fault("BAD_LINE", || visual_runs(0..3, &levels));
    expect_fault("BAD_LINE", || visual_runs(3..3, &levels));
    expect_fault("BAD_LINE", || visual_runs(1..0, &levels));
    assert_eq!(visual_runs(1..1, &levels), [1..1]);
    message(|| visual_runs(2..2, &levels));
    message(|| visual_runs(0..0, &[]));
    expect_fault("BAD_LEVEL", || {
        visual_runs(0..1, Level::from_slice_unchecked(&[127]))
    });
}

#[test]
fn the_panic_is_in_the_code_of_the_caller() {
    use std::sync::{Arc, Mutex};

    let places = Arc::new(Mutex::new(Vec::new()));
    let kept = Arc::clone(&places);
    let before = panic::take_hook();
    panic::set_hook(Box::new(move |info| {
        let location = info.location().expect("a location");
        kept.lock()
            .unwrap()
            .push((location.file().to_string(), location.line()));
    }));
    let first = line!();
    message(|| unicode_bidi::BidiInfo::new_with_data_source(&Letters, "a", Some(Level::from(126))));
    let between = line!();
    let info = unicode_bidi::ParagraphBidiInfo::new_with_data_source(&Letters, "a", None);
    message(|| info.reorder_line(0..2));
    let then = line!();
    message(|| displayed::line(&info, Level::ltr(), 0..2, DisplayOptions::default()));
    let last = line!();
    panic::set_hook(before);
    let places = places.lock().unwrap();
    let is_between = |first: u32, last: u32| {
        places
            .iter()
            .any(|(file, line)| file.ends_with("panics.rs") && first < *line && *line < last)
    };
    assert!(is_between(first, between));
    assert!(is_between(between, then));
    assert!(is_between(then, last));
}
