//! Runs the shared test vectors through the crate's public names, and prints how many of each file it ran.
//!
//! A vector is left out if the crate has no name for it: the separate stages, lines of a width, `cr-lf-together` with a
//! source, mirrored partners, and a table with a fault. The classes of Unicode's data need the feature `hardcoded-data`, and
//! so do displayed lines. The crate has no base direction of classes: `types` are a text of the source `sample`.

use std::char;
use std::collections::BTreeSet;
use std::panic;
use std::path::Path;
use std::process::exit;
use std::sync::atomic::{AtomicUsize, Ordering};

#[cfg(feature = "hardcoded-data")]
use unicode_bidi::displayed::BaseLevel;
use unicode_bidi::displayed::{self, Moves, Split};
use unicode_bidi::level::MAX_IMPLICIT_DEPTH;
use unicode_bidi::{
    format_chars, BidiClass, BidiDataSource, Direction, Level, LevelRun, ParagraphInfo,
};
use unicode_bidi_tests::rows::{self, Row};
use unicode_bidi_tests::sources::Sources;
use unicode_bidi_tests::texts::{Encoded, Text};

/// How many results differ from the expected ones.
static DIFFERENT: AtomicUsize = AtomicUsize::new(0);

fn main() {
    let sources = Sources::read();
    println!(
        "sources.rows: {} data sources, which other test vectors name",
        sources.len()
    );
    let mut total = run_folder(&rows::folder(), &sources);
    assert!(total > 0, "no test vector was found");
    let displayed = rows::folder_of_displayed();
    if displayed.is_dir() {
        println!("test vectors of displayed lines:");
        total += run_folder(&displayed, &sources);
    } else {
        println!(
            "left out: the test vectors of displayed lines, since {} is not there",
            displayed.display()
        );
    }
    match DIFFERENT.load(Ordering::Relaxed) {
        0 => println!("ok rows: {} test vectors", total),
        different => {
            println!("failed: {} results differ", different);
            exit(1);
        }
    }
}

/// Runs the test vectors of a folder, and prints how many of each file. Returns how many of all.
fn run_folder(folder: &Path, sources: &Sources) -> usize {
    let mut total = 0;
    for file in rows::files_in(folder) {
        let rows = rows::read_in(folder, &file);
        let mut left_out = BTreeSet::new();
        let mut ran = 0;
        for row in &rows {
            if run(row, sources) {
                ran += 1;
            } else {
                left_out.insert(kind_left_out(row));
            }
        }
        let kinds: Vec<String> = left_out.into_iter().collect();
        let left_out = match kinds.len() {
            0 => String::new(),
            _ => format!(", without: {}", kinds.join(", ")),
        };
        println!(
            "{}: {} of {} test vectors{}",
            file,
            ran,
            rows.len(),
            left_out
        );
        total += ran;
    }
    total
}

/// Returns the kind of a test vector that is left out, and which vectors of this kind are.
fn kind_left_out(row: &Row) -> String {
    let which = match row.kind.as_str() {
        "text" => row.get("split"),
        "character of Unicode" => ["class", "mirrored"]
            .iter()
            .copied()
            .find(|field| row.get(field).is_some()),
        _ => None,
    };
    match which {
        Some(which) => format!("{} {}", row.kind, which),
        None => row.kind.clone(),
    }
}

/// Runs a test vector. Returns false if the crate has no name for it.
fn run(row: &Row, sources: &Sources) -> bool {
    match row.kind.as_str() {
        "text" => run_text(row, sources),
        "initial" => in_each_encoding(row, sources, in_utf8::initial, in_utf16::initial),
        "base direction" => in_each_encoding(
            row,
            sources,
            in_utf8::base_direction,
            in_utf16::base_direction,
        ),
        "direction" => in_each_encoding(row, sources, in_utf8::direction, in_utf16::direction),
        "line" => in_each_encoding(row, sources, in_utf8::line, in_utf16::line),
        "line map" => {
            run_line_order(row, sources);
            in_each_encoding(row, sources, in_utf8::line_map, in_utf16::line_map)
        }
        #[cfg(feature = "hardcoded-data")]
        "displayed line" => in_each_encoding(
            row,
            sources,
            in_utf8::displayed_line,
            in_utf16::displayed_line,
        ),
        #[cfg(feature = "hardcoded-data")]
        "displayed text" => in_each_encoding(
            row,
            sources,
            in_utf8::displayed_text,
            in_utf16::displayed_text,
        ),
        "units" => run_units(row),
        "order" => run_order(row),
        "visual runs" => run_visual_runs(row),
        "level" => run_level(row),
        "level step" => run_level_step(row),
        "level name" => run_level_name(row),
        "list of levels" => run_list_of_levels(row),
        "format character" => run_format_character(row),
        "character of Unicode" => run_character_of_unicode(row),
        "characters of Unicode" => run_characters_of_unicode(row),
        _ => false,
    }
}

/// Compares a result with the expected one, and prints both if they differ.
fn expect<T: PartialEq + std::fmt::Debug>(row: &Row, what: &str, found: T, expected: T) {
    if found != expected {
        println!(
            "{}: {}: expected {:?}, found {:?}",
            row.title(),
            what,
            expected,
            found
        );
        DIFFERENT.fetch_add(1, Ordering::Relaxed);
    }
}

/// Compares entries, one a code unit, with the words of a field, one a character. A dash fits any entry.
fn expect_entries(row: &Row, key: &str, at: &[usize], found: &[String]) {
    let words = match row.words(key) {
        Some(words) => words,
        None => return,
    };
    expect(row, key, at.len() - 1, words.len());
    expect(row, key, found.len(), at[words.len()]);
    for (index, word) in words.iter().enumerate() {
        for unit in &found[at[index]..at[index + 1]] {
            if word != "-" {
                expect(row, &format!("{} of character {}", key, index), unit, word);
            }
        }
    }
}

fn names(classes: &[BidiClass]) -> Vec<String> {
    classes.iter().map(|class| format!("{:?}", class)).collect()
}

fn numbers(levels: &[Level]) -> Vec<String> {
    levels
        .iter()
        .map(|level| level.number().to_string())
        .collect()
}

/// Compares paragraphs with those of a row.
fn expect_paragraphs(row: &Row, at: &[usize], found: &[ParagraphInfo]) {
    let words = match row.words("paragraphs") {
        Some(words) => words,
        None => return,
    };
    let expected: Vec<ParagraphInfo> = words
        .iter()
        .map(|word| {
            let colon = word.find(':').unwrap_or_else(|| row.reject("a paragraph"));
            let range = row.parse_range(&word[..colon]);
            ParagraphInfo {
                range: at[range.start]..at[range.end],
                level: Level::from(row.parse_number(&word[colon + 1..]) as u8),
            }
        })
        .collect();
    expect(row, "paragraphs", found, &expected);
    for (paragraph, expected) in found.iter().zip(&expected) {
        expect(row, "length", paragraph.len(), expected.range.len());
    }
}

/// Compares runs, which are ranges of code units, with those of a row, which count characters.
fn expect_runs(row: &Row, at: &[usize], found: &[LevelRun]) {
    if let Some(words) = row.words("runs") {
        let ranges = words.iter().map(|word| row.parse_range(word));
        let expected: Vec<LevelRun> = ranges.map(|range| at[range.start]..at[range.end]).collect();
        expect(row, "runs", found, &expected[..]);
    }
}

fn expect_direction(row: &Row, key: &str, found: Direction) {
    let expected = match row.get(key) {
        None => return,
        Some("ltr") => Direction::Ltr,
        Some("rtl") => Direction::Rtl,
        Some("mixed") => Direction::Mixed,
        Some(_) => row.reject("a direction"),
    };
    expect(row, key, found, expected);
}

fn expect_yes(row: &Row, key: &str, found: bool) {
    if let Some(expected) = row.get(key) {
        expect(row, key, if found { "yes" } else { "no" }, expected);
    }
}

type Check<T> = fn(&Row, &Sources, &Encoded<T>);

/// Runs a check in UTF-16, and in UTF-8 if the text can be written so.
fn in_each_encoding(
    row: &Row,
    sources: &Sources,
    utf8: Check<String>,
    utf16: Check<Vec<u16>>,
) -> bool {
    let text = Text::of(row, "text").unwrap_or_else(|| row.reject("no text"));
    if let Some(text) = &text.utf8 {
        utf8(row, sources, text);
    }
    utf16(row, sources, &text.utf16);
    true
}

fn run_text(row: &Row, sources: &Sources) -> bool {
    match row.get("split") {
        None | Some("each-separator") => {
            run_classes(row, sources, Split::EachSeparator);
            in_each_encoding(row, sources, in_utf8::text, in_utf16::text)
        }
        Some("whole") => {
            run_classes(row, sources, Split::OneParagraph);
            in_each_encoding(row, sources, in_utf8::paragraph, in_utf16::paragraph)
        }
        Some(_) => false,
    }
}

/// Returns the analysis of a row by the classes and brackets of its characters. An unpaired surrogate is U+FFFD.
fn analysed_classes(row: &Row, sources: &Sources, split: Split) -> displayed::AnalysedClasses {
    let text = Text::of(row, "text").unwrap_or_else(|| row.reject("no text"));
    let source = sources.of(row);
    let characters: Vec<char> = char::decode_utf16(text.utf16.text.iter().copied())
        .map(|character| character.unwrap_or(char::REPLACEMENT_CHARACTER))
        .collect();
    let classes: Vec<BidiClass> = characters.iter().map(|&c| source.bidi_class(c)).collect();
    let brackets: Vec<_> = characters
        .iter()
        .map(|&c| source.bidi_matched_opening_bracket(c))
        .collect();
    displayed::analyse_classes(&classes, &brackets, row.base().into(), split)
}

/// Compares the analysis of classes without a text. Its indexes count characters.
fn run_classes(row: &Row, sources: &Sources, split: Split) {
    let found = analysed_classes(row, sources, split);
    let each: Vec<usize> = (0..=found.classes.len()).collect();
    expect_entries(row, "classes", &each, &names(&found.classes));
    expect_entries(row, "levels", &each, &numbers(&found.levels));
    expect_paragraphs(row, &each, &found.paragraphs);
}

/// Compares the maps of a line by classes and levels without a text.
fn run_line_order(row: &Row, sources: &Sources) {
    let found = analysed_classes(row, sources, Split::EachSeparator);
    let line = row.parse_range(row.need("line"));
    let level = found.paragraphs[0].level;
    let maps = displayed::line_order(
        &found.classes,
        &found.levels,
        level,
        line,
        Moves::Characters,
    );
    let indexes = |key| -> Vec<usize> {
        let words = row.words(key).unwrap_or_default();
        words.iter().map(|word| row.parse_number(word)).collect()
    };
    let places: Vec<Option<usize>> = indexes("places").into_iter().map(Some).collect();
    expect(
        row,
        "inverse",
        displayed::places(&maps.order, places.len()),
        places.clone(),
    );
    expect(row, "order", maps.order, indexes("order"));
    expect(row, "places", maps.places, places);
}

/// Returns the base level of a row, with its fallback.
#[cfg(feature = "hardcoded-data")]
fn base_level(row: &Row) -> BaseLevel {
    match (row.base(), row.get("fallback")) {
        (None, Some("1")) => BaseLevel::AutoRtl,
        (base, _) => base.into(),
    }
}

/// Returns the options of a displayed line. Those that a row does not have are the defaults.
#[cfg(feature = "hardcoded-data")]
fn display_options(row: &Row) -> displayed::DisplayOptions {
    use displayed::{DisplayOptions, Dropped};
    let DisplayOptions { moves, dropped, .. } = DisplayOptions::default();
    DisplayOptions {
        moves: match row.get("moves") {
            None => moves,
            Some("characters") => Moves::Characters,
            Some("marks") => Moves::Marks,
            Some("clusters") => Moves::Clusters,
            Some(_) => row.reject("moves"),
        },
        mirror: true,
        dropped: match row.get("dropped") {
            None => dropped,
            Some("nothing") => Dropped::Nothing,
            Some("controls") => Dropped::Controls,
            Some("neutrals") => Dropped::BoundaryNeutrals,
            Some(_) => row.reject("dropped"),
        },
    }
}

/// Checks that the places invert the order, and that the displayed characters are in it.
#[cfg(feature = "hardcoded-data")]
fn expect_maps(row: &Row, characters: usize, order: &[usize], places: &[Option<usize>]) {
    let shown = row.words("shown").unwrap_or_default().len();
    let inverse = displayed::places(order, characters);
    expect(row, "order", order.len(), shown);
    expect(row, "places", places, &inverse[..]);
    let hidden = places.iter().filter(|place| place.is_none()).count();
    expect(row, "hidden", hidden, characters - shown);
}

/// The checks of an encoding: those whose types the crate has twice.
macro_rules! checks {
    ($encoding:ident, $types:path, $Owned:ty, $borrow:expr) => {
        mod $encoding {
            use super::*;
            use $types::{BidiInfo, InitialInfo, Paragraph, ParagraphBidiInfo};

            pub fn text(row: &Row, sources: &Sources, case: &Encoded<$Owned>) {
                let text = $borrow(&case.text);
                let info = BidiInfo::new_with_data_source(sources.of(row), text, row.base());
                expect(row, "text", info.text, text);
                expect_entries(row, "classes", &case.at, &names(&info.original_classes));
                expect_entries(row, "levels", &case.at, &numbers(&info.levels));
                expect_paragraphs(row, &case.at, &info.paragraphs);
                expect(
                    row,
                    "odd levels",
                    info.has_rtl(),
                    info.levels.iter().any(Level::is_rtl),
                );
                for paragraph in &info.paragraphs {
                    let paragraph = Paragraph::new(&info, paragraph);
                    for pos in 0..paragraph.para.len() {
                        let level = info.levels[paragraph.para.range.start + pos];
                        expect(row, "level_at", paragraph.level_at(pos), level);
                    }
                }
                initial(row, sources, case);
            }

            pub fn paragraph(row: &Row, sources: &Sources, case: &Encoded<$Owned>) {
                let text = $borrow(&case.text);
                let source = sources.of(row);
                let info = ParagraphBidiInfo::new_with_data_source(source, text, row.base());
                expect_entries(row, "classes", &case.at, &names(&info.original_classes));
                expect_entries(row, "levels", &case.at, &numbers(&info.levels));
                let paragraph = ParagraphInfo {
                    range: 0..text.len(),
                    level: info.paragraph_level,
                };
                expect_paragraphs(row, &case.at, &[paragraph]);
            }

            pub fn initial(row: &Row, sources: &Sources, case: &Encoded<$Owned>) {
                let text = $borrow(&case.text);
                let info = InitialInfo::new_with_data_source(sources.of(row), text, row.base());
                expect_entries(row, "classes", &case.at, &names(&info.original_classes));
                expect_paragraphs(row, &case.at, &info.paragraphs);
            }

            pub fn base_direction(row: &Row, sources: &Sources, case: &Encoded<$Owned>) {
                let text = $borrow(&case.text);
                let source = sources.of(row);
                let first = unicode_bidi::get_base_direction_with_data_source(source, text);
                expect_direction(row, "first", first);
                let full = unicode_bidi::get_base_direction_full_with_data_source(source, text);
                expect_direction(row, "full", full);
            }

            pub fn direction(row: &Row, sources: &Sources, case: &Encoded<$Owned>) {
                let text = $borrow(&case.text);
                let source = sources.of(row);
                let info = ParagraphBidiInfo::new_with_data_source(source, text, row.base());
                expect_yes(row, "pure ltr", info.is_pure_ltr);
                expect_yes(row, "has rtl", info.has_rtl());
                expect_direction(row, "direction", info.direction());
                let info = BidiInfo::new_with_data_source(source, text, row.base());
                if let [paragraph] = &info.paragraphs[..] {
                    expect_yes(row, "has rtl", info.has_rtl());
                    let paragraph = Paragraph::new(&info, paragraph);
                    expect_direction(row, "direction", paragraph.direction());
                }
            }

            pub fn line(row: &Row, sources: &Sources, case: &Encoded<$Owned>) {
                let text = $borrow(&case.text);
                let info = BidiInfo::new_with_data_source(sources.of(row), text, row.base());
                let line = match row.get("line") {
                    Some(word) => {
                        let line = row.parse_range(word);
                        case.at[line.start]..case.at[line.end]
                    }
                    None => 0..text.len(),
                };
                let mut paragraph = info.paragraphs[0].clone();
                if let Some(level) = row.number("paragraph") {
                    paragraph.level = Level::from(level as u8);
                }
                expect_entries(row, "levels", &case.at, &numbers(&info.levels));
                let after = info.reordered_levels(&paragraph, line.clone());
                expect_entries(row, "after", &case.at, &numbers(&after));
                let after = info.reordered_levels_per_char(&paragraph, line.clone());
                let each: Vec<usize> = (0..case.at.len()).collect();
                expect_entries(row, "after", &each, &numbers(&after));
                // The crate has a run in an empty line, but UAX #9 has none.
                if !line.is_empty() {
                    let (levels, runs) = info.visual_runs(&paragraph, line.clone());
                    expect_entries(row, "after", &case.at, &numbers(&levels));
                    expect_runs(row, &case.at, &runs);
                }
                let shown = info.reorder_line(&paragraph, line);
                if let Some(expected) = Text::of(row, "shown") {
                    expect(row, "shown", &shown[..], of_encoding::$encoding(&expected));
                    let is_borrowed = matches!(shown, std::borrow::Cow::Borrowed(_));
                    expect_yes(row, "borrowed", is_borrowed);
                }
            }

            pub fn line_map(row: &Row, sources: &Sources, case: &Encoded<$Owned>) {
                let text = $borrow(&case.text);
                let info = BidiInfo::new_with_data_source(sources.of(row), text, row.base());
                let line = row.parse_range(row.need("line"));
                let units = case.at[line.start]..case.at[line.end];
                let levels = info.reordered_levels_per_char(&info.paragraphs[0], units);
                let order = BidiInfo::reorder_visual(&levels[line]);
                if let Some(words) = row.words("order") {
                    let expected: Vec<usize> = words.iter().map(|w| row.parse_number(w)).collect();
                    expect(row, "order", order, expected);
                }
            }

            #[cfg(feature = "hardcoded-data")]
            pub fn displayed_line(row: &Row, _: &Sources, case: &Encoded<$Owned>) {
                let text = $borrow(&case.text);
                let info = ParagraphBidiInfo::new(text, row.base());
                let line = match row.get("line") {
                    Some(word) => row.parse_range(word),
                    None => 0..case.at.len() - 1,
                };
                let units = case.at[line.start]..case.at[line.end];
                let each: Vec<usize> = (0..=line.len()).collect();
                let levels = info.reordered_levels_per_char(units.clone());
                expect_entries(row, "levels", &each, &numbers(&levels[line.clone()]));
                let expected = match Text::of(row, "shown") {
                    Some(expected) => expected,
                    None => return,
                };
                let level = info.paragraph_level;
                let shown = displayed::line(&info, level, units, display_options(row));
                expect(
                    row,
                    "shown",
                    &shown.text[..],
                    of_encoding::$encoding(&expected),
                );
                expect_maps(row, line.len(), &shown.order, &shown.places);
            }

            #[cfg(feature = "hardcoded-data")]
            pub fn displayed_text(row: &Row, _: &Sources, case: &Encoded<$Owned>) {
                let text = $borrow(&case.text);
                let split = match row.get("split") {
                    None | Some("each-separator") => Split::EachSeparator,
                    Some("cr-lf-together") => Split::CrLfTogether,
                    Some(_) => row.reject("a split rule"),
                };
                let base = base_level(row);
                let found = displayed::paragraphs(text, base, split);
                expect_paragraphs(row, &case.at, &found.paragraphs);
                let shown = displayed::text(text, base, split, display_options(row));
                let expected = Text::of(row, "shown").unwrap_or_else(|| row.reject("no shown"));
                expect(
                    row,
                    "shown",
                    &shown.text[..],
                    of_encoding::$encoding(&expected),
                );
                expect_maps(row, case.at.len() - 1, &shown.order, &shown.places);
                let levels: Vec<Level> = found
                    .paragraphs
                    .iter()
                    .flat_map(|paragraph| {
                        let part = &text[paragraph.range.clone()];
                        let info = ParagraphBidiInfo::new(part, Some(paragraph.level));
                        info.reordered_levels(0..part.len())
                    })
                    .collect();
                expect(row, "levels", shown.levels, levels);
            }
        }
    };
}

checks!(in_utf8, unicode_bidi, String, String::as_str);
checks!(in_utf16, unicode_bidi::utf16, Vec<u16>, Vec::as_slice);

/// The text of a row in an encoding.
mod of_encoding {
    use super::Text;

    pub fn in_utf8(text: &Text) -> &str {
        &text.utf8.as_ref().expect("a text of UTF-8").text
    }

    pub fn in_utf16(text: &Text) -> &[u16] {
        &text.utf16.text
    }
}

/// Compares the iterators of a text with a row.
fn run_units(row: &Row) -> bool {
    let text = Text::of(row, "text").unwrap_or_else(|| row.reject("no text"));
    let expected: String = row
        .words("characters")
        .unwrap_or_default()
        .iter()
        .map(|word| std::char::from_u32(row.parse_character(word)).expect("a character"))
        .collect();
    if let Some(text) = &text.utf8 {
        expect_units(row, "utf8", text.text.as_str(), &expected);
    }
    expect_units(row, "utf16", text.utf16.text.as_slice(), &expected);
    let backwards: String = unicode_bidi::utf16::Utf16CharIter::new(&text.utf16.text)
        .rev()
        .collect();
    expect(
        row,
        "backwards",
        backwards,
        expected.chars().rev().collect(),
    );
    true
}

fn expect_units<'a, T: unicode_bidi::TextSource<'a> + ?Sized>(
    row: &Row,
    key: &str,
    text: &'a T,
    characters: &str,
) {
    expect(
        row,
        "characters",
        text.chars().collect::<String>(),
        characters.to_string(),
    );
    let words = match row.words(key) {
        Some(words) => words,
        None => return,
    };
    let at: Vec<usize> = words.iter().map(|word| row.parse_number(word)).collect();
    expect(row, key, text.len(), at[at.len() - 1]);
    let with_index: Vec<(usize, char)> = at.iter().copied().zip(characters.chars()).collect();
    expect(
        row,
        key,
        text.char_indices().collect::<Vec<_>>(),
        with_index,
    );
    let with_len: Vec<(usize, usize)> = at
        .windows(2)
        .map(|pair| (pair[0], pair[1] - pair[0]))
        .collect();
    expect(
        row,
        key,
        text.indices_lengths().collect::<Vec<_>>(),
        with_len.clone(),
    );
    for (&(index, len), character) in with_len.iter().zip(characters.chars()) {
        expect(row, key, T::char_len(character), len);
        expect(row, key, text.char_at(index), Some((character, len)));
        for inside in index + 1..index + len {
            expect(row, key, text.char_at(inside), None);
        }
        let part = text.subrange(index..index + len);
        expect(row, key, part.len(), len);
    }
    expect(row, key, text.char_at(text.len()), None);
}

fn levels_of(row: &Row, key: &str) -> Vec<Level> {
    let words = row.words(key).unwrap_or_default();
    words
        .iter()
        .map(|word| Level::from(row.parse_number(word) as u8))
        .collect()
}

fn run_order(row: &Row) -> bool {
    let levels = levels_of(row, "levels");
    let words = row.words("order").unwrap_or_default();
    let expected: Vec<usize> = words.iter().map(|word| row.parse_number(word)).collect();
    for order in [
        unicode_bidi::BidiInfo::reorder_visual,
        unicode_bidi::ParagraphBidiInfo::reorder_visual,
        unicode_bidi::utf16::BidiInfo::reorder_visual,
        unicode_bidi::utf16::ParagraphBidiInfo::reorder_visual,
    ]
    .iter()
    {
        expect(row, "order", order(&levels), expected.clone());
    }
    true
}

fn run_visual_runs(row: &Row) -> bool {
    let levels = levels_of(row, "levels");
    let each: Vec<usize> = (0..=levels.len()).collect();
    #[allow(deprecated)]
    let runs = unicode_bidi::deprecated::visual_runs(row.parse_range(row.need("line")), &levels);
    expect_runs(row, &each, &runs);
    true
}

/// Compares a level, or the error, with a field that is a number or `none`.
fn expect_level(row: &Row, key: &str, found: Result<Level, unicode_bidi::level::Error>) {
    if let Some(expected) = row.get(key) {
        let found = found.map_or("none".to_string(), |level| level.number().to_string());
        expect(row, key, found.as_str(), expected);
    }
}

fn run_level(row: &Row) -> bool {
    let number = row.parse_number(row.need("number")) as u8;
    expect_level(row, "level", Level::new(number));
    expect_level(row, "explicit", Level::new_explicit(number));
    if number <= MAX_IMPLICIT_DEPTH {
        let level = Level::from(number);
        expect(row, "number", u8::from(level), number);
        expect_level(row, "next ltr", level.new_explicit_next_ltr());
        expect_level(row, "next rtl", level.new_explicit_next_rtl());
        expect_level(row, "lowest rtl", level.new_lowest_ge_rtl());
        expect_yes(row, "is rtl", level.is_rtl());
        expect_yes(row, "is rtl", !level.is_ltr());
        if let Some(class) = row.get("class") {
            expect(row, "class", level.bidi_class(), row.parse_class(class));
        }
    }
    true
}

fn run_level_step(row: &Row) -> bool {
    let level = Level::from(row.parse_number(row.need("level")) as u8);
    let by = row.parse_number(row.need("by")) as u8;
    let step = |change: fn(&mut Level, u8) -> Result<(), unicode_bidi::level::Error>| {
        let mut changed = level;
        let result = change(&mut changed, by);
        if result.is_err() {
            expect(row, "level after an error", changed, level);
        }
        result.map(|()| changed)
    };
    expect_level(row, "raised", step(Level::raise));
    expect_level(row, "explicit", step(Level::raise_explicit));
    expect_level(row, "lowered", step(Level::lower));
    true
}

fn run_level_name(row: &Row) -> bool {
    let level = Level::from(row.parse_number(row.need("level")) as u8);
    let name = row.need("name");
    expect_yes(row, "matches", level == name);
    let owned = name.to_string();
    expect_yes(row, "matches", level == owned);
    true
}

fn run_list_of_levels(row: &Row) -> bool {
    let words = row.words("numbers").unwrap_or_default();
    let numbers: Vec<u8> = words
        .iter()
        .map(|word| row.parse_number(word) as u8)
        .collect();
    if row.need("levels") == "none" {
        // The crate panics at a number that is no level.
        let hook = panic::take_hook();
        panic::set_hook(Box::new(|_| {}));
        let result = panic::catch_unwind(|| Level::vec(&numbers));
        panic::set_hook(hook);
        expect(row, "levels", result.is_err(), true);
    } else {
        expect(
            row,
            "levels",
            Level::vec(&numbers),
            levels_of(row, "levels"),
        );
        let unchecked = Level::from_slice_unchecked(&numbers);
        expect(row, "levels", unchecked, &levels_of(row, "levels")[..]);
    }
    true
}

fn run_format_character(row: &Row) -> bool {
    let character = match row.name.as_str() {
        "ALM" => format_chars::ALM,
        "LRM" => format_chars::LRM,
        "RLM" => format_chars::RLM,
        "LRE" => format_chars::LRE,
        "RLE" => format_chars::RLE,
        "PDF" => format_chars::PDF,
        "LRO" => format_chars::LRO,
        "RLO" => format_chars::RLO,
        "LRI" => format_chars::LRI,
        "RLI" => format_chars::RLI,
        "FSI" => format_chars::FSI,
        "PDI" => format_chars::PDI,
        _ => row.reject("no format character"),
    };
    expect(
        row,
        "character",
        u32::from(character),
        row.parse_character(row.need("character")),
    );
    #[cfg(feature = "hardcoded-data")]
    expect(
        row,
        "class",
        unicode_bidi::bidi_class(character),
        row.parse_class(row.need("class")),
    );
    true
}

/// Unicode's data, as the crate has it.
#[cfg(feature = "hardcoded-data")]
use unicode_bidi::HardcodedBidiData as UnicodeData;

/// Unicode's brackets, which the default function of a source has without the feature too.
#[cfg(not(feature = "hardcoded-data"))]
struct UnicodeData;

#[cfg(not(feature = "hardcoded-data"))]
impl BidiDataSource for UnicodeData {
    fn bidi_class(&self, _: char) -> BidiClass {
        BidiClass::ON
    }
}

fn run_character_of_unicode(row: &Row) -> bool {
    let code = row.parse_character(row.need("character"));
    let character = std::char::from_u32(code).unwrap_or_else(|| row.reject("no character"));
    let has_class = expect_classes_of_unicode(row, "class", &[character]);
    let has_bracket = expect_brackets_of_unicode(row, "bracket", &[character]);
    has_class || has_bracket
}

fn run_characters_of_unicode(row: &Row) -> bool {
    let text = Text::of(row, "text").unwrap_or_else(|| row.reject("no text"));
    let text = text.utf8.unwrap_or_else(|| row.reject("a surrogate")).text;
    let characters: Vec<char> = text.chars().collect();
    let has_classes = expect_classes_of_unicode(row, "classes", &characters);
    let has_brackets = expect_brackets_of_unicode(row, "brackets", &characters);
    has_classes || has_brackets
}

/// Compares the class of each character with a field. Returns false if the row does not have it.
#[cfg(feature = "hardcoded-data")]
fn expect_classes_of_unicode(row: &Row, key: &str, characters: &[char]) -> bool {
    let words = match row.words(key) {
        Some(words) => words,
        None => return false,
    };
    expect(row, key, characters.len(), words.len());
    for (&character, word) in characters.iter().zip(&words) {
        let class = row.parse_class(word);
        expect(row, key, unicode_bidi::bidi_class(character), class);
        expect(row, key, UnicodeData.bidi_class(character), class);
    }
    true
}

/// Without the feature the crate has no class of Unicode.
#[cfg(not(feature = "hardcoded-data"))]
fn expect_classes_of_unicode(_: &Row, _: &str, _: &[char]) -> bool {
    false
}

/// Compares the bracket of each character with a field: `none`, `opens (` or `closes (`. Returns false if the row does
/// not have it.
fn expect_brackets_of_unicode(row: &Row, key: &str, characters: &[char]) -> bool {
    let words = match row.words(key) {
        Some(words) => words,
        None => return false,
    };
    let mut expected = Vec::new();
    let mut waiting = words.iter().map(String::as_str);
    while let Some(word) = waiting.next() {
        let mut form = || match waiting.next() {
            Some(form) => row.parse_character(form),
            None => row.reject("a bracket without its normal form"),
        };
        expected.push(match word {
            "none" => None,
            "opens" => Some((form(), true)),
            "closes" => Some((form(), false)),
            _ => row.reject("no bracket"),
        });
    }
    let brackets = characters.iter().map(|&character| {
        let bracket = UnicodeData.bidi_matched_opening_bracket(character)?;
        Some((u32::from(bracket.opening), bracket.is_open))
    });
    expect(row, key, brackets.collect::<Vec<_>>(), expected);
    true
}
