//! Data sources of a program's own, from the test vectors of the kind `source`.

use unicode_bidi::data_source::BidiMatchedOpeningBracket;
use unicode_bidi::{BidiClass, BidiDataSource};

use crate::rows::{self, Row};

/// The classes and brackets that a test vector gives.
pub struct RowSource {
    pub name: String,
    ranges: Vec<(u32, u32, BidiClass)>,
    brackets: Vec<(u32, u32, u32)>,
}

impl RowSource {
    fn of(row: &Row) -> RowSource {
        let ranges = row.all("range").into_iter().map(|value| {
            let words: Vec<&str> = value.split_whitespace().collect();
            let ends: Vec<u32> = words[0]
                .split("..")
                .map(|end| row.parse_character(end))
                .collect();
            (ends[0], ends[1], row.parse_class(words[1]))
        });
        let brackets = row.all("bracket").into_iter().map(|value| {
            let words: Vec<u32> = value
                .split_whitespace()
                .map(|word| row.parse_character(word))
                .collect();
            (words[0], words[1], *words.get(2).unwrap_or(&words[0]))
        });
        RowSource {
            name: row.name.clone(),
            ranges: ranges.collect(),
            brackets: brackets.collect(),
        }
    }
}

impl BidiDataSource for RowSource {
    fn bidi_class(&self, c: char) -> BidiClass {
        let code = u32::from(c);
        self.ranges
            .iter()
            .find(|range| range.0 <= code && code <= range.1)
            .map_or(BidiClass::L, |range| range.2)
    }

    fn bidi_matched_opening_bracket(&self, c: char) -> Option<BidiMatchedOpeningBracket> {
        let code = u32::from(c);
        let pair = self
            .brackets
            .iter()
            .find(|pair| pair.0 == code || pair.1 == code)?;
        Some(BidiMatchedOpeningBracket {
            opening: std::char::from_u32(pair.2)?,
            is_open: pair.0 == code,
        })
    }
}

/// All sources of `sources.rows`.
pub struct Sources(Vec<RowSource>);

impl Sources {
    /// Reads the sources that are tables without a fault.
    pub fn read() -> Sources {
        let rows = rows::read("sources.rows");
        let valid = rows
            .iter()
            .filter(|row| row.kind == "source" && row.get("fault").unwrap_or("none") == "none");
        Sources(valid.map(RowSource::of).collect())
    }

    /// Returns the number of sources.
    #[allow(clippy::len_without_is_empty)]
    pub fn len(&self) -> usize {
        self.0.len()
    }

    /// Returns the source that a test vector names.
    pub fn of(&self, row: &Row) -> &RowSource {
        self.named(row.get("source").unwrap_or("sample"))
    }

    /// Returns the source with a name.
    pub fn named(&self, name: &str) -> &RowSource {
        self.0
            .iter()
            .find(|source| source.name == name)
            .unwrap_or_else(|| panic!("no source {}", name))
    }
}
