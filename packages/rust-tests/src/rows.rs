//! Files of test vectors.

use std::fs;
use std::ops::Range;
use std::path::{Path, PathBuf};

use unicode_bidi::{BidiClass, Level};

/// A test vector.
pub struct Row {
    pub file: String,
    pub line: usize,
    pub kind: String,
    pub name: String,
    fields: Vec<(String, String)>,
}

/// Returns the folder of the files.
pub fn folder() -> PathBuf {
    Path::new(env!("CARGO_MANIFEST_DIR")).join("../../crates/bidi_vectors/data")
}

/// Returns the folder of the files of displayed lines.
pub fn folder_of_displayed() -> PathBuf {
    Path::new(env!("CARGO_MANIFEST_DIR")).join("../../crates/bidi_vectors_display/data")
}

/// Returns the names of all files, with those first that later ones refer to.
pub fn files() -> Vec<String> {
    files_in(&folder())
}

/// Returns the names of all files in a folder, in the same order.
pub fn files_in(folder: &Path) -> Vec<String> {
    let entries = fs::read_dir(folder).unwrap_or_else(|e| panic!("{}: {}", folder.display(), e));
    let mut names: Vec<String> = entries
        .map(|entry| entry.unwrap().file_name().into_string().unwrap())
        .filter(|name| name.ends_with(".rows"))
        .collect();
    names.sort_by_key(|name| (name != "sources.rows", name.clone()));
    names
}

/// Returns the test vectors of a file.
pub fn read(file: &str) -> Vec<Row> {
    read_in(&folder(), file)
}

/// Returns the test vectors of a file in a folder.
pub fn read_in(folder: &Path, file: &str) -> Vec<Row> {
    let path = folder.join(file);
    let text = fs::read_to_string(&path).unwrap_or_else(|e| panic!("{}: {}", path.display(), e));
    let mut rows: Vec<Row> = Vec::new();
    for (index, line) in text.lines().enumerate() {
        let line = line.trim();
        if line.is_empty() || line.starts_with('#') {
            continue;
        }
        if let Some((kind, name)) = heading(line) {
            rows.push(Row {
                file: file.to_string(),
                line: index + 1,
                kind,
                name,
                fields: Vec::new(),
            });
            continue;
        }
        match (rows.last_mut(), line.find(':')) {
            (Some(row), Some(colon)) => row.fields.push((
                line[..colon].trim().to_string(),
                line[colon + 1..].trim().to_string(),
            )),
            _ => panic!("{}:{}: not a line of a test vector", file, index + 1),
        }
    }
    rows
}

/// `[kind] name`
fn heading(line: &str) -> Option<(String, String)> {
    let rest = line.strip_prefix('[')?;
    let close = rest.find("] ")?;
    Some((
        rest[..close].to_string(),
        rest[close + 2..].trim().to_string(),
    ))
}

impl Row {
    /// Where the test vector is, and its name.
    pub fn title(&self) -> String {
        format!("{}:{}: {}", self.file, self.line, self.name)
    }

    /// Ends the tests because of a row that can't be read.
    pub fn reject(&self, why: &str) -> ! {
        panic!("{}: {}", self.title(), why)
    }

    /// Returns the value of a field.
    pub fn get(&self, key: &str) -> Option<&str> {
        self.all(key).first().copied()
    }

    /// Returns the values of a field that a row may have several times.
    pub fn all(&self, key: &str) -> Vec<&str> {
        let fields = self.fields.iter().filter(|field| field.0 == key);
        fields.map(|field| field.1.as_str()).collect()
    }

    /// Returns the value of a field that the row must have.
    pub fn need(&self, key: &str) -> &str {
        self.get(key)
            .unwrap_or_else(|| self.reject(&format!("no field {}", key)))
    }

    /// Returns the words of a field.
    pub fn words(&self, key: &str) -> Option<Vec<String>> {
        self.get(key).map(words)
    }

    /// Returns the number that a field is.
    pub fn number(&self, key: &str) -> Option<usize> {
        self.get(key).map(|value| self.parse_number(value))
    }

    /// Returns the number of a word.
    pub fn parse_number(&self, word: &str) -> usize {
        word.parse()
            .unwrap_or_else(|_| self.reject(&format!("{} is no number", word)))
    }

    /// Returns the range of a word such as `2..5`.
    pub fn parse_range(&self, word: &str) -> Range<usize> {
        match word.find("..") {
            Some(dots) => self.parse_number(&word[..dots])..self.parse_number(&word[dots + 2..]),
            None => self.reject(&format!("{} is no range", word)),
        }
    }

    /// Returns the class with a name.
    pub fn parse_class(&self, name: &str) -> BidiClass {
        class_named(name).unwrap_or_else(|| self.reject(&format!("{} is no class", name)))
    }

    /// Returns the character of a word, which can be a surrogate.
    pub fn parse_character(&self, word: &str) -> u32 {
        let mut characters = word.chars();
        match (characters.next(), characters.next()) {
            (Some(character), None) => u32::from(character),
            _ => word
                .strip_prefix("U+")
                .and_then(|digits| u32::from_str_radix(digits, 16).ok())
                .unwrap_or_else(|| self.reject(&format!("{} is no character", word))),
        }
    }

    /// Returns the base level, or `None` for `auto`.
    pub fn base(&self) -> Option<Level> {
        match self.get("base") {
            None | Some("auto") => None,
            Some(level) => Some(Level::from(self.parse_number(level) as u8)),
        }
    }
}

/// Returns the words of a value, each as often as it says: `3*PDI.L` is three times `PDI L`.
fn words(value: &str) -> Vec<String> {
    let mut all = Vec::new();
    for word in value.split_whitespace() {
        match repetition(word) {
            None => all.push(word.to_string()),
            Some((times, ".")) => all.extend((0..times).map(|_| ".".to_string())),
            Some((times, parts)) => {
                for _ in 0..times {
                    all.extend(parts.split('.').map(str::to_string));
                }
            }
        }
    }
    all
}

/// `130*LRI`
fn repetition(word: &str) -> Option<(usize, &str)> {
    let star = word.find('*')?;
    let times = word[..star].parse().ok()?;
    let repeated = &word[star + 1..];
    if repeated.is_empty() {
        None
    } else {
        Some((times, repeated))
    }
}

fn class_named(name: &str) -> Option<BidiClass> {
    use BidiClass::*;
    const ALL: [BidiClass; 23] = [
        L, R, AL, EN, ES, ET, AN, CS, NSM, BN, B, S, WS, ON, LRE, LRO, RLE, RLO, PDF, LRI, RLI,
        FSI, PDI,
    ];
    ALL.iter()
        .copied()
        .find(|class| format!("{:?}", class) == name)
}
