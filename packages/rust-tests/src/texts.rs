//! Texts of test vectors, in both encodings.

use std::char;

use crate::rows::Row;
use unicode_bidi::BidiClass;

/// A text in an encoding, and the index of each character's first code unit, then the length.
pub struct Encoded<T> {
    pub text: T,
    pub at: Vec<usize>,
}

/// A text of a test vector.
pub struct Text {
    /// `None` if the text has an unpaired surrogate.
    pub utf8: Option<Encoded<String>>,
    pub utf16: Encoded<Vec<u16>>,
}

impl Text {
    /// Returns the text of a field. If the row has `types` instead, returns a text with a character of each class.
    pub fn of(row: &Row, key: &str) -> Option<Text> {
        let characters: Vec<u32> = match (row.words(key), row.words("types")) {
            (Some(words), _) => words.iter().map(|w| row.parse_character(w)).collect(),
            (None, Some(types)) => types
                .iter()
                .map(|name| u32::from(character_of(row.parse_class(name))))
                .collect(),
            (None, None) => return None,
        };
        Some(Text {
            utf8: utf8(&characters),
            utf16: utf16(&characters),
        })
    }
}

fn utf8(characters: &[u32]) -> Option<Encoded<String>> {
    let mut text = String::new();
    let mut at = Vec::new();
    for &character in characters {
        at.push(text.len());
        text.push(char::from_u32(character)?);
    }
    at.push(text.len());
    Some(Encoded { text, at })
}

fn utf16(characters: &[u32]) -> Encoded<Vec<u16>> {
    let mut text = Vec::new();
    let mut at = Vec::new();
    for &character in characters {
        at.push(text.len());
        match char::from_u32(character) {
            Some(character) => text.extend(character.encode_utf16(&mut [0; 2]).iter()),
            None => text.push(character as u16),
        }
    }
    at.push(text.len());
    Encoded { text, at }
}

/// Returns a character that has this class in the source `sample`.
fn character_of(class: BidiClass) -> char {
    match class {
        BidiClass::L => 'a',
        BidiClass::R => '\u{5D0}',
        BidiClass::AL => '\u{627}',
        BidiClass::EN => '1',
        BidiClass::ES => '+',
        BidiClass::ET => '$',
        BidiClass::AN => '\u{660}',
        BidiClass::CS => ',',
        BidiClass::NSM => '\u{301}',
        BidiClass::BN => '\u{AD}',
        BidiClass::B => '\u{2029}',
        BidiClass::S => '\t',
        BidiClass::WS => ' ',
        BidiClass::ON => '!',
        BidiClass::LRE => '\u{202A}',
        BidiClass::LRO => '\u{202D}',
        BidiClass::RLE => '\u{202B}',
        BidiClass::RLO => '\u{202E}',
        BidiClass::PDF => '\u{202C}',
        BidiClass::LRI => '\u{2066}',
        BidiClass::RLI => '\u{2067}',
        BidiClass::FSI => '\u{2068}',
        BidiClass::PDI => '\u{2069}',
    }
}
