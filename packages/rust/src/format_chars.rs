//! The directional formatting characters ([UAX #9][section], section 2).
//!
//! [section]: https://www.unicode.org/reports/tr9/#Directional_Formatting_Characters

/// ARABIC LETTER MARK: an invisible character of class AL.
pub const ALM: char = '\u{61C}';
/// LEFT-TO-RIGHT MARK: an invisible character of class L.
pub const LRM: char = '\u{200E}';
/// RIGHT-TO-LEFT MARK: an invisible character of class R.
pub const RLM: char = '\u{200F}';

/// LEFT-TO-RIGHT EMBEDDING.
pub const LRE: char = '\u{202A}';
/// RIGHT-TO-LEFT EMBEDDING.
pub const RLE: char = '\u{202B}';
/// POP DIRECTIONAL FORMATTING: ends the last embedding or override.
pub const PDF: char = '\u{202C}';
/// LEFT-TO-RIGHT OVERRIDE.
pub const LRO: char = '\u{202D}';
/// RIGHT-TO-LEFT OVERRIDE.
pub const RLO: char = '\u{202E}';

/// LEFT-TO-RIGHT ISOLATE.
pub const LRI: char = '\u{2066}';
/// RIGHT-TO-LEFT ISOLATE.
pub const RLI: char = '\u{2067}';
/// FIRST STRONG ISOLATE: an isolate that takes the direction of its first strong character.
pub const FSI: char = '\u{2068}';
/// POP DIRECTIONAL ISOLATE: ends the last isolate.
pub const PDI: char = '\u{2069}';
