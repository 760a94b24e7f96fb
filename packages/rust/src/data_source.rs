//! Where classes and brackets come from.

use crate::ffi;
use crate::BidiClass;

/// A bracket, as [`BidiDataSource::bidi_matched_opening_bracket`] returns it.
#[derive(Debug, Copy, Clone)]
pub struct BidiMatchedOpeningBracket {
    /// The opening bracket of the pair, in its normal form. Two brackets can pair if this is the same for both.
    pub opening: char,
    /// Whether the character itself is the opening bracket.
    pub is_open: bool,
}

/// A source of the classes and brackets of characters.
///
/// Implement it to replace Unicode's own data. An analysis calls `bidi_class` for each character of the text, in its order.
/// Then it calls `bidi_matched_opening_bracket` in the same way for those of class ON, since no other one can be a bracket.
pub trait BidiDataSource {
    /// Returns the class of a character.
    fn bidi_class(&self, c: char) -> BidiClass;

    /// Returns the bracket that a character is, or `None` if it is no paired bracket (BD14, BD15).
    ///
    /// By default these are Unicode's own brackets, with and without the feature `hardcoded-data`.
    fn bidi_matched_opening_bracket(&self, c: char) -> Option<BidiMatchedOpeningBracket> {
        ffi::bracket_of(c)
    }
}
