//! The classes of characters, and Unicode's own data.

#[cfg(feature = "hardcoded-data")]
use crate::{ffi, BidiDataSource};

/// The class of a character: Unicode's property Bidi_Class.
///
/// `class as u8` is the number that the C header gives the class. Other versions of the crate use other numbers, so a
/// program should not store them.
#[allow(clippy::upper_case_acronyms)]
#[derive(Clone, Copy, Debug, PartialEq, Eq)]
#[repr(u8)]
pub enum BidiClass {
    /// Left-to-right letter.
    L = 0,
    /// Right-to-left letter.
    R = 1,
    /// Right-to-left letter of Arabic script.
    AL = 2,
    /// European number.
    EN = 3,
    /// European number separator.
    ES = 4,
    /// European number terminator.
    ET = 5,
    /// Arabic number.
    AN = 6,
    /// Common number separator.
    CS = 7,
    /// Nonspacing mark.
    NSM = 8,
    /// Boundary neutral.
    BN = 9,
    /// Paragraph separator.
    B = 10,
    /// Segment separator.
    S = 11,
    /// White space.
    WS = 12,
    /// Other neutral.
    ON = 13,
    /// Left-to-right embedding.
    LRE = 14,
    /// Left-to-right override.
    LRO = 15,
    /// Right-to-left embedding.
    RLE = 16,
    /// Right-to-left override.
    RLO = 17,
    /// Pop directional formatting.
    PDF = 18,
    /// Left-to-right isolate.
    LRI = 19,
    /// Right-to-left isolate.
    RLI = 20,
    /// First strong isolate.
    FSI = 21,
    /// Pop directional isolate.
    PDI = 22,
}

/// The version of Unicode whose classes and brackets the crate contains.
pub const UNICODE_VERSION: (u64, u64, u64) = (18, 0, 0);

/// The classes by their numbers.
#[cfg(feature = "hardcoded-data")]
pub(crate) const CLASSES: [BidiClass; 23] = {
    use BidiClass::*;
    [
        L, R, AL, EN, ES, ET, AN, CS, NSM, BN, B, S, WS, ON, LRE, LRO, RLE, RLO, PDF, LRI, RLI,
        FSI, PDI,
    ]
};

/// Returns the class of a character in Unicode's own data.
///
/// ```
/// use unicode_bidi::{bidi_class, BidiClass};
///
/// assert_eq!(bidi_class('a'), BidiClass::L);
/// assert_eq!(bidi_class('\u{5D0}'), BidiClass::R);
/// ```
#[cfg(feature = "hardcoded-data")]
pub fn bidi_class(c: char) -> BidiClass {
    ffi::class_of(c)
}

/// Unicode's own classes and brackets, which the crate contains.
///
/// `BidiInfo::new` returns the same as `BidiInfo::new_with_data_source` with this source, and is faster.
#[cfg(feature = "hardcoded-data")]
pub struct HardcodedBidiData;

#[cfg(feature = "hardcoded-data")]
impl BidiDataSource for HardcodedBidiData {
    fn bidi_class(&self, c: char) -> BidiClass {
        ffi::class_of(c)
    }
}
