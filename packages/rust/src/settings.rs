//! What an analysis is told besides the text.

use crate::Level;

/// The base level: the level of every paragraph, or how each paragraph finds its own.
#[derive(Clone, Copy, Debug, PartialEq, Eq)]
pub enum BaseLevel {
    /// Each paragraph finds its own level (P2, P3). If none of its characters decides, it is 0.
    AutoLtr,
    /// Each paragraph finds its own level (P2, P3). If none of its characters decides, it is 1.
    AutoRtl,
    /// Every paragraph has this level (HL1), which is at most 125.
    Of(Level),
}

impl BaseLevel {
    /// A number that is no base level.
    const NO_LEVEL: u8 = 126;

    /// Returns the number of the base level in the library.
    pub(crate) fn number(self) -> u8 {
        match self {
            BaseLevel::AutoLtr => 254,
            BaseLevel::AutoRtl => 253,
            // An unchecked level can have the number of another base level, which it must not become.
            BaseLevel::Of(level) => level.number().min(BaseLevel::NO_LEVEL),
        }
    }
}

impl Default for BaseLevel {
    /// Returns `AutoLtr`.
    fn default() -> BaseLevel {
        BaseLevel::AutoLtr
    }
}

/// The same as of `BidiInfo::new`: without a level, each paragraph finds its own.
impl From<Option<Level>> for BaseLevel {
    fn from(level: Option<Level>) -> BaseLevel {
        level.map_or(BaseLevel::AutoLtr, BaseLevel::Of)
    }
}

impl From<Level> for BaseLevel {
    fn from(level: Level) -> BaseLevel {
        BaseLevel::Of(level)
    }
}

/// Where paragraphs end (P1).
#[derive(Clone, Copy, Debug, PartialEq, Eq)]
#[repr(u8)]
pub enum Split {
    /// The text is one paragraph, even if it is empty.
    OneParagraph = 0,
    /// After each character of class B. `BidiInfo::new` does so.
    EachSeparator = 1,
    /// The same, but not between CR and LF.
    CrLfTogether = 2,
}
