//! Embedding levels (BD2).

use alloc::string::{String, ToString};
use alloc::vec::Vec;

use crate::ffi;
use crate::BidiClass;

/// An embedding level: a number from 0 to 126. Text of an even level is left-to-right, of an odd level right-to-left.
///
/// [`Level::from_slice_unchecked`] and deserialization do not check the number. A call that gets a level above 126
/// panics with `UNICODE_BIDI_BAD_LEVEL`.
#[derive(Copy, Clone, Debug, Eq, Ord, PartialEq, PartialOrd)]
#[cfg_attr(feature = "serde", derive(serde::Serialize, serde::Deserialize))]
#[repr(transparent)]
pub struct Level(u8);

/// Level 0, the lowest left-to-right level.
pub const LTR_LEVEL: Level = Level(0);

/// Level 1, the lowest right-to-left level.
pub const RTL_LEVEL: Level = Level(1);

/// The maximum level of a paragraph, an embedding or an isolate: 125 (BD2).
pub const MAX_EXPLICIT_DEPTH: u8 = 125;

/// The maximum level of a character: 126, one more than [`MAX_EXPLICIT_DEPTH`] (I1, I2).
pub const MAX_IMPLICIT_DEPTH: u8 = 126;

/// The error of a call that would make a level out of range.
#[derive(Debug, PartialEq)]
pub enum Error {
    /// The number is below 0, or above the maximum of the call.
    OutOfRangeNumber,
}

impl Level {
    /// Returns level 0.
    #[inline]
    pub fn ltr() -> Level {
        LTR_LEVEL
    }

    /// Returns level 1.
    #[inline]
    pub fn rtl() -> Level {
        RTL_LEVEL
    }

    /// Returns [`MAX_IMPLICIT_DEPTH`].
    pub fn max_implicit_depth() -> u8 {
        MAX_IMPLICIT_DEPTH
    }

    /// Returns [`MAX_EXPLICIT_DEPTH`].
    pub fn max_explicit_depth() -> u8 {
        MAX_EXPLICIT_DEPTH
    }

    /// Returns the level of a number up to 126.
    #[inline]
    pub fn new(number: u8) -> Result<Level, Error> {
        Level::up_to(MAX_IMPLICIT_DEPTH, Some(number))
    }

    /// Returns the level of a number up to 125.
    #[inline]
    pub fn new_explicit(number: u8) -> Result<Level, Error> {
        Level::up_to(MAX_EXPLICIT_DEPTH, Some(number))
    }

    /// Returns the number of the level.
    #[inline]
    pub fn number(&self) -> u8 {
        self.0
    }

    /// Returns whether text of this level is left-to-right.
    #[inline]
    pub fn is_ltr(&self) -> bool {
        self.0 % 2 == 0
    }

    /// Returns whether text of this level is right-to-left.
    #[inline]
    pub fn is_rtl(&self) -> bool {
        !self.is_ltr()
    }

    /// Adds `amount`. If the result is above 126, returns an error and leaves the level unchanged.
    #[inline]
    pub fn raise(&mut self, amount: u8) -> Result<(), Error> {
        *self = Level::up_to(MAX_IMPLICIT_DEPTH, self.0.checked_add(amount))?;
        Ok(())
    }

    /// Adds `amount`. If the result is above 125, returns an error and leaves the level unchanged.
    #[inline]
    pub fn raise_explicit(&mut self, amount: u8) -> Result<(), Error> {
        *self = Level::up_to(MAX_EXPLICIT_DEPTH, self.0.checked_add(amount))?;
        Ok(())
    }

    /// Subtracts `amount`. If the result is below 0, returns an error and leaves the level unchanged.
    #[inline]
    pub fn lower(&mut self, amount: u8) -> Result<(), Error> {
        self.0 = self.0.checked_sub(amount).ok_or(Error::OutOfRangeNumber)?;
        Ok(())
    }

    /// Returns the lowest even level above this one, or an error if it is above 125.
    #[inline]
    pub fn new_explicit_next_ltr(&self) -> Result<Level, Error> {
        let next = self.0.checked_add(if self.is_ltr() { 2 } else { 1 });
        Level::up_to(MAX_EXPLICIT_DEPTH, next)
    }

    /// Returns the lowest odd level above this one, or an error if it is above 125.
    #[inline]
    pub fn new_explicit_next_rtl(&self) -> Result<Level, Error> {
        let next = self.0.checked_add(if self.is_ltr() { 1 } else { 2 });
        Level::up_to(MAX_EXPLICIT_DEPTH, next)
    }

    /// Returns the level itself if it is odd, otherwise the next one, or an error if that is above 126.
    #[inline]
    pub fn new_lowest_ge_rtl(&self) -> Result<Level, Error> {
        Level::new(self.0 | 1)
    }

    /// Returns the class of the level's direction: L or R.
    #[inline]
    pub fn bidi_class(&self) -> BidiClass {
        if self.is_rtl() {
            BidiClass::R
        } else {
            BidiClass::L
        }
    }

    /// Returns the levels of these numbers.
    ///
    /// # Panics
    ///
    /// Panics if a number is above 126.
    pub fn vec(v: &[u8]) -> Vec<Level> {
        v.iter().map(|&number| Level::from(number)).collect()
    }

    /// Returns the numbers as levels, without a copy and without a check. A number can be above 126.
    pub fn from_slice_unchecked(v: &[u8]) -> &[Level] {
        ffi::levels_of_numbers(v)
    }

    /// Returns the level of a number up to a maximum. `None` is a number that has overflowed.
    #[inline]
    fn up_to(maximum: u8, number: Option<u8>) -> Result<Level, Error> {
        match number {
            Some(number) if number <= maximum => Ok(Level(number)),
            _ => Err(Error::OutOfRangeNumber),
        }
    }
}

/// Returns whether some level is odd. A line without an odd level is displayed in the order of its text.
#[inline]
pub fn has_rtl(levels: &[Level]) -> bool {
    levels.iter().any(Level::is_rtl)
}

impl From<Level> for u8 {
    /// Returns the number of the level.
    #[inline]
    fn from(level: Level) -> u8 {
        level.number()
    }
}

impl From<u8> for Level {
    /// Returns the level of a number. Panics if the number is above 126.
    #[inline]
    fn from(number: u8) -> Level {
        Level::new(number).expect("a level is at most 126")
    }
}

/// Whether the text is the number of the level in decimal, or `x`, which any level equals. Unicode's test files write
/// `x` for the level of a character that X9 removes.
impl<'a> PartialEq<&'a str> for Level {
    #[inline]
    fn eq(&self, text: &&'a str) -> bool {
        *text == "x" || *text == self.0.to_string()
    }
}

/// The same as for `&str`.
impl PartialEq<String> for Level {
    #[inline]
    fn eq(&self, text: &String) -> bool {
        *self == text.as_str()
    }
}
