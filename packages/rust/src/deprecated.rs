//! A call that the crate keeps for older programs.

use alloc::vec;
use alloc::vec::Vec;
use core::ops::Range;

use crate::info::runs_of_line;
use crate::{ffi, BidiClass, Level, LevelRun};

/// Returns the runs of a line in visual order (L2), by levels alone.
///
/// It does not apply L1, so `levels` must be those after L1. An empty line has one empty run.
///
/// # Panics
///
/// Panics if the line is out of range, reversed, or empty at the end of `levels`.
#[deprecated(
    since = "0.3.0",
    note = "use `BidiInfo::visual_runs`, which applies L1"
)]
#[track_caller]
pub fn visual_runs(line: Range<usize>, levels: &[Level]) -> Vec<LevelRun> {
    // L1 changes no level of a character that has class L.
    let classes = vec![BidiClass::L; levels.len()];
    let runs = ffi::runs_of_levels(&classes, levels, line.clone());
    runs_of_line(runs, line, levels.len())
}
