//! The crate `unicode-bidi` as a static library with calls for C, which crate.c declares.
//!
//! Each call takes what `open` answered. Text and lines are the caller's, and stay until `close`.
#![allow(unknown_lints, unexpected_cfgs, clippy::missing_safety_doc)]

use std::slice;

#[repr(C)]
#[derive(Clone, Copy)]
pub struct UnitRange {
    start: usize,
    end: usize,
}

/// The version of Unicode that the crate's tables have.
#[no_mangle]
pub unsafe extern "C" fn crate_unicode_version(numbers: *mut u64) {
    let (major, minor, micro) = unicode_bidi::UNICODE_VERSION;
    slice::from_raw_parts_mut(numbers, 3).copy_from_slice(&[major, minor, micro]);
}

/// The calls of one encoding; its types differ from those of the other by name alone.
macro_rules! calls {
    (
        $info:ty, $unit:ty, $text:ty, $read:expr, $units:expr,
        $open:ident, $analyse:ident, $find_runs:ident, $reorder_lines:ident, $tell_levels:ident, $close:ident
    ) => {
        pub struct State {
            text: &'static $text,
            lines: &'static [UnitRange],
            shown: &'static mut [$unit],
            info: Option<$info>,
        }

        #[no_mangle]
        pub unsafe extern "C" fn $open(
            units: *const $unit,
            length: usize,
            lines: *const UnitRange,
            lines_len: usize,
            shown: *mut $unit,
        ) -> *mut State {
            Box::into_raw(Box::new(State {
                text: $read(slice::from_raw_parts(units, length)),
                lines: slice::from_raw_parts(lines, lines_len),
                shown: slice::from_raw_parts_mut(shown, length),
                info: None,
            }))
        }

        #[no_mangle]
        pub unsafe extern "C" fn $analyse(state: *mut State) {
            let state = &mut *state;
            state.info = Some(<$info>::new(state.text, None));
        }

        #[no_mangle]
        pub unsafe extern "C" fn $find_runs(state: *mut State) -> usize {
            let State { info, .. } = &*state;
            let info = info.as_ref().expect("no analysis");
            let runs_of = |paragraph| info.visual_runs(paragraph, paragraph.range.clone()).1.len();
            info.paragraphs.iter().map(runs_of).sum()
        }

        #[no_mangle]
        pub unsafe extern "C" fn $reorder_lines(state: *mut State) {
            let State { lines, shown, info, .. } = &mut *state;
            let info = info.as_ref().expect("no analysis");
            let mut paragraphs = info.paragraphs.iter();
            let mut paragraph = paragraphs.next().expect("no paragraph");
            for line in lines.iter() {
                while line.start >= paragraph.range.end {
                    paragraph = paragraphs.next().expect("a line behind the last paragraph");
                }
                let text = info.reorder_line(paragraph, line.start..line.end);
                shown[line.start..line.end].copy_from_slice($units(&text));
            }
        }

        /// Both lists have one entry a unit.
        #[no_mangle]
        pub unsafe extern "C" fn $tell_levels(
            state: *mut State,
            paragraph_levels: *mut u8,
            levels: *mut u8,
        ) {
            let State { shown, info, .. } = &*state;
            let paragraph_levels = slice::from_raw_parts_mut(paragraph_levels, shown.len());
            let levels = slice::from_raw_parts_mut(levels, shown.len());
            let info = info.as_ref().expect("no analysis");
            for paragraph in &info.paragraphs {
                let reordered = info.reordered_levels(paragraph, paragraph.range.clone());
                for unit in paragraph.range.clone() {
                    paragraph_levels[unit] = paragraph.level.number();
                    levels[unit] = reordered[unit].number();
                }
            }
        }

        #[no_mangle]
        pub unsafe extern "C" fn $close(state: *mut State) {
            drop(Box::from_raw(state));
        }
    };
}

pub mod utf8 {
    use super::*;
    use unicode_bidi::BidiInfo;

    fn read(units: &'static [u8]) -> &'static str {
        std::str::from_utf8(units).expect("the driver hands in UTF-8")
    }

    calls!(
        BidiInfo<'static>, u8, str, read, str::as_bytes,
        crate_utf8_open, crate_utf8_analyse, crate_utf8_find_runs, crate_utf8_reorder_lines,
        crate_utf8_tell_levels, crate_utf8_close
    );
}

/// Older versions have no UTF-16.
#[cfg(has_utf16)]
pub mod utf16 {
    use super::*;
    use unicode_bidi::utf16::BidiInfo;

    fn same(units: &[u16]) -> &[u16] {
        units
    }

    calls!(
        BidiInfo<'static>, u16, [u16], same, same,
        crate_utf16_open, crate_utf16_analyse, crate_utf16_find_runs, crate_utf16_reorder_lines,
        crate_utf16_tell_levels, crate_utf16_close
    );
}
