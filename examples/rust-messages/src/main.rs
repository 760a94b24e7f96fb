//! Prints a list of short messages in visual order, for a terminal that does not know the algorithm.
//!
//! Each message is a paragraph of its own. One that begins in Hebrew is right-to-left, and stands at the right edge.

use unicode_bidi::ParagraphBidiInfo;

const WIDTH: usize = 32;

const MESSAGES: [&str; 5] = [
    "Lunch at 12:30?",
    "כן, ב-12:30 בקפה Bagel",
    "The sign says \"קפה בייגל\".",
    "תודה, אני בדרך!",
    "OK",
];

fn main() {
    for message in MESSAGES {
        let info = ParagraphBidiInfo::new(message, None);
        let shown = info.reorder_line(0..message.len());
        if info.paragraph_level.is_rtl() {
            println!("{shown:>WIDTH$}");
        } else {
            println!("{shown}");
        }
    }
}
