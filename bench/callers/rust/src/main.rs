//! Displays texts with a crate `unicode-bidi`, as bench/languages asks: display TEXT..
//!
//! Each paragraph of a text is one line. turns.h says what the program reads and writes.

use std::hint::black_box;
use std::io::{self, BufRead, Write};
use std::time::Instant;
use std::{env, fs};

use unicode_bidi::BidiInfo;

/// Calls `see` with each displayed line of a text.
fn display_with(text: &str, mut see: impl FnMut(&str)) {
    let info = BidiInfo::new(text, None);
    for paragraph in &info.paragraphs {
        see(&info.reorder_line(paragraph, paragraph.range.clone()));
    }
}

fn main() -> io::Result<()> {
    let texts = env::args().skip(1).map(fs::read_to_string).collect::<Result<Vec<_>, _>>()?;
    let mut out = io::stdout();
    for text in &texts {
        let mut shown = String::new();
        display_with(text, |line| shown.push_str(line));
        let numbers: Vec<String> = shown.chars().map(|c| format!("{:x}", u32::from(c))).collect();
        writeln!(out, "{}", numbers.join(" "))?;
    }
    out.flush()?;
    for line in io::stdin().lock().lines() {
        let line = line?;
        let numbers: Vec<usize> = line.split_whitespace().map(|word| word.parse().expect("a number")).collect();
        let start = Instant::now();
        for _ in 0..numbers[1] {
            display_with(black_box(&texts[numbers[0]]), |line| {
                black_box(line);
            });
        }
        writeln!(out, "{}", start.elapsed().as_nanos())?;
        out.flush()?;
    }
    Ok(())
}
