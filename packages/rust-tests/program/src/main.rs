//! A program as users of unicode-bidi write it: it prints all that the crate finds in random texts.
//!
//!     program TEXTS SEED
//!
//! The texts have letters, digits, marks, white space and paragraph separators. With number separators and terminators,
//! brackets, soft hyphens and direction controls, unicode-bidi 0.3.8 has errors that later versions corrected.

#[allow(deprecated)]
use unicode_bidi::deprecated;
use unicode_bidi::level::{self, Level};
use unicode_bidi::{bidi_class, BidiClass, BidiInfo, Direction, InitialInfo, Paragraph};

/// Characters whose classes are the same in Unicode 14 and 18.
const CHARACTERS: &str =
    "abz12 \t!\n\r\u{301}\u{5D0}\u{5D1}\u{5D2}\u{61C}\u{627}\u{628}\u{660}\u{661}\u{66B}\
    \u{200E}\u{200F}\u{2029}\u{3042}\u{10000}\u{10900}";

/// Xorshift: the same numbers in each build.
struct Random(u64);

impl Random {
    fn below(&mut self, bound: usize) -> usize {
        self.0 ^= self.0 << 13;
        self.0 ^= self.0 >> 7;
        self.0 ^= self.0 << 17;
        (self.0 >> 11) as usize % bound
    }

    fn text(&mut self) -> String {
        let characters: Vec<char> = CHARACTERS.chars().collect();
        let len = self.below(16);
        (0..len)
            .map(|_| characters[self.below(characters.len())])
            .collect()
    }
}

fn main() {
    let arguments: Vec<String> = std::env::args().collect();
    let texts: usize = arguments[1].parse().expect("a number of texts");
    let mut random = Random(arguments[2].parse::<u64>().expect("a seed") | 1);
    print_constants();
    for _ in 0..texts {
        let text = random.text();
        let base = match random.below(4) {
            0 => Some(Level::ltr()),
            1 => Some(Level::rtl()),
            2 => Some(Level::new_explicit(random.below(100) as u8).unwrap()),
            _ => None,
        };
        print_text(&mut random, &text, base);
    }
}

fn print_constants() {
    println!(
        "{} {}",
        level::MAX_EXPLICIT_DEPTH,
        level::MAX_IMPLICIT_DEPTH
    );
    for number in 0..=255 {
        println!("{:?} {:?}", Level::new(number), Level::new_explicit(number));
        if let Ok(level) = Level::new(number) {
            let mut raised = level;
            let mut lowered = level;
            println!(
                "{:?} {:?} {:?} {:?} {:?} {:?} {}",
                level.new_explicit_next_ltr(),
                level.new_explicit_next_rtl(),
                level.new_lowest_ge_rtl(),
                raised.raise(3).map(|()| raised),
                lowered.lower(5).map(|()| lowered),
                level.bidi_class(),
                level == "x" && level == number.to_string()
            );
        }
    }
    for character in CHARACTERS.chars() {
        println!("{:?} {:?}", character, bidi_class(character));
    }
}

fn print_text(random: &mut Random, text: &str, base: Option<Level>) {
    let info = BidiInfo::new(text, base);
    println!("text {:?}, base {:?}", text, base);
    println!("{:?}", InitialInfo::new(text, base));
    println!("{:?} {}", info, info.has_rtl());
    let isolates = info
        .original_classes
        .iter()
        .filter(|class| matches!(class, BidiClass::LRI | BidiClass::RLI | BidiClass::FSI));
    println!("{} isolates", isolates.count());
    for para in &info.paragraphs {
        let paragraph = Paragraph::new(&info, para);
        let direction = match paragraph.direction() {
            Direction::Ltr => "ltr",
            Direction::Rtl => "rtl",
            Direction::Mixed => "mixed",
        };
        println!("{:?}: {} {}", para, direction, para.len());
        println!("{:?}", paragraph.level_at(para.len() - 1));
        print_line(&info, para, para.range.clone());
        let line = some_line(random, text, para.range.clone());
        if !line.is_empty() {
            print_line(&info, para, line);
        }
    }
}

/// A range of whole characters.
fn some_line(
    random: &mut Random,
    text: &str,
    paragraph: std::ops::Range<usize>,
) -> std::ops::Range<usize> {
    let mut place = || {
        let mut at = paragraph.start + random.below(paragraph.len() + 1);
        while !text.is_char_boundary(at) {
            at -= 1;
        }
        at
    };
    let (one, other) = (place(), place());
    one.min(other)..one.max(other)
}

fn print_line(info: &BidiInfo, para: &unicode_bidi::ParagraphInfo, line: std::ops::Range<usize>) {
    let levels = info.reordered_levels(para, line.clone());
    println!("line {:?}: {:?}", line, levels);
    println!("{:?}", info.reordered_levels_per_char(para, line.clone()));
    // Where L1 changes a level, the runs of unicode-bidi 0.3.8 are in another order.
    if levels[line.clone()] == info.levels[line.clone()] {
        println!("{:?}", info.visual_runs(para, line.clone()));
        println!("{:?}", info.reorder_line(para, line.clone()));
    }
    #[allow(deprecated)]
    let runs = deprecated::visual_runs(line, &levels);
    println!("{:?}", runs);
}
