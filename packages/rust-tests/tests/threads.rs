//! Threads that call at the same time get the results of one thread.

use std::thread;

use unicode_bidi::displayed::{self, DisplayOptions};
use unicode_bidi::BidiInfo;
use unicode_bidi_tests::sources::Sources;

#[test]
fn types_are_send_and_sync() {
    fn check<T: Send + Sync>() {}
    check::<unicode_bidi::InitialInfo>();
    check::<BidiInfo>();
    check::<unicode_bidi::ParagraphBidiInfo>();
    check::<unicode_bidi::Paragraph>();
    check::<unicode_bidi::utf16::BidiInfo>();
    check::<unicode_bidi::utf16::ParagraphBidiInfo>();
    check::<unicode_bidi::utf16::Utf16CharIter>();
}

#[test]
fn threads() {
    let texts: Vec<String> = (1..40)
        .map(|n| "ab (\u{5D0}\u{5D1}) 12\n".repeat(n))
        .collect();
    let found = |seen: &mut Vec<String>| {
        let sources = Sources::read();
        for text in &texts {
            let info = BidiInfo::new_with_data_source(sources.named("sample"), text, None);
            for paragraph in &info.paragraphs {
                let line = paragraph.range.clone();
                seen.push(info.reorder_line(paragraph, line.clone()).into_owned());
                let options = DisplayOptions::default();
                seen.push(displayed::line(&info, paragraph.level, line, options).text);
            }
        }
    };
    let mut alone = Vec::new();
    found(&mut alone);
    assert_eq!(alone[0], "ab (\u{5D1}\u{5D0}) 12\n");
    assert_eq!(alone[1], alone[0]);
    thread::scope(|scope| {
        let threads: Vec<_> = (0..4)
            .map(|_| {
                scope.spawn(|| {
                    let mut seen = Vec::new();
                    found(&mut seen);
                    seen
                })
            })
            .collect();
        for one in threads {
            assert_eq!(one.join().expect("the thread ends"), alone);
        }
    });
}
