//! The features `serde` and `smallvec`.

use serde_test::{assert_tokens, Token};
use unicode_bidi::{BidiInfo, Level, LevelRun, LevelRunVec};

#[test]
fn a_level_is_a_newtype_of_its_number() {
    for &number in &[0, 1, 125, 126] {
        assert_tokens(
            &Level::from(number),
            &[Token::NewtypeStruct { name: "Level" }, Token::U8(number)],
        );
    }
}

#[test]
fn levels_of_a_text() {
    let info = BidiInfo::new("a\u{5D0}", None);
    assert_tokens(
        &info.levels,
        &[
            Token::Seq { len: Some(3) },
            Token::NewtypeStruct { name: "Level" },
            Token::U8(0),
            Token::NewtypeStruct { name: "Level" },
            Token::U8(1),
            Token::NewtypeStruct { name: "Level" },
            Token::U8(1),
            Token::SeqEnd,
        ],
    );
}

#[test]
fn a_list_of_runs_is_a_small_vector() {
    let runs: smallvec::SmallVec<[LevelRun; 8]> = LevelRunVec::new();
    assert!(!runs.spilled());
}
