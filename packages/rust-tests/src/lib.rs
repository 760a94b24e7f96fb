//! What the tests of the crate share: the test vectors in `crates/bidi_vectors/data`, and those of displayed lines in
//! `crates/bidi_vectors_display/data`, read as the README in each folder says.

pub mod rows;
pub mod sources;
pub mod texts;
