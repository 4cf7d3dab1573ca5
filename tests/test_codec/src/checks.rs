//! The assertion of all tests.

ghost use Rattle.std.specs.Prelude.{IsTrue};

use std::process::Abort;

/// Ends the test unless this is right. An `assert!` takes seconds to prove in each function that has one, so this one alone does.
pub(crate) fn expect_right(rt: &impl Abort, is_right: bool, what: &str)
    ensures { IsTrue is_right }
{
    assert!(rt; is_right, "{what}");
}

/// The same of a case that has this number.
pub(crate) fn expect_right_of(rt: &impl Abort, is_right: bool, number: u64) {
    assert!(rt; is_right, "of {number}");
}

/// A number is the wanted one.
pub(crate) fn expect_number(rt: &impl Abort, number: usize, wanted: usize) {
    check!(rt; number == wanted);
}

/// Words are the wanted ones.
pub(crate) fn expect_words(rt: &impl Abort, words: &[u64], wanted: &[u64]) {
    check!(rt; words == wanted);
}

/// Bytes are the wanted ones.
pub(crate) fn expect_bytes(rt: &impl Abort, bytes: &[u8], wanted: &[u8]) {
    check!(rt; bytes == wanted);
}
