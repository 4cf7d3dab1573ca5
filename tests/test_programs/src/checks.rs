//! The assertion of all tests.

ghost use Rattle.std.specs.Prelude.{IsTrue};

use std::process::Abort;

/// Ends the test unless this is right. An `assert!` takes seconds to prove in each function that has one, so this one alone does.
pub(crate) fn expect_right(rt: &impl Abort, is_right: bool, what: &str)
    ensures { IsTrue is_right }
{
    assert!(rt; is_right, "{what}");
}

/// The text is the wanted one.
pub(crate) fn expect_text(rt: &impl Abort, text: &str, wanted: &str) {
    expect_right(rt, text == wanted, text);
}

/// The status is the wanted one.
pub(crate) fn expect_status(rt: &impl Abort, status: u8, wanted: u8) {
    check!(rt; status == wanted);
}
