//! The assertion of all tests.

use std::process::Abort;

/// Ends the test unless this is right. An `assert!` takes seconds to prove in each function that has one, so this one alone does.
pub(crate) fn expect_right(rt: &impl Abort, is_right: bool, what: &str) {
    assert!(rt; is_right, "{what}");
}
