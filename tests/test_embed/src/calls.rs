//! A program in C, which links with these calls.

use crate::named::name_all;

unsafe extern "C" {
    /// The line of `embed/calls.c` at which what came isn't what is wanted, or 0.
    safe fn first_wrong() -> i32;
}

#[test]
fn a_program_in_c_gets_what_it_asks_for(rt: HostRuntime) {
    let line = first_wrong();
    if line < 0 {
        name_all();
    }
    assert!(&rt; line == 0, "embed/calls.c:{line}");
}
