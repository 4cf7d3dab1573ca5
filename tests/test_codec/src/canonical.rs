//! The canonical form. More forms, and those of the reference tool, are rows `canonical`, `flat` and `is_canonical` of test_interop.

use crate::trees::segments;
use cp_canonical::{CanonicalFault, canonical_message, is_canonical};
use cp_reading::TreeFault;
use cp_tree::WriteFault;
use cp_words::{Limits, Place, Segments};
use std::alloc::Global;
use std::process::Abort;

/// A struct of words 7, 0 and pointers to 16 bits, to two structs of sizes 2 and 2, null: in two segments, with words between.
const LOOSE: &[&str] = &[
    "0200000001000000",
    "0800000002000300 ffffffffffffffff ffffffffffffffff 0700000000000000 0000000000000000 \
    0d00000081000000 0d00000047000000 0000000000000000 ffffffffffffffff ffffffffffffffff \
    0800000002000200 0000000000000000 0000000000000000 fcffffff00000000 0000000000000000 \
    0500000000000000 0000000000000000 0000000000000000 0000000000000000 ffffffffffffffff",
];

/// Its canonical form.
const FORM: &str = "0000000001000200 0700000000000000 0500000081000000 0500000027000000 ffff000000000000 \
    0800000001000100 0000000000000000 fcffffff00000000 0500000000000000 0000000000000000";

/// A struct that holds capability 3, in its canonical place.
const HOLDER: &str = "0000000000000100 0300000003000000";

/// What a message's canonical form is.
fn form_of(alloc: Global, segments: &Segments) -> Result<Segments, CanonicalFault> {
    Ok(Segments::one(canonical_message(alloc, segments, Limits::standard())?))
}

/// Whether it has this one.
fn has_form(rt: &impl Abort, alloc: Global, segments: &Segments, wanted: &Segments) -> bool {
    let form = form_of(alloc, segments).expect(rt, "a canonical form");
    let is_same = form.lists() == wanted.lists();
    drop(form);
    is_same
}

#[test]
fn a_message_has_a_canonical_form(rt: HostRuntime) {
    let loose = segments(&rt, rt.alloc(), LOOSE);
    let form = segments(&rt, rt.alloc(), &[FORM]);
    check!(&rt; has_form(&rt, rt.alloc(), &loose, &form));
    check!(&rt; has_form(&rt, rt.alloc(), &form, &form));
    drop(form);
    drop(loose);
}

/// Why the segments of these words aren't canonical.
fn fault_of(rt: &impl Abort, alloc: Global, texts: &[&str]) -> Option<CanonicalFault> {
    let segments = segments(rt, alloc, texts);
    let fault = is_canonical(alloc, &segments, Limits::standard()).err();
    drop(segments);
    fault
}

#[test]
fn a_canonical_message_is_told_from_others(rt: HostRuntime) {
    let at = |segment, word| Some(CanonicalFault::Difference(Place { segment, word }));
    check!(&rt; fault_of(&rt, rt.alloc(), &[FORM]) == None);
    check!(&rt; fault_of(&rt, rt.alloc(), LOOSE) == at(0, 0));
    // A zero word at the end, a word that nothing points to, and an empty segment.
    check!(&rt; fault_of(&rt, rt.alloc(), &["0000000002000000 0700000000000000 0000000000000000"]) == at(0, 0));
    check!(&rt; fault_of(&rt, rt.alloc(), &["0000000001000000 0700000000000000 0000000000000000"]) == at(0, 2));
    check!(&rt; fault_of(&rt, rt.alloc(), &["0000000001000000 0700000000000000", ""]) == at(1, 0));
    // A bit past the elements.
    check!(&rt; fault_of(&rt, rt.alloc(), &["0000000000000100 0100000009000000 0300000000000000"]) == at(0, 2));
}

#[test]
fn what_has_no_canonical_form_says_why(rt: HostRuntime) {
    let root = Place {
        segment: 0,
        word: 0,
    };
    check!(&rt; fault_of(&rt, rt.alloc(), &[HOLDER]) == Some(CanonicalFault::Capability(3)));
    let none = Some(CanonicalFault::Tree(TreeFault::NoRoot(root)));
    check!(&rt; fault_of(&rt, rt.alloc(), &["0000000000000000"]) == none);
}

// With ample memory no allocation fails. `rt try --test --fail-alloc N` fails the Nth of the test below.
#[test]
fn allocation_failure_while_a_canonical_form_is_written(rt: HostRuntime) {
    let form = segments(&rt, rt.alloc(), &[FORM]);
    let is_same = match is_canonical(rt.alloc(), &form, Limits::standard()) {
        Ok(()) => true,
        Err(fault) => fault == CanonicalFault::Write(WriteFault::OutOfMemory),
    };
    check!(&rt; is_same);
    drop(form);
}
