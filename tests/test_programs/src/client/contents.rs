//! Contents that are made field by field, and read.

use cp_builder::BuildError;
use cp_refs::{Cap, Outcome, Request, failed};
use cp_servants::{PayloadBuilder, data_in, outcome_of, results_of, text_in, word_in};
use cp_interfaces::{CapTableBuilder, NamingError};
use cp_objects::{ReferenceError, SessionCap};
use cp_tree::{Tree, Whole};
use std::alloc::Global;

/// A call with two words, a text, data and a capability.
fn call(alloc: Global) -> Result<Request, BuildError> {
    let words = PayloadBuilder::new(alloc).word(7)?.word(u64::MAX)?;
    let named = words.text("Grüße")?.data(&[1, 2])?.cap(Cap::Import(3))?;
    Ok(named.request(9, 2))
}

#[test]
fn a_call_has_its_fields(rt: HostRuntime) {
    let request = call(rt.alloc()).expect(&rt, "memory");
    check!(&rt; (request.interface, request.method) == (9, 2));
    let content = &request.content;
    check!(&rt; (word_in(content, 1), word_in(content, 2)) == (u64::MAX, 0));
    check!(&rt; text_in(content, 0) == Some("Grüße"));
    check!(&rt; (text_in(content, 1), text_in(content, 2)) == (None, None));
    check!(&rt; data_in(content, 1) == Some([1, 2].as_slice()));
    check!(&rt; matches!(request.caps.caps(), [Cap::Import(3)]));
    drop(request);
}

/// A call that names a null capability, a broken one and an import.
fn naming(alloc: Global) -> Result<Request, BuildError> {
    let broken = Cap::Broken(failed(alloc, "lost")?);
    let content = PayloadBuilder::new(alloc).cap(Cap::None)?.cap(broken)?;
    Ok(content.cap(Cap::Import(3))?.request(9, 2))
}

/// The pointers of a struct.
fn pointers(content: &Whole) -> &[Tree] {
    match content.tree() {
        Tree::Struct(body) => &body.ptrs,
        _ => &[],
    }
}

#[test]
fn a_null_or_broken_capability_is_a_null_pointer(rt: HostRuntime) {
    let request = naming(rt.alloc()).expect(&rt, "memory");
    let named = pointers(&request.content);
    check!(&rt; matches!(named, [Tree::Null, Tree::Null, Tree::Cap(0)]));
    check!(&rt; matches!(request.caps.caps(), [Cap::Import(3)]));
    drop(request);
}

#[test]
fn a_table_has_no_null_capability(rt: HostRuntime) {
    let mut table = CapTableBuilder::new(rt.alloc());
    let null = table.add(SessionCap::new(7, Cap::None)).expect(&rt, "memory");
    let named = table.add(SessionCap::new(2, Cap::Import(3))).expect(&rt, "memory");
    let caps = table.into_caps(2).expect(&rt, "those of session 2");
    check!(&rt; matches!((null.tree(), named.tree()), (Tree::Null, Tree::Cap(0))));
    check!(&rt; matches!(caps.caps(), [Cap::Import(3)]));
}

#[test]
fn a_table_has_capabilities_of_one_session(rt: HostRuntime) {
    let mut table = CapTableBuilder::new(rt.alloc());
    drop(table.add(SessionCap::new(2, Cap::Import(3))).expect(&rt, "memory"));
    let other = table.add(SessionCap::new(1, Cap::Import(3)));
    check!(&rt; matches!(&other, Err(NamingError::OtherSession)));
    drop(other);
    let caps = table.into_caps(1);
    check!(&rt; matches!(&caps, Err(ReferenceError::OtherSession)));
    drop(caps);
}

#[test]
fn results_have_their_content(rt: HostRuntime) {
    let made = PayloadBuilder::new(rt.alloc()).word(5);
    let outcome = made.expect(&rt, "memory").results();
    let word = results_of(&outcome).map(|content| word_in(content, 0));
    drop(outcome);
    check!(&rt; word == Some(5));
    check!(&rt; results_of(&Outcome::Canceled).is_none());
}

/// How many words a struct gets, and why it gets no further one.
fn most_words(alloc: Global) -> (u32, Option<BuildError>) {
    let mut content = PayloadBuilder::new(alloc);
    for count in 0..0x1_0001 {
        match content.word(0) {
            Ok(longer) => content = longer,
            Err(fault) => return (count, Some(fault)),
        }
    }
    drop(content);
    (0x1_0001, None)
}

/// The same of pointers.
fn most_pointers(alloc: Global) -> (u32, Option<BuildError>) {
    let mut content = PayloadBuilder::new(alloc);
    for count in 0..0x1_0001 {
        match content.pointer(Whole::null()) {
            Ok(longer) => content = longer,
            Err(fault) => return (count, Some(fault)),
        }
    }
    drop(content);
    (0x1_0001, None)
}

#[test]
fn a_struct_has_at_most_65_535_words_and_pointers(rt: HostRuntime) {
    let most = (0xffff, Some(BuildError::TooLong));
    check!(&rt; most_words(rt.alloc()) == most);
    check!(&rt; most_pointers(rt.alloc()) == most);
}

/// Why a call failed.
fn reason_in(outcome: &Outcome) -> Option<&str> {
    match outcome {
        Outcome::Failed(exception) => Some(exception.reason.as_str()),
        _ => None,
    }
}

#[test]
fn a_call_whose_results_are_too_long_fails(rt: HostRuntime) {
    let failed = outcome_of(rt.alloc(), Err(BuildError::TooLong)).expect(&rt, "memory");
    check!(&rt; reason_in(&failed) == Some("the results are too long"));
    drop(failed);
    let made = outcome_of(rt.alloc(), PayloadBuilder::new(rt.alloc()).word(5)).expect(&rt, "memory");
    let word = results_of(&made).map(|content| word_in(content, 0));
    drop(made);
    check!(&rt; word == Some(5));
}
