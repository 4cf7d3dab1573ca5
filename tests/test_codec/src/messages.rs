//! Messages where memory runs out, and numbers past a table. What messages are written as, and why some say nothing, are rows of
//! test_interop's `messages.txt`.

use crate::message_samples::ALL_PARTS;
use cp_fields::UnknownEnumerant;
use cp_rpc::{Message, OtherWhich, Owned, SchemaFault, Source, message_in, message_of, tree_of};
use cp_tree::{Object, WriteFault};
use cp_words::{Limits, Segments};
use std::alloc::Global;
use std::process::Abort;

#[test]
fn numbers_past_a_table(rt: HostRuntime) {
    check!(&rt; UnknownEnumerant::<3>::new(3).is_none());
    check!(&rt; matches!(UnknownEnumerant::<3>::new(4), Some(number) if number.number() == 4));
    for known in KNOWN {
        check!(&rt; OtherWhich::new(*known).is_none());
    }
    for other in UNKNOWN {
        check!(&rt; matches!(OtherWhich::new(*other), Some(which) if which.number() == *other));
    }
}

/// The numbers of members that are known, and others.
const KNOWN: &[u16] = &[0, 1, 2, 3, 4, 5, 6, 8, 13];

const UNKNOWN: &[u16] = &[7, 9, 12, 14, 0xffff];

/// The root of a message of one segment, if there is memory for it.
fn found_root(alloc: Global, words: &[u64]) -> Option<Object> {
    let segments = Segments::one(Vec::from_slice(alloc, words).ok()?);
    let found = cp_reading::read_root(alloc, &segments, Limits::standard()).ok();
    drop(segments);
    found
}

/// The same. An allocation that fails once is tried again.
fn root_again(rt: &impl Abort, alloc: Global, words: &[u64]) -> Object {
    match found_root(alloc, words) {
        Some(root) => root,
        None => found_root(alloc, words).expect(rt, "a root"),
    }
}

/// Why a root says no message, if it says none.
fn fault_of(alloc: Global, root: &Object) -> Option<SchemaFault> {
    message_of(alloc, root).err()
}

/// Whether a root is read where it lies, which takes no memory, and is within the limits, but not within a depth of none.
fn is_read_in_place(root: &Object) -> bool {
    let root = Owned::root(root);
    message_in(&root).is_ok() && root.fits(64, 8_388_608) && !root.fits(0, 8_388_608)
}

/// Whether a root is read twice, or once that memory ran out.
fn is_read_again(alloc: Global, root: &Object) -> bool {
    match (fault_of(alloc, root), fault_of(alloc, root)) {
        (None, None) => true,
        (Some(fault), None) | (None, Some(fault)) => fault == SchemaFault::OutOfMemory,
        (Some(_), Some(_)) => false,
    }
}

// With ample memory no allocation fails. `rt try --test --fail-alloc N` fails the Nth of each
// of the two tests below.
#[test]
fn allocation_failure_while_messages_are_read(rt: HostRuntime) {
    for words in ALL_PARTS {
        let root = root_again(&rt, rt.alloc(), words);
        check!(&rt; is_read_in_place(&root));
        check!(&rt; is_read_again(rt.alloc(), &root));
        drop(root);
    }
}

/// The message of a root. An allocation that fails once is tried again.
fn message_again(rt: &impl Abort, alloc: Global, root: &Object) -> Message {
    match message_of(alloc, root) {
        Ok(message) => message,
        Err(_) => message_of(alloc, root).expect(rt, "a message"),
    }
}

/// Whether a message is made as this root.
fn is_made_as(alloc: Global, message: &Message, root: &Object) -> Result<bool, WriteFault> {
    let made = tree_of(alloc, message)?;
    let is_root = made.tree() == root.tree();
    drop(made);
    Ok(is_root)
}

/// Whether a message is made twice as this root, or once that memory ran out.
fn is_made_again(alloc: Global, message: &Message, root: &Object) -> bool {
    let first = is_made_as(alloc, message, root);
    match (first, is_made_as(alloc, message, root)) {
        (Ok(first), Ok(second)) => first && second,
        (Err(fault), Ok(right)) | (Ok(right), Err(fault)) => {
            right && fault == WriteFault::OutOfMemory
        }
        (Err(_), Err(_)) => false,
    }
}

/// A message's copy. An allocation that fails once is tried again.
fn copy_again(rt: &impl Abort, alloc: Global, message: &Message) -> Message {
    match message.copy(alloc) {
        Ok(copy) => copy,
        Err(_) => message.copy(alloc).expect(rt, "memory"),
    }
}

/// The copy of a root's message is made as that root.
fn expect_copied(rt: &impl Abort, alloc: Global, root: &Object) {
    let message = message_again(rt, alloc, root);
    let copy = copy_again(rt, alloc, &message);
    drop(message);
    check!(rt; is_made_again(alloc, &copy, root));
    drop(copy);
}

#[test]
fn allocation_failure_while_messages_are_copied(rt: HostRuntime) {
    for words in ALL_PARTS {
        let root = root_again(&rt, rt.alloc(), words);
        expect_copied(&rt, rt.alloc(), &root);
        drop(root);
    }
}
