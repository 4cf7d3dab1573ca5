//! A struct with every kind of field, read in a message and in the same tree, owned.

use crate::field_samples::FULL;
use crate::look::{root_of, tree_of};
use crate::samples::one_segment;
use crate::{fields, lists};
use cp_fields::{PointerReader, StructReader};
use cp_tree::Tree;
use std::alloc::Global;
use std::process::Abort;

/// Each kind of field and of list.
fn expect_all(rt: &impl Abort, alloc: Global, root: &StructReader) {
    fields::expect_numbers(rt, root);
    fields::expect_pointers(rt, alloc, root);
    fields::expect_wrong_kinds(rt, root);
    lists::expect_numbers(rt, alloc, root);
    lists::expect_pointers(rt, alloc, root);
}

/// The same of an owned tree.
fn expect_owned(rt: &impl Abort, alloc: Global, tree: &Tree) {
    let root = StructReader::of(PointerReader::of_tree(tree)).expect(rt, "a struct");
    expect_all(rt, alloc, &root);
}

#[test]
fn fields_and_lists_are_read_in_place_and_of_owned_trees(rt: HostRuntime) {
    let segments = one_segment(&rt, rt.alloc(), &FULL);
    expect_all(&rt, rt.alloc(), &root_of(&rt, &segments));
    let tree = tree_of(&rt, rt.alloc(), &segments);
    drop(segments);
    expect_owned(&rt, rt.alloc(), &tree);
    drop(tree);
}
