//! Owned trees: which are held, copies, and how deep they nest and what they cost.

use crate::trees::{body, expect_tree, object_of, segments};
use cp_reading::*;
use cp_tree::*;
use cp_words::{Limits, Segments};
use cp_writing::*;
use std::alloc::Global;
use std::process::Abort;

/// A composite list of elements of one data word and one pointer, the second of these words.
fn structs(rt: &impl Abort, alloc: Global, second: &[u64]) -> Tree {
    let text = Tree::Bytes(Vec::from_slice(alloc, b"text").expect(rt, "memory"));
    let first = body(rt, alloc, &[7], [text]);
    let second = body(rt, alloc, second, [Tree::Cap(9)]);
    Tree::Structs {
        words: 1,
        ptrs: 1,
        items: Vec::from_array(alloc, [first, second]).expect(rt, "memory"),
    }
}

/// A struct of one data word and that list.
fn whole(rt: &impl Abort, alloc: Global, second: &[u64]) -> Tree {
    Tree::Struct(body(rt, alloc, &[4], [structs(rt, alloc, second)]))
}

/// The words of that struct.
const WHOLE: &str = "0000000001000100 0400000000000000 0100000027000000 0800000001000100 \
    0700000000000000 0900000022000000 0800000000000000 0300000009000000 7465787400000000";

/// That struct, held.
fn object(rt: &impl Abort, alloc: Global) -> Object {
    Object::new(whole(rt, alloc, &[8]))
        .ok()
        .expect(rt, "an object")
}

/// That list, held.
fn list(rt: &impl Abort, alloc: Global) -> Whole {
    Whole::new(structs(rt, alloc, &[8]))
        .ok()
        .expect(rt, "a list")
}

#[test]
fn what_a_message_can_hold_is_held(rt: HostRuntime) {
    let alloc = rt.alloc();
    let tree = object(&rt, alloc).into_tree();
    expect_tree(&rt, &tree, whole(&rt, alloc, &[8]));
    drop(tree);
    let tree = list(&rt, alloc).into_tree();
    expect_tree(&rt, &tree, structs(&rt, alloc, &[8]));
    drop(tree);
    let segments = segments(&rt, alloc, &[WHOLE]);
    let object = object_of(&rt, alloc, &segments);
    drop(segments);
    expect_tree(&rt, object.tree(), whole(&rt, alloc, &[8]));
    drop(object);
}

#[test]
fn uneven_elements_are_handed_back(rt: HostRuntime) {
    let alloc = rt.alloc();
    let back = Whole::new(structs(&rt, alloc, &[8, 9])).err();
    let back = back.expect(&rt, "a list");
    expect_tree(&rt, &back, structs(&rt, alloc, &[8, 9]));
    drop(back);
    let back = Object::new(whole(&rt, alloc, &[])).err();
    let back = back.expect(&rt, "a struct");
    expect_tree(&rt, &back, whole(&rt, alloc, &[]));
    drop(back);
}

/// Whether this many voids are held.
fn holds_voids(count: u32) -> bool {
    Whole::new(Tree::Voids(count)).is_ok()
}

#[test]
fn what_is_no_struct_or_too_long_is_handed_back(rt: HostRuntime) {
    check!(&rt; Object::new(Tree::Null).is_err());
    check!(&rt; holds_voids(0x1fff_ffff));
    check!(&rt; !holds_voids(0x2000_0000));
}

#[test]
fn depth_and_cost_are_counted(rt: HostRuntime) {
    let tree = whole(&rt, rt.alloc(), &[8]);
    // A struct of 2 words, a list of 2 elements of 2 words, a list of 1 word.
    check!(&rt; fits(&tree, 3, 3 + 8 + 2));
    check!(&rt; !fits(&tree, 2, 13));
    check!(&rt; !fits(&tree, 3, 12));
    drop(tree);
    check!(&rt; fits(&Tree::Cap(1), 0, 0));
    check!(&rt; !fits(&Tree::Voids(5), 0, 1));
}

/// Whether copying a tree twice gives it each time, or once that memory ran out.
fn copies_again(alloc: Global, source: &Whole) -> bool {
    match (source.copy(alloc), source.copy(alloc)) {
        (Ok(copy), _) | (Err(_), Ok(copy)) => copy.tree() == source.tree(),
        (Err(_), Err(_)) => false,
    }
}

/// The same of a struct.
fn object_copies_again(alloc: Global, source: &Object) -> bool {
    match (source.copy(alloc), source.copy(alloc)) {
        (Ok(copy), _) | (Err(_), Ok(copy)) => copy.tree() == source.tree(),
        (Err(_), Err(_)) => false,
    }
}

/// The same of a struct's first child, which is that list.
fn child_copies_again(alloc: Global, source: &Object, list: &Whole) -> bool {
    match (source.child(alloc, 0), source.child(alloc, 0)) {
        (Ok(child), _) | (Err(_), Ok(child)) => child.tree() == list.tree(),
        (Err(_), Err(_)) => false,
    }
}

/// The list that these segments hold in that struct. An allocation that fails once is tried again.
fn list_of(rt: &impl Abort, alloc: Global, segments: &Segments) -> Whole {
    let root = View::root(segments, Limits::standard()).expect(rt, "a root");
    let list = root.child(0);
    match list.tree(alloc) {
        Ok(list) => list,
        Err(_) => list.tree(alloc).expect(rt, "memory"),
    }
}

// With ample memory no allocation fails. `rt try --test --fail-alloc N` fails the Nth.
#[test]
fn allocation_failure_while_trees_are_copied(rt: HostRuntime) {
    let alloc = rt.alloc();
    let segments = segments(&rt, alloc, &[WHOLE]);
    let object = object_of(&rt, alloc, &segments);
    let list = list_of(&rt, alloc, &segments);
    check!(&rt; object_copies_again(alloc, &object));
    check!(&rt; copies_again(alloc, &list));
    check!(&rt; copies_again(alloc, &Whole::null()));
    check!(&rt; child_copies_again(alloc, &object, &list));
    drop(list);
    drop(object);
    drop(segments);
}
