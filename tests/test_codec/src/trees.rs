//! Messages from outside, read in place and as owned trees: what is lent, limits of a caller's own, all small messages, and reading where
//! memory runs out. Trees of every kind and their faults are rows of test_interop's `commands.txt`.

ghost use Rattle.std.specs.Prelude.{◌≡◌, ◌<◌};

use crate::checks::{expect_right, expect_words};
use cp_reading::*;
use cp_tree::*;
use cp_words::{Limits, Place, Segments};
use std::alloc::Global;
use std::marker::Brand;
use std::process::Abort;
use std::sync::ledger::{Blank, Ledger};

/// The words of a text, each by its eight bytes in hexadecimal, in the order of the stream. An allocation that fails once is
/// tried again.
fn words_of(rt: &impl Abort, alloc: Global, text: &str) -> Vec<u64> {
    let size = text.len() / 16;
    let mut words = match Vec::with_capacity(alloc, size) {
        Ok(words) => words,
        Err(_) => Vec::with_capacity(alloc, size).expect(rt, "memory"),
    };
    for digits in text.split_whitespace() {
        let word = u64::from_str_radix(digits, 16).expect(rt, "a word");
        words.push(word.swap_bytes()).expect(rt, "memory");
    }
    words
}

/// Segments, each by its words. An allocation that fails once is tried again.
pub(crate) fn segments(rt: &impl Abort, alloc: Global, texts: &[&str]) -> Segments {
    let mut lists = match Vec::with_capacity(alloc, texts.len()) {
        Ok(lists) => lists,
        Err(_) => Vec::with_capacity(alloc, texts.len()).expect(rt, "memory"),
    };
    for text in texts {
        lists.push(words_of(rt, alloc, text)).expect(rt, "memory");
    }
    Segments::new(lists).ok().expect(rt, "a segment")
}

/// The struct that these segments hold. An allocation that fails once is tried again.
pub(crate) fn object_of(rt: &impl Abort, alloc: Global, segments: &Segments) -> Object {
    match read_root(alloc, segments, Limits::standard()) {
        Ok(object) => object,
        Err(_) => read_root(alloc, segments, Limits::standard()).expect(rt, "an object"),
    }
}

/// Whether the message of these segments denotes the tree.
fn is_denoted(rt: &impl Abort, alloc: Global, segments: &Segments, tree: &Tree) -> bool {
    root_denotes(alloc, segments, tree).expect(rt, "memory")
}

/// A tree is the wanted one.
pub(crate) fn expect_tree(rt: &impl Abort, tree: &Tree, wanted: Tree) {
    let is_wanted = *tree == wanted;
    drop(wanted);
    check!(rt; is_wanted);
}

/// Whether a view's depth and cost are these.
fn measures(view: &View, nesting: u32, traversal: u64) -> bool {
    view.fits(nesting, traversal)
        && (nesting == 0 || !view.fits(nesting - 1, traversal))
        && (traversal == 0 || !view.fits(nesting, traversal - 1))
}

/// The message `finish`.
pub(crate) const FINISH: &str =
    "0000000001000100 0400000000000000 0000000001000000 0700000000000000";

pub(crate) fn body<const N: usize>(
    rt: &impl Abort,
    alloc: Global,
    words: &[u64],
    ptrs: [Tree; N],
) -> Body {
    Body {
        words: Vec::from_slice(alloc, words).expect(rt, "memory"),
        ptrs: Vec::from_array(alloc, ptrs).expect(rt, "memory"),
    }
}

/// A message's root, in place.
fn root_of<'a>(rt: &impl Abort, segments: &'a Segments) -> View<'a> {
    View::root(segments, Limits::standard()).expect(rt, "a root")
}

/// A view has this shape, and this depth and cost.
fn expect_shape(rt: &impl Abort, view: &View, shape: Shape, (nesting, cost): (u32, u64)) {
    check!(rt; view.shape() == shape);
    check!(rt; measures(view, nesting, cost));
}

/// The message `finish` lends its root, its member, and null past its last pointer.
fn expect_finish(rt: &impl Abort, root: &View) {
    expect_shape(rt, root, Shape::Struct { words: 1, ptrs: 1 }, (2, 5));
    expect_words(rt, root.words(), &[4]);
    expect_shape(
        rt,
        &root.child(0),
        Shape::Struct { words: 1, ptrs: 0 },
        (1, 2),
    );
    expect_words(rt, root.child(0).reborrow().words(), &[7]);
    expect_shape(rt, &root.child(1), Shape::Null, (0, 0));
}

/// That list lends its second element, and null past it.
fn expect_structs(rt: &impl Abort, list: &View) {
    expect_words(rt, list.child(1).words(), &[8]);
    check!(rt; list.child(1).child(0).shape() == Shape::Cap(2));
    check!(rt; list.child(2).shape() == Shape::Null);
}

#[test]
fn views_lend_parts(rt: HostRuntime) {
    let alloc = rt.alloc();
    let finish = segments(&rt, alloc, &[FINISH]);
    expect_finish(&rt, &root_of(&rt, &finish));
    drop(finish);
    let structs = segments(&rt, alloc, &[TWO_STRUCTS]);
    expect_structs(&rt, &root_of(&rt, &structs).child(0));
    drop(structs);
    let shared = segments(&rt, alloc, &[SHARED]);
    check!(&rt; measures(&root_of(&rt, &shared), 2, 7));
    drop(shared);
}

/// A struct of a list of two structs of one data word and one pointer.
const TWO_STRUCTS: &str = "0000000000000100 0100000027000000 0800000001000100 \
    0700000000000000 0000000000000000 0800000000000000 0300000002000000";

/// A struct of two pointers to one body.
const SHARED: &str = "0000000000000200 0400000001000000 0000000001000000 0500000000000000";

/// Segments, and their fault within one level and a cost of two words: a composite list's bounds, and then its tag; a body's
/// bounds, and then its level.
const NARROW: &[(&str, TreeFault)] = &[
    (
        "0000000000000100 010000000f000000 0100000000000000",
        TreeFault::OutOfBounds(NEXT),
    ),
    (
        "0000000000000100 010000000f000000 0100000000000000 0000000000000000",
        TreeFault::BadTag(NEXT),
    ),
    (
        "0000000000000100 0000000001000000",
        TreeFault::OutOfBounds(NEXT),
    ),
    (
        "0000000000000100 0000000001000000 0000000000000000",
        TreeFault::NestingLimit(NEXT),
    ),
];

/// The place of the word after the root.
const NEXT: Place = Place {
    segment: 0,
    word: 1,
};

/// Within limits on nesting and traversal this segment has the fault, in place and owned.
fn expect_fault(
    rt: &impl Abort,
    alloc: Global,
    text: &str,
    (nesting, traversal): (u32, u32),
    fault: TreeFault,
) {
    let segments = segments(rt, alloc, &[text]);
    let limits = Limits::new(nesting, traversal, 512, 67_108_864).expect(rt, "limits");
    let owned = read_root(alloc, &segments, limits).err();
    let in_place = View::root(&segments, limits).err();
    drop(segments);
    expect_right(rt, owned == Some(fault) && in_place == owned, text);
}

#[test]
fn limits_are_values(rt: HostRuntime) {
    for (text, fault) in NARROW {
        expect_fault(&rt, rt.alloc(), text, (1, 2), *fault);
    }
    let dear = TreeFault::TraversalLimit(Place {
        segment: 0,
        word: 2,
    });
    expect_fault(&rt, rt.alloc(), SHARED, (64, 6), dear);
}

/// Whether these segments denote the tree that is read of them.
fn denote_what_is_read(rt: &impl Abort, alloc: Global, lists: &[&str]) -> bool {
    let segments = segments(rt, alloc, lists);
    let object = object_of(rt, alloc, &segments);
    let are_denoted = is_denoted(rt, alloc, &segments, object.tree());
    drop(object);
    drop(segments);
    are_denoted
}

#[test]
fn what_is_read_is_denoted(rt: HostRuntime) {
    for lists in IN_SEGMENTS {
        check!(&rt; denote_what_is_read(&rt, rt.alloc(), lists));
    }
}

/// 64 nested structs of one pointer, then a null pointer. An allocation that fails once is tried again.
fn nested(rt: &impl Abort, alloc: Global) -> String {
    let mut text = match String::with_capacity(alloc, 2_048) {
        Ok(text) => text,
        Err(_) => String::with_capacity(alloc, 2_048).expect(rt, "memory"),
    };
    for _ in 0..64 {
        text.push_str("0000000000000100 ").expect(rt, "memory");
    }
    text.push_str("0000000000000000").expect(rt, "memory");
    text
}

/// Words of every kind: structs of two sizes, an empty one before its word, one that has itself,
/// lists of pointers, bytes and structs, a capability, and far pointers by one word and by two.
const KINDS: [u64; 11] = [
    0x0000_0000_0000_0000,
    0x0001_0000_0000_0000,
    0x0000_0001_0000_0000,
    0x0000_0000_ffff_fffc,
    0x0001_0000_ffff_fffc,
    0x0000_000e_0000_0001,
    0x0000_000a_0000_0001,
    0x0000_0007_0000_0001,
    0x0000_0005_0000_0003,
    0x0000_0000_0000_000a,
    0x0000_0000_0000_0006,
];

/// How many messages of three such words there are.
const MESSAGES: usize = 1_331;

/// One of the messages of one segment of three such words.
fn small_message(rt: &impl Abort, alloc: Global, number: usize) -> Segments {
    let words = [
        KINDS[number / 121 % 11],
        KINDS[number / 11 % 11],
        KINDS[number % 11],
    ];
    Segments::one(words.to_vec(alloc).expect(rt, "memory"))
}

/// Whether the tree is among these.
fn is_among(trees: &[Object], found: &Object) -> bool {
    for tree in trees {
        if *tree.tree() == *found.tree() {
            return true;
        }
    }
    false
}

/// Adds a tree that isn't there yet.
fn push_new(rt: &impl Abort, trees: &mut Vec<Object>, found: Object) {
    if !is_among(trees, &found) {
        trees.push(found).expect(rt, "memory");
    }
}

/// The trees that the reader finds in the messages, each once.
fn trees_of_small_messages(rt: &impl Abort, alloc: Global) -> Vec<Object> {
    let mut trees = Vec::new(alloc);
    for number in 0..MESSAGES {
        let message = small_message(rt, alloc, number);
        let found = read_root(alloc, &message, Limits::standard()).ok();
        drop(message);
        if let Some(found) = found {
            push_new(rt, &mut trees, found);
        }
    }
    trees
}

/// Whether the tree was found.
fn is_found(found: &Result<Object, TreeFault>, tree: &Tree) -> bool {
    match found {
        Ok(found) => *found.tree() == *tree,
        Err(_) => false,
    }
}

/// Of these trees the message denotes just the one that is read, if any.
fn expect_what_is_found(rt: &impl Abort, alloc: Global, message: &Segments, trees: &[Object]) {
    let found = read_root(alloc, message, Limits::standard());
    for tree in trees {
        let is_denoted = is_denoted(rt, alloc, message, tree.tree());
        check!(rt; is_denoted == is_found(&found, tree.tree()));
    }
    drop(found);
}

#[test]
fn the_reader_finds_what_is_denoted(rt: HostRuntime) {
    let trees = trees_of_small_messages(&rt, rt.alloc());
    check!(&rt; trees.len() > 20);
    for number in 0..MESSAGES {
        let message = small_message(&rt, rt.alloc(), number);
        expect_what_is_found(&rt, rt.alloc(), &message, &trees);
        drop(message);
    }
    drop(trees);
}

/// Reads the message's tree, and counts.
fn read_with_count<L: Ledger>(
    alloc: Global,
    segments: &Segments,
    limits: Limits,
    blank: Blank,
) -> Result<Object, TreeFault>
    requires name { blank.name ≡ L.name }
    requires parts { blank.parts ≡ L.parts }
    requires some { 0 < blank.parts }
{
    read_counted(alloc, segments, limits, &mut Visits::<L>::new(blank))
}

#[test]
fn counting_changes_no_answer(rt: HostRuntime) {
    let alloc = rt.alloc();
    let segments = segments(&rt, alloc, &[FINISH]);
    let limits = Limits::standard();
    let counted = read_with_count::<Brand>(alloc, &segments, limits, Blank::new(1));
    let counted = counted.expect(&rt, "a tree");
    let plain = read_root(alloc, &segments, limits).expect(&rt, "a tree");
    drop(segments);
    check!(&rt; *counted.tree() == *plain.tree());
    drop(counted);
    drop(plain);
}

/// Whether both are the same tree, or memory ran out for one.
fn is_same(first: &Result<Object, TreeFault>, second: &Result<Object, TreeFault>) -> bool {
    match (first, second) {
        (Ok(first), Ok(second)) => *first.tree() == *second.tree(),
        (Err(fault), Ok(_)) | (Ok(_), Err(fault)) => *fault == TreeFault::OutOfMemory,
        (Err(_), Err(_)) => false,
    }
}

/// Whether reading these segments twice gives the same tree, or once that memory ran out.
fn reads_again(rt: &impl Abort, alloc: Global, lists: &[&str]) -> bool {
    let segments = segments(rt, alloc, lists);
    let first = read_root(alloc, &segments, Limits::standard());
    let second = read_root(alloc, &segments, Limits::standard());
    drop(segments);
    let is_same = is_same(&first, &second);
    drop(first);
    drop(second);
    is_same
}

/// Messages: in one segment, in two and by pads of two words; lists of every size, of pointers and of structs; a body that is
/// shared.
const IN_SEGMENTS: &[&[&str]] = &[
    &[FINISH],
    &["0200000001000000", FINISH],
    &[
        "0600000001000000",
        "0200000002000000 0000000001000100",
        "0400000000000000 0000000001000000 0700000000000000",
    ],
    &["0600000001000000", "0200000002000000 0000000000000000", ""],
    &["0000000000000100 0100000048000000 0500000000000000"],
    &["0000000000000100 0100000021000000 0500000000000000"],
    &["0000000000000100 010000000a000000 0500000000000000"],
    &["0000000000000100 0100000013000000 0500000000000000"],
    &["0000000000000100 010000000c000000 0500000000000000"],
    &["0000000000000100 010000000d000000 0500000000000000"],
    &["0000000000000100 0100000016000000 0000000000000000 0300000009000000"],
    &[TWO_STRUCTS],
    &[SHARED],
];

// With ample memory no allocation fails. `rt try --test --fail-alloc N` fails the Nth.
#[test]
fn allocation_failure_while_trees_are_read(rt: HostRuntime) {
    for lists in IN_SEGMENTS {
        check!(&rt; reads_again(&rt, rt.alloc(), lists));
    }
    let text = nested(&rt, rt.alloc());
    check!(&rt; reads_again(&rt, rt.alloc(), &[text.as_str()]));
    drop(text);
}
