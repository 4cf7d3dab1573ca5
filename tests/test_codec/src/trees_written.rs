//! Trees, written: limits, lent parts, and where memory runs out. What segments trees are written as, are rows `recut` of test_interop.

ghost use Rattle.std.specs.Prelude.{◌≡◌, ◌∷◌, [], map, IfOk};
ghost use Rattle.cp_tree.specs.Node.{struct, node, no_nodes};
ghost use Rattle.cp_tree.specs.NodeOf.{node_of, nodes_of};
ghost use Rattle.cp_tree.specs.DraftOf.{draft_of, draft_body_of};
ghost use Rattle.cp_tree.specs.Shaped.{Shaped};
ghost use Rattle.test_codec.specs.Drafted.{list_with, structs_with, struct_with};

use crate::checks::expect_right_of;
use crate::trees::{FINISH, object_of, segments};
use cp_packed::push_plain;
use cp_reading::*;
use cp_tree::*;
use cp_words::{Limits, Segments};
use cp_writing::*;
use std::alloc::{AllocError, Global};
use std::process::Abort;

fn object(rt: &impl Abort, tree: Tree) -> Object {
    Object::new(tree).ok().expect(rt, "an object")
}

/// The words of a struct with each kind of tree.
const ALL_KINDS: &str =
    "0000000001000b00 0400000000000000 0000000000000000 0300000003000000 fcffffff00000000 \
    1d00000028000000 1900000019000000 190000004a000000 1d0000002b000000 210000001c000000 \
    250000000d000000 2500000016000000 2d00000037000000 0500000000000000 6e696e6520627974 \
    6500000000000000 0100020003000400 0500000000000000 0600000007000000 0800000000000000 \
    0a00000000000000 0400000001000000 0000000000000000 0d00000000000000 0800000001000200 \
    0100000000000000 0300000009000000 0c00000001000000 0200000000000000 0800000001000000 \
    0000000000000000 0b00000000000000 0c00000000000000";

/// An object with each kind of tree. An allocation that fails once is tried again.
fn object_of_all_kinds(rt: &impl Abort, alloc: Global) -> Object {
    let segments = segments(rt, alloc, &[ALL_KINDS]);
    let object = object_of(rt, alloc, &segments);
    drop(segments);
    object
}

/// A list of two pointers: a lent tree, and a capability of its own.
fn drafted_list<'a>(alloc: Global, lent: &'a Tree) -> Result<Draft<'a>, AllocError>
    ensures { IfOk result (λ d. draft_of d ≡ list_with (node_of lent.now)) }
{
    Ok(Draft::Ptrs(vec![in alloc; Draft::Lent(lent), Draft::Own(Tree::Cap(2))]?))
}

/// A struct of one data word and one pointer.
fn drafted_body<'a>(alloc: Global, word: u64, part: Draft<'a>) -> Result<DraftBody<'a>, AllocError>
    ensures { IfOk result (λ b. draft_body_of b ≡ (word ∷ [], node (draft_of part.entry) no_nodes)) }
{
    Ok(DraftBody {
        words: Vec::from_slice(alloc, &[word])?,
        ptrs: vec![in alloc; part]?,
    })
}

/// A composite list of two such structs.
fn drafted_structs<'a>(alloc: Global, lent: &'a Tree) -> Result<Draft<'a>, AllocError>
    ensures { IfOk result (λ d. draft_of d ≡ structs_with (node_of lent.now)) }
{
    let items = vec![in alloc;
        drafted_body(alloc, 5, Draft::Lent(lent))?,
        drafted_body(alloc, 6, Draft::Own(Tree::Cap(1)))?,
    ]?;
    Ok(Draft::Structs {
        words: 1,
        ptrs: 1,
        items,
    })
}

/// A struct of these data words and pointers.
fn drafted_struct<'a>(words: Vec<u64>, ptrs: Vec<Draft<'a>>) -> Draft<'a>
    ensures { draft_of result ≡ struct words.items (nodes_of (map draft_of ptrs.entry.items)) }
{
    Draft::Struct(DraftBody { words, ptrs })
}

/// A struct of one data word and of both lists.
fn drafted<'a>(alloc: Global, lent: &'a Tree) -> Result<Draft<'a>, AllocError>
    ensures { IfOk result (λ d. draft_of d ≡ struct_with (node_of lent.now)) }
{
    let ptrs = vec![in alloc; drafted_list(alloc, lent)?, drafted_structs(alloc, lent)?]?;
    Ok(drafted_struct(Vec::from_slice(alloc, &[9])?, ptrs))
}

/// Whether the draft is written as this copy of it is, and read as it.
fn writes_as_its_copy(
    rt: &impl Abort,
    alloc: Global,
    draft: &Draft,
    copy: &Object,
    max_words: u32,
) -> bool
    requires { Shaped (draft_of draft.now) }
{
    let limits = Limits::standard();
    let written = write_draft(alloc, draft, max_words, limits).expect(rt, "segments");
    let wanted = write_segments(alloc, copy, max_words, limits).expect(rt, "segments");
    let are_wanted = written.lists() == wanted.lists();
    drop(wanted);
    let back = read_root(alloc, &written, limits).expect(rt, "a tree");
    drop(written);
    let is_copy = *back.tree() == *copy.tree();
    drop(back);
    are_wanted && is_copy
}

/// The same in segments of one word, of seven, and in one segment.
fn writes_as_its_copies(rt: &impl Abort, alloc: Global, draft: &Draft, copy: &Object) -> bool
    requires { Shaped (draft_of draft.now) }
{
    writes_as_its_copy(rt, alloc, draft, copy, 0)
        && writes_as_its_copy(rt, alloc, draft, copy, 7)
        && writes_as_its_copy(rt, alloc, draft, copy, 8_388_608)
}

/// The draft's copy, which is a struct.
fn copy_of(rt: &impl Abort, alloc: Global, draft: &Draft) -> Object
    requires { Shaped (draft_of draft.now) }
{
    let copy = draft.copy(alloc).expect(rt, "memory");
    copy.into_object().ok().expect(rt, "a struct")
}

/// Whether the draft is written over three words that a buffer holds as it is written into a new one.
fn writes_over(rt: &impl Abort, alloc: Global, draft: &Draft) -> bool
    requires { Shaped (draft_of draft.now) }
{
    let limits = Limits::standard();
    let wanted = write_draft(alloc, draft, 7, limits).expect(rt, "segments");
    let buffer = Vec::from_slice(alloc, &[1, 2, 3]).expect(rt, "a buffer");
    let written = write_draft_over(alloc, buffer, draft, 7, limits).expect(rt, "segments");
    let are_same = written.lists() == wanted.lists();
    drop(written);
    drop(wanted);
    are_same
}

/// Whether the draft's bytes, over three that a buffer holds, are those of the words of its one segment after eight zeros.
fn writes_bytes(rt: &impl Abort, alloc: Global, draft: &Draft) -> bool
    requires { Shaped (draft_of draft.now) }
{
    let limits = Limits::standard();
    let segments = write_draft(alloc, draft, 8_388_608, limits).expect(rt, "a segment");
    let mut wanted = Vec::from_slice(alloc, &[0; 8]).expect(rt, "a buffer");
    push_plain(&mut wanted, &segments.into_first()).expect(rt, "bytes");
    let buffer = Vec::from_slice(alloc, &[1, 2, 3]).expect(rt, "a buffer");
    let written = write_draft_bytes(alloc, buffer, draft, limits).expect(rt, "bytes");
    let are_same = written == wanted;
    drop(written);
    drop(wanted);
    are_same
}

#[test]
fn a_tree_with_lent_parts_is_written_as_its_copy(rt: HostRuntime) {
    let alloc = rt.alloc();
    let lent = object_of_all_kinds(&rt, alloc);
    let draft = drafted(alloc, lent.tree()).expect(&rt, "memory");
    let copy = copy_of(&rt, alloc, &draft);
    check!(&rt; writes_as_its_copies(&rt, alloc, &draft, &copy));
    check!(&rt; writes_over(&rt, alloc, &draft));
    check!(&rt; writes_bytes(&rt, alloc, &draft));
    drop(copy);
    drop(draft);
    drop(lent);
}

/// Why the tree isn't written in segments of one word within these limits, if it isn't.
fn limited(
    rt: &impl Abort,
    alloc: Global,
    object: &Object,
    (nesting, traversal, frame_words): (u32, u32, u32),
) -> Option<WriteFault> {
    let limits = Limits::new(nesting, traversal, 512, frame_words).expect(rt, "limits");
    write_segments(alloc, object, 1, limits).err()
}

/// Why the tree isn't written in one segment within this cost, if it isn't.
fn fault_within(
    rt: &impl Abort,
    alloc: Global,
    object: &Object,
    traversal: u32,
) -> Option<WriteFault> {
    let limits = Limits::new(64, traversal, 512, 8_388_608).expect(rt, "limits");
    write_root(alloc, object, limits).err()
}

/// Limits on nesting, traversal and words, and the fault of the message `finish` in segments of one word, which takes two
/// levels, a cost of 5 and 6 words.
const FAULTS: &[((u32, u32, u32), Option<WriteFault>)] = &[
    ((1, 4, 5), Some(WriteFault::TooDeep)),
    ((2, 4, 5), Some(WriteFault::TooCostly)),
    ((2, 5, 5), Some(WriteFault::TooManyWords)),
    ((2, 5, 6), None),
];

#[test]
fn depth_is_reported_before_cost_and_cost_before_words(rt: HostRuntime) {
    let segments = segments(&rt, rt.alloc(), &[FINISH]);
    let object = object_of(&rt, rt.alloc(), &segments);
    drop(segments);
    for (limits, wanted) in FAULTS {
        check!(&rt; limited(&rt, rt.alloc(), &object, *limits) == *wanted);
    }
    // In one segment.
    check!(&rt; fault_within(&rt, rt.alloc(), &object, 5).is_none());
    check!(&rt; fault_within(&rt, rt.alloc(), &object, 4) == Some(WriteFault::TooCostly));
    drop(object);
}

/// Whether both are the same segments, or memory ran out for one.
fn are_same(first: &Result<Segments, WriteFault>, second: &Result<Segments, WriteFault>) -> bool {
    match (first, second) {
        (Ok(first), Ok(second)) => first.lists() == second.lists(),
        (Err(fault), Ok(_)) | (Ok(_), Err(fault)) => *fault == WriteFault::OutOfMemory,
        (Err(_), Err(_)) => false,
    }
}

/// Whether the tree is written twice as the same, or once that memory ran out.
fn writes_segments_again(alloc: Global, object: &Object, max_words: u32) -> bool {
    let first = write_segments(alloc, object, max_words, Limits::standard());
    let second = write_segments(alloc, object, max_words, Limits::standard());
    let are_same = are_same(&first, &second);
    drop(first);
    drop(second);
    are_same
}

// With ample memory no allocation fails. `rt try --test --fail-alloc N` fails the Nth of each
// of the three tests below.
#[test]
fn allocation_failure_while_segments_are_written(rt: HostRuntime) {
    let object = object_of_all_kinds(&rt, rt.alloc());
    for max_words in SIZES {
        let is_same = writes_segments_again(rt.alloc(), &object, *max_words);
        expect_right_of(&rt, is_same, *max_words as u64);
    }
    drop(object);
}

/// Numbers of words in a segment.
const SIZES: &[u32] = &[0, 4, 8_388_608];

/// Whether both are the same words, or memory ran out for one.
fn are_same_words(
    first: &Result<Vec<u64>, WriteFault>,
    second: &Result<Vec<u64>, WriteFault>,
) -> bool {
    match (first, second) {
        (Ok(first), Ok(second)) => first == second,
        (Err(fault), Ok(_)) | (Ok(_), Err(fault)) => *fault == WriteFault::OutOfMemory,
        (Err(_), Err(_)) => false,
    }
}

/// The same of one segment.
fn writes_words_again(alloc: Global, object: &Object) -> bool {
    let first = write_root(alloc, object, Limits::standard());
    let second = write_root(alloc, object, Limits::standard());
    let are_same = are_same_words(&first, &second);
    drop(first);
    drop(second);
    are_same
}

#[test]
fn allocation_failure_while_one_segment_is_written(rt: HostRuntime) {
    let object = object_of_all_kinds(&rt, rt.alloc());
    check!(&rt; writes_words_again(rt.alloc(), &object));
    drop(object);
}

/// A struct of more words than a segment's first capacity. An allocation that fails once is tried again.
fn object_of_many_words(rt: &impl Abort, alloc: Global) -> Object {
    let words = match Vec::from_slice(alloc, &[7; 300]) {
        Ok(words) => words,
        Err(_) => Vec::from_slice(alloc, &[7; 300]).expect(rt, "memory"),
    };
    let ptrs = Vec::new(alloc);
    object(rt, Tree::Struct(Body { words, ptrs }))
}

#[test]
fn allocation_failure_while_a_segment_grows(rt: HostRuntime) {
    let object = object_of_many_words(&rt, rt.alloc());
    check!(&rt; writes_words_again(rt.alloc(), &object));
    drop(object);
}

/// Whether the draft is copied twice as the same, or once that memory ran out.
fn copies_again(alloc: Global, draft: &Draft) -> bool
    requires { Shaped (draft_of draft.now) }
{
    let first = draft.copy(alloc);
    let second = draft.copy(alloc);
    let is_same = match (&first, &second) {
        (Ok(first), Ok(second)) => first.tree() == second.tree(),
        (first, second) => first.is_ok() || second.is_ok(),
    };
    drop(first);
    drop(second);
    is_same
}

/// Whether the draft is written twice as the same, or once that memory ran out.
fn writes_again(alloc: Global, draft: &Draft) -> bool
    requires { Shaped (draft_of draft.now) }
{
    let limits = Limits::standard();
    let first = write_draft(alloc, draft, 7, limits);
    let second = write_draft(alloc, draft, 7, limits);
    let are_same = are_same(&first, &second);
    drop(first);
    drop(second);
    are_same
}

#[test]
fn allocation_failure_while_a_draft_is_written(rt: HostRuntime) {
    let alloc = rt.alloc();
    let lent = object_of_all_kinds(&rt, alloc);
    if let Ok(draft) = drafted(alloc, lent.tree()) {
        check!(&rt; copies_again(alloc, &draft));
        check!(&rt; writes_again(alloc, &draft));
        drop(draft);
    }
    drop(lent);
}
