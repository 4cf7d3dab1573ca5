//! Structs that are written by the places of their fields, and over readers and writers.

use cp_builder::*;
use cp_fields::{Constant, PointerReader, StructReader};
use cp_frame::Mode;
use cp_stream::{Tap, read_struct, write_struct};
use cp_tree::{Body, ListRef, Object, Tree, Whole};
use cp_words::Limits;
use std::alloc::Global;
use std::process::Abort;

/// A draft with numbers of each width, a text and a capability.
fn sample(rt: &impl Abort, alloc: Global) -> StructBuilder<2, 3> {
    let mut draft: StructBuilder<2, 3> = StructBuilder::new(alloc).expect(rt, "memory");
    draft.set_bit(0, true);
    draft.set_u8(1, 255);
    draft.set_u16(1, 0x8001);
    draft.set_u32(1, 7);
    draft.set_u64(1, u64::MAX);
    draft.set_pointer(0, text_of(alloc, "ab").expect(rt, "a text"));
    draft.set_pointer(1, cap_of(3));
    draft
}

/// What the sample says.
fn expect_sample(rt: &impl Abort, root: &StructReader) {
    check!(rt; root.bit(0));
    check!(rt; root.u8(1) == 255);
    check!(rt; root.u16(1) == 0x8001);
    check!(rt; root.u32(1) == 7);
    check!(rt; root.u64(1) == u64::MAX);
    check!(rt; root.text(0).expect(rt, "a text").len() == 2);
    check!(rt; root.cap(1) == Ok(Some(3)));
    check!(rt; root.pointer(2).is_null());
}

/// What an object that is the sample says.
fn expect_object(rt: &impl Abort, object: &Object) {
    let root = StructReader::of(PointerReader::of_object(object)).expect(rt, "a struct");
    expect_sample(rt, &root);
}

#[test]
fn fields_are_set(rt: HostRuntime) {
    let draft = sample(&rt, rt.alloc());
    check!(&rt; draft.u16(1) == 0x8001);
    let object = draft.into_object();
    expect_object(&rt, &object);
    drop(object);
}

/// A draft whose numbers are set as those of fields with defaults: xor'd with them.
fn with_defaults(rt: &impl Abort, alloc: Global) -> Object {
    let mut draft: StructBuilder<2, 0> = StructBuilder::new(alloc).expect(rt, "memory");
    draft.set_bit(0, !false);
    draft.set_u8(1, 200 ^ 18);
    draft.set_u16(1, 40_000 ^ 500);
    draft.set_u32(1, 7 ^ 0xffff_fffe);
    draft.set_u64(1, 5 ^ 0x4050_1000_0000_0000);
    draft.into_object()
}

/// Their fields read as they were set.
fn expect_as_set(rt: &impl Abort, object: &Object) {
    let root = StructReader::of(PointerReader::of_object(object)).expect(rt, "a struct");
    check!(rt; !root.bit_or_true(0));
    check!(rt; root.u8_or(1, 18) == 200);
    check!(rt; root.u16_or(1, 500) == 40_000);
    check!(rt; root.u32_or(1, 0xffff_fffe) == 7);
    check!(rt; root.u64_or(1, 0x4050_1000_0000_0000) == 5);
}

#[test]
fn numbers_with_defaults_come_back(rt: HostRuntime) {
    let object = with_defaults(&rt, rt.alloc());
    expect_as_set(&rt, &object);
    drop(object);
}

/// A draft of the fields that an object has.
fn taken(rt: &impl Abort, alloc: Global, object: &Object) -> StructBuilder<2, 3> {
    let root = StructReader::of(PointerReader::of_object(object)).expect(rt, "a struct");
    StructBuilder::of_view(alloc, &root).expect(rt, "memory")
}

#[test]
fn a_draft_is_made_of_a_view(rt: HostRuntime) {
    let first = sample(&rt, rt.alloc()).into_object();
    let second = taken(&rt, rt.alloc(), &first).into_object();
    check!(&rt; first.tree() == second.tree());
    drop(first);
    drop(second);
}

/// A draft of the fields that an object has, by an older schema.
fn taken_by_older(rt: &impl Abort, alloc: Global, object: &Object) -> StructBuilder<1, 2> {
    let root = StructReader::of(PointerReader::of_object(object)).expect(rt, "a struct");
    StructBuilder::of_view(alloc, &root).expect(rt, "memory")
}

/// Sets a field that the older schema knows, as the sample has it.
fn set_again(draft: StructBuilder<1, 2>) -> StructBuilder<1, 2> {
    let mut draft = draft;
    draft.set_u32(1, 0);
    draft.set_u32(1, 7);
    draft
}

#[test]
fn fields_of_a_newer_schema_are_kept(rt: HostRuntime) {
    let newer = sample(&rt, rt.alloc()).into_object();
    let older = set_again(taken_by_older(&rt, rt.alloc(), &newer)).into_object();
    check!(&rt; newer.tree() == older.tree());
    drop(newer);
    drop(older);
}

/// A list by an older schema, of one struct that a newer schema's program wrote.
fn list_by_older(rt: &impl Abort, alloc: Global) -> Whole {
    let newer = sample(rt, alloc).into_object();
    let mut list: StructListBuilder<1, 2> = StructListBuilder::new(alloc);
    let item = taken_by_older(rt, alloc, &newer);
    drop(newer);
    list.push(item).expect(rt, "memory");
    list.into_whole()
}

/// Whether a list has one struct, of one data word and two pointers.
fn is_of_older_sizes(list: &Tree) -> bool {
    match list {
        Tree::Structs {
            words: 1,
            ptrs: 2,
            items,
        } => items.len() == 1 && items[0].words.len() == 1 && items[0].ptrs.len() == 2,
        _ => false,
    }
}

#[test]
fn structs_of_a_list_have_its_sizes(rt: HostRuntime) {
    let list = list_by_older(&rt, rt.alloc());
    check!(&rt; is_of_older_sizes(list.tree()));
    drop(list);
}

/// What is said of a struct that no message can hold: a composite list's element lacks a word.
fn uneven(rt: &impl Abort, alloc: Global) -> Option<BuildError> {
    let item = Body {
        words: Vec::new(alloc),
        ptrs: Vec::new(alloc),
    };
    let list = Tree::Structs {
        words: 1,
        ptrs: 0,
        items: vec![in alloc; item].expect(rt, "memory"),
    };
    let tree = Tree::Struct(Body {
        words: Vec::new(alloc),
        ptrs: vec![in alloc; list].expect(rt, "memory"),
    });
    let root = StructReader::of(PointerReader::of_tree(&tree)).expect(rt, "a struct");
    let draft: Result<StructBuilder<1, 2>, BuildError> = StructBuilder::of_view(alloc, &root);
    draft.err()
}

#[test]
fn no_draft_is_made_of_what_no_message_can_hold(rt: HostRuntime) {
    check!(&rt; uneven(&rt, rt.alloc()) == Some(BuildError::TooLong));
}

/// A list that is a constant, owned.
fn tree_of_constant(rt: &impl Abort, alloc: Global, constant: &Constant) -> Tree {
    PointerReader::of_constant(constant)
        .tree(alloc)
        .expect(rt, "memory")
}

/// A part is this list.
fn expect_part(rt: &impl Abort, alloc: Global, part: Result<Whole, BuildError>, wanted: ListRef) {
    let part = part.expect(rt, "a part");
    let wanted = tree_of_constant(rt, alloc, &Constant::List(wanted));
    let is_wanted = *part.tree() == wanted;
    drop(wanted);
    drop(part);
    check!(rt; is_wanted);
}

#[test]
fn parts_of_each_kind_are_made(rt: HostRuntime) {
    let alloc = rt.alloc();
    expect_part(&rt, alloc, voids_of(3), ListRef::Voids(3));
    let bits = vec![in alloc; true, false].expect(&rt, "memory");
    expect_part(&rt, alloc, bits_of(bits), ListRef::Bits(&[true, false]));
    let halves = vec![in alloc; 1, 0xffff].expect(&rt, "memory");
    expect_part(
        &rt,
        alloc,
        two_bytes_of(halves),
        ListRef::TwoBytes(&[1, 0xffff]),
    );
    let words = vec![in alloc; u64::MAX].expect(&rt, "memory");
    expect_part(&rt, alloc, words_of(words), ListRef::Words(&[u64::MAX]));
}

#[test]
fn parts_are_put_into_lists(rt: HostRuntime) {
    let alloc = rt.alloc();
    let bytes = vec![in alloc; 1, 2].expect(&rt, "memory");
    let quads = vec![in alloc; 3].expect(&rt, "memory");
    let mut parts = Vec::new(alloc);
    parts
        .push(bytes_of(bytes).expect(&rt, "bytes"))
        .expect(&rt, "memory");
    parts
        .push(four_bytes_of(quads).expect(&rt, "numbers"))
        .expect(&rt, "memory");
    let list = pointers_of(alloc, parts).expect(&rt, "a list");
    check!(&rt; matches!(list.tree(), Tree::Ptrs(items) if items.len() == 2));
    drop(list);
}

/// A struct whose pointer 0 is a list of two samples.
fn two_samples(rt: &impl Abort, alloc: Global) -> Object {
    let mut list: StructListBuilder<2, 3> = StructListBuilder::new(alloc);
    list.push(sample(rt, alloc)).expect(rt, "memory");
    list.push(sample(rt, alloc)).expect(rt, "memory");
    let mut root: StructBuilder<0, 1> = StructBuilder::new(alloc).expect(rt, "memory");
    root.set_pointer(0, list.into_whole());
    root.into_object()
}

/// Both samples of a struct that was read.
fn expect_two(rt: &impl Abort, whole: &Whole) {
    let root = StructReader::of(PointerReader::of_whole(whole)).expect(rt, "a struct");
    let list = root.list::<StructReader<'_>>(0).expect(rt, "a list");
    check!(rt; list.len() == 2);
    for item in list {
        expect_sample(rt, &item);
    }
}

#[test]
fn structs_are_written_and_read(rt: HostRuntime) {
    let alloc = rt.alloc();
    let object = two_samples(&rt, alloc);
    let mut to = Tap::new(Vec::new(alloc));
    write_struct(alloc, &mut to, &object, Mode::Packed, Limits::standard()).expect(&rt, "written");
    drop(object);
    let bytes = to.into_inner();
    let mut from = Tap::new(bytes.as_slice());
    let found = read_struct(alloc, &mut from, Mode::Packed, Limits::standard()).expect(&rt, "read");
    let whole = found.expect(&rt, "a struct");
    expect_two(&rt, &whole);
    drop(whole);
    check!(&rt; from.bytes() == bytes.len() as u64);
}
