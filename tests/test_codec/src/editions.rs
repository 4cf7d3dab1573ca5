//! Lists that another edition of a schema wrote: of numbers or texts read as of structs, and the reverse.

use crate::field_samples::{BITS, NAMED, NAMES, NUMBERS, PAIRS, WIDE};
use crate::fields::expect_wrong;
use crate::look::{is_text, pointee_of, root_of, tree_of};
use crate::samples::one_segment;
use cp_fields::{Element, Kind, List, PointerReader, StructReader, TextReader, WrongKind};
use cp_words::ElementSize;
use std::alloc::Global;
use std::process::Abort;

/// The list that a struct's first field is.
fn list_of<'a, T: Element<'a>>(rt: &impl Abort, pointee: PointerReader<'a>) -> List<'a, T> {
    let root = StructReader::of(pointee).expect(rt, "a struct");
    root.list(0).expect(rt, "a list")
}

/// A list of three numbers, as structs. The second number of an element and its text are as by default.
fn expect_numbers_as_structs<'a>(rt: &impl Abort, pointee: PointerReader<'a>) {
    let list: List<'a, StructReader<'a>> = list_of(rt, pointee);
    check!(rt; list.len() == 3);
    let second = list.get(1);
    check!(rt; second.u16(0) == 65535);
    check!(rt; second.u16_or(1, 9) == 9);
    check!(rt; second.text(0).expect(rt, "a text").is_empty());
}

#[test]
fn numbers_are_read_as_structs(rt: HostRuntime) {
    let segments = one_segment(&rt, rt.alloc(), &NUMBERS);
    expect_numbers_as_structs(&rt, pointee_of(&rt, &segments));
    let tree = tree_of(&rt, rt.alloc(), &segments);
    drop(segments);
    expect_numbers_as_structs(&rt, PointerReader::of_tree(&tree));
    drop(tree);
}

/// A list of two structs, as numbers and as texts.
fn expect_structs_as_parts<'a>(rt: &impl Abort, alloc: Global, pointee: &PointerReader<'a>) {
    expect_two_numbers(rt, list_of(rt, pointee.reborrow()));
    expect_first_text(rt, alloc, list_of(rt, pointee.reborrow()), "t");
    expect_no_bits(rt, pointee.reborrow());
}

/// The two numbers of the structs.
fn expect_two_numbers(rt: &impl Abort, list: List<'_, u16>) {
    check!(rt; list.len() == 2);
    check!(rt; [list.get(0), list.get(1)] == [11, 12]);
}

/// Two texts, the first of which is this one.
fn expect_first_text<'a>(
    rt: &impl Abort,
    alloc: Global,
    list: List<'a, Result<TextReader<'a>, WrongKind>>,
    text: &str,
) {
    check!(rt; list.len() == 2);
    check!(rt; is_text(rt, alloc, list.get(0), text));
}

/// Bits are read from bits alone.
fn expect_no_bits(rt: &impl Abort, pointee: PointerReader<'_>) {
    let root = StructReader::of(pointee).expect(rt, "a struct");
    let fault = root.list::<bool>(0).err();
    let (bit, composite) = (ElementSize::Bit, ElementSize::Composite);
    expect_wrong(rt, fault, Kind::List(bit), Kind::List(composite));
}

#[test]
fn structs_are_read_as_numbers_and_texts(rt: HostRuntime) {
    let segments = one_segment(&rt, rt.alloc(), &PAIRS);
    expect_structs_as_parts(&rt, rt.alloc(), &pointee_of(&rt, &segments));
    let tree = tree_of(&rt, rt.alloc(), &segments);
    drop(segments);
    expect_structs_as_parts(&rt, rt.alloc(), &PointerReader::of_tree(&tree));
    drop(tree);
}

/// Two texts, as structs of a text and a number.
fn expect_texts_as_structs<'a>(rt: &impl Abort, alloc: Global, list: List<'a, StructReader<'a>>) {
    check!(rt; list.len() == 2);
    let first = list.get(0);
    check!(rt; is_text(rt, alloc, first.text(0), "Ann"));
    check!(rt; first.u32(0) == 0);
}

#[test]
fn texts_are_read_as_structs(rt: HostRuntime) {
    let segments = one_segment(&rt, rt.alloc(), &NAMES);
    let list = list_of(&rt, pointee_of(&rt, &segments));
    expect_texts_as_structs(&rt, rt.alloc(), list);
    drop(segments);
}

/// The second of two texts is empty.
fn expect_second_empty<'a>(rt: &impl Abort, list: List<'a, Result<TextReader<'a>, WrongKind>>) {
    check!(rt; list.len() == 2);
    check!(rt; list.get(1).expect(rt, "a text").is_empty());
}

#[test]
fn structs_are_read_as_texts(rt: HostRuntime) {
    let segments = one_segment(&rt, rt.alloc(), &NAMED);
    let list = list_of(&rt, pointee_of(&rt, &segments));
    expect_first_text(&rt, rt.alloc(), list, "Bob");
    expect_second_empty(&rt, list_of(&rt, pointee_of(&rt, &segments)));
    drop(segments);
}

/// Numbers of 64 bits are read as those of 16.
fn expect_low_parts(rt: &impl Abort, list: List<'_, u16>) {
    check!(rt; list.len() == 2);
    check!(rt; list.get(0) == 0xdef0);
}

/// Numbers of 16 bits aren't read as those of 32.
fn expect_no_wider(rt: &impl Abort, root: &StructReader) {
    let (four, two) = (ElementSize::FourBytes, ElementSize::TwoBytes);
    let fault = root.list::<u32>(0).err();
    expect_wrong(rt, fault, Kind::List(four), Kind::List(two));
}

/// Bits are read as nothing else.
fn expect_bits_alone(rt: &impl Abort, root: &StructReader) {
    check!(rt; root.list::<u8>(0).is_err());
    check!(rt; root.list::<StructReader<'_>>(0).is_err());
}

#[test]
fn numbers_are_read_from_wider_ones(rt: HostRuntime) {
    let segments = one_segment(&rt, rt.alloc(), &WIDE);
    let list = list_of(&rt, pointee_of(&rt, &segments));
    expect_low_parts(&rt, list);
    drop(segments);
}

#[test]
fn numbers_are_read_from_no_narrower_ones(rt: HostRuntime) {
    let segments = one_segment(&rt, rt.alloc(), &NUMBERS);
    expect_no_wider(&rt, &root_of(&rt, &segments));
    drop(segments);
}

#[test]
fn bits_are_read_as_bits_alone(rt: HostRuntime) {
    let segments = one_segment(&rt, rt.alloc(), &BITS);
    expect_bits_alone(&rt, &root_of(&rt, &segments));
    drop(segments);
}
