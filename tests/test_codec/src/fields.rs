//! Each kind of field, read by its place.

use crate::look::{is_text, root_of};
use crate::samples::one_segment;
use cp_fields::{DataReader, Kind, UnknownEnumerant, PointerReader, StructReader, TextReader, WrongKind};
use cp_tree::Tree;
use cp_words::ElementSize;
use std::alloc::Global;
use std::process::Abort;

/// The numbers of the struct, at their edges.
pub(crate) fn expect_numbers(rt: &impl Abort, root: &StructReader) {
    let bits = [root.bit(0), root.bit_or_true(1), root.bit(2), root.bit(3)];
    check!(rt; bits == [true, false, true, false]);
    let signed = [
        root.i8(1) as i64,
        root.i16_or(1, 0xfffb) as i64,
        root.i32(1) as i64,
        root.i64(1),
    ];
    let lowest = [-128, -32768, -2147483648, -9223372036854775808];
    check!(rt; signed == lowest);
    let unsigned = [
        root.u8(16) as u64,
        root.u16(9) as u64,
        root.u32_or(5, 7) as u64,
        root.u64(3),
    ];
    let highest = [255, 65535, 4294967295, 18446744073709551615];
    check!(rt; unsigned == highest);
    check!(rt; root.f32(8) == f32::NEG_INFINITY);
    let double = 0x3ff8_0000_0000_0000;
    check!(rt; root.f64_or(5, double).is_nan());
    check!(rt; root.u64_or(5, double) == 0x7ff8_0000_0000_0000);
    check!(rt; root.u16(18) == 2);
}

/// The texts, the data and the struct of the struct.
pub(crate) fn expect_pointers(rt: &impl Abort, alloc: Global, root: &StructReader) {
    check!(rt; root.text(0).expect(rt, "a text").len() == 4);
    check!(rt; is_text(rt, alloc, root.text(0), "text"));
    check!(rt; is_text(rt, alloc, root.text_or(17, "none"), "x"));
    expect_data(rt, alloc, root.data(1), &[0, 255]);
    check!(rt; root.cap(3).expect(rt, "null") == None);
    expect_small(rt, alloc, &root.structure(2).expect(rt, "a struct"));
}

/// Data that was read is this.
pub(crate) fn expect_data(
    rt: &impl Abort,
    alloc: Global,
    found: Result<DataReader<'_>, WrongKind>,
    wanted: &[u8],
) {
    let bytes = found.expect(rt, "data").to_vec(alloc).expect(rt, "memory");
    check!(rt; bytes.as_slice() == wanted);
    drop(bytes);
}

/// The struct of the struct.
fn expect_small(rt: &impl Abort, alloc: Global, small: &StructReader) {
    check!(rt; small.u32(0) == 3);
    check!(rt; is_text(rt, alloc, small.text(0), "in"));
}

/// Fields that are read as what they aren't: data whose last byte isn't zero is no text.
pub(crate) fn expect_wrong_kinds(rt: &impl Abort, root: &StructReader) {
    let bytes = Kind::List(ElementSize::Byte);
    let halves = Kind::List(ElementSize::TwoBytes);
    let structs = Kind::List(ElementSize::Composite);
    expect_wrong(rt, root.text(1).err(), Kind::Text, bytes);
    expect_wrong(rt, root.data(2).err(), Kind::Data, Kind::Struct);
    expect_wrong(rt, root.structure(0).err(), Kind::Struct, bytes);
    expect_wrong(rt, root.cap(14).err(), Kind::Capability, structs);
    expect_wrong(rt, root.list::<u16>(2).err(), halves, Kind::Struct);
}

/// A field is of another kind than the one wanted.
pub(crate) fn expect_wrong(rt: &impl Abort, fault: Option<WrongKind>, wanted: Kind, found: Kind) {
    check!(rt; fault == Some(WrongKind { wanted, found }));
}

#[test]
fn fields_past_the_end_are_as_by_default(rt: HostRuntime) {
    let root = StructReader::empty();
    expect_default_numbers(&rt, &root);
    expect_default_pointers(&rt, rt.alloc(), &root);
    let fault = WrongKind {
        wanted: Kind::Text,
        found: Kind::Struct,
    };
    let said = format!(in rt.alloc(); "{fault}").expect(&rt, "memory");
    check!(&rt; said.as_str() == "a struct where a text is wanted");
    drop(said);
}

/// The numbers of an empty struct.
fn expect_default_numbers(rt: &impl Abort, root: &StructReader) {
    let bits = [root.bit(0), root.bit_or_true(4_294_967_295)];
    check!(rt; bits == [false, true]);
    let signed = [
        root.i8_or(0, 0x80) as i64,
        root.i16_or(1, 0xfffb) as i64,
        root.i32_or(0, 0xffff_ffff) as i64,
        root.i64_or(0, 1),
    ];
    check!(rt; signed == [-128, -5, -1, 1]);
    let unsigned = [
        root.u8_or(4_294_967_295, 3) as u32,
        root.u16_or(0, 65535) as u32,
        root.u32_or(5, 7),
    ];
    check!(rt; unsigned == [3, 65535, 7]);
    check!(rt; root.f32_or(0, 0xff80_0000) == f32::NEG_INFINITY);
    check!(rt; root.f64_or(5, 0x3ff8_0000_0000_0000) == 1.5);
}

/// The pointers of an empty struct.
fn expect_default_pointers(rt: &impl Abort, alloc: Global, root: &StructReader) {
    check!(rt; root.pointer(0).is_null());
    check!(rt; is_text(rt, alloc, root.text_or(17, "none"), "none"));
    expect_data(rt, alloc, root.data_or(1, b"\x01"), &[1]);
    check!(rt; root.list::<u32>(7).expect(rt, "a list").is_empty());
    check!(rt; root.cap(0).expect(rt, "null") == None);
}

#[test]
fn texts_say_whether_they_are_utf8(rt: HostRuntime) {
    check!(&rt; is_utf8_in_place(&rt, rt.alloc(), 0xa9c3));
    check!(&rt; !is_utf8_in_place(&rt, rt.alloc(), 0x28c3));
    let bytes = Vec::from_slice(rt.alloc(), b"\xc3\x28\x00").expect(&rt, "memory");
    let tree = Tree::Bytes(bytes);
    let text = TextReader::of(PointerReader::of_tree(&tree), "").expect(&rt, "a text");
    check!(&rt; !text.is_utf8());
}

/// Whether a text of two bytes is UTF-8, where it is read in place.
fn is_utf8_in_place(rt: &impl Abort, alloc: Global, bytes: u64) -> bool {
    let words = [0x0001_0000_0000_0000, 0x0000_001a_0000_0001, bytes];
    let segments = one_segment(rt, alloc, &words);
    root_of(rt, &segments)
        .text(0)
        .expect(rt, "a text")
        .is_utf8()
}

#[test]
fn data_words_and_known_numbers_are_as_they_are(rt: HostRuntime) {
    let root = StructReader::of_data(&[0x0002_0001, 7]);
    check!(&rt; root.u16(1) == 2);
    check!(&rt; root.u64(1) == 7);
    check!(&rt; root.u64(2) == 0);
    check!(&rt; root.pointer(0).is_null());
    check!(&rt; UnknownEnumerant::<3>::of(4).number() == 4);
}
