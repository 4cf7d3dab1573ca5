//! Lists of each kind.

use crate::fields::expect_data;
use crate::look::is_text;
use cp_fields::{DataReader, Element, List, StructReader, TextReader, WrongKind};
use std::alloc::Global;
use std::process::Abort;

/// The lists of numbers.
pub(crate) fn expect_numbers<'a>(rt: &impl Abort, alloc: Global, root: &StructReader<'a>) {
    check!(rt; root.list::<()>(4).expect(rt, "voids").len() == 3);
    let bits = [
        true, false, false, true, true, false, true, false, false, true,
    ];
    expect_items(rt, alloc, root.list::<bool>(5), &bits);
    expect_items(rt, alloc, root.list::<u8>(6), &[0, 255, 7]);
    expect_items(rt, alloc, root.list::<i16>(7), &[-1, 32767, -32768]);
    expect_items(rt, alloc, root.list::<i32>(8), &[-2147483648, 5]);
    expect_items(rt, alloc, root.list::<u64>(9), &[18446744073709551615, 1]);
    expect_items(rt, alloc, root.list::<f32>(10), &[1.25, f32::NEG_INFINITY]);
    expect_items(rt, alloc, root.list::<f64>(11), &[-0.0, 1e300]);
    expect_items(rt, alloc, root.list::<u16>(15), &[1, 2]);
}

/// A list has these elements.
fn expect_items<'a, T: Element<'a> + PartialEq>(
    rt: &impl Abort,
    alloc: Global,
    list: Result<List<'a, T>, WrongKind>,
    wanted: &[T],
) {
    let list = list.expect(rt, "a list");
    let found: Vec<T> = list.into_iter().collect(alloc).expect(rt, "memory");
    check!(rt; found.as_slice() == wanted);
}

/// The lists of texts, data, structs and lists.
pub(crate) fn expect_pointers<'a>(rt: &impl Abort, alloc: Global, root: &StructReader<'a>) {
    expect_texts(rt, alloc, root);
    expect_datas(rt, alloc, root);
    expect_smalls(rt, alloc, root);
    expect_lists(rt, alloc, root);
}

/// The list of texts.
fn expect_texts<'a>(rt: &impl Abort, alloc: Global, root: &StructReader<'a>) {
    let texts = root.list::<Result<TextReader<'a>, WrongKind>>(12);
    let texts = texts.expect(rt, "texts");
    check!(rt; texts.len() == 3);
    check!(rt; is_text(rt, alloc, texts.get(2), "xyz"));
    check!(rt; texts.get(1).expect(rt, "a text").is_empty());
}

/// The list of data.
fn expect_datas<'a>(rt: &impl Abort, alloc: Global, root: &StructReader<'a>) {
    let datas = root.list::<Result<DataReader<'a>, WrongKind>>(13);
    let datas = datas.expect(rt, "datas");
    check!(rt; datas.len() == 2);
    expect_data(rt, alloc, datas.get(0), &[254]);
}

/// The list of structs.
fn expect_smalls<'a>(rt: &impl Abort, alloc: Global, root: &StructReader<'a>) {
    let smalls = root.list::<StructReader<'a>>(14).expect(rt, "structs");
    check!(rt; smalls.len() == 2);
    check!(rt; is_text(rt, alloc, smalls.get(0).text(0), "one"));
    check!(rt; smalls.get(1).u32(0) == 2);
}

/// The list of lists.
fn expect_lists<'a>(rt: &impl Abort, alloc: Global, root: &StructReader<'a>) {
    let lists = root
        .list::<Result<List<'a, i16>, WrongKind>>(16)
        .expect(rt, "lists");
    check!(rt; lists.len() == 3);
    expect_items(rt, alloc, lists.get(0), &[1, -2]);
    expect_items(rt, alloc, lists.get(1), &[]);
    expect_items(rt, alloc, lists.get(2), &[3]);
}
