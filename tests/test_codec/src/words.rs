//! Words from outside: each kind of pointer word, read and written back.

use crate::checks::expect_right_of;
use cp_words::*;
use std::process::Abort;

/// A word says this.
fn expect_read(rt: &impl Abort, word: u64, says: Result<Pointer, BadCapability>) {
    expect_right_of(rt, decode(word) == says, word);
}

#[test]
fn words_are_read(rt: HostRuntime) {
    for row in WORDS {
        expect_read(&rt, row.0, row.1);
    }
}

const WORDS: &[(u64, Result<Pointer, BadCapability>)] = &[
    (0x0000_0000_0000_0000, Ok(Pointer::Null)),
    (
        0x0000_0000_ffff_fffc,
        Ok(Pointer::Struct {
            offset: -1,
            words: 0,
            ptrs: 0,
        }),
    ),
    (
        0x0001_0002_0000_0010,
        Ok(Pointer::Struct {
            offset: 4,
            words: 2,
            ptrs: 1,
        }),
    ),
    (
        0x0001_0000_8000_0000,
        Ok(Pointer::Struct {
            offset: -536_870_912,
            words: 0,
            ptrs: 1,
        }),
    ),
    (
        0x0000_001a_0000_0001,
        Ok(Pointer::List {
            offset: 0,
            size: ElementSize::Byte,
            count: 3,
        }),
    ),
    (
        0x0000_0017_ffff_fffd,
        Ok(Pointer::List {
            offset: -1,
            size: ElementSize::Composite,
            count: 2,
        }),
    ),
    (
        0x0000_0001_0000_0012,
        Ok(Pointer::Far {
            double: false,
            place: 2,
            segment: 1,
        }),
    ),
    (
        0x0000_0001_0000_0006,
        Ok(Pointer::Far {
            double: true,
            place: 0,
            segment: 1,
        }),
    ),
    (0x0000_0005_0000_0003, Ok(Pointer::Cap(5))),
    (0x0000_0005_0000_0007, Err(BadCapability)),
    (0x0000_0005_8000_0003, Err(BadCapability)),
];

/// A word is the wanted one.
fn expect_word(rt: &impl Abort, word: u64, wanted: u64) {
    check!(rt; word == wanted);
}

#[test]
fn words_are_written(rt: HostRuntime) {
    expect_word(&rt, encode(Pointer::Null), 0);
    let empty = Pointer::Struct {
        offset: -1,
        words: 0,
        ptrs: 0,
    };
    expect_word(&rt, encode(empty), 0x0000_0000_ffff_fffc);
    let bytes = Pointer::List {
        offset: 1,
        size: ElementSize::Byte,
        count: 3,
    };
    expect_word(&rt, encode(bytes), 0x0000_001a_0000_0005);
    let far = Pointer::Far {
        double: true,
        place: 3,
        segment: 2,
    };
    expect_word(&rt, encode(far), 0x0000_0002_0000_001e);
    expect_word(&rt, encode(Pointer::Cap(7)), 0x0000_0007_0000_0003);
}

/// A body has this many words.
fn expect_counted(rt: &impl Abort, size: ElementSize, count: u32, words: u64) {
    expect_right_of(rt, list_words(size, count) == words, count as u64);
}

/// A composite list's first word has these sizes.
fn expect_tag(rt: &impl Abort, word: u64, count: u32, words: u16, ptrs: u16) {
    check!(rt; decode_tag(word) == Some(Tag { count, words, ptrs }));
}

/// Sizes of elements, how many there are, and how many words their body has.
const BODIES: &[(ElementSize, u32, u64)] = &[
    (ElementSize::Void, 9, 0),
    (ElementSize::Bit, 65, 2),
    (ElementSize::Byte, 3, 1),
    (ElementSize::TwoBytes, 5, 2),
    (ElementSize::FourBytes, 3, 2),
    (ElementSize::EightBytes, 3, 3),
    (ElementSize::Pointer, 3, 3),
    (ElementSize::Composite, 3, 4),
];

#[test]
fn bodies_are_counted(rt: HostRuntime) {
    for (size, count, words) in BODIES {
        expect_counted(&rt, *size, *count, *words);
    }
    expect_tag(&rt, 0, 0, 0, 0);
    expect_tag(&rt, 0x0000_0000_ffff_fffc, 0x3fff_ffff, 0, 0);
    check!(&rt; decode_tag(1).is_none());
}

/// Whether no segments are these.
fn is_refused(lists: Vec<Vec<u64>>) -> bool {
    Segments::new(lists).is_err()
}

#[test]
fn segments_are_held(rt: HostRuntime) {
    let alloc = rt.alloc();
    check!(&rt; is_refused(Vec::new(alloc)));
    let words = vec![in alloc; 1u64, 2].expect(&rt, "memory");
    let lists = vec![in alloc; words].expect(&rt, "memory");
    let segments = Segments::new(lists).ok().expect(&rt, "segments");
    check!(&rt; segments.lists().len() == 1);
    let one = Segments::one(vec![in alloc; 1u64, 2].expect(&rt, "memory"));
    check!(&rt; one.lists() == segments.lists());
    expect_first(&rt, one, 2);
    drop(segments);
}

/// The first list has this many words.
fn expect_first(rt: &impl Abort, segments: Segments, length: usize) {
    let list = segments.into_first();
    check!(rt; list.len() == length);
    drop(list);
}

#[test]
fn the_first_list_is_given(rt: HostRuntime) {
    let first = vec![in rt.alloc(); 1u64].expect(&rt, "memory");
    let second = vec![in rt.alloc(); 2u64, 3].expect(&rt, "memory");
    let lists = vec![in rt.alloc(); first, second].expect(&rt, "memory");
    expect_first(&rt, Segments::new(lists).ok().expect(&rt, "segments"), 1);
}

/// Numbers of levels, of words that are paid for, of segments and of words that are no limits.
const REFUSED: &[(u32, u32, u32, u32)] = &[
    (0, 1, 1, 1),
    (257, 1, 1, 1),
    (1, 0, 1, 1),
    (1, 2, 1, 1),
    (1, 1, 0, 1),
    (1, 1, 513, 1),
    (1, 67_108_865, 1, 67_108_865),
    (1, 1, 1, 67_108_865),
];

#[test]
fn limits_have_ranges(rt: HostRuntime) {
    check!(&rt; Limits::new(256, 67_108_864, 512, 67_108_864).is_some());
    check!(&rt; Limits::new(1, 1, 1, 1).is_some());
    for (nesting, traversal, segments, words) in REFUSED {
        check!(&rt; Limits::new(*nesting, *traversal, *segments, *words).is_none());
    }
    check!(&rt; Limits::standard().nesting() == 64);
    check!(&rt; Limits::standard().frame_words() == 8_388_608);
}
