//! Packed words from outside, whole and in pieces.

use crate::checks::{expect_bytes, expect_words};
use crate::samples::PACKED;
use cp_frame::*;
use cp_words::{Limits, Segments};
use std::alloc::Global;
use std::io::Cursor;
use std::process::Abort;

/// Two words, and the same packed.
pub(crate) const TWO: [u64; 2] = [0x0002_0003_0000_0008, 0x0000_01aa_0000_0019];

pub(crate) const TWO_PACKED: [u8; 8] = [0x51, 0x08, 0x03, 0x02, 0x31, 0x19, 0xaa, 0x01];

/// `bootstrap` of question 0.
pub(crate) const BOOTSTRAP: [u8; 12] = [0x10, 5, 0x50, 1, 1, 1, 8, 0x50, 1, 1, 0, 1];

/// `release` of export 5, three times.
pub(crate) const RELEASE: [u8; 12] = [0x10, 4, 0x50, 1, 1, 1, 6, 0x10, 1, 0x11, 5, 3];

/// Four words without a zero byte.
const RAW: [u64; 4] = [0x8a8a_8a8a_8a8a_8a8a; 4];

/// The same packed.
const RAW_PACKED: [u8; 34] = [
    0xff, 0x8a, 0x8a, 0x8a, 0x8a, 0x8a, 0x8a, 0x8a, 0x8a, 3, 0x8a, 0x8a, 0x8a, 0x8a, 0x8a, 0x8a,
    0x8a, 0x8a, 0x8a, 0x8a, 0x8a, 0x8a, 0x8a, 0x8a, 0x8a, 0x8a, 0x8a, 0x8a, 0x8a, 0x8a, 0x8a, 0x8a,
    0x8a, 0x8a,
];

/// Words, and the same packed.
pub(crate) const ROWS: &[(&[u64], &[u8])] = &[
    (&TWO, &TWO_PACKED),
    (&[0; 4], &[0, 3]),
    (&RAW, &RAW_PACKED),
    (&[0; 256], &[0, 255]),
    (&[0; 257], &[0, 255, 0, 0]),
    (&[7], &[1, 7]),
    (&[], &[]),
    (
        &[0x4_0000_0000, 0x1_0001_0000_0000, 4, 0x1_0000_0000, 7],
        &PACKED,
    ),
    (
        &[
            0x5_0000_0000,
            0x1_0001_0000_0000,
            8,
            0x1_0001_0000_0000,
            0,
            0,
        ],
        &BOOTSTRAP,
    ),
    (
        &[
            0x4_0000_0000,
            0x1_0001_0000_0000,
            6,
            0x1_0000_0000,
            0x3_0000_0005,
        ],
        &RELEASE,
    ),
];

/// Packed bytes are these words.
fn expect_unpacked(rt: &impl Abort, alloc: Global, bytes: &[u8], words: &[u64]) {
    let unpacked = unpack(alloc, bytes, words.len()).expect(rt, "words");
    expect_words(rt, &unpacked, words);
    drop(unpacked);
}

/// Packed bytes of at most this many words are reported to have this fault.
fn expect_fault(rt: &impl Abort, alloc: Global, bytes: &[u8], limit: usize, fault: FrameFault) {
    check!(rt; unpack(alloc, bytes, limit).err() == Some(fault));
}

/// Words pack to bytes, and these unpack to them and to no fewer. Cut anywhere, the bytes end inside a group or give the
/// words so far.
fn expect_packed(rt: &impl Abort, alloc: Global, words: &[u64], bytes: &[u8]) {
    let packed = pack(alloc, words).expect(rt, "memory");
    expect_bytes(rt, &packed, bytes);
    drop(packed);
    expect_unpacked(rt, alloc, bytes, words);
    if !words.is_empty() {
        expect_fault(rt, alloc, bytes, words.len() - 1, FrameFault::FrameTooLarge);
    }
    for cut in 0..bytes.len() {
        expect_front(rt, alloc, words, &bytes[..cut]);
    }
}

/// The front of some bytes ends inside a group or gives the first of these words.
fn expect_front(rt: &impl Abort, alloc: Global, words: &[u64], bytes: &[u8]) {
    match unpack(alloc, bytes, words.len()) {
        Ok(front) => {
            check!(rt; front.len() <= words.len());
            expect_words(rt, &front, &words[..front.len()]);
            drop(front);
        }
        Err(fault) => check!(rt; fault == FrameFault::Truncated),
    }
}

#[test]
fn words_are_packed_and_unpacked(rt: HostRuntime) {
    for (words, bytes) in ROWS {
        expect_packed(&rt, rt.alloc(), words, bytes);
    }
    // A byte under a set bit may be zero.
    expect_unpacked(&rt, rt.alloc(), &[3, 7, 0], &[7])
}

/// Packed bytes, a limit on their words, and their fault: too many words are reported before an open group.
const FAULTS: &[(&[u8], usize, FrameFault)] = &[
    (&[0, 0], 0, FrameFault::FrameTooLarge),
    (&[0], 0, FrameFault::FrameTooLarge),
    (&[0], 1, FrameFault::Truncated),
    (&[1], 0, FrameFault::Truncated),
    (&[1], 1, FrameFault::Truncated),
    (
        &[0xff, 1, 2, 3, 4, 5, 6, 7, 8],
        0,
        FrameFault::FrameTooLarge,
    ),
    (&[0xff, 1, 2, 3, 4, 5, 6, 7, 8, 1], 1, FrameFault::Truncated),
    (&[0xff, 1, 2, 3, 4, 5, 6, 7], 0, FrameFault::Truncated),
];

#[test]
fn too_many_words_are_reported_before_an_open_group(rt: HostRuntime) {
    for (bytes, limit, fault) in FAULTS {
        expect_fault(&rt, rt.alloc(), bytes, *limit, *fault);
    }
}

/// Packs words, unpacks them, and writes them as a frame.
fn go_round(alloc: Global, words: &[u64]) -> Result<usize, FrameFault> {
    let bytes = pack(alloc, words)?;
    let back = unpack(alloc, &bytes, words.len());
    drop(bytes);
    let segments = Segments::one(back?);
    let written = write_frame(alloc, &segments, Mode::Packed, Limits::standard());
    drop(segments);
    written.map(|frame| frame.len())
}

// With ample memory no allocation fails. `rt try --test --fail-alloc N` fails the Nth of each
// of the three tests below.
#[test]
fn allocation_failure_is_reported_in_packing(rt: HostRuntime) {
    match go_round(rt.alloc(), &TWO) {
        Ok(length) => check!(&rt; length == 10),
        Err(fault) => check!(&rt; fault == FrameFault::OutOfMemory),
    }
}

/// The words. An allocation that fails once is tried again.
fn words_again(rt: &impl Abort, alloc: Global, words: &[u64]) -> Vec<u64> {
    match words.to_vec(alloc) {
        Ok(list) => list,
        Err(_) => words.to_vec(alloc).expect(rt, "memory"),
    }
}

/// The words of two segments.
const LISTS: &[&[u64]] = &[&TWO, &[0; 3]];

/// Two segments. An allocation that fails once is tried again.
fn two_segments(rt: &impl Abort, alloc: Global) -> Segments {
    let mut lists = match Vec::with_capacity(alloc, 2) {
        Ok(lists) => lists,
        Err(_) => Vec::with_capacity(alloc, 2).expect(rt, "memory"),
    };
    for words in LISTS {
        let list = words_again(rt, alloc, words);
        lists.push(list).expect(rt, "memory");
    }
    Segments::new(lists).ok().expect(rt, "segments")
}

/// Forms in which the two segments are written, and how many bytes that takes.
const FORMS: &[(Mode, usize)] = &[(Mode::Packed, 15), (Mode::Plain, 56), (Mode::Packed, 15)];

#[test]
fn allocation_failure_leaves_nothing_written(rt: HostRuntime) {
    let segments = two_segments(&rt, rt.alloc());
    let mut out = Vec::new(rt.alloc());
    for (mode, length) in FORMS {
        match write_over(rt.alloc(), &mut out, &segments, *mode, Limits::standard()) {
            Ok(()) => check!(&rt; out.len() == *length),
            Err(fault) => check!(&rt; fault == FrameFault::OutOfMemory && out.is_empty()),
        }
    }
    drop(out);
    drop(segments);
}

/// A frame goes out in this many bytes, or none of it where memory runs out.
fn send(
    rt: &impl Abort,
    alloc: Global,
    buffer: &mut Vec<u8>,
    segments: &Segments,
    (mode, length): (Mode, usize),
) {
    let mut to = Cursor::new([0u8; 64]);
    match send_frame(alloc, &mut to, buffer, segments, mode, Limits::standard()) {
        Ok(sent) => {
            sent.expect(rt, "a writer");
            check!(rt; to.position() == length as u64);
        }
        Err(fault) => check!(rt; fault == FrameFault::OutOfMemory && to.position() == 0),
    }
}

#[test]
fn allocation_failure_leaves_nothing_sent(rt: HostRuntime) {
    let segments = two_segments(&rt, rt.alloc());
    let mut buffer = Vec::new(rt.alloc());
    for form in FORMS {
        send(&rt, rt.alloc(), &mut buffer, &segments, *form);
    }
    drop(buffer);
    drop(segments);
}
