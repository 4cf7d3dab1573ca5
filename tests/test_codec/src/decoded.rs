//! Packed words read group by group, beside those read byte by byte.

use crate::packed::ROWS;
use cp_frame::*;
use cp_packed::decode;
use std::alloc::Global;
use std::process::Abort;

/// Whether both have the same words, or neither has any.
fn are_same(unpacked: &Result<Vec<u64>, FrameFault>, decoded: &Option<Vec<u64>>) -> bool {
    match (unpacked, decoded) {
        (Ok(words), Some(others)) => words == others,
        (Err(fault), None) => *fault == FrameFault::Truncated,
        _ => false,
    }
}

/// The same words, or neither has any.
fn expect_same(rt: &impl Abort, alloc: Global, bytes: &[u8]) {
    let decoded = decode(alloc, bytes).expect(rt, "memory");
    check!(rt; is_unpacked(alloc, bytes, &decoded));
    drop(decoded);
}

/// Whether packed bytes are these words, or none.
fn is_unpacked(alloc: Global, bytes: &[u8], words: &Option<Vec<u64>>) -> bool {
    let unpacked = unpack(alloc, bytes, 4096);
    let are_same = are_same(&unpacked, words);
    drop(unpacked);
    are_same
}

/// The same for each front.
fn expect_fronts(rt: &impl Abort, alloc: Global, bytes: &[u8]) {
    for cut in 0..bytes.len() + 1 {
        expect_same(rt, alloc, &bytes[..cut]);
    }
}

/// Bytes that are no words' own packed form: a zero byte under a set bit, and a raw run, a run of zeros and a cut.
const OTHERS: &[&[u8]] = &[
    &[3, 7, 0],
    &[
        0xff, 0x8a, 0x8a, 0x8a, 0x8a, 0x8a, 0x8a, 0x8a, 0x8a, 3, 0x8a, 0x8a, 0x8a, 0x8a, 0x8a,
        0x8a, 0x8a, 0x8a, 0x8a, 0x8a, 0x8a, 0x8a, 0x8a, 0x8a, 0x8a, 0x8a, 0x8a, 0x8a, 0x8a, 0x8a,
        0x8a, 0x8a, 0x8a, 0x8a, 0, 1,
    ],
];

#[test]
fn rows_are_read_alike(rt: HostRuntime) {
    for row in ROWS {
        expect_fronts(&rt, rt.alloc(), row.1);
    }
    for bytes in OTHERS {
        expect_fronts(&rt, rt.alloc(), bytes);
    }
}

/// Bytes of each kind.
const KINDS: [u8; 7] = [0, 1, 2, 3, 0x80, 0xfe, 0xff];

#[test]
fn short_bytes_are_read_alike(rt: HostRuntime) {
    for number in 0..2401 {
        let bytes = [
            KINDS[number / 343 % 7],
            KINDS[number / 49 % 7],
            KINDS[number / 7 % 7],
            KINDS[number % 7],
        ];
        expect_fronts(&rt, rt.alloc(), &bytes);
    }
}
