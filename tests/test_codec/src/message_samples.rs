//! Messages of one segment, by their words.

/// A root struct of one data word and one pointer.
const ROOT: u64 = 0x0001_0001_0000_0000;

/// Struct pointers to what follows them, by the numbers of data words and pointers.
const ONE_EACH: u64 = 0x0001_0001_0000_0000;

const ONE_AND_TWO: u64 = 0x0002_0001_0000_0000;

const ONE_AND_NONE: u64 = 0x0000_0001_0000_0000;

const TWO_AND_ONE: u64 = 0x0001_0002_0000_0000;

const THREE_EACH: u64 = 0x0003_0003_0000_0000;

const NONE_AND_TWO: u64 = 0x0002_0000_0000_0000;

/// A capability.
const CAP: u64 = 0x0000_0005_0000_0003;

/// An abort with the reason "no" and the trace "x".
const ABORT: [u64; 8] = [
    ROOT,
    1,
    ONE_AND_TWO,
    0,
    0x0000_001a_0000_0005,
    0x0000_0012_0000_0005,
    0x0000_0000_0000_6f6e,
    0x0000_0000_0000_0078,
];

/// A disembargo on a promised answer with three steps.
const PIPELINED: [u64; 13] = [
    ROOT,
    13,
    ONE_EACH,
    0x0000_0000_0000_0009,
    ONE_EACH,
    0x0000_0001_0000_0000,
    ONE_EACH,
    0x0000_0000_ffff_ffff,
    0x0000_001f_0000_0001,
    0x0000_0001_0000_000c,
    0,
    0xffff_0001,
    0x0002,
];

/// The call of method 1 of the interface e5a1000000000001 on what answer 0 will give.
const PIPELINED_CALL: [u64; 15] = [
    ROOT,
    2,
    THREE_EACH,
    0x0000_0001_0000_0001,
    0xe5a1_0000_0000_0001,
    0,
    0x0001_0001_0000_0008,
    0x0002_0000_0000_0014,
    0,
    0x0000_0001_0000_0000,
    ONE_EACH,
    0,
    0,
    0xffff_fffc,
    0,
];

/// A return of results with a descriptor of each kind.
const RESULTS: [u64; 27] = [
    ROOT,
    3,
    TWO_AND_ONE,
    0x0000_0000_0000_0007,
    0,
    NONE_AND_TWO,
    CAP,
    0x0000_0077_0000_0001,
    0x0001_0001_0000_001c,
    0,
    0,
    0xffff_ffff_0000_0001,
    0,
    0x0000_0006_0000_0002,
    0,
    0x0000_0007_0000_0003,
    0,
    0x0000_0000_0000_0004,
    0x0001_0001_0000_0010,
    0x0000_0000_0000_0005,
    CAP,
    0x0000_0000_0000_0006,
    0,
    0x0000_0000_0000_0008,
    0x0000_000f_0000_0001,
    0x0000_0001_0000_0004,
    0x0000_0000_0003_0001,
];

/// A call whose results go to a third party that is a struct.
const THIRD_PARTY: [u64; 14] = [
    ROOT,
    2,
    THREE_EACH,
    0x0002_0000_0000_0000,
    0,
    0,
    0x0001_0001_0000_0008,
    0x0002_0000_0000_000c,
    0x0000_0001_0000_0010,
    0x0000_0000_0000_0003,
    0,
    CAP,
    0,
    5,
];

/// A return of an exception with a reason.
const RETURNED_EXCEPTION: [u64; 10] = [
    ROOT,
    3,
    TWO_AND_ONE,
    0x0001_0000_0000_0000,
    0,
    ONE_AND_TWO,
    0,
    0x0000_001a_0000_0005,
    0,
    0x6f6e,
];

/// A resolve to an exception with a reason.
const BROKEN: [u64; 9] = [
    ROOT,
    5,
    ONE_EACH,
    0x0000_0001_0000_0000,
    ONE_AND_TWO,
    0,
    0x0000_001a_0000_0005,
    0,
    0x6f6e,
];

/// A resolve to a promised answer's third pointer.
const RESOLVED: [u64; 11] = [
    ROOT,
    5,
    ONE_EACH,
    0x0000_0000_0000_0009,
    ONE_EACH,
    0x0000_0000_0000_0004,
    ONE_EACH,
    0x0000_0000_0000_0007,
    0x0000_000f_0000_0001,
    0x0000_0001_0000_0004,
    0x0000_0000_0003_0001,
];

/// Messages that hold, between them, each part that takes memory.
pub(crate) const ALL_PARTS: &[&[u64]] = &[
    &[ROOT, 0, ONE_AND_NONE, 5],
    &[ROOT, 7, ONE_AND_NONE, 5],
    &ABORT,
    &PIPELINED,
    &PIPELINED_CALL,
    &THIRD_PARTY,
    &RESULTS,
    &RETURNED_EXCEPTION,
    &BROKEN,
    &RESOLVED,
];
