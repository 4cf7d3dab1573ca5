//! Streams of frames from outside, plain and packed, and what a reader makes of each.

use crate::packed::{BOOTSTRAP, RELEASE};
use crate::samples::{FINISH, KEEPING, PACKED, THREE_SEGMENTS, TWO_SEGMENTS};
use cp_frame::{FrameFault, Mode};

/// How many bytes a frame takes, and its segments.
pub(crate) type Frame<'a> = (usize, &'a [&'a [u64]]);

/// A stream.
#[derive(Clone, Copy)]
pub(crate) struct Stream<'a> {
    pub(crate) mode: Mode,
    /// Its bytes, one part after another.
    pub(crate) parts: &'a [&'a [u8]],
    pub(crate) frames: &'a [Frame<'a>],
    /// What is reported by the last byte, or at the end where the stream ends inside a frame.
    pub(crate) fault: Option<FrameFault>,
    /// What is held after each byte, where a row says it. Of a plain stream it follows from the frames.
    pub(crate) held: &'a [(usize, usize)],
}

/// The words of `FINISH`.
const FINISH_WORDS: &[u64] = &[0x1_0001_0000_0000, 4, 0x1_0000_0000, 7];

/// The words of `KEEPING`.
const KEEPING_WORDS: &[u64] = &[0x1_0001_0000_0000, 4, 0x1_0000_0000, 0x1_0000_0007];

/// The segments of `TWO_SEGMENTS`.
const TWO: &[&[u64]] = &[&[0x1_0000_0002], FINISH_WORDS];

/// The segments of `THREE_SEGMENTS`.
const THREE: &[&[u64]] = &[
    &[0x1_0000_0006],
    &[0x2_0000_0002, 0x1_0001_0000_0000],
    &[4, 0x1_0000_0000, 7],
];

/// A frame of each kind of message.
pub(crate) const OF_FINISH: Frame = (40, &[FINISH_WORDS]);

pub(crate) const OF_KEEPING: Frame = (40, &[KEEPING_WORDS]);

const OF_TWO: Frame = (56, TWO);

const OF_THREE: Frame = (64, THREE);

const OF_NOTHING: Frame = (8, &[&[]]);

/// The same of packed ones.
const OF_PACKED: Frame = (11, &[FINISH_WORDS]);

const OF_BOOTSTRAP: Frame = (12, &[&[0x1_0001_0000_0000, 8, 0x1_0001_0000_0000, 0, 0]]);

const OF_RELEASE: Frame = (
    12,
    &[&[0x1_0001_0000_0000, 6, 0x1_0000_0000, 0x3_0000_0005]],
);

/// A packed frame whose table and each of whose segments is packed by itself.
pub(crate) const BY_THEMSELVES: [u8; 9] = [0x11, 1, 1, 0x01, 2, 0, 0, 0, 1];

/// A packed frame with a raw run of two words.
const RAW: &[u8] = &[
    0xff, 0, 0, 0, 0, 2, 0, 0, 0, 2, 0xff, 0xff, 0xff, 0xff, 0xff, 0xff, 0xff, 0xff, 0xff, 0xff,
    0xff, 0xff, 0xff, 0xff, 0xff, 0xff,
];

/// The streams.
pub(crate) const STREAMS: &[Stream] = &[
    Stream {
        mode: Mode::Plain,
        parts: &[&FINISH, &KEEPING],
        frames: &[OF_FINISH, OF_KEEPING],
        fault: None,
        held: &[],
    },
    Stream {
        mode: Mode::Plain,
        parts: &[&FINISH, &TWO_SEGMENTS, &[0; 8], &KEEPING],
        frames: &[OF_FINISH, OF_TWO, OF_NOTHING, OF_KEEPING],
        fault: None,
        held: &[],
    },
    Stream {
        mode: Mode::Plain,
        parts: &[&FINISH, &KEEPING, &TWO_SEGMENTS],
        frames: &[OF_FINISH, OF_KEEPING, OF_TWO],
        fault: None,
        held: &[],
    },
    Stream {
        mode: Mode::Plain,
        parts: &[&THREE_SEGMENTS],
        frames: &[OF_THREE],
        fault: None,
        held: &[],
    },
    // An empty segment is a frame.
    Stream {
        mode: Mode::Plain,
        parts: &[&[0; 24]],
        frames: &[OF_NOTHING, OF_NOTHING, OF_NOTHING],
        fault: None,
        held: &[],
    },
    // The most segments, and the most words.
    Stream {
        mode: Mode::Plain,
        parts: &[&[0xff, 0x01, 0x00, 0x00]],
        frames: &[],
        fault: Some(FrameFault::Truncated),
        held: &[],
    },
    Stream {
        mode: Mode::Plain,
        parts: &[&[0, 0, 0, 0, 0, 0, 0x80, 0]],
        frames: &[],
        fault: Some(FrameFault::Truncated),
        held: &[],
    },
    Stream {
        mode: Mode::Packed,
        parts: &[&PACKED],
        frames: &[OF_PACKED],
        fault: None,
        held: &[
            (1, 0),
            (0, 1),
            (1, 1),
            (2, 1),
            (0, 2),
            (1, 2),
            (0, 3),
            (1, 3),
            (0, 4),
            (1, 4),
            (0, 0),
        ],
    },
    Stream {
        mode: Mode::Packed,
        parts: &[&PACKED, &BOOTSTRAP, &RELEASE],
        frames: &[OF_PACKED, OF_BOOTSTRAP, OF_RELEASE],
        fault: None,
        held: &[],
    },
    Stream {
        mode: Mode::Packed,
        parts: &[&PACKED, &RELEASE, &[0, 1]],
        frames: &[OF_PACKED, OF_RELEASE],
        fault: Some(FrameFault::RunPastFrame),
        held: &[],
    },
    // A run goes from the table into a segment.
    Stream {
        mode: Mode::Packed,
        parts: &[&[0x11, 1, 1, 0, 1]],
        frames: &[(5, &[&[0], &[]])],
        fault: None,
        held: &[],
    },
    Stream {
        mode: Mode::Packed,
        parts: &[RAW],
        frames: &[(26, &[&[0xffff_ffff_ffff_ffff; 2]])],
        fault: None,
        held: &[],
    },
    Stream {
        mode: Mode::Packed,
        parts: &[&[0, 0]],
        frames: &[(2, &[&[]])],
        fault: None,
        held: &[],
    },
    Stream {
        mode: Mode::Packed,
        parts: &[&BY_THEMSELVES],
        frames: &[(9, &[&[0], &[0, 0]])],
        fault: None,
        held: &[],
    },
];

/// A stream's first frame.
pub(crate) const FIRST: (&[u8], &[Frame]) = (&FINISH, &[OF_FINISH]);

/// A packed stream's.
pub(crate) const FIRST_PACKED: (&[u8], &[Frame]) = (&PACKED, &[OF_PACKED]);

/// Bytes that are at fault by the last of them.
pub(crate) const FAULTS: &[(Mode, &[u8], FrameFault)] = &[
    (Mode::Plain, &[0xff; 4], FrameFault::TooManySegments),
    (
        Mode::Plain,
        &[0x00, 0x02, 0x00, 0x00],
        FrameFault::TooManySegments,
    ),
    // The last byte of a size.
    (
        Mode::Plain,
        &[2, 0, 0, 0, 0, 0, 0, 0, 1, 0, 0x80, 0],
        FrameFault::FrameTooLarge,
    ),
    // A run past the frame, by its count, or by the last byte of the frame.
    (Mode::Packed, &[0, 3], FrameFault::RunPastFrame),
    (Mode::Packed, &[0, 1], FrameFault::RunPastFrame),
    (Mode::Packed, &[0x10, 3, 0, 3], FrameFault::RunPastFrame),
    (
        Mode::Packed,
        &[0xff, 0, 0, 0, 0, 0, 0, 0, 0, 1],
        FrameFault::RunPastFrame,
    ),
    (
        Mode::Packed,
        &[0x10, 1, 0xff, 1, 2, 3, 4, 5, 6, 7, 8, 1],
        FrameFault::RunPastFrame,
    ),
    (
        Mode::Packed,
        &[0xff, 0, 0, 0, 0, 1, 0, 0, 0, 2, 1, 2, 3, 4, 5, 6, 7, 8],
        FrameFault::RunPastFrame,
    ),
    // The table's.
    (
        Mode::Packed,
        &[0x0f, 0xff, 0xff, 0xff, 0xff],
        FrameFault::TooManySegments,
    ),
    (Mode::Packed, &[0x02, 2], FrameFault::TooManySegments),
    (
        Mode::Packed,
        &[0x0f, 0, 2, 0, 0],
        FrameFault::TooManySegments,
    ),
    (
        Mode::Packed,
        &[0x01, 2, 0x15, 1, 0x80],
        FrameFault::FrameTooLarge,
    ),
    (Mode::Packed, &[0x51, 2, 1, 0x80], FrameFault::FrameTooLarge),
    (
        Mode::Packed,
        &[0xff, 0, 0, 0, 0, 1, 0, 0x80, 0],
        FrameFault::FrameTooLarge,
    ),
];

/// Frames that are written as they were read.
pub(crate) const WRITTEN: &[(Mode, &[u8])] = &[
    (Mode::Plain, &THREE_SEGMENTS),
    (Mode::Plain, &FINISH),
    (Mode::Plain, &TWO_SEGMENTS),
    (Mode::Plain, &[0; 8]),
    (Mode::Packed, &PACKED),
    (Mode::Packed, &BOOTSTRAP),
    (Mode::Packed, &RELEASE),
    (Mode::Packed, &BY_THEMSELVES),
];
