//! Streams that go through a relay, whole and in pieces.

use crate::checks::expect_bytes;
use crate::samples::{FINISH, FINISH_LIST, KEEPING, PACKED, SHORT_ROOT, joined};
use cp_frame::{FrameFault, Mode};
use cp_reading::TreeFault;
use cp_relay::*;
use cp_rpc::{Field, MessageIn, MessageView, SchemaFault};
use cp_stream::Refusal;
use cp_words::{Limits, Place};
use std::alloc::{AllocError, Global};
use std::process::Abort;

/// The message of `FINISH` over two segments, with padding that isn't zero, and `FINISH` after it.
const TWO_FRAMES: [u8; 96] = [
    0x01, 0x00, 0x00, 0x00, 0x01, 0x00, 0x00, 0x00, 0x04, 0x00, 0x00, 0x00, 0xaa, 0xbb, 0xcc, 0xdd,
    0x02, 0x00, 0x00, 0x00, 0x01, 0x00, 0x00, 0x00, 0x00, 0x00, 0x00, 0x00, 0x01, 0x00, 0x01, 0x00,
    0x04, 0x00, 0x00, 0x00, 0x00, 0x00, 0x00, 0x00, 0x00, 0x00, 0x00, 0x00, 0x01, 0x00, 0x00, 0x00,
    0x07, 0x00, 0x00, 0x00, 0x00, 0x00, 0x00, 0x00, 0x00, 0x00, 0x00, 0x00, 0x04, 0x00, 0x00, 0x00,
    0x00, 0x00, 0x00, 0x00, 0x01, 0x00, 0x01, 0x00, 0x04, 0x00, 0x00, 0x00, 0x00, 0x00, 0x00, 0x00,
    0x00, 0x00, 0x00, 0x00, 0x01, 0x00, 0x00, 0x00, 0x07, 0x00, 0x00, 0x00, 0x00, 0x00, 0x00, 0x00,
];

/// `FINISH` twice, packed: once as the reference library packs it, and once with all its words in a raw run.
const PACKED_TWICE: [u8; 53] = [
    0x10, 0x04, 0x50, 0x01, 0x01, 0x01, 0x04, 0x10, 0x01, 0x01, 0x07, 0xff, 0x00, 0x00, 0x00, 0x00,
    0x04, 0x00, 0x00, 0x00, 0x04, 0x00, 0x00, 0x00, 0x00, 0x01, 0x00, 0x01, 0x00, 0x04, 0x00, 0x00,
    0x00, 0x00, 0x00, 0x00, 0x00, 0x00, 0x00, 0x00, 0x00, 0x01, 0x00, 0x00, 0x00, 0x07, 0x00, 0x00,
    0x00, 0x00, 0x00, 0x00, 0x00,
];

/// Forbids each `finish` that doesn't release.
#[derive(Drop)]
struct OnlyReleasing;

impl Visitor for OnlyReleasing {
    fn visit(&mut self, message: &MessageView) -> Result<bool, AllocError> {
        Ok(match message {
            MessageIn::Finish(finish) => finish.release_result_caps,
            _ => true,
        })
    }
}

/// A relay within the standard limits.
fn relay_of(alloc: Global, mode: Mode, output: Output) -> Relay {
    Relay::new(alloc, mode, output, Limits::standard())
}

/// Two pieces through a relay: what goes out, and what is at fault, which each later call reports too.
fn through(
    rt: &impl Abort,
    relay: &mut Relay,
    (front, back): (&[u8], &[u8]),
    out: &mut Vec<u8>,
) -> Option<RelayFault> {
    let early = relay.feed(&mut OnlyReleasing, front, out).err();
    let fault = relay.feed(&mut OnlyReleasing, back, out).err();
    check!(rt; early.is_none() || early == fault);
    let end = relay.finish().err();
    check!(rt; fault.is_none() || fault == end);
    check!(rt; end.is_none() || relay.feed(&mut OnlyReleasing, &FINISH, out).err() == end);
    end
}

/// A stream through a relay, part after part, and what goes out of it, and what is at fault.
struct Row {
    mode: Mode,
    output: Output,
    parts: &'static [&'static [u8]],
    wanted: &'static [&'static [u8]],
    fault: Option<RelayFault>,
}

/// A message that doesn't release is forbidden after `FINISH`.
const FORBIDDEN: Option<RelayFault> = Some(RelayFault {
    at: 40,
    why: RelayCause::Forbidden,
});

/// What is at fault after `FINISH`: a number of segments, a root's bounds, a list, and an end inside a frame.
const MANY: Option<RelayFault> = Some(RelayFault {
    at: 40,
    why: RelayCause::Refused(Refusal::Frame(FrameFault::TooManySegments)),
});

const OUT_OF_BOUNDS: Option<RelayFault> = Some(RelayFault {
    at: 40,
    why: RelayCause::Refused(Refusal::Tree(TreeFault::OutOfBounds(Place {
        segment: 0,
        word: 0,
    }))),
});

const NO_STRUCT: Option<RelayFault> = Some(RelayFault {
    at: 40,
    why: RelayCause::Refused(Refusal::Schema(SchemaFault::Kind(Field::MessageFinish))),
});

const TRUNCATED: Option<RelayFault> = Some(RelayFault {
    at: 40,
    why: RelayCause::Refused(Refusal::Frame(FrameFault::Truncated)),
});

/// `FINISH` without its last byte.
const CUT_SHORT: [u8; 39] = [
    0x00, 0x00, 0x00, 0x00, 0x04, 0x00, 0x00, 0x00, 0x00, 0x00, 0x00, 0x00, 0x01, 0x00, 0x01, 0x00,
    0x04, 0x00, 0x00, 0x00, 0x00, 0x00, 0x00, 0x00, 0x00, 0x00, 0x00, 0x00, 0x01, 0x00, 0x00, 0x00,
    0x07, 0x00, 0x00, 0x00, 0x00, 0x00, 0x00,
];

/// Streams that go as they were read, that are written anew, that are at fault, and of which a message is forbidden.
const ROWS: &[Row] = &[
    Row {
        mode: Mode::Plain,
        output: Output::AsRead,
        parts: &[&TWO_FRAMES],
        wanted: &[&TWO_FRAMES],
        fault: None,
    },
    Row {
        mode: Mode::Packed,
        output: Output::AsRead,
        parts: &[&PACKED_TWICE],
        wanted: &[&PACKED_TWICE],
        fault: None,
    },
    Row {
        mode: Mode::Plain,
        output: Output::Anew(Mode::Plain),
        parts: &[&TWO_FRAMES],
        wanted: &[&FINISH, &FINISH],
        fault: None,
    },
    Row {
        mode: Mode::Plain,
        output: Output::Anew(Mode::Packed),
        parts: &[&TWO_FRAMES],
        wanted: &[&PACKED, &PACKED],
        fault: None,
    },
    Row {
        mode: Mode::Packed,
        output: Output::Anew(Mode::Plain),
        parts: &[&PACKED_TWICE],
        wanted: &[&FINISH, &FINISH],
        fault: None,
    },
    Row {
        mode: Mode::Packed,
        output: Output::Anew(Mode::Packed),
        parts: &[&PACKED_TWICE],
        wanted: &[&PACKED, &PACKED],
        fault: None,
    },
    Row {
        mode: Mode::Plain,
        output: Output::AsRead,
        parts: &[&FINISH, &[0xff; 4]],
        wanted: &[&FINISH],
        fault: MANY,
    },
    Row {
        mode: Mode::Plain,
        output: Output::Anew(Mode::Plain),
        parts: &[&FINISH, &[0xff; 4]],
        wanted: &[&FINISH],
        fault: MANY,
    },
    Row {
        mode: Mode::Plain,
        output: Output::AsRead,
        parts: &[&FINISH, &SHORT_ROOT],
        wanted: &[&FINISH],
        fault: OUT_OF_BOUNDS,
    },
    Row {
        mode: Mode::Plain,
        output: Output::Anew(Mode::Plain),
        parts: &[&FINISH, &SHORT_ROOT],
        wanted: &[&FINISH],
        fault: OUT_OF_BOUNDS,
    },
    Row {
        mode: Mode::Plain,
        output: Output::AsRead,
        parts: &[&FINISH, &FINISH_LIST],
        wanted: &[&FINISH],
        fault: NO_STRUCT,
    },
    Row {
        mode: Mode::Plain,
        output: Output::Anew(Mode::Plain),
        parts: &[&FINISH, &FINISH_LIST],
        wanted: &[&FINISH],
        fault: NO_STRUCT,
    },
    Row {
        mode: Mode::Plain,
        output: Output::AsRead,
        parts: &[&FINISH, &CUT_SHORT],
        wanted: &[&FINISH],
        fault: TRUNCATED,
    },
    Row {
        mode: Mode::Plain,
        output: Output::Anew(Mode::Plain),
        parts: &[&FINISH, &CUT_SHORT],
        wanted: &[&FINISH],
        fault: TRUNCATED,
    },
    Row {
        mode: Mode::Plain,
        output: Output::AsRead,
        parts: &[&FINISH, &KEEPING],
        wanted: &[&FINISH],
        fault: FORBIDDEN,
    },
    Row {
        mode: Mode::Plain,
        output: Output::Anew(Mode::Plain),
        parts: &[&FINISH, &KEEPING],
        wanted: &[&FINISH],
        fault: FORBIDDEN,
    },
];

/// However the stream is cut in two, this goes out, and this is at fault.
fn expect(rt: &impl Abort, alloc: Global, row: &Row) {
    let stream = joined(rt, alloc, row.parts);
    let wanted = joined(rt, alloc, row.wanted);
    for cut in 0..stream.len() {
        let mut relay = relay_of(alloc, row.mode, row.output);
        let mut out = Vec::new(alloc);
        let fault = through(rt, &mut relay, stream.split_at(cut), &mut out);
        drop(relay);
        expect_bytes(rt, &out, &wanted);
        drop(out);
        check!(rt; fault == row.fault);
    }
    drop(wanted);
    drop(stream);
}

#[test]
fn streams_go_through(rt: HostRuntime) {
    for row in ROWS {
        expect(&rt, rt.alloc(), row);
    }
}

/// A refusal at the first byte.
fn refused(refusal: Refusal) -> Option<RelayFault> {
    Some(RelayFault {
        at: 0,
        why: RelayCause::Refused(refusal),
    })
}

#[test]
fn limits_are_values(rt: HostRuntime) {
    let alloc = rt.alloc();
    let limits = Limits::new(64, 3, 512, 3).expect(&rt, "limits");
    let mut relay = Relay::new(alloc, Mode::Plain, Output::AsRead, limits);
    let mut out = Vec::new(alloc);
    let fault = through(&rt, &mut relay, FINISH.split_at(17), &mut out);
    drop(relay);
    check!(&rt; fault == refused(Refusal::Frame(FrameFault::FrameTooLarge)));
    check!(&rt; out.is_empty());
    drop(out);
}

#[test]
fn little_is_kept(rt: HostRuntime) {
    let alloc = rt.alloc();
    let mut relay = relay_of(alloc, Mode::Plain, Output::AsRead);
    let mut out = Vec::new(alloc);
    for piece in TWO_FRAMES.chunks(56) {
        let (front, back) = piece.split_at(20);
        relay
            .feed(&mut AllowAll, front, &mut out)
            .expect(&rt, "a piece");
        check!(&rt; relay.held() == (24, 2));
        relay
            .feed(&mut AllowAll, back, &mut out)
            .expect(&rt, "a piece");
        check!(&rt; relay.held() == (0, 0));
    }
    drop(out);
    drop(relay);
}

/// Whether whole frames went out, up to the fault: of 56 and 40 bytes as they were read, of 11 each anew.
fn are_whole(output: Output, fault: Option<RelayFault>, length: usize) -> bool {
    let (first, both) = match output {
        Output::AsRead => (56, 96),
        Output::Anew(_) => (11, 22),
    };
    match fault {
        None => length == both,
        Some(fault) => match fault.at {
            0 => length == 0,
            56 => length == first,
            _ => false,
        },
    }
}

#[test]
fn allocation_failure_lets_only_whole_frames_through(rt: HostRuntime) {
    expect_whole(&rt, rt.alloc(), Output::AsRead);
    expect_whole(&rt, rt.alloc(), Output::Anew(Mode::Packed))
}

/// Only whole frames go out, if memory runs out.
fn expect_whole(rt: &impl Abort, alloc: Global, output: Output) {
    let mut relay = relay_of(alloc, Mode::Plain, output);
    let mut out = Vec::new(alloc);
    let fault = through(rt, &mut relay, TWO_FRAMES.split_at(71), &mut out);
    drop(relay);
    check!(rt; are_whole(output, fault, out.len()));
    drop(out);
}
