//! What stands behind the handles of C: a reader of a stream, the check of a whole one, and faults as numbers.

use crate::checks::{expect_bytes, expect_number};
use crate::connections::{FIRST_CALL, SECOND_CALL, bytes_of};
use crate::samples::{FINISH, KEEPING, PACKED, SHORT_ROOT, TWO_SEGMENTS, joined};
use c_handles::{
    CallFault, MessageNumbers, MethodNumbers, MethodRules, NOWHERE, ReaderState, RelayState, Spot,
    Verdict, check_all,
};
use cp_canonical::CanonicalFault;
use cp_frame::{FrameFault, Mode};
use cp_reading::TreeFault;
use cp_relay::{Output, RelayFault, RelayCause};
use cp_rpc::{Field, SchemaFault};
use cp_stream::Refusal;
use cp_tree::WriteFault;
use cp_words::{Limits, Place};
use std::alloc::Global;
use std::process::Abort;

const AT: Place = Place {
    segment: 2,
    word: 30,
};

/// The root's word.
const FIRST_WORD: Place = Place {
    segment: 0,
    word: 0,
};

/// G3 at the root.
const OUT_OF_BOUNDS: CallFault = CallFault::Refused(Refusal::Tree(TreeFault::OutOfBounds(FIRST_WORD)));

/// Faults, their numbers, and what is to blame.
const NUMBERS: &[(CallFault, u32, (usize, usize, u32))] = &[
    (CallFault::Closed, 1, (0, 0, 0)),
    (CallFault::Limits, 2, (0, 0, 0)),
    (CallFault::NoFrame, 3, (0, 0, 0)),
    (CallFault::Argument, 4, (0, 0, 0)),
    (CallFault::NoContent, 5, (0, 0, 0)),
    (CallFault::Ended, 6, (0, 0, 0)),
    (CallFault::Forbidden, 7, (0, 0, 0)),
    (
        CallFault::Refused(Refusal::Frame(FrameFault::TooManySegments)),
        101,
        (0, 0, 0),
    ),
    (
        CallFault::Refused(Refusal::Frame(FrameFault::OutOfMemory)),
        106,
        (0, 0, 0),
    ),
    (
        CallFault::Refused(Refusal::Tree(TreeFault::NoRoot(AT))),
        201,
        (2, 30, 0),
    ),
    (
        CallFault::Refused(Refusal::Tree(TreeFault::TraversalLimit(AT))),
        209,
        (2, 30, 0),
    ),
    (
        CallFault::Refused(Refusal::Tree(TreeFault::OutOfMemory)),
        210,
        (0, 0, 0),
    ),
    (
        CallFault::Refused(Refusal::Schema(SchemaFault::Kind(Field::MessageAbort))),
        301,
        (0, 0, 1),
    ),
    (
        CallFault::Refused(Refusal::Schema(SchemaFault::Text(Field::ExceptionTrace))),
        302,
        (0, 0, 21),
    ),
    (
        CallFault::Refused(Refusal::Write(WriteFault::TooDeep)),
        401,
        (0, 0, 0),
    ),
    (
        CallFault::Refused(Refusal::Write(WriteFault::TooManyWords)),
        404,
        (0, 0, 0),
    ),
    (
        CallFault::NotCanonical(CanonicalFault::Capability(7)),
        601,
        (0, 0, 7),
    ),
    (
        CallFault::NotCanonical(CanonicalFault::Difference(AT)),
        602,
        (2, 30, 0),
    ),
];

#[test]
fn numbers_of_faults(rt: HostRuntime) {
    for row in NUMBERS {
        let (segment, word, field) = row.2;
        let spot = Spot {
            segment,
            word,
            field,
        };
        check!(&rt; row.0.code() == row.1 && row.0.spot() == spot);
        check!(&rt; CallFault::of(row.1, spot) == Some(row.0));
    }
    check!(&rt; CallFault::of(0, NOWHERE) == None && CallFault::of(405, NOWHERE) == None);
    check!(&rt; CallFault::of(301, NOWHERE) == None);
}

/// A reader within the standard limits.
fn new_reader(alloc: Global, mode: Mode) -> ReaderState {
    ReaderState::new(alloc, mode, Limits::standard())
}

/// The numbers of a `finish` of question 7.
fn finish_of_7(releases: bool) -> MessageNumbers {
    MessageNumbers {
        kind: 4,
        id: 7,
        interface: 0,
        method: 0,
        releases,
        count: 0,
    }
}

/// Gives a reader bytes one by one: a frame comes with the last of them.
fn take_frame(rt: &impl Abort, reader: &mut ReaderState, frame: &[u8]) {
    for (place, byte) in frame.iter().enumerate() {
        check!(rt; reader.next(&[*byte]) == Ok(1));
        check!(rt; reader.has_frame() == (place + 1 == frame.len()));
    }
}

#[test]
fn frames_in_pieces(rt: HostRuntime) {
    let mut reader = new_reader(rt.alloc(), Mode::Plain);
    check!(&rt; reader.message() == Err(CallFault::NoFrame) && reader.needs() == 8);
    take_frame(&rt, &mut reader, &TWO_SEGMENTS);
    check!(&rt; reader.message() == Ok(finish_of_7(true)));
    check!(&rt; reader.check() == Ok(()) && reader.end() == Ok(()));
    check!(&rt; reader.write(Mode::Plain) == Ok(()));
    expect_bytes(&rt, &reader.lent, &TWO_SEGMENTS);
    check!(&rt; reader.recut(Mode::Plain, 100) == Ok(()));
    expect_bytes(&rt, &reader.lent, &FINISH);
    check!(&rt; reader.canonical(Mode::Plain) == Ok(()));
    expect_bytes(&rt, &reader.lent, &FINISH);
    check!(&rt; reader.check_canonical() == Err(CallFault::NotCanonical(CanonicalFault::Difference(FIRST_WORD))));
    check!(&rt; reader.recut(Mode::Packed, 100) == Ok(()));
    expect_bytes(&rt, &reader.lent, &PACKED);
    let mut out = [0xeeu8; 4];
    expect_number(&rt, reader.copy(9, &mut out), 2);
    expect_bytes(&rt, &out, &[0x01, 0x07, 0xee, 0xee]);
    drop(reader);
}

#[test]
fn frames_of_one_piece(rt: HostRuntime) {
    let alloc = rt.alloc();
    let stream = joined(&rt, alloc, &[&FINISH, &KEEPING, &FINISH[..39]]);
    let mut reader = new_reader(alloc, Mode::Plain);
    check!(&rt; reader.next(&stream) == Ok(40) && reader.has_frame());
    check!(&rt; reader.next(&stream[40..]) == Ok(40) && reader.has_frame());
    check!(&rt; reader.message() == Ok(finish_of_7(false)));
    check!(&rt; reader.next(&stream[80..]) == Ok(39) && !reader.has_frame());
    check!(&rt; reader.end() == Err(FrameFault::Truncated));
    check!(&rt; reader.next(&FINISH) == Err(FrameFault::Failed) && reader.needs() == 0);
    drop(reader);
}

/// A whole stream holds so many frames of a kind up to a fault.
fn expect_verdict(
    rt: &impl Abort,
    verdict: &Verdict,
    frames: u64,
    bytes: usize,
    fault: Option<CallFault>,
) {
    check!(rt; verdict.frames == frames && verdict.bytes == bytes && verdict.fault == fault);
}

#[test]
fn whole_streams(rt: HostRuntime) {
    let (alloc, limits) = (rt.alloc(), Limits::standard());
    let mut stream = joined(&rt, alloc, &[&FINISH, &TWO_SEGMENTS]);
    expect_verdict(
        &rt,
        &check_all(alloc, &stream, Mode::Plain, limits, 1),
        2,
        96,
        None,
    );
    expect_verdict(
        &rt,
        &check_all(alloc, &PACKED, Mode::Packed, limits, 2),
        1,
        11,
        None,
    );
    let cut = Some(CallFault::Refused(Refusal::Frame(FrameFault::Truncated)));
    // The last frame lacks its last byte.
    let _ = stream.pop();
    expect_verdict(
        &rt,
        &check_all(alloc, &stream, Mode::Plain, limits, 0),
        1,
        40,
        cut,
    );
    let short = joined(&rt, alloc, &[&FINISH, &SHORT_ROOT, &FINISH]);
    expect_verdict(
        &rt,
        &check_all(alloc, &short, Mode::Plain, limits, 0),
        3,
        96,
        None,
    );
    expect_verdict(
        &rt,
        &check_all(alloc, &short, Mode::Plain, limits, 1),
        1,
        40,
        Some(OUT_OF_BOUNDS),
    );
    expect_verdict(
        &rt,
        &check_all(alloc, &short, Mode::Plain, limits, 2),
        1,
        40,
        Some(OUT_OF_BOUNDS),
    );
}

/// The rules that allow the method of the first call alone.
fn rules_of(rt: &impl Abort, alloc: Global) -> MethodRules {
    let first = MethodNumbers {
        interface: 0xe5a1_0000_0000_0001,
        method: 1,
    };
    let methods = Vec::from_slice(alloc, &[first]).expect(rt, "memory");
    MethodRules {
        methods,
        only: true,
    }
}

#[test]
fn a_relay_stops_at_a_forbidden_call(rt: HostRuntime) {
    let alloc = rt.alloc();
    let (first, second) = (
        bytes_of(&rt, alloc, &FIRST_CALL),
        bytes_of(&rt, alloc, &SECOND_CALL),
    );
    let stream = joined(&rt, alloc, &[&FINISH, &first, &second]);
    let (limits, rules) = (Limits::standard(), rules_of(&rt, alloc));
    let mut relay = RelayState::new(alloc, Mode::Plain, Output::AsRead, limits, rules);
    check!(&rt; relay.feed(stream.get(..50).unwrap_or(&[])) == Ok(()));
    expect_bytes(&rt, &relay.lent, &FINISH);
    let forbidden = Err(RelayFault {
        at: 168,
        why: RelayCause::Forbidden,
    });
    check!(&rt; relay.feed(stream.get(50..).unwrap_or(&[])) == forbidden);
    expect_bytes(&rt, &relay.lent, &first);
    check!(&rt; relay.end() == forbidden);
    drop(relay);
    drop(second);
    drop(first);
}
