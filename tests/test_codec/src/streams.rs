//! Messages of streams from outside, whole and in pieces.

use crate::checks::{expect_bytes, expect_number};
use crate::samples::{FINISH, FINISH_LIST, KEEPING, PACKED, SHORT_ROOT, TWO_SEGMENTS, joined};
use cp_frame::{FrameFault, Mode};
use cp_reading::TreeFault;
use cp_rpc::{Field, Message, SchemaFault};
use cp_stream::*;
use cp_tree::WriteFault;
use cp_words::{Limits, Place};
use std::alloc::Global;
use std::io::{Read, Write};
use std::process::Abort;

/// G3 at the root.
const OUT_OF_BOUNDS: Refusal = Refusal::Tree(TreeFault::OutOfBounds(Place {
    segment: 0,
    word: 0,
}));

/// S1 of the member `finish`.
const NO_STRUCT: Refusal = Refusal::Schema(SchemaFault::Kind(Field::MessageFinish));

/// F5.
const FAILED: Refusal = Refusal::Frame(FrameFault::Failed);

/// Bytes that hold no message, and why.
const FAULTS: &[(&[u8], Refusal)] = &[
    (&[0xff; 4], Refusal::Frame(FrameFault::TooManySegments)),
    (&SHORT_ROOT, OUT_OF_BOUNDS),
    (&FINISH_LIST, NO_STRUCT),
];

/// A reader of plain frames within the standard limits.
fn new_reader(alloc: Global) -> MessageReader {
    MessageReader::plain(alloc, Limits::standard())
}

/// Whether a message is a `finish` of question 7, and whether it releases.
fn finish_of(message: &Message) -> (bool, bool) {
    match message {
        Message::Finish(finish) => (finish.question_id == 7, finish.release_result_caps),
        _ => (false, false),
    }
}

/// Just these messages come with a piece: of each, whether it is a `finish` of question 7, and whether it releases. Gives the
/// fault that is reported.
fn turn(
    rt: &impl Abort,
    reader: &mut MessageReader,
    piece: &[u8],
    wanted: &[(bool, bool)],
) -> Option<StreamFault> {
    match reader.feed(piece) {
        Ok(messages) => {
            expect_number(rt, messages.len(), wanted.len());
            for (message, wanted) in messages.iter().zip(wanted) {
                check!(rt; finish_of(message) == *wanted);
            }
            drop(messages);
            None
        }
        Err(fault) => {
            check!(rt; wanted.is_empty());
            Some(fault)
        }
    }
}

/// A `finish` that releases, and one that doesn't.
const BOTH: &[(bool, bool)] = &[(true, true), (true, false)];

/// The first of them, and none.
const ONE: &[(bool, bool)] = &[(true, true)];

const NONE: &[(bool, bool)] = &[];

/// This fault, or none, is reported for a piece, and no message comes.
fn expect_fed(
    rt: &impl Abort,
    reader: &mut MessageReader,
    piece: &[u8],
    fault: Option<StreamFault>,
) {
    check!(rt; turn(rt, reader, piece, &[]) == fault);
}

/// This fault, or none, is reported at the end.
fn expect_end(rt: &impl Abort, reader: &mut MessageReader, fault: Option<StreamFault>) {
    check!(rt; reader.finish().err() == fault);
}

/// A refusal after this many bytes.
pub(crate) fn at(at: u64, refusal: Refusal) -> StreamFault {
    StreamFault::Refused { at, refusal }
}

/// The two messages come, of which this many come with the front.
fn expect_both(rt: &impl Abort, alloc: Global, (front, back): (&[u8], &[u8]), early: usize) {
    let mut reader = new_reader(alloc);
    check!(rt; early <= BOTH.len());
    let (first, last) = BOTH.split_at(early);
    check!(rt; turn(rt, &mut reader, front, first).is_none());
    check!(rt; turn(rt, &mut reader, back, last).is_none());
    expect_end(rt, &mut reader, None);
    drop(reader);
}

#[test]
fn messages_come_however_they_are_cut(rt: HostRuntime) {
    let stream = joined(&rt, rt.alloc(), &[&FINISH, &KEEPING]);
    for cut in 0..stream.len() + 1 {
        expect_both(&rt, rt.alloc(), stream.split_at(cut), cut / 40);
    }
    drop(stream);
    expect_both(&rt, rt.alloc(), (&TWO_SEGMENTS[..], &KEEPING[..]), 1);
}

/// A message comes with the stream, and the fault after it with the next piece, or at the end.
fn expect_kept(rt: &impl Abort, alloc: Global, stream: &[u8], refusal: Refusal, is_ended: bool) {
    let mut reader = new_reader(alloc);
    check!(rt; turn(rt, &mut reader, stream, ONE).is_none());
    if is_ended {
        expect_end(rt, &mut reader, Some(at(40, refusal)));
        expect_end(rt, &mut reader, Some(at(40, FAILED)));
    } else {
        expect_fed(rt, &mut reader, &[], Some(at(40, refusal)));
        expect_fed(rt, &mut reader, &FINISH, Some(at(40, FAILED)));
    }
    drop(reader);
}

/// The fault is reported at once where no message comes.
fn expect_reported(rt: &impl Abort, alloc: Global, bytes: &[u8], refusal: Refusal) {
    let mut reader = new_reader(alloc);
    expect_fed(rt, &mut reader, bytes, Some(at(0, refusal)));
    expect_fed(rt, &mut reader, &[], Some(at(0, FAILED)));
    drop(reader);
}

#[test]
fn a_fault_after_a_message_is_kept(rt: HostRuntime) {
    let alloc = rt.alloc();
    for (bytes, refusal) in FAULTS {
        let stream = joined(&rt, alloc, &[&FINISH, bytes]);
        expect_kept(&rt, alloc, &stream, *refusal, false);
        expect_kept(&rt, alloc, &stream, *refusal, true);
        drop(stream);
        expect_reported(&rt, alloc, bytes, *refusal);
    }
}

/// A stream that ends inside a message, after other bytes, is truncated there.
fn expect_truncated(rt: &impl Abort, alloc: Global, before: &[u8], front: &[u8]) {
    let mut reader = new_reader(alloc);
    let wanted = if before.is_empty() { NONE } else { ONE };
    check!(rt; turn(rt, &mut reader, before, wanted).is_none());
    expect_fed(rt, &mut reader, front, None);
    let after = before.len() as u64;
    let truncated = at(after, Refusal::Frame(FrameFault::Truncated));
    expect_end(rt, &mut reader, Some(truncated));
    expect_end(rt, &mut reader, Some(at(after, FAILED)));
    drop(reader);
}

#[test]
fn a_stream_ends_after_a_message(rt: HostRuntime) {
    for length in 1..40 {
        expect_truncated(&rt, rt.alloc(), &[], &FINISH[..length]);
        expect_truncated(&rt, rt.alloc(), &FINISH, &KEEPING[..length]);
    }
}

/// Whether memory ran out.
pub(crate) fn is_memory(fault: StreamFault) -> bool {
    matches!(
        fault,
        StreamFault::Refused {
            refusal: Refusal::Frame(FrameFault::OutOfMemory)
                | Refusal::Schema(SchemaFault::OutOfMemory)
                | Refusal::Write(WriteFault::OutOfMemory),
            ..
        }
    )
}

/// A reader that met an allocation failure has failed after the same bytes.
fn expect_failed(rt: &impl Abort, reader: &mut MessageReader, fault: StreamFault) {
    check!(rt; is_memory(fault));
    let StreamFault::Refused { at: after, .. } = fault else {
        return;
    };
    expect_fed(rt, reader, &FINISH, Some(at(after, FAILED)));
    expect_end(rt, reader, Some(at(after, FAILED)));
}

/// A stream's pieces come, or memory runs out, and then the reader has failed.
pub(crate) fn expect_fed_all(rt: &impl Abort, reader: &mut MessageReader, pieces: &[&[u8]]) {
    for piece in pieces {
        if let Some(fault) = reader.feed(piece).err() {
            return expect_failed(rt, reader, fault);
        }
    }
    expect_end(rt, reader, None);
}

// With ample memory no allocation fails. `rt try --test --fail-alloc N` fails the Nth.
#[test]
fn allocation_failure_is_reported_and_then_failed(rt: HostRuntime) {
    let (front, back) = TWO_SEGMENTS.split_at(13);
    let mut reader = new_reader(rt.alloc());
    expect_fed_all(&rt, &mut reader, &[&FINISH, front, back]);
    drop(reader);
}

/// The fault of a device whose connection is reset.
pub(crate) const RESET: StreamFault = StreamFault::Device(DeviceError {
    kind: std::io::ErrorKind::ConnectionReset,
    code: Some(ECONNRESET),
});

/// Linux's number of its error.
const ECONNRESET: i32 = 104;

/// How a call of a device fails.
#[derive(Clone, Copy)]
pub(crate) enum Failure {
    /// The connection is reset.
    Reset,
    /// A signal interrupts the call.
    Interrupted,
}

impl Failure {
    /// The error of the call.
    pub(crate) fn error(self) -> std::io::Error {
        match self {
            Failure::Reset => std::io::Error::from_raw_os_error(ECONNRESET),
            Failure::Interrupted => std::io::ErrorKind::Interrupted.into(),
        }
    }
}

/// A device that fails once, at one of its calls, and takes or gives one byte at each other.
#[derive(Drop)]
struct Failing {
    call: u64,
    fails_at: u64,
    failure: Failure,
}

impl Failing {
    /// Whether this call goes well.
    fn goes_well(&mut self) -> bool {
        self.call = self.call.wrapping_add(1);
        self.call != self.fails_at
    }
}

impl Read for Failing {
    fn read(&mut self, buf: &mut [u8]) -> std::io::Result<usize> {
        if self.goes_well() {
            return Ok(buf.len().min(1));
        }
        Err(self.failure.error())
    }
}

impl Write for Failing {
    fn write(&mut self, buf: &[u8]) -> std::io::Result<usize> {
        if self.goes_well() {
            return Ok(buf.len().min(1));
        }
        Err(self.failure.error())
    }

    fn flush(&mut self) -> std::io::Result<()> {
        if self.goes_well() {
            return Ok(());
        }
        Err(self.failure.error())
    }
}

/// A tap of a device that fails at that call.
fn new_tap(fails_at: u64, failure: Failure) -> Tap<Failing> {
    Tap::new(Failing {
        call: 0,
        fails_at,
        failure,
    })
}

/// This many calls failed, and this many bytes went through.
fn expect_counts(rt: &impl Abort, tap: &Tap<Failing>, failures: u64, bytes: u64) {
    check!(rt; tap.failures() == failures);
    check!(rt; tap.bytes() == bytes);
}

/// Writes bytes, of which this many are taken, if any.
fn expect_taken(rt: &impl Abort, tap: &mut Tap<Failing>, bytes: &[u8], taken: Option<usize>) {
    check!(rt; tap.write(bytes).ok() == taken);
}

#[test]
fn a_tap_counts(rt: HostRuntime) {
    let mut tap = new_tap(2, Failure::Reset);
    let mut buffer = [0; 4];
    check!(&rt; tap.read(&mut buffer).ok() == Some(1));
    expect_counts(&rt, &tap, 0, 1);
    expect_taken(&rt, &mut tap, &buffer, None);
    expect_counts(&rt, &tap, 1, 1);
    expect_taken(&rt, &mut tap, &buffer, Some(1));
    expect_counts(&rt, &tap, 1, 2);
    expect_taken(&rt, &mut tap, &[], Some(0));
    expect_counts(&rt, &tap, 2, 2);
    check!(&rt; tap.flush().is_ok());
    check!(&rt; tap.failures() == 2);
    check!(&rt; tap.into_inner().call == 5);
}

/// The first call was made twice, and hasn't failed, and this many bytes went through.
fn expect_made_again(rt: &impl Abort, tap: Tap<Failing>, bytes: u64) {
    expect_counts(rt, &tap, 0, bytes);
    check!(rt; tap.into_inner().call == 2);
}

#[test]
fn a_tap_makes_an_interrupted_call_again(rt: HostRuntime) {
    let mut tap = new_tap(1, Failure::Interrupted);
    check!(&rt; tap.read(&mut [0; 4]).ok() == Some(1));
    expect_made_again(&rt, tap, 1);
    let mut tap = new_tap(1, Failure::Interrupted);
    expect_taken(&rt, &mut tap, &[0; 4], Some(1));
    expect_made_again(&rt, tap, 1);
    let mut tap = new_tap(1, Failure::Interrupted);
    check!(&rt; tap.flush().is_ok());
    expect_made_again(&rt, tap, 0)
}

#[test]
fn packed_messages_come_byte_by_byte(rt: HostRuntime) {
    let mut reader = MessageReader::packed(rt.alloc(), Limits::standard());
    for i in 0..22 {
        let wanted = if i % 11 == 10 { ONE } else { NONE };
        check!(&rt; turn(&rt, &mut reader, &[PACKED[i % 11]], wanted).is_none());
    }
    expect_end(&rt, &mut reader, None);
    let past = at(22, Refusal::Frame(FrameFault::RunPastFrame));
    expect_fed(&rt, &mut reader, &[0, 3], Some(past));
    drop(reader);
}

/// A device of known bytes that fails once, at one of its calls.
#[derive(Drop)]
pub(crate) struct Source<'a> {
    bytes: &'a [u8],
    pub(crate) call: u64,
    fails_at: u64,
    failure: Failure,
}

impl<'a> Read for Source<'a> {
    fn read(&mut self, buf: &mut [u8]) -> std::io::Result<usize> {
        self.call = self.call.wrapping_add(1);
        if self.call == self.fails_at {
            return Err(self.failure.error());
        }
        self.bytes.read(buf)
    }
}

/// A tap of a device whose connection is reset at that call.
pub(crate) fn tap_of(bytes: &[u8], fails_at: u64) -> Tap<Source<'_>> {
    tap_failing(bytes, fails_at, Failure::Reset)
}

/// A tap of a device that fails at that call.
pub(crate) fn tap_failing(bytes: &[u8], fails_at: u64, failure: Failure) -> Tap<Source<'_>> {
    Tap::new(Source {
        bytes,
        call: 0,
        fails_at,
        failure,
    })
}

/// Reads a message, and says whether there is one.
pub(crate) fn read(alloc: Global, from: &mut Tap<Source>, mode: Mode) -> Result<bool, StreamFault> {
    let found = read_message(alloc, from, mode, Limits::standard())?;
    let is_there = found.is_some();
    drop(found);
    Ok(is_there)
}

/// A message is read, or there is none, or this fault is reported.
pub(crate) fn expect_read(
    rt: &impl Abort,
    alloc: Global,
    (from, mode): (&mut Tap<Source>, Mode),
    reported: Result<bool, StreamFault>,
) {
    check!(rt; read(alloc, from, mode) == reported);
}

/// Of a frame that comes twice exactly one is read, then the other, and then none.
fn expect_two(rt: &impl Abort, alloc: Global, mode: Mode, frame: &[u8]) {
    let stream = joined(rt, alloc, &[frame, frame]);
    let mut from = tap_of(&stream, 0);
    expect_read(rt, alloc, (&mut from, mode), Ok(true));
    let rest = from.into_inner().bytes;
    expect_bytes(rt, rest, frame);
    let mut from = tap_of(rest, 0);
    expect_read(rt, alloc, (&mut from, mode), Ok(true));
    expect_read(rt, alloc, (&mut from, mode), Ok(false));
    drop(from);
    drop(stream);
}

/// A device that ends with this front of a frame is refused after the front's bytes.
fn expect_refused_after(rt: &impl Abort, alloc: Global, mode: Mode, front: &[u8]) {
    let mut from = tap_of(front, 0);
    let truncated = at(0, Refusal::Frame(FrameFault::Truncated));
    expect_read(rt, alloc, (&mut from, mode), Err(truncated));
    check!(rt; Tap::bytes(&from) == front.len() as u64);
    drop(from);
}

/// A device that ends inside a frame is refused after the frame's bytes that it had.
pub(crate) fn expect_cut_short(rt: &impl Abort, alloc: Global, mode: Mode, frame: &[u8]) {
    for length in 1..frame.len() {
        expect_refused_after(rt, alloc, mode, &frame[..length]);
    }
}

#[test]
fn exactly_one_frame_is_read(rt: HostRuntime) {
    let alloc = rt.alloc();
    for (mode, frame) in FRAMES {
        expect_two(&rt, alloc, *mode, frame);
        expect_cut_short(&rt, alloc, *mode, frame);
    }
}

const FRAMES: &[(Mode, &[u8])] = &[
    (Mode::Plain, &FINISH),
    (Mode::Packed, &PACKED),
    (Mode::Plain, &TWO_SEGMENTS),
];

/// What is read of these bytes is refused.
fn expect_refused(rt: &impl Abort, alloc: Global, bytes: &[u8], refusal: Refusal) {
    let stream = joined(rt, alloc, &[bytes, &[0; 8]]);
    let mut from = tap_of(&stream, 0);
    expect_read(rt, alloc, (&mut from, Mode::Plain), Err(at(0, refusal)));
    check!(rt; from.into_inner().bytes.len() >= 4);
    drop(stream);
}

#[test]
fn what_is_read_is_refused_at_0(rt: HostRuntime) {
    for (bytes, refusal) in FAULTS {
        expect_refused(&rt, rt.alloc(), bytes, *refusal);
    }
}
