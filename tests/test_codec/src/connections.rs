//! Messages of a connection, read and written by devices that fail on the way. What messages are written as are rows of test_interop's
//! `messages.txt`.

use crate::checks::expect_bytes;
use crate::samples::{FINISH, PACKED, TWO_SEGMENTS};
use crate::streams::{
    Failure, RESET, Source, expect_cut_short, expect_fed_all, is_memory, read, tap_failing, tap_of,
};
use cp_frame::Mode;
use cp_rpc::Message;
use cp_stream::*;
use cp_words::Limits;
use std::alloc::Global;
use std::io::Write;
use std::process::Abort;

/// The Return that answers a bootstrap with a capability, packed.
const PACKED_RETURN: [u8; 29] = [
    0x10, 0x0b, 0x50, 0x01, 0x01, 0x01, 0x03, 0x50, 0x02, 0x01, 0x10, 0x01, 0x00, 0x00, 0x40, 0x02,
    0x01, 0x03, 0x11, 0x01, 0x17, 0x51, 0x04, 0x01, 0x01, 0x01, 0x01, 0x00, 0x00,
];

/// The same, plain. Of each word's digits the first are the first byte.
const RETURN: [u64; 12] = [
    0x000000000b000000,
    0x0000000001000100,
    0x0300000000000000,
    0x0000000002000100,
    0x0000000001000000,
    0x0000000000000000,
    0x0000000000000200,
    0x0300000000000000,
    0x0100000017000000,
    0x0400000001000100,
    0x0100000000000000,
    0x0000000000000000,
];

/// `FINISH` by words.
const FINISH_WORDS: [u64; 5] = [
    0x0000000004000000,
    0x0000000001000100,
    0x0400000000000000,
    0x0000000001000000,
    0x0700000000000000,
];

/// A bootstrap, question 0.
const BOOTSTRAP: [u64; 6] = [
    0x0000000005000000,
    0x0000000001000100,
    0x0800000000000000,
    0x0000000001000100,
    0x0000000000000000,
    0x0000000000000000,
];

/// A call on what the bootstrap gives, question 1.
pub(crate) const FIRST_CALL: [u64; 16] = [
    0x000000000f000000,
    0x0000000001000100,
    0x0200000000000000,
    0x0000000003000300,
    0x0100000001000000,
    0x010000000000a1e5,
    0x0000000000000000,
    0x0800000001000100,
    0x1400000000000200,
    0x0000000000000000,
    0x0000000001000000,
    0x0000000001000100,
    0x0000000000000000,
    0x0000000000000000,
    0xfcffffff00000000,
    0x0000000000000000,
];

/// A call on what pointer 0 of its answer gives, question 2, with the number 5.
pub(crate) const SECOND_CALL: [u64; 19] = [
    0x0000000012000000,
    0x0000000001000100,
    0x0200000000000000,
    0x0000000003000300,
    0x0200000000000000,
    0x020000000000a1e5,
    0x0000000000000000,
    0x0800000001000100,
    0x1c00000000000200,
    0x0000000000000000,
    0x0000000001000000,
    0x0000000001000100,
    0x0100000000000000,
    0x010000000f000000,
    0x0400000001000000,
    0x0100000000000000,
    0x0400000001000000,
    0x0000000000000000,
    0x0500000000000000,
];

/// The plain frames of a finish, a bootstrap's Return, a bootstrap and two calls.
const FRAMES: &[&[u64]] = &[
    &FINISH_WORDS,
    &RETURN,
    &BOOTSTRAP,
    &FIRST_CALL,
    &SECOND_CALL,
];

/// The words' bytes.
pub(crate) fn bytes_of(rt: &impl Abort, alloc: Global, words: &[u64]) -> Vec<u8> {
    let mut bytes = Vec::new(alloc);
    for word in words {
        bytes
            .extend_from_slice(&word.to_be_bytes())
            .expect(rt, "memory");
    }
    bytes
}

/// The message of a plain frame.
fn message_of(rt: &impl Abort, alloc: Global, frame: &[u8]) -> Message {
    let mut from = tap_of(frame, 0);
    let found = read_message(alloc, &mut from, Mode::Plain, Limits::standard());
    drop(from);
    found.expect(rt, "read").expect(rt, "message")
}

/// Writes the message of a plain frame in a form, in one segment.
fn forward<W: Write>(
    rt: &impl Abort,
    alloc: Global,
    (frame, mode): (&[u8], Mode),
    to: &mut Tap<W>,
) -> Result<(), StreamFault> {
    let message = message_of(rt, alloc, frame);
    let done = write_message(alloc, to, &message, mode, Limits::standard());
    drop(message);
    done
}

/// A plain frame's bytes in a form.
fn formed(rt: &impl Abort, alloc: Global, plain: &[u8], mode: Mode) -> Vec<u8> {
    let mut to = Tap::new(Vec::new(alloc));
    forward(rt, alloc, (plain, mode), &mut to).expect(rt, "written");
    to.into_inner()
}

/// The fault of a writer that takes no byte.
const TAKES_NONE: StreamFault = StreamFault::Device(DeviceError {
    kind: std::io::ErrorKind::WriteZero,
    code: None,
});

/// A writer that takes this many bytes a call, and fails once, at one of its calls, or takes none there.
#[derive(Drop)]
struct Sink {
    bytes: Vec<u8>,
    most: usize,
    call: u64,
    fails_at: u64,
    failure: Option<Failure>,
}

impl Write for Sink {
    fn write(&mut self, buf: &[u8]) -> std::io::Result<usize> {
        self.call = self.call.wrapping_add(1);
        if self.call != self.fails_at {
            return self.bytes.write(&buf[..buf.len().min(self.most)]);
        }
        match self.failure {
            Some(failure) => Err(failure.error()),
            None => Ok(0),
        }
    }

    fn flush(&mut self) -> std::io::Result<()> {
        Ok(())
    }
}

/// A tap of a writer that fails at that call.
fn sink_of(alloc: Global, most: usize, fails_at: u64, failure: Option<Failure>) -> Tap<Sink> {
    Tap::new(Sink {
        bytes: Vec::new(alloc),
        most,
        call: 0,
        fails_at,
        failure,
    })
}

/// A plain frame's message is written as the frame, in this many calls of a writer that takes this many
/// bytes a call.
fn expect_calls(rt: &impl Abort, alloc: Global, frame: &[u8], most: usize, calls: u64) {
    let mut to = sink_of(alloc, most, 0, None);
    forward(rt, alloc, (frame, Mode::Plain), &mut to).expect(rt, "written");
    let sink = expect_taken(rt, to, 0, frame);
    check!(rt; sink.call == calls);
    drop(sink);
}

/// This many calls failed, and these bytes went through.
fn expect_taken(rt: &impl Abort, to: Tap<Sink>, failures: u64, bytes: &[u8]) -> Sink {
    check!(rt; to.failures() == failures);
    check!(rt; to.bytes() == bytes.len() as u64);
    let sink = to.into_inner();
    expect_bytes(rt, &sink.bytes, bytes);
    sink
}

/// A writer that fails after this front of a plain frame took the front alone.
fn expect_front(
    rt: &impl Abort,
    alloc: Global,
    frame: &[u8],
    front: &[u8],
    (failure, fault): (Option<Failure>, StreamFault),
) {
    let mut to = sink_of(alloc, 1, front.len() as u64 + 1, failure);
    check!(rt; forward(rt, alloc, (frame, Mode::Plain), &mut to) == Err(fault));
    let sink = expect_taken(rt, to, 1, front);
    drop(sink);
}

/// A writer that is interrupted once takes the whole frame, in one call more.
fn expect_made_again(rt: &impl Abort, alloc: Global, frame: &[u8], call: u64) {
    let mut to = sink_of(alloc, 1, call, Some(Failure::Interrupted));
    forward(rt, alloc, (frame, Mode::Plain), &mut to).expect(rt, "written");
    let sink = expect_taken(rt, to, 0, frame);
    check!(rt; sink.call == frame.len() as u64 + 1);
    drop(sink);
}

/// A writer that fails at one of its calls took all bytes before that.
fn expect_fronts(rt: &impl Abort, alloc: Global, frame: &[u8]) {
    for length in 0..frame.len() {
        let front = &frame[..length];
        expect_front(rt, alloc, frame, front, (Some(Failure::Reset), RESET));
        expect_front(rt, alloc, frame, front, (None, TAKES_NONE));
        expect_made_again(rt, alloc, frame, length as u64 + 1);
    }
}

/// The packed frame of a plain frame's message. Each is refused where it ends early.
fn expect_refused_short(rt: &impl Abort, alloc: Global, frame: &[u8]) {
    expect_cut_short(rt, alloc, Mode::Plain, frame);
    let packed = formed(rt, alloc, frame, Mode::Packed);
    expect_cut_short(rt, alloc, Mode::Packed, &packed);
    drop(packed);
}

/// Messages are written as they were read, by a writer that takes a byte a call, or all, and that may fail at each call.
#[test]
fn messages_are_written_as_they_were_read(rt: HostRuntime) {
    let alloc = rt.alloc();
    for words in FRAMES {
        let frame = bytes_of(&rt, alloc, words);
        expect_calls(&rt, alloc, &frame, 1, frame.len() as u64);
        expect_calls(&rt, alloc, &frame, 1024, 1);
        expect_fronts(&rt, alloc, &frame);
        expect_refused_short(&rt, alloc, &frame);
        drop(frame);
    }
}

/// Reads messages until none comes, and says how many came and which fault ended it.
fn read_all(alloc: Global, from: &mut Tap<Source>, mode: Mode) -> (u64, Option<StreamFault>) {
    for count in 0..u64::MAX {
        match read(alloc, from, mode) {
            Ok(true) => {}
            Ok(false) => return (count, None),
            Err(fault) => return (count, Some(fault)),
        }
    }
    (u64::MAX, None)
}

/// Reads a stream of five messages by a device that fails at that call.
fn expect_failure(rt: &impl Abort, alloc: Global, mode: Mode, stream: &[u8], call: u64) {
    let mut from = tap_of(stream, call);
    let (count, fault) = read_all(alloc, &mut from, mode);
    check!(rt; count <= 5);
    check!(rt; fault == Some(RESET));
    check!(rt; from.failures() == 1);
    drop(from);
}

/// Reads a stream of five messages by a device that is interrupted at that call.
fn expect_read_again(rt: &impl Abort, alloc: Global, mode: Mode, stream: &[u8], call: u64) {
    let mut from = tap_failing(stream, call, Failure::Interrupted);
    check!(rt; read_all(alloc, &mut from, mode) == (5, None));
    check!(rt; from.failures() == 0);
    check!(rt; Tap::bytes(&from) == stream.len() as u64);
    drop(from);
}

/// The frames of all messages in a form.
fn stream_in(rt: &impl Abort, alloc: Global, mode: Mode) -> Vec<u8> {
    let mut stream = Vec::new(alloc);
    for words in FRAMES {
        let plain = bytes_of(rt, alloc, words);
        let frame = formed(rt, alloc, &plain, mode);
        drop(plain);
        stream.extend_from_slice(&frame).expect(rt, "memory");
        drop(frame);
    }
    stream
}

/// In how many calls a stream of five messages is read.
fn calls_of(rt: &impl Abort, alloc: Global, mode: Mode, stream: &[u8]) -> u64 {
    let mut whole = tap_of(stream, 0);
    check!(rt; read_all(alloc, &mut whole, mode) == (5, None));
    whole.into_inner().call
}

#[test]
fn a_reader_may_fail_at_each_call(rt: HostRuntime) {
    let alloc = rt.alloc();
    expect_failures(&rt, alloc, Mode::Plain);
    expect_failures(&rt, alloc, Mode::Packed)
}

/// Reads a stream of five messages by a device that fails, or is interrupted, at each of its calls.
fn expect_failures(rt: &impl Abort, alloc: Global, mode: Mode) {
    let stream = stream_in(rt, alloc, mode);
    for call in 0..calls_of(rt, alloc, mode, &stream) {
        expect_failure(rt, alloc, mode, &stream, call + 1);
        expect_read_again(rt, alloc, mode, &stream, call + 1);
    }
    drop(stream);
}

/// Frames that lie in no memory that could be refused.
const LYING: &[(Mode, &[u8])] = &[
    (Mode::Plain, &FINISH),
    (Mode::Plain, &TWO_SEGMENTS),
    (Mode::Packed, &PACKED),
    (Mode::Packed, &PACKED_RETURN),
];

// With ample memory no allocation fails. `rt try --test --fail-alloc N` fails the Nth of each
// of the four tests below.
#[test]
fn allocation_failure_while_a_message_is_read(rt: HostRuntime) {
    for (mode, frame) in LYING {
        let mut from = tap_of(frame, 0);
        expect_there(&rt, read(rt.alloc(), &mut from, *mode));
        check!(&rt; from.failures() == 0);
        drop(from);
    }
}

/// Something was read, or memory ran out.
fn expect_there(rt: &impl Abort, found: Result<bool, StreamFault>) {
    match found {
        Ok(there) => check!(rt; there),
        Err(fault) => check!(rt; is_memory(fault)),
    }
}

/// Reads a frame, and says whether there is one.
fn read_frame(alloc: Global, from: &mut Tap<Source>, mode: Mode) -> Result<bool, StreamFault> {
    let found = read_segments(alloc, from, mode, Limits::standard())?;
    let is_there = found.is_some();
    drop(found);
    Ok(is_there)
}

#[test]
fn allocation_failure_while_a_frame_is_read(rt: HostRuntime) {
    for (mode, frame) in LYING {
        let mut from = tap_of(frame, 0);
        expect_there(&rt, read_frame(rt.alloc(), &mut from, *mode));
        check!(&rt; from.failures() == 0);
        drop(from);
    }
}

#[test]
fn allocation_failure_while_a_packed_stream_is_fed(rt: HostRuntime) {
    let mut reader = MessageReader::packed(rt.alloc(), Limits::standard());
    let (front, back) = PACKED_RETURN.split_at(7);
    expect_fed_all(&rt, &mut reader, &[&PACKED, front, back]);
    drop(reader);
}

/// Writes a message in segments of at most this many words. Where memory runs out, nothing goes out.
fn expect_whole_or_none(rt: &impl Abort, alloc: Global, message: &Message, mode: Mode, words: u32) {
    let mut to = Tap::new(std::io::sink());
    let done = write_message_in(alloc, &mut to, message, mode, words, Limits::standard());
    if let Err(fault) = done {
        check!(rt; is_memory(fault));
        check!(rt; to.failures() == 0);
        check!(rt; to.bytes() == 0);
    }
    drop(to);
}

#[test]
fn allocation_failure_writes_nothing(rt: HostRuntime) {
    let alloc = rt.alloc();
    for (mode, frame) in LYING {
        let found = read_message(alloc, &mut tap_of(frame, 0), *mode, Limits::standard());
        if let Ok(Some(message)) = found {
            expect_whole_or_none(&rt, alloc, &message, *mode, 3);
            expect_whole_or_none(&rt, alloc, &message, *mode, 8_388_608);
            drop(message);
        }
    }
}
