//! Frames from outside, plain and packed: cut in two anywhere, byte by byte and one by one, and written again.

use crate::checks::{expect_bytes, expect_number, expect_words};
use crate::frame_samples::{
    BY_THEMSELVES, FAULTS, FIRST, FIRST_PACKED, Frame, OF_FINISH, OF_KEEPING, STREAMS, Stream,
    WRITTEN,
};
use crate::packed::{BOOTSTRAP, TWO};
use crate::samples::{FINISH, KEEPING, PACKED, THREE_SEGMENTS, TWO_SEGMENTS, joined};
use cp_frame::*;
use cp_words::{Limits, Segments};
use std::alloc::Global;
use std::process::Abort;

/// A reader within the standard limits.
fn new_reader(alloc: Global, mode: Mode) -> FrameReader {
    FrameReader::new(alloc, mode, Limits::standard())
}

/// A frame took so many bytes, and its segments are these.
fn expect_frame(rt: &impl Abort, length: u64, lists: &[Vec<u64>], (taken, segments): Frame<'_>) {
    check!(rt; length == taken as u64);
    expect_number(rt, lists.len(), segments.len());
    for (list, words) in lists.iter().zip(segments) {
        expect_words(rt, list, words);
    }
}

/// Just these frames came.
fn expect_frames(rt: &impl Abort, came: &[(u64, Segments)], frames: &[Frame<'_>]) {
    expect_number(rt, came.len(), frames.len());
    for (frame, wanted) in came.iter().zip(frames) {
        expect_frame(rt, frame.0, frame.1.lists(), *wanted);
    }
}

/// By which call a piece comes.
#[derive(Clone, Copy, PartialEq)]
enum Call {
    /// `feed`, which gives all its frames.
    Feed,
    /// `next`, for each of its frames, which is then given back.
    Next,
}

/// Just these frames come with a piece. Gives the fault that is reported.
fn turn(
    rt: &impl Abort,
    reader: &mut FrameReader,
    call: Call,
    piece: &[u8],
    frames: &[Frame<'_>],
) -> Option<FrameFault> {
    match call {
        Call::Feed => fed_with(rt, reader, piece, frames),
        Call::Next => taken_from(rt, reader, piece, frames),
    }
}

fn fed_with(
    rt: &impl Abort,
    reader: &mut FrameReader,
    piece: &[u8],
    frames: &[Frame<'_>],
) -> Option<FrameFault> {
    match reader.feed(piece) {
        Ok(came) => {
            expect_frames(rt, &came, frames);
            drop(came);
            None
        }
        Err(fault) => {
            check!(rt; frames.is_empty());
            Some(fault)
        }
    }
}

fn taken_from(
    rt: &impl Abort,
    reader: &mut FrameReader,
    piece: &[u8],
    frames: &[Frame<'_>],
) -> Option<FrameFault> {
    let mut left = piece;
    for wanted in frames {
        let next = reader.next(left).expect(rt, "a piece");
        let (length, segments, back) = next.expect(rt, "a frame");
        expect_frame(rt, length, segments.lists(), *wanted);
        reader.reuse(segments);
        left = back;
    }
    last_fault(rt, reader, left)
}

/// No frame ends in the piece. Gives the fault that is reported.
fn last_fault(rt: &impl Abort, reader: &mut FrameReader, piece: &[u8]) -> Option<FrameFault> {
    match reader.next(piece) {
        Ok(next) => {
            check!(rt; next.is_none());
            drop(next);
            None
        }
        Err(fault) => Some(fault),
    }
}

/// This many bytes and words are held.
fn expect_held(rt: &impl Abort, reader: &FrameReader, held: (usize, usize)) {
    check!(rt; reader.held() == held);
}

/// This is reported at the end.
fn expect_end(rt: &impl Abort, reader: &mut FrameReader, reported: Result<(), FrameFault>) {
    check!(rt; reader.finish() == reported);
}

/// A reader has failed, and keeps nothing.
fn expect_failed(rt: &impl Abort, reader: &mut FrameReader) {
    let failed = Some(FrameFault::Failed);
    expect_held(rt, reader, (0, 0));
    check!(rt; turn(rt, reader, Call::Feed, &FINISH, &[]) == failed);
    check!(rt; turn(rt, reader, Call::Next, &FINISH, &[]) == failed);
    expect_end(rt, reader, Err(FrameFault::Failed));
}

/// How many of these frames end within so many bytes, and how many bytes are left after them.
fn ended(frames: &[Frame<'_>], length: usize) -> (usize, usize) {
    let mut left = length;
    for (count, frame) in frames.iter().enumerate() {
        if left < frame.0 {
            return (count, left);
        }
        left -= frame.0;
    }
    (frames.len(), left)
}

impl<'a> Stream<'a> {
    /// The fault that the last byte brings.
    fn fault_at_once(&self) -> Option<FrameFault> {
        if self.fault == Some(FrameFault::Truncated) {
            return None;
        }
        self.fault
    }

    /// What is held after so many bytes, of which so many are after the last frame. `None` where the row doesn't say it.
    fn held_after(&self, length: usize, after: usize) -> Option<(usize, usize)> {
        if self.mode == Mode::Plain || length == 0 {
            return Some((after % 8, after / 8));
        }
        self.held.get(length - 1).copied()
    }
}

/// The front of a stream brings the frames that end in it, and no fault. Gives the frames after them.
fn frames_after<'a>(
    rt: &impl Abort,
    reader: &mut FrameReader,
    stream: &Stream<'a>,
    call: Call,
    front: &[u8],
) -> &'a [Frame<'a>] {
    let (early, after) = ended(stream.frames, front.len());
    check!(rt; early <= stream.frames.len());
    let (first, last) = stream.frames.split_at(early);
    check!(rt; turn(rt, reader, call, front, first).is_none());
    if let Some(held) = stream.held_after(front.len(), after) {
        expect_held(rt, reader, held);
    }
    last
}

/// The back of a stream brings its last frames and its fault. Of frames that are fed the fault is kept; then `asked` may come
/// before the end. Says whether the fault was reported.
fn is_reported(
    rt: &impl Abort,
    reader: &mut FrameReader,
    fault: Option<FrameFault>,
    (call, asked): (Call, Option<Call>),
    (back, last): (&[u8], &[Frame<'_>]),
) -> bool {
    let reported = turn(rt, reader, call, back, last);
    if call == Call::Next || last.is_empty() {
        check!(rt; reported == fault);
        return fault.is_some();
    }
    check!(rt; reported.is_none());
    let Some(call) = asked else {
        return false;
    };
    check!(rt; turn(rt, reader, call, &[], &[]) == fault);
    fault.is_some()
}

/// A stream comes in two pieces by such calls.
fn expect_cut(
    rt: &impl Abort,
    alloc: Global,
    stream: &Stream<'_>,
    (front, back): (&[u8], &[u8]),
    calls: (Call, Option<Call>),
) {
    let mut reader = new_reader(alloc, stream.mode);
    let last = frames_after(rt, &mut reader, stream, calls.0, front);
    let fault = stream.fault_at_once();
    let was_reported = is_reported(rt, &mut reader, fault, calls, (back, last));
    expect_ended(rt, &mut reader, stream.fault, was_reported);
    drop(reader);
}

/// A stream with this fault, or none, has come. Its end reports the fault, unless that was reported before.
fn expect_ended(
    rt: &impl Abort,
    reader: &mut FrameReader,
    fault: Option<FrameFault>,
    was_reported: bool,
) {
    let end = reader.finish().err();
    if was_reported {
        check!(rt; end == Some(FrameFault::Failed));
    } else {
        check!(rt; end == fault);
    }
    match fault {
        Some(_) => expect_failed(rt, reader),
        None => expect_held(rt, reader, (0, 0)),
    }
}

/// The front of a stream ends inside a frame, unless a frame ends with it.
fn expect_front(rt: &impl Abort, alloc: Global, stream: &Stream<'_>, front: &[u8]) {
    let mut reader = new_reader(alloc, stream.mode);
    frames_after(rt, &mut reader, stream, Call::Feed, front);
    let is_whole = ended(stream.frames, front.len()).1 == 0;
    let fault = if is_whole {
        None
    } else {
        Some(FrameFault::Truncated)
    };
    expect_ended(rt, &mut reader, fault, false);
    drop(reader);
}

/// A stream comes byte by byte: each frame with its last byte, and the fault with the last byte of all.
fn expect_bytes_of(rt: &impl Abort, alloc: Global, stream: &Stream<'_>, bytes: &[u8]) {
    let mut reader = new_reader(alloc, stream.mode);
    let mut fault = None;
    for length in 0..bytes.len() {
        check!(rt; fault.is_none());
        fault = fault_of_byte(rt, &mut reader, stream, (bytes[length], length));
    }
    check!(rt; fault == stream.fault_at_once());
    expect_ended(rt, &mut reader, stream.fault, fault.is_some());
    drop(reader);
}

/// The next byte of a stream, after so many, brings the frame that ends with it. Gives the fault that it brings.
fn fault_of_byte(
    rt: &impl Abort,
    reader: &mut FrameReader,
    stream: &Stream<'_>,
    (byte, length): (u8, usize),
) -> Option<FrameFault> {
    let early = ended(stream.frames, length).0;
    let (count, after) = ended(stream.frames, length.saturating_add(1));
    check!(rt; count <= stream.frames.len());
    check!(rt; early <= count);
    let fault = turn(
        rt,
        reader,
        Call::Feed,
        &[byte],
        &stream.frames[early..count],
    );
    if fault.is_none() {
        if let Some(held) = stream.held_after(length.saturating_add(1), after) {
            expect_held(rt, reader, held);
        }
    }
    fault
}

/// By which call a stream comes, and by which a fault that is kept is asked for before the end.
const CALLS: &[(Call, Option<Call>)] = &[
    (Call::Feed, None),
    (Call::Feed, Some(Call::Feed)),
    (Call::Feed, Some(Call::Next)),
    (Call::Next, None),
];

/// A stream is what it is however it comes.
fn expect_stream(rt: &impl Abort, alloc: Global, stream: &Stream<'_>) {
    let bytes = joined(rt, alloc, stream.parts);
    for cut in 0..bytes.len() {
        expect_front(rt, alloc, stream, &bytes[..cut]);
        for calls in CALLS {
            expect_cut(rt, alloc, stream, bytes.split_at(cut), *calls);
        }
    }
    expect_bytes_of(rt, alloc, stream, &bytes);
    drop(bytes);
}

/// Bytes are at fault by the last of them, alone and after a frame.
fn expect_fault(rt: &impl Abort, alloc: Global, mode: Mode, bytes: &[u8], fault: FrameFault) {
    let (before, first) = match mode {
        Mode::Plain => FIRST,
        Mode::Packed => FIRST_PACKED,
    };
    let alone = Stream {
        mode,
        parts: &[bytes],
        frames: &[],
        fault: Some(fault),
        held: &[],
    };
    expect_stream(rt, alloc, &alone);
    let after = Stream {
        mode,
        parts: &[before, bytes],
        frames: first,
        fault: Some(fault),
        held: &[],
    };
    expect_stream(rt, alloc, &after);
}

#[test]
fn streams_come_however_they_are_cut(rt: HostRuntime) {
    for stream in STREAMS {
        expect_stream(&rt, rt.alloc(), stream);
    }
    for (mode, bytes, fault) in FAULTS {
        expect_fault(&rt, rt.alloc(), *mode, bytes, *fault);
    }
}

/// Packed words after the table of a frame of one segment.
fn expect_segment(rt: &impl Abort, alloc: Global, words: &[u64]) {
    let mut bytes = pack(alloc, &[(words.len() as u64) << 32]).expect(rt, "memory");
    let after = pack(alloc, words).expect(rt, "memory");
    bytes.extend_from_slice(&after).expect(rt, "memory");
    drop(after);
    let segments = [words];
    let stream = Stream {
        mode: Mode::Packed,
        parts: &[&bytes[..]],
        frames: &[(bytes.len(), &segments[..])],
        fault: None,
        held: &[],
    };
    expect_stream(rt, alloc, &stream);
    drop(bytes);
}

/// Words that are packed in each way.
const SEGMENTS: &[&[u64]] = &[
    &TWO,
    &[0; 4],
    &[0; 256],
    &[0; 257],
    &[0x8a8a_8a8a_8a8a_8a8a; 4],
    &[0x0001_0203_0405_0607; 40],
    &[7],
];

#[test]
fn segments_come_however_they_are_packed(rt: HostRuntime) {
    for words in SEGMENTS {
        expect_segment(&rt, rt.alloc(), words);
    }
}

/// The segments of the one frame that these bytes are.
pub(crate) fn segments_of(rt: &impl Abort, mut reader: FrameReader, bytes: &[u8]) -> Segments {
    let segments = only_frame(rt, &mut reader, bytes);
    drop(reader);
    segments
}

/// The segments of the next frame, which takes all these bytes.
fn only_frame(rt: &impl Abort, reader: &mut FrameReader, bytes: &[u8]) -> Segments {
    let next = reader.next(bytes).expect(rt, "a piece");
    let (length, segments, _) = next.expect(rt, "a frame");
    check!(rt; length == bytes.len() as u64);
    segments
}

/// A frame comes in two pieces, and its message is given back.
fn read_and_reuse(
    rt: &impl Abort,
    reader: &mut FrameReader,
    (front, back): (&[u8], &[u8]),
    frame: &[Frame<'_>],
) {
    expect_none(rt, reader, front);
    check!(rt; turn(rt, reader, Call::Next, back, frame).is_none());
}

/// A buffer of this capacity is given back, and then the reader keeps one of another.
fn expect_spare(
    rt: &impl Abort,
    alloc: Global,
    reader: &mut FrameReader,
    given: usize,
    kept: usize,
) {
    let buffer = Vec::with_capacity(alloc, given).expect(rt, "memory");
    reader.reuse(Segments::one(buffer));
    expect_number(rt, reader.spare(), kept);
}

/// Capacities of buffers that are given back, and those that are kept then.
const SPARES: &[(usize, usize)] = &[
    (1_000, 1_000),
    (262_145, 262_144),
    (262_144, 262_144),
    (8_388_608, 262_144),
];

/// The frame is one segment of 200,000 words.
fn expect_large(rt: &impl Abort, frames: &[(u64, Segments)]) {
    check!(rt; frames.len() == 1);
    check!(rt; frames[0].0 == 1_600_008);
    let lists = frames[0].1.lists();
    check!(rt; lists.len() == 1);
    check!(rt; lists[0].len() == 200_000);
    check!(rt; lists[0].iter().all(|word| *word == 0x8a8a_8a8a_8a8a_8a8a));
}

/// The table of such a frame.
const LARGE_TABLE: &[u8] = &[0, 0, 0, 0, 0x40, 0x0d, 0x03, 0];

/// A large segment grows with its bytes, of which the last bring the frame.
fn read_large(rt: &impl Abort, alloc: Global, reader: &mut FrameReader) {
    let piece = vec![in alloc; 0x8au8; 64_000].expect(rt, "memory");
    feed_large(rt, reader, &piece);
    drop(piece);
}

/// No frame ends in the piece.
fn expect_none(rt: &impl Abort, reader: &mut FrameReader, piece: &[u8]) {
    check!(rt; turn(rt, reader, Call::Feed, piece, &[]).is_none());
}

/// The last of 25 pieces brings the frame.
fn feed_large(rt: &impl Abort, reader: &mut FrameReader, piece: &[u8]) {
    expect_none(rt, reader, LARGE_TABLE);
    for _ in 1..25 {
        expect_none(rt, reader, piece);
    }
    let frames = reader.feed(piece).expect(rt, "frames");
    expect_large(rt, &frames);
    drop(frames);
}

#[test]
fn a_message_that_is_given_back_makes_room_for_the_next(rt: HostRuntime) {
    let alloc = rt.alloc();
    let mut reader = new_reader(alloc, Mode::Plain);
    read_and_reuse(&rt, &mut reader, FINISH.split_at(9), &[OF_FINISH]);
    read_and_reuse(&rt, &mut reader, KEEPING.split_at(9), &[OF_KEEPING]);
    expect_end(&rt, &mut reader, Ok(()));
    reuse_inside(&rt, alloc, &mut reader);
    read_large(&rt, alloc, &mut reader);
    drop(reader);
}

/// A message may be given back inside a frame.
fn reuse_inside(rt: &impl Abort, alloc: Global, reader: &mut FrameReader) {
    let (front, back) = FINISH.split_at(25);
    expect_none(rt, reader, front);
    reader.reuse(segments_of(rt, new_reader(alloc, Mode::Plain), &KEEPING));
    expect_held(rt, reader, (1, 3));
    check!(rt; turn(rt, reader, Call::Feed, back, &[OF_FINISH]).is_none());
}

#[test]
fn the_front_of_a_large_buffer_is_kept_for_later_frames(rt: HostRuntime) {
    let mut reader = new_reader(rt.alloc(), Mode::Plain);
    for (given, kept) in SPARES {
        expect_spare(&rt, rt.alloc(), &mut reader, *given, *kept);
    }
    read_large(&rt, rt.alloc(), &mut reader);
    drop(reader);
}

/// What is written by each call of a frame's segments.
#[derive(Drop)]
struct Written {
    over: Vec<u8>,
    after: Vec<u8>,
    wanted: Vec<u8>,
    buffer: Vec<u8>,
}

/// A frame is written as it was: over another, after others, and to a writer.
fn expect_written(rt: &impl Abort, alloc: Global, written: &mut Written, mode: Mode, bytes: &[u8]) {
    let limits = Limits::standard();
    let segments = segments_of(rt, new_reader(alloc, mode), bytes);
    write_over(alloc, &mut written.over, &segments, mode, limits).expect(rt, "a frame");
    expect_bytes(rt, &written.over, bytes);
    write_after(alloc, &mut written.after, &segments, mode, limits).expect(rt, "a frame");
    written.wanted.extend_from_slice(bytes).expect(rt, "memory");
    expect_bytes(rt, &written.after, &written.wanted);
    send(rt, alloc, &mut written.buffer, &segments, Mode::Plain);
    send(rt, alloc, &mut written.buffer, &segments, Mode::Packed);
    let frame = write_frame(alloc, &segments, mode, limits).expect(rt, "a frame");
    drop(segments);
    expect_bytes(rt, &frame, bytes);
    drop(frame);
}

/// A frame that goes out to a writer is the frame as it is written.
fn send(rt: &impl Abort, alloc: Global, buffer: &mut Vec<u8>, segments: &Segments, mode: Mode) {
    let limits = Limits::standard();
    let mut out: Vec<u8> = Vec::new(alloc);
    let sent = send_frame(alloc, &mut out, buffer, segments, mode, limits);
    sent.expect(rt, "memory").expect(rt, "a writer");
    let frame = write_frame(alloc, segments, mode, limits).expect(rt, "a frame");
    expect_bytes(rt, &out, &frame);
    drop(frame);
    drop(out);
}

#[test]
fn frames_are_written_as_they_were(rt: HostRuntime) {
    let alloc = rt.alloc();
    let mut written = Written {
        over: Vec::new(alloc),
        after: Vec::new(alloc),
        wanted: Vec::new(alloc),
        buffer: Vec::new(alloc),
    };
    for (mode, bytes) in WRITTEN {
        expect_written(&rt, alloc, &mut written, *mode, bytes);
    }
    drop(written);
}

/// The fault of writing a frame within limits on its segments and words, if any.
fn limited(
    rt: &impl Abort,
    frame: &Segments,
    alloc: Global,
    (segments, words): (u32, u32),
) -> Option<FrameFault> {
    let limits = Limits::new(64, 1, segments, words).expect(rt, "limits");
    let fault = write_frame(alloc, frame, Mode::Plain, limits).err();
    expect_over(rt, alloc, frame, limits, fault);
    fault
}

/// Over another frame nothing is left where there is a fault.
fn expect_over(
    rt: &impl Abort,
    alloc: Global,
    frame: &Segments,
    limits: Limits,
    fault: Option<FrameFault>,
) {
    let mut out = FINISH.to_vec(alloc).expect(rt, "memory");
    let reported = write_over(alloc, &mut out, frame, Mode::Packed, limits).err();
    check!(rt; reported == fault);
    check!(rt; out.is_empty() == fault.is_some());
    drop(out);
}

/// Limits within which a frame of two segments and five words has a fault, or none.
const LIMITS: &[((u32, u32), Option<FrameFault>)] = &[
    ((1, 5), Some(FrameFault::TooManySegments)),
    ((1, 4), Some(FrameFault::TooManySegments)),
    ((2, 4), Some(FrameFault::FrameTooLarge)),
    ((2, 5), None),
];

#[test]
fn limits_are_kept_in_writing(rt: HostRuntime) {
    let frame = segments_of(&rt, new_reader(rt.alloc(), Mode::Plain), &TWO_SEGMENTS);
    for (limits, fault) in LIMITS {
        check!(&rt; limited(&rt, &frame, rt.alloc(), *limits) == *fault);
    }
    drop(frame);
}

/// Takes the frames that end in a piece, and gives each back where they are taken one by one.
fn take(reader: &mut FrameReader, call: Call, piece: &[u8]) -> Result<(), FrameFault> {
    if call == Call::Feed {
        let frames = reader.feed(piece)?;
        drop(frames);
        return Ok(());
    }
    let mut left = piece;
    for _ in 0..piece.len() {
        let Some((_, segments, back)) = reader.next(left)? else {
            break;
        };
        reader.reuse(segments);
        left = back;
    }
    Ok(())
}

/// The same of all pieces of a stream.
fn take_all(reader: &mut FrameReader, call: Call, pieces: &[&[u8]]) -> Result<(), FrameFault> {
    for piece in pieces {
        take(reader, call, piece)?;
    }
    Ok(())
}

/// A stream's pieces come, or memory runs out, and then the reader has failed.
fn expect_taken(rt: &impl Abort, alloc: Global, (mode, call): (Mode, Call), pieces: &[&[u8]]) {
    let mut reader = new_reader(alloc, mode);
    match take_all(&mut reader, call, pieces) {
        Ok(()) => expect_end(rt, &mut reader, Ok(())),
        Err(fault) => {
            check!(rt; fault == FrameFault::OutOfMemory);
            expect_failed(rt, &mut reader);
        }
    }
    drop(reader);
}

// With ample memory no allocation fails. `rt try --test --fail-alloc N` fails the Nth of each of the three tests below.
#[test]
fn allocation_failure_is_reported_and_then_failed(rt: HostRuntime) {
    let (front, back) = TWO_SEGMENTS.split_at(13);
    let pieces = [&FINISH[..], front, back, &THREE_SEGMENTS[..]];
    expect_taken(&rt, rt.alloc(), (Mode::Plain, Call::Feed), &pieces)
}

#[test]
fn allocation_failure_is_reported_where_frames_are_taken_one_by_one(rt: HostRuntime) {
    let (front, back) = TWO_SEGMENTS.split_at(13);
    let pieces = [&FINISH[..], front, back, &KEEPING[..]];
    expect_taken(&rt, rt.alloc(), (Mode::Plain, Call::Next), &pieces)
}

#[test]
fn allocation_failure_is_reported_in_a_packed_stream(rt: HostRuntime) {
    let (front, back) = BY_THEMSELVES.split_at(5);
    let pieces = [&PACKED[..], front, back, &BOOTSTRAP[..]];
    expect_taken(&rt, rt.alloc(), (Mode::Packed, Call::Feed), &pieces)
}
