//! Reading and writing frames. What holds frames or messages goes by `drop` before a `?`, since each exit would prove how it goes.

use crate::fault::Fault;
use cp_frame::{FrameFault, FrameReader, Mode, write_frame};
use cp_lines::push_line;
use cp_rpc::Message;
use cp_stream::{MessageReader, Tap, view_of, write_message_in};
use cp_words::{Limits, Segments};
use std::alloc::Global;

/// Adds the line of a frame's message.
fn push_frame(alloc: Global, segments: &Segments, lines: &mut String) -> Result<(), Fault> {
    Ok(push_line(alloc, lines, &view_of(segments, Limits::standard())?)?)
}

/// Adds the lines of the messages of frames.
fn push_frames(alloc: Global, frames: &[(u64, Segments)], lines: &mut String) -> Result<(), Fault> {
    for frame in frames {
        push_frame(alloc, &frame.1, lines)?;
    }
    Ok(())
}

/// Adds the lines of the messages that a piece completes.
fn push_lines(
    alloc: Global,
    reader: &mut FrameReader,
    piece: &[u8],
    lines: &mut String,
) -> Result<(), Fault> {
    let frames = reader.feed(piece)?;
    let pushed = push_frames(alloc, &frames, lines);
    drop(frames);
    pushed
}

/// Adds the lines of the messages of two pieces, which end where a frame does.
fn push_both(
    alloc: Global,
    reader: &mut FrameReader,
    (first, rest): (&[u8], &[u8]),
    lines: &mut String,
) -> Result<(), Fault> {
    push_lines(alloc, reader, first, lines)?;
    push_lines(alloc, reader, rest, lines)?;
    Ok(reader.finish()?)
}

/// The lines of the messages of two pieces, which end where a frame does.
pub fn lines_of(alloc: Global, first: &[u8], rest: &[u8], mode: Mode) -> Result<String, Fault> {
    let mut reader = FrameReader::new(alloc, mode, Limits::standard());
    let mut lines = String::new(alloc);
    let pushed = push_both(alloc, &mut reader, (first, rest), &mut lines);
    drop(reader);
    match pushed {
        Ok(()) => Ok(lines),
        Err(fault) => {
            drop(lines);
            Err(fault)
        }
    }
}

/// Whether the bytes end inside a frame.
pub fn is_truncated(alloc: Global, bytes: &[u8], mode: Mode) -> bool {
    let mut reader = FrameReader::new(alloc, mode, Limits::standard());
    let is_truncated = ends_inside(&mut reader, bytes);
    drop(reader);
    is_truncated
}

/// Whether a new reader's bytes end inside a frame.
fn ends_inside(reader: &mut FrameReader, bytes: &[u8]) -> bool {
    let Ok(frames) = reader.feed(bytes) else {
        return false;
    };
    let is_empty = frames.is_empty();
    drop(frames);
    is_empty && matches!(reader.finish(), Err(FrameFault::Truncated))
}

/// The frames of the bytes, in another form.
pub fn in_form(alloc: Global, bytes: &[u8], from: Mode, to: Mode) -> Result<Vec<u8>, Fault> {
    let mut reader = FrameReader::new(alloc, from, Limits::standard());
    let frames = reader.feed(bytes);
    drop(reader);
    let frames = frames?;
    let mut written = Vec::new(alloc);
    let pushed = push_written(alloc, &frames, to, &mut written);
    drop(frames);
    match pushed {
        Ok(()) => Ok(written),
        Err(fault) => {
            drop(written);
            Err(fault)
        }
    }
}

/// Adds frames in a form.
fn push_written(
    alloc: Global,
    frames: &[(u64, Segments)],
    to: Mode,
    written: &mut Vec<u8>,
) -> Result<(), Fault> {
    for frame in frames {
        let bytes = write_frame(alloc, &frame.1, to, Limits::standard())?;
        let pushed = written.extend_from_slice(&bytes);
        drop(bytes);
        pushed?;
    }
    Ok(())
}

/// The messages of a stream, owned.
pub fn messages_of(alloc: Global, bytes: &[u8], mode: Mode) -> Result<Vec<Message>, Fault> {
    let mut reader = match mode {
        Mode::Plain => MessageReader::plain(alloc, Limits::standard()),
        Mode::Packed => MessageReader::packed(alloc, Limits::standard()),
    };
    let messages = messages_in(&mut reader, bytes);
    drop(reader);
    messages
}

/// The messages of a new reader's stream.
fn messages_in(reader: &mut MessageReader, bytes: &[u8]) -> Result<Vec<Message>, Fault> {
    let messages = reader.feed(bytes)?;
    match reader.finish() {
        Ok(()) => Ok(messages),
        Err(fault) => {
            drop(messages);
            Err(Fault::from(fault))
        }
    }
}

/// A message's frame, in segments of at most this many words.
pub fn frame_of(
    alloc: Global,
    message: &Message,
    max_words: u32,
    mode: Mode,
) -> Result<Vec<u8>, Fault> {
    let mut to = Tap::new(Vec::new(alloc));
    let written = write_message_in(alloc, &mut to, message, mode, max_words, Limits::standard());
    let frame = to.into_inner();
    match written {
        Ok(()) => Ok(frame),
        Err(fault) => {
            drop(frame);
            Err(Fault::from(fault))
        }
    }
}
