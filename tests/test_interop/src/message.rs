//! A row of the file of messages: each is read as an owned value, copied, and written again.

use crate::command::{mode_of, number_of};
use crate::fault::Fault;
use crate::row::{decoded, expect, parts_of};
use cp_frame::{FrameReader, Mode};
use cp_rpc::Message;
use cp_stream::{MessageReader, StreamFault, Tap, view_of, write_message_in};
use cp_words::{Limits, Segments};
use std::alloc::Global;

/// As what a message is written: in a form, in segments of at most so many words, within limits.
#[derive(Clone, Copy)]
struct Form {
    mode: Mode,
    most_words: u32,
    limits: Limits,
}

/// The form that the words of a row say.
fn form_of(text: &str) -> Option<Form> {
    let mut words = text.split(' ');
    Some(Form {
        mode: mode_of(words.next()?)?,
        most_words: number_of(words.next())?,
        limits: limits_of(words.next(), words.next(), words.next())?,
    })
}

/// Limits on nesting, traversal and words, or the standard ones where no numbers follow.
fn limits_of(
    nesting: Option<&str>,
    traversal: Option<&str>,
    words: Option<&str>,
) -> Option<Limits> {
    if nesting.is_none() {
        return Some(Limits::standard());
    }
    Limits::new(
        number_of(nesting)?,
        number_of(traversal)?,
        512,
        number_of(words)?,
    )
}

/// Reads the message of a line's plain frame, and compares the frame as which its copy is written, or the fault of either, with
/// the rest of the line.
pub fn try_line(alloc: Global, line: &str) -> Result<u64, Fault> {
    let (words, frame, wanted) = parts_of(line).ok_or(Fault::Row)?;
    let form = form_of(words).ok_or(Fault::Row)?;
    let frame = decoded(alloc, frame)?;
    let shown = shown_of(alloc, form, &frame);
    drop(frame);
    expect(shown?, wanted)?;
    Ok(1)
}

/// The frame as which the copy of a plain frame's message is written, or the fault of either.
fn shown_of(alloc: Global, form: Form, frame: &[u8]) -> Result<String, Fault> {
    let mut reader = MessageReader::plain(alloc, Limits::standard());
    let messages = reader.feed(frame);
    drop(reader);
    match messages {
        Ok(messages) => {
            let shown = first_written(alloc, form, &messages);
            drop(messages);
            shown
        }
        Err(fault) => refused(alloc, frame, fault),
    }
}

/// The text of a fault, if a view of the frame has the same.
fn refused(alloc: Global, frame: &[u8], fault: StreamFault) -> Result<String, Fault> {
    let mut reader = FrameReader::plain(alloc, Limits::standard());
    let frames = reader.feed(frame);
    drop(reader);
    let frames = frames?;
    let is_same = is_refused(&frames, fault);
    drop(frames);
    if is_same {
        Ok(format!(in alloc; "{fault}")?)
    } else {
        Err(Fault::Refused)
    }
}

/// Whether the view of a frame has this fault.
fn is_refused(frames: &[(u64, Segments)], fault: StreamFault) -> bool {
    match frames.first() {
        Some(frame) => view_of(&frame.1, Limits::standard()).err() == Some(fault),
        None => false,
    }
}

/// The same of the first message.
fn first_written(alloc: Global, form: Form, messages: &[Message]) -> Result<String, Fault> {
    match messages.first() {
        Some(message) => written(alloc, form, message),
        None => Err(Fault::Row),
    }
}

/// The frame of a message's copy, or why it isn't written.
fn written(alloc: Global, form: Form, message: &Message) -> Result<String, Fault> {
    let copy = message.copy(alloc)?;
    let mut to = Tap::new(Vec::new(alloc));
    let (mode, words, limits) = (form.mode, form.most_words, form.limits);
    let done = write_message_in(alloc, &mut to, &copy, mode, words, limits);
    drop(copy);
    let frame = to.into_inner();
    let shown = shown(alloc, &frame, done.err());
    drop(frame);
    shown
}

/// A frame in hexadecimal, or a fault, at which no byte went out.
fn shown(alloc: Global, frame: &[u8], fault: Option<StreamFault>) -> Result<String, Fault> {
    match fault {
        None => Ok(hex::encode(alloc, frame)?),
        Some(fault) if frame.is_empty() => Ok(format!(in alloc; "{fault}")?),
        Some(_) => Err(Fault::Bytes),
    }
}
