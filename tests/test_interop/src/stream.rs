//! A stream that a peer sent.

use crate::fault::Fault;
use crate::frame::{frame_of, lines_of, messages_of};
use crate::row::expect;
use cp_frame::Mode;
use cp_rpc::Message;
use std::alloc::Global;

/// Nothing, if the stream has these lines, read whole and cut at each byte.
fn try_cuts(alloc: Global, bytes: &[u8], lines: &str) -> Result<(), Fault> {
    expect(lines_of(alloc, bytes, &[], Mode::Plain)?, lines)?;
    for cut in 1..bytes.len() {
        let (first, rest) = bytes.split_at(cut);
        let read = lines_of(alloc, first, rest, Mode::Plain)?;
        let is_same = read.as_str() == lines;
        drop(read);
        if !is_same {
            return Err(Fault::Cut(cut));
        }
    }
    Ok(())
}

/// The messages' packed frames, in segments of at most 64 words.
fn packed_again(alloc: Global, messages: &[Message]) -> Result<Vec<u8>, Fault> {
    let mut packed = Vec::new(alloc);
    match push_packed(alloc, messages, &mut packed) {
        Ok(()) => Ok(packed),
        Err(fault) => {
            drop(packed);
            Err(fault)
        }
    }
}

fn push_packed(alloc: Global, messages: &[Message], packed: &mut Vec<u8>) -> Result<(), Fault> {
    for message in messages {
        let frame = frame_of(alloc, message, 64, Mode::Packed)?;
        let pushed = packed.extend_from_slice(&frame);
        drop(frame);
        pushed?;
    }
    Ok(())
}

/// Nothing, if the messages have these lines once they are written, packed.
fn try_writing(alloc: Global, messages: &[Message], lines: &str) -> Result<(), Fault> {
    let packed = packed_again(alloc, messages)?;
    let read = lines_of(alloc, &packed, &[], Mode::Packed);
    drop(packed);
    expect(read?, lines)
}

/// Reads the stream whole and cut at each byte, writes each message again, packed, and reads that.
/// Answers how many messages there are.
pub fn try_all(alloc: Global, bytes: &[u8], lines: &str) -> Result<usize, Fault> {
    try_cuts(alloc, bytes, lines)?;
    let messages = messages_of(alloc, bytes, Mode::Plain)?;
    let tried = try_writing(alloc, &messages, lines);
    let count = messages.len();
    drop(messages);
    tried?;
    Ok(count)
}
