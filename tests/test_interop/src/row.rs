//! A row of the file of frames.

use crate::fault::Fault;
use crate::frame::{frame_of, in_form, is_truncated, lines_of, messages_of};
use cp_frame::Mode;
use cp_rpc::Message;
use std::alloc::Global;

/// The three parts of a line, between tabs.
pub fn parts_of(line: &str) -> Option<(&str, &str, &str)> {
    let mut parts = line.splitn(3, '\t');
    let first = parts.next()?;
    let second = parts.next()?;
    let third = parts.next()?;
    Some((first, second, third))
}

/// The bytes of hexadecimal digits.
pub fn decoded(alloc: Global, digits: &str) -> Result<Vec<u8>, Fault> {
    hex::decode(alloc, digits).map_err(|_| Fault::Row)
}

/// Nothing, if the lines are the wanted ones.
pub fn expect(lines: String, wanted: &str) -> Result<(), Fault> {
    if lines.as_str() == wanted {
        drop(lines);
        Ok(())
    } else {
        Err(Fault::Line(lines))
    }
}

/// Nothing, if this is the one line.
fn expect_line(lines: String, line: &str) -> Result<(), Fault> {
    if lines.as_str().strip_suffix('\n') == Some(line) {
        drop(lines);
        Ok(())
    } else {
        Err(Fault::Line(lines))
    }
}

/// Reads the frame of a line whole and cut, packs and unpacks it, and writes it again. The line has a kind, the plain frame of the
/// reference writer, the frame as that packs it, and what `show` prints, between tabs. Answers how many cuts were tried.
pub fn try_line(alloc: Global, text: &str) -> Result<u64, Fault> {
    let mut parts = text.splitn(4, '\t');
    let _kind = parts.next().ok_or(Fault::Row)?;
    let plain = parts.next().ok_or(Fault::Row)?;
    let packed = parts.next().ok_or(Fault::Row)?;
    let line = parts.next().ok_or(Fault::Row)?;
    let plain = decoded(alloc, plain)?;
    let tried = try_packed(alloc, &plain, packed, line);
    drop(plain);
    tried
}

/// The same, with the digits of the packed frame.
fn try_packed(alloc: Global, plain: &[u8], packed: &str, line: &str) -> Result<u64, Fault> {
    let packed = decoded(alloc, packed)?;
    let tried = try_both(alloc, plain, &packed, line);
    drop(packed);
    tried
}

/// The same of both forms of a frame.
fn try_both(alloc: Global, plain: &[u8], packed: &[u8], line: &str) -> Result<u64, Fault> {
    let cuts = try_cuts(alloc, plain, Mode::Plain, line)?;
    let more = try_cuts(alloc, packed, Mode::Packed, line)?;
    expect_form(alloc, plain, (Mode::Plain, Mode::Packed), packed)?;
    expect_form(alloc, packed, (Mode::Packed, Mode::Plain), plain)?;
    try_writing(alloc, plain, Mode::Plain, line)?;
    try_writing(alloc, packed, Mode::Packed, line)?;
    Ok(cuts.saturating_add(more))
}

/// Nothing, if the frames of the bytes are these in another form.
fn expect_form(
    alloc: Global,
    bytes: &[u8],
    (from, to): (Mode, Mode),
    wanted: &[u8],
) -> Result<(), Fault> {
    let frames = in_form(alloc, bytes, from, to)?;
    let is_wanted = frames.as_slice() == wanted;
    drop(frames);
    if is_wanted { Ok(()) } else { Err(Fault::Bytes) }
}

/// Reads a frame whole, and cut and ended at each byte.
fn try_cuts(alloc: Global, bytes: &[u8], mode: Mode, line: &str) -> Result<u64, Fault> {
    expect_line(lines_of(alloc, bytes, &[], mode)?, line)?;
    for cut in 1..bytes.len() {
        let (first, rest) = bytes.split_at(cut);
        expect_line(lines_of(alloc, first, rest, mode)?, line)?;
        if !is_truncated(alloc, first, mode) {
            return Err(Fault::NotTruncated(cut));
        }
    }
    Ok(bytes.len() as u64)
}

/// Writes the messages again, in one segment and in segments of a few words, and reads them back.
fn try_writing(alloc: Global, bytes: &[u8], mode: Mode, line: &str) -> Result<(), Fault> {
    let messages = messages_of(alloc, bytes, mode)?;
    let tried = try_messages(alloc, &messages, mode, line);
    drop(messages);
    tried
}

/// Numbers of words in a segment.
const SIZES: &[u32] = &[8_388_608, 16, 3, 1];

fn try_messages(alloc: Global, messages: &[Message], mode: Mode, line: &str) -> Result<(), Fault> {
    for message in messages {
        for words in SIZES {
            try_message(alloc, message, *words, mode, line)?;
        }
    }
    Ok(())
}

fn try_message(
    alloc: Global,
    message: &Message,
    words: u32,
    mode: Mode,
    line: &str,
) -> Result<(), Fault> {
    let written = frame_of(alloc, message, words, mode)?;
    let lines = lines_of(alloc, &written, &[], mode);
    drop(written);
    expect_line(lines?, line)
}
