//! What a vat did, as lines.

use cp_frame::{Mode, write_frame};
use cp_lines::{push_exception, push_line, push_outcome, push_payload};
use cp_refs::Origin;
use cp_rpc::{Message, tree_of};
use cp_stream::view_in;
use cp_vat_machine::{Acted, Effect, Reason, Value};
use cp_words::{Limits, Segments};
use cp_writing::write_root;
use std::alloc::{AllocError, Global};

/// Adds a line for what a call of a vat answered, if that is something, and one for each effect. The frame of a message that is
/// sent comes after it, if that is asked for.
pub(crate) fn push_acted(
    alloc: Global,
    line: &mut String,
    acted: &Acted<Value>,
    has_frames: bool,
) -> Result<(), AllocError> {
    push_value(line, &acted.value)?;
    for effect in acted.effects.effects() {
        push_effect(alloc, line, effect, has_frames)?;
    }
    Ok(())
}

/// Adds a message's line, as `show` prints it.
pub(crate) fn push_message(
    alloc: Global,
    line: &mut String,
    message: &Message,
) -> Result<(), AllocError> {
    match segments_of(alloc, message) {
        Some(segments) => push_written(alloc, line, &segments),
        None => Err(AllocError),
    }
}

/// A message in one segment. `None` where it can't be written.
pub(crate) fn segments_of(alloc: Global, message: &Message) -> Option<Segments> {
    let Ok(root) = tree_of(alloc, message) else {
        return None;
    };
    let words = write_root(alloc, &root, Limits::standard());
    drop(root);
    match words {
        Ok(words) => Some(Segments::one(words)),
        Err(_) => None,
    }
}

/// Adds what a call answered.
fn push_value(line: &mut String, value: &Value) -> Result<(), AllocError> {
    match value {
        Value::Nothing => Ok(()),
        Value::Question(id) => write!(line, "= question:{id}\n"),
        Value::Promise(id) => write!(line, "= promise:{id}\n"),
        Value::Idle { imports, promises } => {
            line.push_str("= imports")?;
            push_numbers(line, imports.ids())?;
            line.push_str(" promises")?;
            push_numbers(line, promises.ids())?;
            line.push('\n')
        }
    }
}

/// Adds numbers between brackets.
fn push_numbers(line: &mut String, numbers: &[u32]) -> Result<(), AllocError> {
    line.push('[')?;
    for (i, number) in numbers.iter().enumerate() {
        let comma = if i > 0 { "," } else { "" };
        write!(line, "{comma}{number}")?;
    }
    line.push(']')
}

fn push_effect(
    alloc: Global,
    line: &mut String,
    effect: &Effect,
    has_frames: bool,
) -> Result<(), AllocError> {
    match effect {
        Effect::Send(message) => return push_sent(alloc, line, message, has_frames),
        Effect::Deliver {
            object,
            origin,
            ticket,
            call,
        } => {
            write!(line, "! deliver object:{object} for ")?;
            match origin {
                Origin::Answer(id) => write!(line, "answer:{id}")?,
                Origin::Own(id) => write!(line, "question:{id}")?,
            }
            let (interface, method) = (call.interface, call.method);
            write!(line, " ticket {ticket} i={interface:016x} m={method} ")?;
            push_payload(alloc, line, &call.content, &call.caps)?;
        }
        Effect::Settled { question, outcome } => {
            write!(line, "! settled question:{question} ")?;
            push_outcome(alloc, line, outcome)?;
        }
        Effect::Closed(Reason::Peer(exception)) => {
            line.push_str("! closed by the peer, ")?;
            push_exception(line, exception)?;
        }
        Effect::Closed(Reason::Fault(fault)) => write!(line, "! closed {}", fault.text())?,
    }
    line.push('\n')
}

/// Adds the line of a message that is sent, and its frame's, if that is asked for.
fn push_sent(
    alloc: Global,
    line: &mut String,
    message: &Message,
    has_frames: bool,
) -> Result<(), AllocError> {
    line.push_str("> ")?;
    let Some(segments) = segments_of(alloc, message) else {
        return Err(AllocError);
    };
    push_written(alloc, line, &segments)?;
    if has_frames {
        push_frame(alloc, line, &segments)?;
    }
    Ok(())
}

/// Adds the line of a message that is written.
fn push_written(alloc: Global, line: &mut String, segments: &Segments) -> Result<(), AllocError> {
    match view_in(segments, Limits::standard()) {
        Ok(view) => push_line(alloc, line, &view),
        Err(_) => Err(AllocError),
    }
}

/// Adds the line of a frame, in hexadecimal.
fn push_frame(alloc: Global, line: &mut String, segments: &Segments) -> Result<(), AllocError> {
    let Ok(frame) = write_frame(alloc, segments, Mode::Plain, Limits::standard()) else {
        return Err(AllocError);
    };
    match hex::encode(alloc, &frame) {
        Ok(digits) => write!(line, "# {digits}\n"),
        Err(_) => Err(AllocError),
    }
}
