//! What a vat sends, in bytes.

use crate::exchanges::playing::is_reported;
use crate::exchanges::script::UNREAD;
use cp_frame::Mode;
use cp_rpc::Message;
use cp_scripts::{Lines, event_of};
use cp_stream::{Tap, write_message};
use cp_vat::Vat;
use cp_vat_machine::{Acted, Effect, Value};
use cp_words::Limits;
use std::alloc::Global;

/// The lines of the events of a script, and of the bytes of each message that a new vat sends, plain and packed.
pub fn sent(alloc: Global, bootstrap: Option<u32>, script: &str) -> Lines {
    let mut vat = Vat::new(alloc, bootstrap);
    let mut lines = Lines::new(alloc);
    for line in script.lines() {
        if !is_reported(line) {
            lines.push_line(line);
            turn(alloc, &mut vat, line, &mut lines);
        }
    }
    drop(vat);
    lines
}

/// Plays the event of a line.
fn turn(alloc: Global, vat: &mut Vat, line: &str, lines: &mut Lines) {
    let Some(event) = event_of(alloc, line) else {
        return lines.push(UNREAD);
    };
    match vat.act(event) {
        Ok(acted) => {
            push_sent(alloc, &acted, lines);
            drop(acted);
        }
        Err(fault) => lines.push_fault(fault),
    }
}

fn push_sent(alloc: Global, acted: &Acted<Value>, lines: &mut Lines) {
    for effect in acted.effects.effects() {
        if let Effect::Send(message) = effect {
            push_bytes(alloc, message, Mode::Plain, "> plain ", lines);
            push_bytes(alloc, message, Mode::Packed, "> packed ", lines);
        }
    }
}

/// Adds the line of a message's bytes.
fn push_bytes(alloc: Global, message: &Message, mode: Mode, name: &str, lines: &mut Lines) {
    let mut to = Tap::new(Vec::new(alloc));
    let written = write_message(alloc, &mut to, message, mode, Limits::standard());
    let digits = hex::encode(alloc, to.into_inner());
    match (written, digits) {
        (Ok(_), Ok(digits)) => {
            lines.push(name);
            lines.push_line(digits.as_str());
        }
        _ => lines.push(UNREAD),
    }
}
