//! Events, as lines.

use cp_frame::Mode;
use cp_lines::{WrittenCall, call_of, cap_of, message_of, outcome_of};
use cp_refs::{Origin, Request};
use cp_rpc::Message;
use cp_stream::{Tap, read_message};
use cp_vat_machine::Event;
use cp_words::Limits;
use std::alloc::Global;

/// An event's line: a message that comes, or a call of the application. `None` where it isn't one, or memory runs out.
pub fn event_of(alloc: Global, line: &str) -> Option<Event> {
    let (word, rest) = line.split_once(' ').unwrap_or((line, ""));
    match word {
        "<" => Some(Event::Receive(message(alloc, rest)?)),
        "call" => call(alloc, rest),
        "answer" => answer(alloc, rest),
        "resolve" => {
            let (promise, cap) = rest.split_once(' ')?;
            let promise = number(promise, "promise:")?;
            Some(Event::Resolve(promise, cap_of(alloc, cap).ok()?))
        }
        "finish" => Some(Event::Finish(number(rest, "question:")?)),
        "release" => Some(Event::Release(number(rest, "import:")?)),
        "forget" => Some(Event::Forget(number(rest, "promise:")?)),
        _ => match line {
            "bootstrap" => Some(Event::Bootstrap),
            "promise" => Some(Event::Promise),
            "idle" => Some(Event::Idle),
            _ => None,
        },
    }
}

/// A message, or its frame in hexadecimal.
fn message(alloc: Global, text: &str) -> Option<Message> {
    match message_of(alloc, text) {
        Ok(message) => Some(message),
        Err(_) => framed(alloc, text),
    }
}

/// The message of a frame.
fn framed(alloc: Global, digits: &str) -> Option<Message> {
    let frame = hex::decode(alloc, digits).ok()?;
    let mut from = Tap::new(frame.as_slice());
    let message = read_message(alloc, &mut from, Mode::Plain, Limits::standard());
    let is_one = from.into_inner().is_empty();
    match message {
        Ok(Some(message)) if is_one => Some(message),
        other => {
            drop(other);
            None
        }
    }
}

/// A call, `CAP P`. Where P names no method, it is 4 of interface 9.
fn call(alloc: Global, text: &str) -> Option<Event> {
    let (head, params) = text.split_once(" {")?;
    let call = if head.contains(" i=") {
        call_of(alloc, text)
    } else {
        let line = format!(in alloc; "{head} i=9 m=4 {{{params}").ok()?;
        call_of(alloc, &line)
    };
    let WrittenCall {
        target,
        interface,
        method,
        params,
    } = call.ok()?;
    match (target, params) {
        (Some(cap), Some((content, caps))) => {
            let request = Request {
                interface,
                method,
                content,
                caps,
            };
            Some(Event::Call(cap, request))
        }
        other => {
            drop(other);
            None
        }
    }
}

/// An answer, `ORIGIN O`.
fn answer(alloc: Global, text: &str) -> Option<Event> {
    let (origin, outcome) = text.split_once(' ')?;
    let origin = match number(origin, "answer:") {
        Some(id) => Origin::Answer(id),
        None => Origin::Own(number(origin, "question:")?),
    };
    Some(Event::Answer(origin, outcome_of(alloc, outcome).ok()?))
}

/// The number after a name.
fn number(text: &str, name: &str) -> Option<u32> {
    text.strip_prefix(name)?.parse().ok()
}
