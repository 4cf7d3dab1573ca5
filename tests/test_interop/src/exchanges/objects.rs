//! Objects of sessions, as lines of a script.

use cp_lines::outcome_of;
use cp_refs::{Cap, Outcome, Request};
use cp_scripts::event_of;
use cp_servants::{OutgoingCall, Cell, Desk, Reply, Script, Servant, Settled, named_imports};
use cp_vat_machine::{Event, Ids};
use std::alloc::{AllocError, Global};
use std::mem;

/// An object of a session.
#[derive(Drop)]
pub enum Object {
    Desk(Desk),
    Cell(Cell),
    /// Answers each call at once with what it was asked, and gives up the imports that its table names.
    Echo(Global),
    /// Has no memory to answer with.
    Starved,
    /// Answers calls and polls as its lines say.
    Script(Script),
    /// Makes a call before it answers one.
    Asker(Asker),
}

/// The objects of a script, each of which begins by a line `object WORDS`. Before the first one stands nothing.
pub fn objects_of(alloc: Global, script: &str) -> Vec<Object> {
    let mut objects = Vec::new(alloc);
    let text = script.strip_prefix("object ").unwrap_or("");
    for part in text.split("\nobject ") {
        drop(objects.push(object_of(alloc, part)));
    }
    objects
}

/// The object of these words, with the lines that follow them.
fn object_of(alloc: Global, part: &str) -> Object {
    let (words, lines) = part.split_once('\n').unwrap_or((part, ""));
    match words {
        "desk" => Object::Desk(Desk::new(alloc)),
        "cell" => Object::Cell(Cell::new(alloc)),
        "echo" => Object::Echo(alloc),
        "script" => Object::Script(script_of(alloc, lines)),
        _ => match asker_of(alloc, words) {
            Some(asker) => Object::Asker(asker),
            None => Object::Starved,
        },
    }
}

impl Servant for Object {
    fn call(&mut self, ticket: u64, request: Request) -> Result<Reply, AllocError> {
        match self {
            Object::Desk(desk) => desk.call(ticket, request),
            Object::Cell(cell) => cell.call(ticket, request),
            Object::Echo(alloc) => echoed(*alloc, request),
            Object::Starved => {
                drop(request);
                Err(AllocError)
            }
            Object::Script(script) => script.call(ticket, request),
            Object::Asker(asker) => asker.call(ticket, request),
        }
    }

    fn poll(&mut self) -> Result<Option<Settled>, AllocError> {
        match self {
            Object::Desk(desk) => desk.poll(),
            Object::Script(script) => script.poll(),
            Object::Asker(asker) => asker.poll(),
            Object::Cell(_) | Object::Echo(_) | Object::Starved => Ok(None),
        }
    }

    fn has_more(&self) -> bool {
        match self {
            Object::Desk(desk) => desk.has_more(),
            Object::Script(script) => script.has_more(),
            _ => false,
        }
    }

    fn next_call(&mut self) -> Result<Option<OutgoingCall>, AllocError> {
        match self {
            Object::Asker(asker) => asker.next_call(),
            _ => Ok(None),
        }
    }

    fn on_response(&mut self, call_id: u64, outcome: Outcome) -> Result<(), AllocError> {
        match self {
            Object::Asker(asker) => asker.on_response(call_id, outcome),
            _ => Ok(()),
        }
    }
}

/// What an echo answers to a call.
fn echoed(alloc: Global, request: Request) -> Result<Reply, AllocError> {
    match named_imports(alloc, &request.caps) {
        Ok(gives_up) => {
            let Request { content, caps, .. } = request;
            let outcome = Outcome::Results { content, caps };
            Ok(Reply::Now { outcome, gives_up })
        }
        Err(fault) => {
            drop(request);
            Err(fault)
        }
    }
}

/// Makes a call for each that it gets, and answers with what that comes to.
#[derive(Drop)]
pub struct Asker {
    alloc: Global,
    /// The line of the call that it makes.
    line: String,
    /// The numbers of the imports that it gives up with each answer.
    gives_up: String,
    /// The ticket of the call for which it is to call.
    to_call: Option<u64>,
    settled: Option<Settled>,
}

/// The object of the words `asks CAP P`, after which may come ` gives up N,N`.
fn asker_of(alloc: Global, words: &str) -> Option<Asker> {
    let (call, numbers) = parts_of(words.strip_prefix("asks ")?);
    let mut line = String::from_str(alloc, "call ").ok()?;
    line.push_str(call).ok()?;
    Some(Asker {
        alloc,
        line,
        gives_up: String::from_str(alloc, numbers).ok()?,
        to_call: None,
        settled: None,
    })
}

impl Servant for Asker {
    fn call(&mut self, ticket: u64, request: Request) -> Result<Reply, AllocError> {
        drop(request);
        self.to_call = Some(ticket);
        Ok(Reply::Later)
    }

    fn poll(&mut self) -> Result<Option<Settled>, AllocError> {
        Ok(self.settled.take())
    }

    fn has_more(&self) -> bool {
        false
    }

    fn next_call(&mut self) -> Result<Option<OutgoingCall>, AllocError> {
        let Some(call_id) = self.to_call.take() else {
            return Ok(None);
        };
        let call = call_of(self.alloc, self.line.as_str());
        Ok(call.map(|(cap, request)| OutgoingCall { cap, request, call_id }))
    }

    fn on_response(&mut self, call_id: u64, outcome: Outcome) -> Result<(), AllocError> {
        let settled = Settled {
            ticket: call_id,
            outcome,
            gives_up: numbers_of(self.alloc, self.gives_up.as_str()),
        };
        drop(mem::replace(&mut self.settled, Some(settled)));
        Ok(())
    }
}

fn call_of(alloc: Global, line: &str) -> Option<(Cap, Request)> {
    match event_of(alloc, line) {
        Some(Event::Call(cap, request)) => Some((cap, request)),
        other => {
            drop(other);
            None
        }
    }
}

/// What an object of lines answers to calls, `replies OUTCOME` or `replies later`, and to polls, `settles TICKET OUTCOME` or
/// `settles nothing`, in order. After an outcome may come ` gives up N,N`. Other lines say nothing of it.
fn script_of(alloc: Global, lines: &str) -> Script {
    let (mut replies, mut settled) = (Vec::new(alloc), Vec::new(alloc));
    for line in lines.lines() {
        if let Some(text) = line.strip_prefix("replies ") {
            drop(replies.push(reply_of(alloc, text)));
        } else if let Some(text) = line.strip_prefix("settles ") {
            drop(settled.push(settled_of(alloc, text)));
        }
    }
    Script::new(replies, settled)
}

fn reply_of(alloc: Global, text: &str) -> Reply {
    let (text, numbers) = parts_of(text);
    match outcome_of(alloc, text) {
        Ok(outcome) => Reply::Now {
            outcome,
            gives_up: numbers_of(alloc, numbers),
        },
        Err(_) => Reply::Later,
    }
}

fn settled_of(alloc: Global, text: &str) -> Option<Settled> {
    let (ticket, text) = text.split_once(' ')?;
    let ticket = ticket.parse::<u64>().ok()?;
    let (text, numbers) = parts_of(text);
    let outcome = outcome_of(alloc, text).ok()?;
    Some(Settled {
        ticket,
        outcome,
        gives_up: numbers_of(alloc, numbers),
    })
}

/// What stands before ` gives up `, and the numbers after it.
fn parts_of(text: &str) -> (&str, &str) {
    text.split_once(" gives up ").unwrap_or((text, ""))
}

fn numbers_of(alloc: Global, text: &str) -> Ids {
    let mut numbers = Vec::new(alloc);
    for number in text.split(',') {
        if let Ok(number) = number.parse::<u32>() {
            let _ = numbers.push(number);
        }
    }
    Ids::new(numbers)
}
