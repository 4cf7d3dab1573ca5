//! One end of a connection, and what it does.

use cp_connection::{Connection, ConnectionFault, ConnectionEvent, Held};
use cp_frame::Mode;
use cp_rpc::Message;
use cp_scripts::{Lines, event_of};
use cp_stream::{MessageReader, Tap, write_message};
use cp_vat_machine::{Acted, Effect, Effects, Event, Idle, Value, VatFault};
use cp_words::Limits;
use std::alloc::Global;

const UNREAD: &str = "= unread\n";

/// An end, and the events that it did: the same events always give the same.
#[derive(Drop)]
pub struct End {
    alloc: Global,
    serves_tail_calls: bool,
    connection: Connection,
    events: Vec<String>,
}

impl End {
    pub fn new(alloc: Global, serves_tail_calls: bool) -> End {
        let limits = Limits::standard();
        let connection = if serves_tail_calls {
            Connection::with_tail_calls(alloc, Mode::Plain, limits, Some(0))
        } else {
            Connection::new(alloc, Mode::Plain, limits, Some(0))
        };
        End {
            alloc,
            serves_tail_calls,
            connection,
            events: Vec::new(alloc),
        }
    }

    /// Does an event, and says what it gave.
    pub fn done(&mut self, event: &str) -> Lines {
        let told = self.acted(event);
        if let Ok(event) = event.to_string(self.alloc) {
            drop(self.events.push(event));
        }
        told
    }

    /// What an event gives to a copy.
    pub fn tried(&self, event: &str) -> Lines {
        let mut copy = End::new(self.alloc, self.serves_tail_calls);
        for event in self.events.iter() {
            copy.replay(event.as_str());
        }
        let told = copy.acted(event);
        drop(copy);
        told
    }

    /// Does an event of which nothing is to be told.
    fn replay(&mut self, line: &str) {
        drop(self.given(line));
        self.connection.wrote(self.connection.outgoing().len());
        let mut effects = Vec::new(self.alloc);
        push_happened(&mut effects, &mut self.connection);
        drop(effects);
    }

    fn acted(&mut self, line: &str) -> Lines {
        let mut lines = Lines::with_frames(self.alloc);
        lines.push_line(line);
        if line == "held" {
            push_held(self.alloc, &mut lines, self.connection.held());
            return lines;
        }
        match self.given(line) {
            Some(given) => self.tell(&mut lines, given),
            None => lines.push(UNREAD),
        }
        lines
    }

    fn given(&mut self, line: &str) -> Option<Result<Value, ConnectionFault>> {
        if let Some(digits) = line.strip_prefix("bytes ") {
            let bytes = hex::decode(self.alloc, digits).ok()?;
            let given = receive(&mut self.connection, &bytes);
            drop(bytes);
            return Some(given);
        }
        let event = event_of(self.alloc, line)?;
        Some(act(self.alloc, &mut self.connection, event))
    }

    /// Adds what was given and what follows it.
    fn tell(&mut self, lines: &mut Lines, given: Result<Value, ConnectionFault>) {
        let mut effects = Vec::new(self.alloc);
        push_sent(self.alloc, &mut effects, self.connection.outgoing());
        self.connection.wrote(self.connection.outgoing().len());
        push_happened(&mut effects, &mut self.connection);
        let (value, fault) = match given {
            Ok(value) => (value, None),
            Err(fault) => (Value::Nothing, Some(fault)),
        };
        if let Some(fault) = fault {
            push_fault(self.alloc, lines, fault);
        }
        let acted = Acted {
            value,
            effects: Effects::new(effects),
        };
        lines.push_acted(&acted);
        drop(acted);
    }
}

/// What a connection does at an event.
fn act(alloc: Global, connection: &mut Connection, event: Event) -> Result<Value, ConnectionFault> {
    match event {
        Event::Receive(message) => match frame_of(alloc, message) {
            Some(frame) => {
                let given = receive(connection, &frame);
                drop(frame);
                given
            }
            None => Err(ConnectionFault::OutOfMemory),
        },
        Event::Bootstrap => connection.bootstrap().map(Value::Question),
        Event::Call(cap, request) => connection.call(cap, request).map(Value::Question),
        Event::Answer(origin, outcome) => nothing(connection.answer(origin, outcome)),
        Event::Promise => connection.promise().map(Value::Promise),
        Event::Resolve(promise, value) => nothing(connection.resolve(promise, value)),
        Event::Finish(question) => nothing(connection.finish(question)),
        Event::Release(import) => nothing(connection.release(import)),
        Event::Forget(promise) => nothing(connection.forget(promise)),
        Event::Idle => connection.idle().map(idle),
    }
}

fn nothing(given: Result<(), ConnectionFault>) -> Result<Value, ConnectionFault> {
    given.map(|()| Value::Nothing)
}

fn idle(given: Idle) -> Value {
    let Idle { imports, promises } = given;
    Value::Idle { imports, promises }
}

/// The bytes of frames come.
fn receive(connection: &mut Connection, frames: &[u8]) -> Result<Value, ConnectionFault> {
    let mut left = frames;
    for _ in 0..frames.len() {
        if left.is_empty() {
            break;
        }
        let count = connection.receive(left)?;
        left = left.get(count..).unwrap_or(&[]);
    }
    Ok(Value::Nothing)
}

/// The bytes of a message's frame. `None` where it can't be written.
fn frame_of(alloc: Global, message: Message) -> Option<Vec<u8>> {
    let mut to = Tap::new(Vec::new(alloc));
    let written = write_message(alloc, &mut to, &message, Mode::Plain, Limits::standard());
    drop(message);
    let frame = to.into_inner();
    written.ok().map(|_| frame)
}

/// Adds the messages of what is to go out.
fn push_sent(alloc: Global, effects: &mut Vec<Effect>, frames: &[u8]) {
    let mut reader = MessageReader::plain(alloc, Limits::standard());
    if let Ok(messages) = reader.feed(frames) {
        for message in messages.into_iter() {
            drop(effects.push(Effect::Send(message)));
        }
    }
    drop(reader);
}

/// Adds what happened.
fn push_happened(effects: &mut Vec<Effect>, connection: &mut Connection) {
    for _ in 0..u64::MAX {
        let Some(happening) = connection.next() else {
            break;
        };
        drop(effects.push(effect_of(happening)));
    }
}

fn effect_of(happening: ConnectionEvent) -> Effect {
    match happening {
        ConnectionEvent::Delivered {
            object,
            origin,
            ticket,
            call,
        } => Effect::Deliver {
            object,
            origin,
            ticket,
            call,
        },
        ConnectionEvent::Settled { question, outcome } => Effect::Settled { question, outcome },
        ConnectionEvent::Closed(reason) => Effect::Closed(reason),
    }
}

fn push_fault(alloc: Global, lines: &mut Lines, fault: ConnectionFault) {
    match fault {
        ConnectionFault::Refused(fault) => lines.push_fault(fault),
        ConnectionFault::Closed => lines.push_fault(VatFault::Closed),
        _ => push_text(lines, format!(in alloc; "= {fault}\n").ok()),
    }
}

fn push_held(alloc: Global, lines: &mut Lines, held: Held) {
    let (entries, imports, promises) = (held.entries, held.imports, held.promises);
    let text = format!(in alloc;
        "= entries {entries} imports {imports} promises {promises} contents {}\n",
        held.contents
    );
    push_text(lines, text.ok());
}

fn push_text(lines: &mut Lines, text: Option<String>) {
    match text {
        Some(text) => lines.push(text.as_str()),
        None => lines.push(UNREAD),
    }
}
