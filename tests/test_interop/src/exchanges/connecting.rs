//! Scripts, played through a connection: each message comes as the bytes of its frame, in pieces, and what is sent goes out as bytes.
//! A connection has what it sends apart from what happens, and so have these lines: after each event the frames that it leads to,
//! and then the script without its messages that are sent.

use crate::exchanges::playing::{is_reported, said};
use crate::exchanges::script::{UNREAD, push_text};
use cp_connection::{Connection, ConnectionFault, ConnectionEvent, ConnectionStats};
use cp_frame::Mode;
use cp_rpc::Message;
use cp_scripts::{Lines, event_of};
use cp_stream::{Tap, write_message};
use cp_vat_machine::{Acted, Effect, Effects, Event, Idle, Value, VatFault};
use cp_words::Limits;
use std::alloc::Global;
use std::mem;

/// The lines that a script asks for.
pub fn wanted(alloc: Global, script: &str) -> Lines {
    let mut lines = Lines::new(alloc);
    for line in script.lines() {
        match line.strip_prefix("> ") {
            Some(message) => push_sent(alloc, &mut lines, message),
            None => {
                if !is_reported(line) {
                    begin(&mut lines, line);
                }
            }
        }
    }
    for line in script.lines() {
        if !line.starts_with("> ") {
            lines.push_line(line);
        }
    }
    lines
}

/// The bytes of the longest pieces of `cut`.
const LONGEST: usize = 48;

/// As `connected`, with pieces of each length up to the longest one: the lines of the first that goes otherwise, or of the last.
pub fn cut(alloc: Global, bootstrap: Option<u32>, script: &str) -> Lines {
    let wanted = wanted(alloc, script);
    let piece = first_wrong(alloc, bootstrap, script, wanted.text());
    drop(wanted);
    connected(alloc, bootstrap, piece, script)
}

/// The length of pieces with which what a connection does isn't as wanted, or the longest.
fn first_wrong(alloc: Global, bootstrap: Option<u32>, script: &str, wanted: Option<&str>) -> usize {
    for piece in 1..LONGEST {
        let lines = connected(alloc, bootstrap, piece, script);
        let is_wanted = lines.text() == wanted;
        drop(lines);
        if !is_wanted {
            return piece;
        }
    }
    LONGEST
}

/// The lines of what a new connection does. The bytes of a frame come in pieces of this length.
pub fn connected(alloc: Global, bootstrap: Option<u32>, piece: usize, script: &str) -> Lines {
    let connection = Connection::new(alloc, Mode::Plain, Limits::standard(), bootstrap);
    played_on(alloc, connection, piece, script)
}

/// The same of a connection that serves tail calls.
pub fn tail_called(alloc: Global, bootstrap: Option<u32>, piece: usize, script: &str) -> Lines {
    let limits = Limits::standard();
    let connection = Connection::with_tail_calls(alloc, Mode::Plain, limits, bootstrap);
    played_on(alloc, connection, piece, script)
}

fn played_on(alloc: Global, connection: Connection, piece: usize, script: &str) -> Lines {
    let mut wire = Wire::new(alloc, connection, piece);
    wire.play(script);
    wire.into_lines()
}

/// A connection, and what it did.
struct Wire {
    alloc: Global,
    piece: usize,
    connection: Connection,
    sent: Lines,
    happened: Lines,
}

// Not derived: who lets one go calls this function, and need not prove the drop of what it holds.
impl Drop for Wire {
    fn drop(self) {
        let Wire {
            alloc: _,
            piece: _,
            connection: _,
            sent: _,
            happened: _,
        } = self;
    }
}

impl Wire {
    fn new(alloc: Global, connection: Connection, piece: usize) -> Wire {
        Wire {
            alloc,
            piece,
            connection,
            sent: Lines::new(alloc),
            happened: Lines::new(alloc),
        }
    }

    /// Plays the events of a script.
    fn play(&mut self, script: &str) {
        for line in script.lines() {
            if !is_reported(line) {
                self.turn(line);
            }
        }
    }

    /// Plays the event of a line.
    fn turn(&mut self, line: &str) {
        begin(&mut self.sent, line);
        self.happened.push_line(line);
        let (line, is_said) = said(line);
        if line == "tally" {
            return self.push_tally();
        }
        match self.given(line) {
            Some(given) => self.tell(given, is_said),
            None => self.happened.push(UNREAD),
        }
    }

    /// What the connection gives at an event: bytes that come, whatever they are, their end, or one of a vat.
    fn given(&mut self, line: &str) -> Option<Result<Value, ConnectionFault>> {
        if line == "end" {
            return Some(nothing(self.connection.end()));
        }
        if let Some(digits) = line.strip_prefix("bytes ") {
            let bytes = hex::decode(self.alloc, digits).ok()?;
            let given = receive(&mut self.connection, &bytes, self.piece);
            drop(bytes);
            return Some(given);
        }
        let event = event_of(self.alloc, line)?;
        Some(act(self.alloc, &mut self.connection, event, self.piece))
    }

    /// Adds what was given and what follows it, if that is said.
    fn tell(&mut self, given: Result<Value, ConnectionFault>, is_said: bool) {
        let effects = happened(self.alloc, &mut self.connection);
        if is_said {
            push_digits(self.alloc, &mut self.sent, self.connection.outgoing());
        }
        self.connection.wrote(self.connection.outgoing().len());
        match given {
            Ok(value) => {
                let acted = Acted { value, effects };
                if is_said {
                    self.happened.push_acted(&acted);
                }
                drop(acted);
            }
            Err(fault) => push_fault(self.alloc, &mut self.happened, fault),
        }
    }

    /// Adds what was taken and sent, and why the connection ended, if it did.
    fn push_tally(&mut self) {
        let ConnectionStats {
            bytes,
            messages,
            sent,
        } = self.connection.stats();
        let came = self.connection.held().came;
        let text = format!(in self.alloc;
            "= bytes {bytes} messages {messages} sent {sent} came {came}\n"
        );
        push_text(&mut self.happened, text.ok());
        if let Some(fault) = self.connection.fault() {
            push_fault(self.alloc, &mut self.happened, fault);
        }
    }

    fn into_lines(mut self) -> Lines {
        self.sent.push(self.happened.text().unwrap_or(UNREAD));
        let sent = mem::replace(&mut self.sent, Lines::new(self.alloc));
        drop(self);
        sent
    }
}

/// Begins what follows an event.
fn begin(lines: &mut Lines, event: &str) {
    lines.push("\n");
    lines.push_line(event);
}

/// What a connection does at an event.
fn act(
    alloc: Global,
    connection: &mut Connection,
    event: Event,
    piece: usize,
) -> Result<Value, ConnectionFault> {
    match event {
        Event::Receive(message) => {
            match frame_of(alloc, message) {
                Some(frame) => {
                    let given = receive(connection, &frame, piece);
                    drop(frame);
                    given
                }
                None => Err(ConnectionFault::OutOfMemory),
            }
        }
        Event::Bootstrap => connection.bootstrap().map(Value::Question),
        Event::Call(cap, request) => connection.call(cap, request).map(Value::Question),
        Event::Answer(origin, outcome) => nothing(connection.answer(origin, outcome)),
        Event::Promise => connection.promise().map(Value::Promise),
        Event::Resolve(promise, value) => nothing(connection.resolve(promise, value)),
        Event::Finish(question) => nothing(connection.finish(question)),
        Event::Release(import) => nothing(connection.release(import)),
        Event::Forget(promise) => nothing(connection.forget(promise)),
        Event::Idle => connection.idle().map(idle),
    }
}

fn nothing(given: Result<(), ConnectionFault>) -> Result<Value, ConnectionFault> {
    given.map(|()| Value::Nothing)
}

fn idle(given: Idle) -> Value {
    let Idle { imports, promises } = given;
    Value::Idle { imports, promises }
}

/// The bytes of a frame come, in pieces.
fn receive(
    connection: &mut Connection,
    frame: &[u8],
    piece: usize,
) -> Result<Value, ConnectionFault> {
    for bytes in frame.chunks(piece.max(1)) {
        let mut left = bytes;
        for _ in 0..bytes.len() {
            if left.is_empty() {
                break;
            }
            let count = connection.receive(left)?;
            left = left.get(count..).unwrap_or(&[]);
        }
    }
    Ok(Value::Nothing)
}

/// What happened.
fn happened(alloc: Global, connection: &mut Connection) -> Effects {
    let mut effects = Vec::new(alloc);
    for _ in 0..u64::MAX {
        let Some(happening) = connection.next() else {
            break;
        };
        drop(effects.push(effect_of(happening)));
    }
    Effects::new(effects)
}

fn effect_of(happening: ConnectionEvent) -> Effect {
    match happening {
        ConnectionEvent::Delivered {
            object,
            origin,
            ticket,
            call,
        } => Effect::Deliver {
            object,
            origin,
            ticket,
            call,
        },
        ConnectionEvent::Settled { question, outcome } => Effect::Settled { question, outcome },
        ConnectionEvent::Closed(reason) => Effect::Closed(reason),
    }
}

fn push_fault(alloc: Global, lines: &mut Lines, fault: ConnectionFault) {
    match fault {
        ConnectionFault::Refused(fault) => lines.push_fault(fault),
        ConnectionFault::Closed => lines.push_fault(VatFault::Closed),
        _ => push_text(lines, format!(in alloc; "= {fault}\n").ok()),
    }
}

/// Adds the frame of a message that a script writes, or its bytes where it writes them.
fn push_sent(alloc: Global, lines: &mut Lines, message: &str) {
    if hex::decode(alloc, message).is_ok() {
        return lines.push(message);
    }
    let mut line = Lines::new(alloc);
    line.push("< ");
    line.push(message);
    let event = event_of(alloc, line.text().unwrap_or(""));
    match event.and_then(message_of) {
        Some(message) => push_frame(alloc, lines, message),
        None => lines.push(UNREAD),
    }
}

pub fn message_of(event: Event) -> Option<Message> {
    match event {
        Event::Receive(message) => Some(message),
        other => {
            drop(other);
            None
        }
    }
}

fn push_frame(alloc: Global, lines: &mut Lines, message: Message) {
    match frame_of(alloc, message) {
        Some(frame) => push_digits(alloc, lines, &frame),
        None => lines.push(UNREAD),
    }
}

/// The bytes of a message's frame. `None` where it can't be written.
pub fn frame_of(alloc: Global, message: Message) -> Option<Vec<u8>> {
    let mut to = Tap::new(Vec::new(alloc));
    let written = write_message(alloc, &mut to, &message, Mode::Plain, Limits::standard());
    drop(message);
    let frame = to.into_inner();
    written.ok().map(|_| frame)
}

fn push_digits(alloc: Global, lines: &mut Lines, bytes: &[u8]) {
    match hex::encode(alloc, bytes) {
        Ok(digits) => lines.push(digits.as_str()),
        Err(_) => lines.push(UNREAD),
    }
}
