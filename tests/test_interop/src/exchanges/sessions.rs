//! Sessions of objects with their peer, whose bytes come. Each message is followed by a round, as a server has it.

use crate::exchanges::connecting::{frame_of, message_of};
use crate::exchanges::objects::{Object, objects_of};
use crate::exchanges::playing::is_reported;
use crate::exchanges::script::{UNREAD, push_text};
use cp_connection::Connection;
use cp_frame::Mode;
use cp_dispatch::{Dispatcher, SessionEvent};
use cp_scripts::{Lines, event_of};
use cp_servants::any_has_more;
use cp_serve::{Report, ServeFault, serve_each};
use cp_stream::{Tap, read_message};
use cp_words::Limits;
use std::alloc::Global;
use std::mem;

/// The lines of the messages that a server sends to the peer of a script, and of how it ends.
pub fn served(alloc: Global, mode: Mode, script: &str) -> Lines {
    let mut objects = objects_of(alloc, script);
    let bytes = bytes_of(alloc, script);
    let mut lines = Lines::new(alloc);
    push_served(alloc, &mut lines, &mut objects, &bytes, mode);
    drop(objects);
    drop(bytes);
    lines
}

/// Adds the messages that objects send to a peer that sends these bytes, and how that ends.
fn push_served(
    alloc: Global,
    lines: &mut Lines,
    objects: &mut Vec<Object>,
    bytes: &[u8],
    mode: Mode,
) {
    let mut to = Tap::new(Vec::new(alloc));
    let ended = serve_each(alloc, &mut Tap::new(bytes), &mut to, objects, mode);
    let written = to.into_inner();
    push_messages(alloc, lines, &written, mode);
    drop(written);
    push_end(alloc, lines, ended);
}

/// The lines of a script that say what a server sends, and how it ends.
pub fn reported(alloc: Global, script: &str) -> Lines {
    let mut lines = Lines::new(alloc);
    for line in script.lines() {
        if is_reported(line) {
            lines.push_line(line);
        }
    }
    lines
}

/// The lines of a script whose bytes are read, and of the messages in them.
pub fn read(alloc: Global, script: &str) -> Lines {
    let mut lines = Lines::new(alloc);
    for line in script.lines() {
        if !is_reported(line) {
            lines.push_line(line);
            let bytes = bytes_in(alloc, line);
            push_messages(alloc, &mut lines, &bytes, Mode::Plain);
            drop(bytes);
        }
    }
    lines
}

/// The bytes in which pieces come, if calls aren't lent.
const PIECE: usize = 7;

/// Objects on a connection, and what they did.
struct Session {
    alloc: Global,
    mode: Mode,
    /// Whether calls are lent to the objects, out of bytes that come at once.
    lends: bool,
    connection: Connection,
    owed: Dispatcher,
    objects: Vec<Object>,
    fault: Option<ServeFault>,
    lines: Lines,
}

// Not derived: who lets one go calls this function, and need not prove the drop of what it holds.
impl Drop for Session {
    fn drop(self) {
        let Session {
            alloc: _,
            mode: _,
            lends: _,
            connection: _,
            owed: _,
            objects: _,
            fault: _,
            lines: _,
        } = self;
    }
}

impl Session {
    /// A session of the objects of a script.
    fn new(alloc: Global, mode: Mode, owed: Dispatcher, lends: bool, script: &str) -> Session {
        Session {
            alloc,
            mode,
            lends,
            connection: Connection::new(alloc, mode, Limits::standard(), Some(0)),
            owed,
            objects: objects_of(alloc, script),
            fault: None,
            lines: Lines::new(alloc),
        }
    }

    /// Plays the lines of a script.
    fn play(&mut self, script: &str) {
        for line in script.lines() {
            if !is_reported(line) {
                self.lines.push_line(line);
                self.turn(line);
            }
        }
    }

    /// Plays a line, if it is an event.
    fn turn(&mut self, line: &str) {
        match line {
            "idle" => self.release_idle(),
            "again" => self.say_again(),
            "end" => self.end(),
            _ => {
                let bytes = bytes_in(self.alloc, line);
                self.come(&bytes);
                drop(bytes);
                self.push_sent();
            }
        }
    }

    /// Bytes come, in pieces, until the connection ended.
    fn come(&mut self, bytes: &[u8]) {
        let piece = if self.lends { usize::MAX } else { PIECE };
        for piece in bytes.chunks(piece) {
            let mut left = piece;
            for _ in 0..piece.len() {
                if left.is_empty() || self.is_over() {
                    break;
                }
                match self.take(left) {
                    Ok(count) => left = left.get(count..).unwrap_or(&[]),
                    Err(fault) => self.fault = Some(fault),
                }
            }
        }
    }

    fn is_over(&self) -> bool {
        self.fault.is_some() || self.connection.fault().is_some()
    }

    /// Takes bytes up to the end of a message, with what it leads to and a round, and says how many.
    fn take(&mut self, bytes: &[u8]) -> Result<usize, ServeFault> {
        let (count, has_ended) = if self.lends {
            self.owed
                .receive(&mut self.connection, &mut self.objects, bytes)?
        } else {
            self.take_owned(bytes)?
        };
        if has_ended {
            let _ = self.round()?;
        }
        Ok(count)
    }

    /// Takes bytes up to the end of a message, whose call isn't lent. Says how many, and whether a message ended.
    fn take_owned(&mut self, bytes: &[u8]) -> Result<(usize, bool), ServeFault> {
        let count = self.connection.receive(bytes)?;
        self.owed.work_off(&mut self.connection, &mut self.objects)?;
        Ok((count, self.connection.held().came == 0))
    }

    fn round(&mut self) -> Result<bool, ServeFault> {
        Ok(self.owed.round(&mut self.connection, &mut self.objects)?)
    }

    /// Releases the imports that nobody holds, and says how many are held.
    fn release_idle(&mut self) {
        if self
            .owed
            .release_idle(&mut self.connection, &self.objects)
            .is_err()
        {
            self.fault = Some(ServeFault::OutOfMemory);
        }
        self.push_sent();
        let held = self.owed.held_imports();
        let text = format!(in self.alloc; "= held {held}\n");
        push_text(&mut self.lines, text.ok());
    }

    /// Says whether an object may go on by itself.
    fn say_again(&mut self) {
        let again = any_has_more(&self.objects);
        let text = format!(in self.alloc; "= again {again}\n");
        push_text(&mut self.lines, text.ok());
    }

    /// The bytes of the peer end, unless the connection ended before.
    fn end(&mut self) {
        let ended = self.end_all();
        self.push_sent();
        push_end(self.alloc, &mut self.lines, ended);
    }

    /// Rounds follow, until one gives nothing that is awaited.
    fn end_all(&mut self) -> Result<Report, ServeFault> {
        if let Some(fault) = self.fault {
            return Err(fault);
        }
        if self.connection.fault().is_none() {
            self.connection.end()?;
            self.poll_all()?;
        }
        Ok(self.report())
    }

    fn poll_all(&mut self) -> Result<(), ServeFault> {
        for _ in 0..u64::MAX {
            if !self.round()? {
                return Ok(());
            }
        }
        Err(ServeFault::OutOfMemory)
    }

    fn report(&mut self) -> Report {
        let tally = self.connection.stats();
        let closed = match self.owed.next() {
            Some(SessionEvent::Closed(reason)) => Some(reason),
            other => {
                drop(other);
                None
            }
        };
        Report {
            messages: tally.messages,
            sent: tally.sent,
            closed,
        }
    }

    /// Adds what goes out.
    fn push_sent(&mut self) {
        let outgoing = self.connection.outgoing();
        push_messages(self.alloc, &mut self.lines, outgoing, self.mode);
        self.connection.wrote(self.connection.outgoing().len());
    }
}

/// The lines of a script, and of what follows each in a session of its objects.
pub fn in_session(alloc: Global, mode: Mode, owed: Dispatcher, lends: bool, script: &str) -> Lines {
    let mut session = Session::new(alloc, mode, owed, lends, script);
    session.play(script);
    let lines = mem::replace(&mut session.lines, Lines::new(alloc));
    drop(session);
    lines
}

/// Adds how a session ended.
fn push_end(alloc: Global, lines: &mut Lines, ended: Result<Report, ServeFault>) {
    let text = match &ended {
        Ok(
            Report {
                messages,
                sent,
                closed: None,
            },
        ) => format!(in alloc; "= messages {messages} sent {sent}\n"),
        Ok(
            Report {
                messages,
                sent,
                closed: Some(reason),
            },
        ) => format!(in alloc; "= messages {messages} sent {sent}, {reason}\n"),
        Err(fault) => format!(in alloc; "= {fault}\n"),
    };
    drop(ended);
    push_text(lines, text.ok());
}

/// Adds the lines of messages.
fn push_messages(alloc: Global, lines: &mut Lines, bytes: &[u8], mode: Mode) {
    let mut from = Tap::new(bytes);
    for _ in 0..bytes.len() {
        match read_message(alloc, &mut from, mode, Limits::standard()) {
            Ok(Some(message)) => {
                lines.push("> ");
                lines.push_message(&message);
                drop(message);
            }
            Ok(None) => return,
            Err(_) => return lines.push(UNREAD),
        }
    }
}

/// All bytes that come in a script.
fn bytes_of(alloc: Global, script: &str) -> Vec<u8> {
    let mut bytes = Vec::new(alloc);
    for line in script.lines() {
        let more = bytes_in(alloc, line);
        let _ = bytes.extend_from_slice(&more);
        drop(more);
    }
    bytes
}

/// The bytes that come by a line: `< DIGITS`, in hexadecimal, or `< MESSAGE`. None come by another line.
fn bytes_in(alloc: Global, line: &str) -> Vec<u8> {
    let digits = line.strip_prefix("< ").unwrap_or("");
    match hex::decode(alloc, digits) {
        Ok(bytes) => bytes,
        Err(_) => written(alloc, line).unwrap_or(Vec::new(alloc)),
    }
}

/// The frame of a message that comes.
fn written(alloc: Global, line: &str) -> Option<Vec<u8>> {
    frame_of(alloc, message_of(event_of(alloc, line)?)?)
}
