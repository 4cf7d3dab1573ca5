//! A client over bytes in memory.

use crate::fill::{Told, fill};
use crate::pieces::Pieces;
use crate::serve::mode_of;
use cp_client::{Client, ClientFault, Question};
use cp_lines::call_of;
use cp_refs::{Cap, Request};
use cp_scripts::Lines;
use cp_words::Limits;
use std::alloc::{AllocError, Global};
use std::fmt::Display;

/// Plays a script on a client whose peer sends these bytes, a piece of at most `first` and then pieces of at most `piece` (0
/// counts as 1). The lines of a script are `bootstrap`, `call TARGET i=H m=N {T caps[..]}`, `wait N` and `finish N` of
/// question N, `release N` of import N, and `serve`, which takes messages until they end. Each gives a line: the question, its
/// outcome, `done`, or why it is refused; and a last line says what was taken and sent in all, and why the vat closed. Puts
/// what fits of these lines into `lines`, and of what the client wrote into `buffer`, and says how many bytes each has. There
/// are no lines where memory runs out, and nothing where the script isn't UTF-8.
#[unsafe(no_mangle)]
pub extern "C" fn cpb_call(
    alloc: Global,
    script: &[u8],
    bytes: &[u8],
    packed: bool,
    first: usize,
    piece: usize,
    lines: &mut [u8],
    buffer: &mut [u8],
) -> Told {
    let Ok(script) = str::from_utf8(script) else {
        return Told {
            lines: 0,
            written: 0,
        };
    };
    let mut peer = MemoryClient::new(alloc, bytes, packed, first, piece);
    for line in script.lines() {
        peer.play(line);
    }
    peer.end(lines, buffer)
}

/// A client of a peer in memory, and what each line gave.
struct MemoryClient<'a> {
    alloc: Global,
    client: Client<Pieces<'a>, Vec<u8>>,
    told: Lines,
}

impl<'a> MemoryClient<'a> {
    fn new(
        alloc: Global,
        left: &'a [u8],
        packed: bool,
        first: usize,
        piece: usize,
    ) -> MemoryClient<'a> {
        let from = Pieces { left, first, piece };
        let (to, mode) = (Vec::new(alloc), mode_of(packed));
        MemoryClient {
            alloc,
            client: Client::new(alloc, from, to, mode, Limits::standard()),
            told: Lines::new(alloc),
        }
    }

    /// Plays a line, and adds what it gave.
    fn play(&mut self, line: &str) {
        match self.act(line) {
            Some(Ok(())) => {}
            Some(Err(fault)) => self.tell("refused: ", &fault),
            None => self.told.push_line("unread"),
        }
    }

    /// Does what a line says. `None`: it isn't one.
    fn act(&mut self, line: &str) -> Option<Result<(), ClientFault>> {
        let (word, rest) = line.split_once(' ').unwrap_or((line, ""));
        Some(match word {
            "bootstrap" => {
                let asked = self.client.bootstrap();
                self.asked(asked)
            }
            "call" => {
                let (cap, request) = call_in(self.alloc, rest)?;
                let asked = self.client.call(cap, request);
                self.asked(asked)
            }
            "wait" => self.wait(rest.parse().ok()?),
            "finish" => {
                let number = rest.parse().ok()?;
                let done = self.client.finish(Question { number });
                self.done(done)
            }
            "release" => {
                let done = self.client.release(rest.parse().ok()?);
                self.done(done)
            }
            "serve" => {
                let done = self.client.serve();
                self.done(done)
            }
            _ => return None,
        })
    }

    /// Adds a question's number.
    fn asked(&mut self, asked: Result<Question, ClientFault>) -> Result<(), ClientFault> {
        let question = asked?;
        self.tell("question:", &question.number);
        Ok(())
    }

    /// Notes that something is done.
    fn done(&mut self, done: Result<(), ClientFault>) -> Result<(), ClientFault> {
        done?;
        self.told.push_line("done");
        Ok(())
    }

    /// Waits for an outcome, and adds it.
    fn wait(&mut self, number: u32) -> Result<(), ClientFault> {
        let outcome = self.client.wait(Question { number })?;
        self.told.push_outcome_of(number, &outcome);
        Ok(())
    }

    /// Adds a line of two parts.
    fn tell<T: Display>(&mut self, name: &str, what: &T) {
        let line = format!(in self.alloc; "{name}{what}");
        self.push(line);
    }

    /// Adds a line, if there was memory for it.
    fn push(&mut self, line: Result<String, AllocError>) {
        match line {
            Ok(line) => self.told.push_line(&line),
            Err(_) => self.told.push_line("out of memory"),
        }
    }

    /// Writes what is still to be sent, and gives out the lines and what was written.
    fn end(mut self, lines: &mut [u8], buffer: &mut [u8]) -> Told {
        let flushed = self.client.flush();
        if let Err(fault) = flushed {
            self.tell("refused: ", &fault);
        }
        self.tell_all();
        let MemoryClient {
            alloc: _,
            client,
            told,
        } = self;
        let (_, written) = client.into_devices();
        let text = told.text().unwrap_or("");
        fill(lines, text.as_bytes());
        fill(buffer, &written);
        Told {
            lines: text.len(),
            written: written.len(),
        }
    }

    /// Adds what was taken and sent in all, and why the vat closed.
    fn tell_all(&mut self) {
        let tally = self.client.stats();
        let (bytes, messages, sent) = (tally.bytes, tally.messages, tally.sent);
        let line = match self.client.closed() {
            Some(reason) => format!(in self.alloc;
                "took {bytes} bytes, {messages} messages, sent {sent}, closed: {reason}"
            ),
            None => format!(in self.alloc; "took {bytes} bytes, {messages} messages, sent {sent}"),
        };
        self.push(line);
    }
}

/// The call of a line: what it calls, and the request.
fn call_in(alloc: Global, line: &str) -> Option<(Cap, Request)> {
    let call = call_of(alloc, line).ok()?;
    let (content, caps) = call.params?;
    let request = Request {
        interface: call.interface,
        method: call.method,
        content,
        caps,
    };
    Some((call.target?, request))
}
