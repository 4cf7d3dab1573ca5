//! Objects that answer while a client waits.

use crate::frames::{BOOTSTRAP, CALL_BOOTSTRAP, DESK, NEXT_SUM, SUM, bytes_of};
use cp_client::{Client, word_at};
use cp_frame::Mode;
use cp_objects::{Objects, ServedObject, ServantObject};
use cp_refs::{Cap, Outcome, Request};
use cp_servants::{OutgoingCall, Cell, PayloadBuilder, Reply, Servant, Settled};
use cp_vat_machine::Ids;
use cp_words::Limits;
use std::alloc::{AllocError, Global};
use std::io::{Read, Write};
use std::mem;
use std::process::Abort;

/// A call of method 1 of export 0, which gives a Cell's number, under question 0 of the peer.
const GET: &str = "\
    000000000d0000000000000001000100020000000000000000000000030003000000000001000000\
    020000000000a1e5000000000000000008000000010001000c000000000002000000000000000000\
    0000000000000000000000000000000000000000000000000000000000000000";

/// Answers each call as a Cell, or without one with what import 0 answers to it. All objects are of this one type, since each type that a
/// client serves is proved anew to be one.
#[derive(Drop)]
struct Through {
    alloc: Global,
    cell: Option<Cell>,
    /// A call that is to be asked, by its ticket.
    next_call: Option<(u64, Request)>,
    answer: Option<Settled>,
}

impl Through {
    fn new(alloc: Global, cell: Option<Cell>) -> Through {
        Through {
            alloc,
            cell,
            next_call: None,
            answer: None,
        }
    }
}

impl Servant for Through {
    fn call(&mut self, ticket: u64, request: Request) -> Result<Reply, AllocError> {
        if let Some(cell) = &mut self.cell {
            return cell.call(ticket, request);
        }
        drop(mem::replace(&mut self.next_call, Some((ticket, request))));
        Ok(Reply::Later)
    }

    fn poll(&mut self) -> Result<Option<Settled>, AllocError> {
        Ok(self.answer.take())
    }

    fn has_more(&self) -> bool {
        false
    }

    fn next_call(&mut self) -> Result<Option<OutgoingCall>, AllocError> {
        let Some((call_id, request)) = self.next_call.take() else {
            return Ok(None);
        };
        let cap = Cap::Import(0);
        Ok(Some(OutgoingCall { cap, request, call_id }))
    }

    fn on_response(&mut self, call_id: u64, outcome: Outcome) -> Result<(), AllocError> {
        let settled = Settled {
            ticket: call_id,
            outcome,
            gives_up: Ids::new(Vec::new(self.alloc)),
        };
        drop(mem::replace(&mut self.answer, Some(settled)));
        Ok(())
    }
}

/// Calls the peer's object with an object of the client's, and waits for the outcome while that answers. Gives its word.
fn call_with<R: Read + Drop, W: Write + Drop, O: ServedObject<Makes = O>>(
    rt: &impl Abort,
    alloc: Global,
    client: &mut Client<R, W, O>,
    object: O,
) -> Option<u64> {
    let cap = client.export(object).expect(rt, "a capability");
    let cap = cap.into_cap(0).expect(rt, "one of session 0");
    let params = PayloadBuilder::new(alloc).cap(cap).expect(rt, "params");
    let desk = client.bootstrap().expect(rt, "a bootstrap");
    let question = client.call(desk.cap(alloc), params.request(1, 0));
    let question = question.expect(rt, "a call");
    let outcome = client.wait(question).expect(rt, "an outcome");
    let word = word_at(&outcome, 0);
    drop(outcome);
    check!(rt; client.flush().is_ok());
    word
}

/// Serves the peer with an object of the client's, if it has one.
fn serve_with<R: Read + Drop, W: Write + Drop, O: ServedObject<Makes = O>>(
    rt: &impl Abort,
    client: &mut Client<R, W, O>,
    object: Option<O>,
) {
    if let Some(object) = object {
        let cap = client.export(object).expect(rt, "a capability");
        check!(rt; matches!(cap.cap(), Cap::Object(0)));
        drop(cap);
    }
    check!(rt; client.serve().is_ok());
}

/// A peer that sends these frames, and what a client does then that has an object, or none.
#[derive(Clone, Copy)]
struct Trial<'a> {
    frames: &'a [&'a str],
    /// The word that a call with the object gives. Without one the peer is served.
    word: Option<u64>,
    /// How many messages are sent, and how many bytes they have.
    sent: u64,
    written: usize,
    /// What is among these bytes.
    says: &'a [u8],
}

/// A client does what the trial says.
fn expect_used<R: Read + Drop, W: Write + Drop, O: ServedObject<Makes = O>>(
    rt: &impl Abort,
    alloc: Global,
    client: &mut Client<R, W, O>,
    (object, trial): (Option<O>, Trial<'_>),
) {
    let has_object = object.is_some();
    if trial.word.is_some() {
        let object = object.expect(rt, "an object");
        check!(rt; call_with(rt, alloc, client, object) == trial.word);
    } else {
        serve_with(rt, client, object);
    }
    // Once the peer's messages ended the objects are gone.
    let is_served = trial.word.is_none();
    check!(rt; (client.objects().len() > 0) == (has_object && !is_served));
    check!(rt; client.stats().sent == trial.sent);
}

/// A client with this object, or none, which is what its peer gets for its Bootstrap, does what the trial says.
fn expect_trial(rt: &impl Abort, alloc: Global, object: Option<Through>, trial: Trial<'_>) {
    let bytes = bytes_of(rt, alloc, trial.frames);
    let (from, to) = (bytes.as_slice(), Vec::new(alloc));
    let limits = Limits::standard();
    let family = Objects::new(alloc);
    let mut client = Client::with_objects(alloc, from, to, Mode::Plain, limits, family);
    let object = object.map(ServantObject::new);
    expect_used(rt, alloc, &mut client, (object, trial));
    let (left, written) = client.into_devices();
    check!(rt; left.is_empty());
    check!(rt; written.len() == trial.written && holds(&written, trial.says));
    drop(written);
    drop(bytes);
}

/// Whether such bytes are among others.
fn holds(bytes: &[u8], part: &[u8]) -> bool {
    for start in 0..bytes.len() {
        if bytes[start..].starts_with(part) {
            return true;
        }
    }
    false
}

/// A Cell.
fn cell(alloc: Global) -> Option<Through> {
    Some(Through::new(alloc, Some(Cell::new(alloc))))
}

#[test]
fn objects_answer_while_a_client_waits(rt: HostRuntime) {
    let cell = cell(rt.alloc());
    let trial = Trial {
        frames: &[DESK, GET, SUM],
        word: Some(41),
        sent: 3,
        // A Bootstrap has 48 bytes, the call 160, the Return 80.
        written: 288,
        says: b"",
    };
    expect_trial(&rt, rt.alloc(), cell, trial);
}

#[test]
fn objects_ask_what_they_were_given(rt: HostRuntime) {
    let through = Through::new(rt.alloc(), None);
    let trial = Trial {
        frames: &[DESK, GET, NEXT_SUM, SUM],
        word: Some(41),
        // A Bootstrap, the call, the object's own call and its Finish, and the Return.
        sent: 5,
        written: 440,
        says: b"",
    };
    expect_trial(&rt, rt.alloc(), Some(through), trial);
}

#[test]
fn a_client_has_a_bootstrap_object(rt: HostRuntime) {
    let cell = cell(rt.alloc());
    let trial = Trial {
        frames: &[BOOTSTRAP, CALL_BOOTSTRAP],
        word: None,
        sent: 2,
        // The Return to the Bootstrap has 96 bytes, the other 80.
        written: 176,
        says: b"",
    };
    expect_trial(&rt, rt.alloc(), cell, trial);
}

// Each call is answered, also where there is no such object, and that is written before more is read.
#[test]
fn calls_of_nobody_fail(rt: HostRuntime) {
    let trial = Trial {
        frames: &[BOOTSTRAP, CALL_BOOTSTRAP],
        word: None,
        sent: 2,
        written: 192,
        says: b"no such object",
    };
    expect_trial(&rt, rt.alloc(), None, trial);
}
