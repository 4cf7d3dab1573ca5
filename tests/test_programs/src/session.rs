//! A session: bytes and time in, bytes, events and the next deadline out.

mod events;
mod limits;
mod turns;

use crate::frames::bytes_of;
use cp_connection::ConnectionFault;
use cp_dispatch::{Limit, SessionEvent};
use cp_frame::Mode;
use cp_objects::ObjectTable;
use cp_servants::Sample;
use cp_session::{CallingSession, DrivenSession, SessionLimits, SessionOptions, SessionOver};
use cp_vat_machine::Reason;
use cp_words::Limits;
use std::alloc::Global;
use std::process::Abort;

/// A session of samples. All that is done with it is a step of `act`: a call of a session whose objects are of a named type takes seconds
/// to prove, and one whose objects are of a type parameter next to nothing.
struct Trial {
    alloc: Global,
    session: SessionOver<Vec<Sample>>,
}

// Not derived: who lets one go calls this function, and need not prove the drop of its session.
impl Drop for Trial {
    fn drop(self) {
        let Trial {
            alloc: _,
            session: _,
        } = self;
    }
}

/// What is done at a time.
#[derive(Clone, Copy)]
enum Step<'a> {
    Look,
    /// These frames come, and each is taken whole.
    Frames(&'a [&'a str], u64),
    /// These bytes come.
    Bytes(&'a [u8], u64),
    /// What waits to be written are these frames.
    Waits(&'a [&'a str]),
    /// So many bytes go out.
    Wrote(usize, u64),
    /// All that waits goes out.
    Write(u64),
    /// The program asks for the peer's object.
    Bootstrap,
    End(u64),
    /// The peer's bytes end, where they can't.
    Cut(u64),
    Poll(u64),
    Tick(u64),
    Refuse(u64),
}

/// How a session stands after a step.
#[derive(Clone, Copy)]
struct Stand {
    /// How many bytes were taken, or which question was asked: none if that failed.
    given: Option<usize>,
    waits: usize,
    takes_bytes: bool,
    has_more: bool,
    is_draining: bool,
    is_over: bool,
    deadline: Option<u64>,
    kept: u64,
}

/// What a session tells next, without what came with it: so no test but `told` lets an outcome or a reason go.
#[derive(Clone, Copy)]
enum Told {
    Nothing,
    Outcome(u32),
    PeersAbort,
    OwnAbort,
    Fault(ConnectionFault),
    Limit(Limit),
    Restless,
    Ended,
}

impl Trial {
    /// A plain session of these samples that began at this time. The first is the one that its peer may ask for.
    fn new(alloc: Global, objects: Vec<Sample>, limits: SessionLimits, now: u64) -> Trial {
        let options = SessionOptions {
            mode: Mode::Plain,
            messages: Limits::standard(),
            bootstrap: Some(0),
            may_call: true,
            releases_idle: true,
            limits,
        };
        let session = SessionOver::new(alloc, &options, objects, now);
        Trial { alloc, session }
    }

    /// Does a step.
    fn act(&mut self, rt: &impl Abort, step: Step<'_>) -> Stand {
        act(rt, self.alloc, &mut self.session, step)
    }

    /// What is told next.
    fn told(&mut self) -> Told {
        next_told(&mut self.session)
    }
}

fn act<H: ObjectTable>(rt: &impl Abort, alloc: Global, session: &mut SessionOver<H>, step: Step<'_>) -> Stand {
    let mut given = None;
    match step {
        Step::Frames(frames, now) => take(rt, alloc, session, frames, now),
        Step::Bytes(bytes, now) => given = session.receive(bytes, now).ok(),
        Step::Waits(frames) => expect_outgoing(rt, alloc, session, frames),
        Step::Bootstrap => given = Some(session.bootstrap().expect(rt, "a question") as usize),
        other => pass(rt, session, other),
    }
    Stand {
        given,
        waits: session.outgoing().len(),
        takes_bytes: session.takes_bytes(),
        has_more: session.has_more(),
        is_draining: session.is_draining(),
        is_over: session.is_over(),
        deadline: session.deadline(),
        kept: session.kept(),
    }
}

/// Does a step of the driver.
fn pass<H: ObjectTable>(rt: &impl Abort, session: &mut SessionOver<H>, step: Step<'_>) {
    match step {
        Step::Wrote(count, now) => session.wrote(count, now),
        Step::Write(now) => {
            let count = session.outgoing().len();
            session.wrote(count, now);
        }
        Step::End(now) => session.end(now).expect(rt, "an end"),
        Step::Cut(now) => check!(rt; session.end(now).is_err()),
        Step::Poll(now) => session.poll(now).expect(rt, "memory"),
        Step::Tick(now) => session.tick(now),
        Step::Refuse(now) => session.refuse(now),
        _ => {}
    }
}

/// The session takes these frames one after another, each whole, at this time.
fn take<H: ObjectTable>(
    rt: &impl Abort,
    alloc: Global,
    session: &mut SessionOver<H>,
    frames: &[&str],
    now: u64,
) {
    let bytes = bytes_of(rt, alloc, frames);
    let mut left = bytes.as_slice();
    for _ in frames {
        let count = session.receive(left, now).expect(rt, "a message");
        check!(rt; 0 < count && count <= left.len());
        left = &left[count..];
    }
    check!(rt; left.is_empty());
    drop(bytes);
}

/// What waits to be written are these frames.
fn expect_outgoing<H: ObjectTable>(rt: &impl Abort, alloc: Global, session: &SessionOver<H>, frames: &[&str]) {
    let wanted = bytes_of(rt, alloc, frames);
    check!(rt; session.outgoing() == wanted.as_slice());
    drop(wanted);
}

fn next_told<H: ObjectTable>(session: &mut SessionOver<H>) -> Told {
    let event = session.poll_event();
    let told = match &event {
        None => Told::Nothing,
        Some(SessionEvent::Outcome { question, .. }) => Told::Outcome(*question),
        Some(SessionEvent::Closed(Reason::Peer(_))) => Told::PeersAbort,
        Some(SessionEvent::Closed(Reason::Fault(_))) => Told::OwnAbort,
        Some(SessionEvent::Fault(fault)) => Told::Fault(*fault),
        Some(SessionEvent::Limit(limit)) => Told::Limit(*limit),
        Some(SessionEvent::Restless) => Told::Restless,
        Some(SessionEvent::Ended) => Told::Ended,
    };
    drop(event);
    told
}
