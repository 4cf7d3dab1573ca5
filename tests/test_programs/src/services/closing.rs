//! Objects are told their end once, however their connection ends, and may have objects of other sessions woken then.

use crate::frames::{ABORT, BOOTSTRAP, CALL_BOOTSTRAP, STRANGE_FINISH, bytes_of};
use crate::services::ends::waker_in;
use crate::services::notebook::done;
use cp_client::Client;
use cp_frame::Mode;
use cp_objects::{Objects, Context, ServedObject, Waker};
use cp_refs::Outcome;
use cp_servants::{OutgoingCall, Reply, RequestView, Settled};
use cp_session::{DrivenSession, Session, SessionLimits, SessionOptions};
use cp_words::Limits;
use std::alloc::{AllocError, Global};
use std::cell::RefCell;
use std::process::Abort;
use std::rc::Rc;

/// The objects that were told their end, in order.
type Gone = Rc<RefCell<Vec<u32>>>;

/// Makes an object when it is called, and notes its end. Then it has an object of session 9 woken.
#[derive(Drop)]
struct Mortal {
    gone: Gone,
}

/// Notes that an object is gone.
fn note(gone: &Gone, object: u32) -> Result<(), AllocError> {
    match gone.try_borrow_mut() {
        Ok(mut gone) => Ok(gone.push(object)?),
        Err(_) => Ok(()),
    }
}

impl ServedObject for Mortal {
    type Makes = Mortal;

    fn call(
        &mut self,
        _ticket: u64,
        request: RequestView<'_>,
        context: &mut Context<Mortal>,
    ) -> Result<Reply, AllocError> {
        let reply = done(context.alloc(), &request.caps);
        drop(request);
        reply
    }

    fn poll(&mut self, _context: &mut Context<Mortal>) -> Result<Option<Settled>, AllocError> {
        Ok(None)
    }

    fn has_more(&self) -> bool {
        false
    }

    fn next_call(&mut self, _context: &mut Context<Mortal>) -> Result<Option<OutgoingCall>, AllocError> {
        Ok(None)
    }

    fn on_response(
        &mut self,
        _mark: u64,
        outcome: Outcome,
        _context: &mut Context<Mortal>,
    ) -> Result<(), AllocError> {
        drop(outcome);
        Ok(())
    }

    fn on_cancel(&mut self, _ticket: u64, _context: &mut Context<Mortal>) -> Result<(), AllocError> {
        Ok(())
    }

    fn ended(&mut self, context: &mut Context<Mortal>) -> Result<(), AllocError> {
        let object = context.waker().object;
        note(&self.gone, object)?;
        context.wake(Waker { session: 9, object })
    }
}

fn nobody(rt: &impl Abort, alloc: Global) -> Gone {
    Rc::new(alloc, RefCell::new(Vec::new(alloc))).expect(rt, "memory")
}

/// Two objects.
fn mortals(rt: &impl Abort, alloc: Global, gone: &Gone) -> Objects<Mortal> {
    let mut family = Objects::new(alloc);
    for _ in 0..2 {
        let gone = Rc::clone(gone).expect(rt, "memory");
        drop(family.add(Mortal { gone }).expect(rt, "an object"));
    }
    family
}

fn expect_gone(rt: &impl Abort, gone: &Gone, wanted: &[u32]) {
    let is_right = match gone.try_borrow() {
        Ok(gone) => gone.as_slice() == wanted,
        Err(_) => false,
    };
    check!(rt; is_right);
}

/// How a session ends.
#[derive(Clone, Copy)]
enum Way<'a> {
    /// By this frame of its peer's, or by a fault of it.
    Frame(&'a str),
    /// The peer's bytes end after a message.
    End,
    /// They end inside one.
    Cut,
    /// No byte moves in time.
    Silence,
    /// Its host refuses the peer.
    Refusal,
    /// Its stream is gone.
    Close,
}

const WAYS: [Way<'static>; 7] = [
    Way::Frame(ABORT),
    Way::Frame(STRANGE_FINISH),
    Way::End,
    Way::Cut,
    Way::Silence,
    Way::Refusal,
    Way::Close,
];

fn options() -> SessionOptions {
    SessionOptions {
        mode: Mode::Plain,
        messages: Limits::standard(),
        bootstrap: Some(0),
        may_call: true,
        releases_idle: true,
        limits: SessionLimits::standard(),
    }
}

/// Takes all of these bytes, unless the session takes no more.
fn take(session: &mut Session<Mortal>, mut bytes: &[u8], now: u64) {
    for _ in 0..bytes.len() {
        match session.receive(bytes, now) {
            Ok(count) if count > 0 => bytes = &bytes[count..],
            _ => return,
        }
    }
}

/// All that waits goes out.
fn write(session: &mut Session<Mortal>, now: u64) {
    let count = session.outgoing().len();
    session.wrote(count, now);
}

/// Ends a session in this way, at a time at which it meets the limit of silence and not before.
fn end(rt: &impl Abort, alloc: Global, session: &mut Session<Mortal>, way: Way<'_>) {
    let idle = SessionLimits::standard().idle;
    match way {
        Way::Frame(frame) => {
            let bytes = bytes_of(rt, alloc, &[frame]);
            take(session, &bytes, 1);
            drop(bytes);
        }
        Way::End => {
            check!(rt; session.end(1).is_ok());
        }
        Way::Cut => {
            take(session, &[0; 7], 1);
            check!(rt; session.end(1).is_err());
        }
        Way::Silence => session.tick(idle),
        Way::Refusal => session.refuse(1),
        Way::Close => session.close(1),
    }
}

#[test]
fn objects_are_told_their_end_once(rt: HostRuntime) {
    let alloc = rt.alloc();
    for way in WAYS {
        let gone = nobody(&rt, alloc);
        let family = mortals(&rt, alloc, &gone);
        let mut session = Session::new(alloc, &options(), family, 0);
        let bytes = bytes_of(&rt, alloc, &[BOOTSTRAP, CALL_BOOTSTRAP]);
        take(&mut session, &bytes, 0);
        drop(bytes);
        write(&mut session, 0);
        expect_gone(&rt, &gone, &[]);
        check!(&rt; session.next_letter().is_none());
        end(&rt, alloc, &mut session, way);
        expect_gone(&rt, &gone, &[0, 1]);
        check!(&rt; session.objects().len() == 0);
        // What they want then is done.
        for object in [0, 1] {
            let waker = waker_in(session.next_letter()).expect(&rt, "a wake");
            check!(&rt; waker.session == 9 && waker.object == object);
        }
        // Nothing tells them again.
        write(&mut session, 2);
        let _ = session.end(2);
        session.tick(1_000_000_000);
        session.close(1_000_000_000);
        expect_gone(&rt, &gone, &[0, 1]);
        check!(&rt; session.next_letter().is_none() && session.is_over());
        drop(session);
        drop(gone);
    }
}

// While what they owe goes out they are there.
#[test]
fn objects_end_once_all_was_written(rt: HostRuntime) {
    let alloc = rt.alloc();
    let gone = nobody(&rt, alloc);
    let family = mortals(&rt, alloc, &gone);
    let mut session = Session::new(alloc, &options(), family, 0);
    let bytes = bytes_of(&rt, alloc, &[BOOTSTRAP]);
    take(&mut session, &bytes, 0);
    drop(bytes);
    check!(&rt; session.end(1).is_ok());
    expect_gone(&rt, &gone, &[]);
    write(&mut session, 2);
    expect_gone(&rt, &gone, &[0, 1]);
    drop(session);
    drop(gone);
}

#[test]
fn objects_of_a_client_end_with_it(rt: HostRuntime) {
    let alloc = rt.alloc();
    let gone = nobody(&rt, alloc);
    let family = mortals(&rt, alloc, &gone);
    let (from, to, limits) = (&[] as &[u8], Vec::new(alloc), Limits::standard());
    let client = Client::with_objects(alloc, from, to, Mode::Plain, limits, family);
    let (_, to) = client.into_devices();
    drop(to);
    expect_gone(&rt, &gone, &[0, 1]);
    drop(gone);
}
