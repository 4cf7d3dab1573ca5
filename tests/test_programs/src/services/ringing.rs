//! An object of a client wakes another of it, and one of another session.

use crate::devices::{Device, Fails};
use crate::frames::{BOOTSTRAP, CALL_BOOTSTRAP, bytes_of};
use crate::services::ends::waker_in;
use crate::services::notebook::done;
use cp_client::{Client, ClientFault};
use cp_frame::Mode;
use cp_objects::{Objects, Context, ServedObject, Waker};
use cp_refs::{Caps, Outcome};
use cp_servants::{OutgoingCall, Reply, RequestView, Settled};
use cp_words::Limits;
use std::alloc::{AllocError, Global};
use std::cell::RefCell;
use std::io::{Read, Write};
use std::process::Abort;
use std::rc::Rc;

/// The objects that were polled, in order.
type Polled = Rc<RefCell<Vec<u32>>>;

/// Wakes object 1 of each of two sessions when it is called.
#[derive(Drop)]
struct Bell {
    polled: Polled,
}

/// Both are woken.
fn rung(context: &mut Context<Bell>, caps: &Caps) -> Result<Reply, AllocError> {
    for session in [7, 8] {
        context.wake(Waker { session, object: 1 })?;
    }
    done(context.alloc(), caps)
}

impl ServedObject for Bell {
    type Makes = Bell;

    fn call(
        &mut self,
        _ticket: u64,
        request: RequestView<'_>,
        context: &mut Context<Bell>,
    ) -> Result<Reply, AllocError> {
        let reply = rung(context, &request.caps);
        drop(request);
        reply
    }

    fn poll(&mut self, context: &mut Context<Bell>) -> Result<Option<Settled>, AllocError> {
        if let Ok(mut polled) = self.polled.try_borrow_mut() {
            let pushed = polled.push(context.waker().object);
            drop(polled);
            pushed?;
        }
        Ok(None)
    }

    fn has_more(&self) -> bool {
        false
    }

    fn next_call(&mut self, _context: &mut Context<Bell>) -> Result<Option<OutgoingCall>, AllocError> {
        Ok(None)
    }

    fn on_response(
        &mut self,
        _mark: u64,
        outcome: Outcome,
        _context: &mut Context<Bell>,
    ) -> Result<(), AllocError> {
        drop(outcome);
        Ok(())
    }

    fn on_cancel(&mut self, _ticket: u64, _context: &mut Context<Bell>) -> Result<(), AllocError> {
        Ok(())
    }
}

/// The two bells of session 7.
fn bells(rt: &impl Abort, alloc: Global, polled: &Polled) -> Objects<Bell> {
    let mut family = Objects::new(alloc);
    family.set_session(7);
    for _ in 0..2 {
        let polled = Rc::clone(polled).expect(rt, "memory");
        drop(family.add(Bell { polled }).expect(rt, "an object"));
    }
    family
}

fn expect_polled(rt: &impl Abort, polled: &Polled, wanted: &[u32]) {
    let is_right = match polled.try_borrow() {
        Ok(polled) => polled.as_slice() == wanted,
        Err(_) => false,
    };
    check!(rt; is_right);
}

/// A client is served, with what was polled then; then its program wakes an object, with what was polled after that.
#[derive(Clone, Copy)]
struct Trial<'a> {
    frames: &'a [&'a str],
    /// The call of the reader that fails, in place of the end of its bytes.
    fails: u64,
    /// How many messages the client sent.
    sent: u64,
    served: &'a [u32],
    woken: &'a [u32],
}

/// Both bells are polled after the Bootstrap, since they are new. After the call object 1 is polled since it was woken.
const CALLED: Trial<'static> = Trial {
    frames: &[BOOTSTRAP, CALL_BOOTSTRAP],
    fails: 2,
    sent: 2,
    served: &[0, 1, 0, 1],
    woken: &[0, 1, 0, 1, 1],
};

/// Nobody calls.
const UNCALLED: Trial<'static> = Trial {
    frames: &[],
    fails: 1,
    sent: 0,
    served: &[0, 1],
    woken: &[0, 1, 1],
};

/// A client does what a trial says: its reader fails, so that its objects are there yet. If the peer called, the object of another session is handed on.
fn expect_trial<R: Read + Drop, W: Write + Drop, O: ServedObject<Makes = O>>(
    rt: &impl Abort,
    client: &mut Client<R, W, O>,
    polled: &Polled,
    trial: Trial<'_>,
) {
    check!(rt; matches!(client.serve(), Err(ClientFault::Device(_))));
    check!(rt; client.stats().sent == trial.sent);
    expect_polled(rt, polled, trial.served);
    if trial.sent > 0 {
        let waker = waker_in(client.next_letter()).expect(rt, "a wake");
        check!(rt; waker.session == 8 && waker.object == 1);
    }
    check!(rt; client.next_letter().is_none());
    // There is no object 5.
    check!(rt; client.wake(1).is_ok() && client.wake(5).is_ok());
    check!(rt; client.serve().is_ok());
    expect_polled(rt, polled, trial.woken);
}

#[test]
fn objects_of_a_client_are_woken(rt: HostRuntime) {
    let alloc = rt.alloc();
    for trial in [CALLED, UNCALLED] {
        let polled: Polled = Rc::new(alloc, RefCell::new(Vec::new(alloc))).expect(&rt, "memory");
        let family = bells(&rt, alloc, &polled);
        let bytes = bytes_of(&rt, alloc, trial.frames);
        let (to, limits) = (Vec::new(alloc), Limits::standard());
        let from = Device::new(bytes.as_slice(), Fails::At(trial.fails), usize::MAX);
        let mut client = Client::with_objects(alloc, from, to, Mode::Plain, limits, family);
        expect_trial(&rt, &mut client, &polled, trial);
        drop(client);
        drop(bytes);
        drop(polled);
    }
}
