//! References of one session that objects of another one use.

use crate::services::ends::{Ends, Step, With};
use crate::services::notebook::{NOTES, done};
use cp_objects::{
    Context, Objects, ReferenceError, Resolver, ServantObject, ServedObject, SessionCall, SessionCap,
};
use cp_refs::{Caps, Outcome};
use cp_servants::{
    Cell, OutgoingCall, PayloadBuilder, Reply, RequestView, Settled, named_imports, outcome_of,
};
use std::alloc::{AllocError, Global};
use std::cell::RefCell;
use std::mem;
use std::process::Abort;
use std::rc::Rc;

/// Methods: to store what is named, and a promise; and to use these. The word says which uses were refused, a bit each.
const STORE: u16 = 0;

const USE: u16 = 1;

/// What the objects of two sessions share.
type Shared = Rc<RefCell<Stored>>;

#[derive(Drop)]
struct Stored {
    cap: Option<SessionCap>,
    resolver: Option<Resolver>,
}

#[derive(Drop)]
struct Sharer {
    stored: Shared,
}

/// Whether a use was refused.
fn is_refused(used: Result<(), ReferenceError>) -> Result<bool, AllocError> {
    match used {
        Ok(()) => Ok(false),
        Err(ReferenceError::OtherSession) => Ok(true),
        Err(ReferenceError::OutOfMemory) => Err(AllocError),
    }
}

/// A call of a capability.
fn call_of(alloc: Global, cap: &SessionCap) -> Result<SessionCall, AllocError> {
    let Ok(params) = PayloadBuilder::new(alloc).word(1) else {
        return Err(AllocError);
    };
    SessionCall::new(alloc, cap, params.request(NOTES, 0), 1)
}

impl Sharer {
    fn store(&self, caps: &Caps, context: &mut Context<Sharer>) -> Result<(), AllocError> {
        let Some(first) = caps.caps().first() else {
            return Ok(());
        };
        let cap = context.own(first.copy(context.alloc())?);
        let resolver = context.promise()?;
        let Ok(mut stored) = self.stored.try_borrow_mut() else {
            return Err(AllocError);
        };
        drop(mem::replace(&mut stored.cap, Some(cap)));
        drop(mem::replace(&mut stored.resolver, Some(resolver)));
        drop(stored);
        Ok(())
    }

    fn refusals(&self, context: &mut Context<Sharer>) -> Result<u64, AllocError> {
        let Ok(mut stored) = self.stored.try_borrow_mut() else {
            return Err(AllocError);
        };
        let (cap, resolver) = (stored.cap.take(), stored.resolver.take());
        drop(stored);
        let (Some(cap), Some(resolver)) = (cap, resolver) else {
            return Ok(0);
        };
        let this = context.this_cap();
        let call = call_of(context.alloc(), &cap)?;
        let refused = [
            is_refused(context.send(call))?,
            is_refused(context.keep(&cap))?,
            is_refused(context.keep_for(&this, &cap))?,
            is_refused(context.give_up(&cap))?,
            is_refused(context.resolve(resolver, this))?,
            cap.into_cap(context.session()).is_err(),
        ];
        let mut word = 0;
        for (place, was) in refused.iter().enumerate() {
            word |= (*was as u64) << place;
        }
        Ok(word)
    }
}

impl ServedObject for Sharer {
    type Makes = Sharer;

    fn call(
        &mut self,
        _ticket: u64,
        request: RequestView<'_>,
        context: &mut Context<Sharer>,
    ) -> Result<Reply, AllocError> {
        let (alloc, none) = (context.alloc(), Caps::new(Vec::new(context.alloc())));
        if request.method == STORE {
            self.store(&request.caps, context)?;
            return done(alloc, &none);
        }
        let word = self.refusals(context)?;
        Ok(Reply::Now {
            outcome: outcome_of(alloc, PayloadBuilder::new(alloc).word(word))?,
            gives_up: named_imports(alloc, &none)?,
        })
    }

    fn poll(&mut self, _context: &mut Context<Sharer>) -> Result<Option<Settled>, AllocError> {
        Ok(None)
    }

    fn has_more(&self) -> bool {
        false
    }

    fn next_call(
        &mut self,
        _context: &mut Context<Sharer>,
    ) -> Result<Option<OutgoingCall>, AllocError> {
        Ok(None)
    }

    fn on_response(
        &mut self,
        _call_id: u64,
        _outcome: Outcome,
        _context: &mut Context<Sharer>,
    ) -> Result<(), AllocError> {
        Ok(())
    }

    fn on_cancel(&mut self, _ticket: u64, _context: &mut Context<Sharer>) -> Result<(), AllocError> {
        Ok(())
    }
}

/// A client with an object, and a server whose session has this number.
struct Sharers {
    ends: Ends<Objects<ServantObject<Cell>>, Objects<Sharer>>,
}

// Not derived: who lets one go calls this function, and need not prove the drop of its sessions.
impl Drop for Sharers {
    fn drop(self) {
        let Sharers { ends: _ } = self;
    }
}

impl Sharers {
    fn new(rt: &impl Abort, alloc: Global, stored: &Shared, session: u64) -> Sharers {
        let stored = Rc::clone(stored).expect(rt, "memory");
        let mut sharers = Objects::new(alloc);
        drop(sharers.add(Sharer { stored }).expect(rt, "an object"));
        let mut cells = Objects::new(alloc);
        let cell = ServantObject::new(Cell::new(alloc));
        drop(cells.add(cell).expect(rt, "an object"));
        let mut made = Sharers {
            ends: Ends::new(alloc, cells, sharers, session),
        };
        made.ends.act(rt, Step::Bootstrap);
        made.ends.act(rt, Step::Take);
        made
    }

    /// Calls a method of the server's object.
    fn call(&mut self, rt: &impl Abort, method: u16, with: With) -> u64 {
        self.ends.act(rt, Step::Call(0, method, with));
        let got = self.ends.act(rt, Step::Take).got.expect(rt, "an outcome");
        check!(rt; !got.1.is_failed);
        got.1.word
    }
}

/// Nothing is stored.
fn nothing(rt: &impl Abort, alloc: Global) -> Shared {
    let stored = Stored {
        cap: None,
        resolver: None,
    };
    Rc::new(alloc, RefCell::new(stored)).expect(rt, "memory")
}

#[test]
fn a_reference_of_another_session_is_refused(rt: HostRuntime) {
    let stored = nothing(&rt, rt.alloc());
    let mut one = Sharers::new(&rt, rt.alloc(), &stored, 1);
    let mut two = Sharers::new(&rt, rt.alloc(), &stored, 2);
    one.call(&rt, STORE, With::Object(0));
    check!(&rt; two.call(&rt, USE, With::Word(0)) == 0b111111);
    one.call(&rt, STORE, With::Object(0));
    check!(&rt; one.call(&rt, USE, With::Word(0)) == 0);
    drop(one);
    drop(two);
    drop(stored);
}
