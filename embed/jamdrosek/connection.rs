//! A connection as a type of its own, which closes its handle when it is dropped. What it lends lasts until its next call, as the borrow
//! checker sees it. Params and results are plain frames, for any library that reads them.
use super::{Bytes, Fault, Handle, Limits, Spot, done};
use std::slice;

/// A capability as this end names it.
#[repr(C)]
#[derive(Clone, Copy, Default, PartialEq, Eq, Debug)]
pub struct Cap {
    kind: u32,
    number: u32,
    fields: usize,
    path: [u16; 16],
}

/// Whom the answer of a call is for.
#[repr(C)]
#[derive(Clone, Copy, Default, PartialEq, Eq, Debug)]
pub struct Origin {
    is_own: bool,
    number: u32,
}

#[repr(C)]
#[derive(Clone, Copy, Default, PartialEq, Eq, Debug)]
pub struct Method {
    pub interface: u64,
    pub method: u16,
}

#[repr(C)]
#[derive(Default)]
struct Numbers {
    kind: u32,
    object: u32,
    origin: Origin,
    ticket: u64,
    interface: u64,
    method: u16,
    question: u32,
    outcome: u32,
    exception: u32,
    caps: usize,
}

/// What happened.
#[derive(Clone, Copy, PartialEq, Eq, Debug)]
pub enum Event {
    /// Answer this call of an object by its origin, once, now or later.
    Delivered { object: u32, origin: Origin, ticket: u64, method: Method, caps: usize },
    /// Finish the question when none of its paths is needed any more.
    Settled { question: u32, outcome: Outcome },
    /// The peer aborted, with an exception of this type, or it was at fault: Pn. Write what is left, and close.
    Closing { fault: u32, exception: u32 },
}

/// What a question came to: results with a table of so many capabilities, an exception of a type, or nothing.
#[derive(Clone, Copy, PartialEq, Eq, Debug)]
pub enum Outcome {
    Results { caps: usize },
    Exception { kind: u32 },
    Canceled,
}

unsafe extern "C" {
    fn jd_connection_open(connection: &mut Handle, packed: bool, limits: &Limits, has_bootstrap: bool, bootstrap: u32) -> u32;
    fn jd_connection_receive(connection: &mut Handle, piece: *const u8, len: usize, taken: &mut usize) -> u32;
    fn jd_connection_end(connection: &mut Handle) -> u32;
    fn jd_connection_outgoing(connection: &mut Handle, bytes: &mut Bytes) -> u32;
    fn jd_connection_wrote(connection: &mut Handle, count: usize) -> u32;
    fn jd_connection_next(connection: &mut Handle, event: &mut Numbers) -> u32;
    fn jd_connection_content(connection: &mut Handle, bytes: &mut Bytes) -> u32;
    fn jd_connection_cap(connection: &mut Handle, place: usize, cap: &mut Cap) -> u32;
    fn jd_connection_reason(connection: &mut Handle, bytes: &mut Bytes) -> u32;
    fn jd_connection_bootstrap(connection: &mut Handle, question: &mut u32) -> u32;
    fn jd_connection_call(connection: &mut Handle, target: &Cap, method: &Method, params: *const u8, len: usize, caps: *const Cap, caps_len: usize, question: &mut u32) -> u32;
    fn jd_connection_answer(connection: &mut Handle, origin: &Origin, results: *const u8, len: usize, caps: *const Cap, caps_len: usize) -> u32;
    fn jd_connection_fail(connection: &mut Handle, origin: &Origin, kind: u16, reason: *const u8, len: usize) -> u32;
    fn jd_connection_finish(connection: &mut Handle, question: u32) -> u32;
    fn jd_connection_release(connection: &mut Handle, import: u32) -> u32;
    fn jd_connection_promise(connection: &mut Handle, promise: &mut u32) -> u32;
    fn jd_connection_resolve(connection: &mut Handle, promise: u32, value: &Cap) -> u32;
    fn jd_connection_forget(connection: &mut Handle, promise: u32) -> u32;
    fn jd_connection_uses(connection: &mut Handle, object: u32, uses: &mut bool) -> u32;
    fn jd_connection_fault(connection: &mut Handle, at: &mut u64, spot: &mut Spot) -> u32;
    fn jd_connection_close(connection: &mut Handle);
}

impl Cap {
    /// An object of this end.
    pub fn object(number: u32) -> Cap {
        Cap { kind: 1, number, ..Cap::default() }
    }

    /// A promise of this end.
    pub fn promise(number: u32) -> Cap {
        Cap { kind: 2, number, ..Cap::default() }
    }

    /// What a question will give at a path of pointer fields, of which there are 16 at most.
    pub fn pipelined(question: u32, fields: &[u16]) -> Cap {
        let mut path = [0; 16];
        path[..fields.len()].copy_from_slice(fields);
        Cap { kind: 4, number: question, fields: fields.len(), path }
    }

    /// The number of an import, where it is one. It stays until it is released.
    pub fn import(&self) -> Option<u32> {
        (self.kind == 3).then_some(self.number)
    }
}

/// One end of two-party RPC, without its devices.
pub struct Connection {
    handle: Handle,
}

fn plain(code: u32) -> Result<(), Fault> {
    done(code, Spot::default())
}

// SAFETY of each call below: the handle is what an earlier call left, is in this call alone, and slices are there for its time.
impl Connection {
    /// A connection to which nothing came, whose peer's Bootstrap gets this object.
    pub fn new(packed: bool, limits: &Limits, bootstrap: Option<u32>) -> Result<Connection, Fault> {
        let mut handle = Handle { at: std::ptr::null_mut(), is_open: false };
        plain(unsafe { jd_connection_open(&mut handle, packed, limits, bootstrap.is_some(), bootstrap.unwrap_or(0)) })?;
        Ok(Connection { handle })
    }

    /// Takes bytes of the peer up to the end of the next message, and says how many.
    pub fn receive(&mut self, piece: &[u8]) -> Result<usize, Fault> {
        let mut taken = 0;
        plain(unsafe { jd_connection_receive(&mut self.handle, piece.as_ptr(), piece.len(), &mut taken) }).map(|()| taken)
    }

    /// Ends the bytes of the peer, after a message.
    pub fn end(&mut self) -> Result<(), Fault> {
        plain(unsafe { jd_connection_end(&mut self.handle) })
    }

    /// The bytes that are to go out.
    pub fn outgoing(&mut self) -> Result<&[u8], Fault> {
        self.lent(jd_connection_outgoing)
    }

    /// Notes how many of them were written.
    pub fn wrote(&mut self, count: usize) -> Result<(), Fault> {
        plain(unsafe { jd_connection_wrote(&mut self.handle, count) })
    }

    /// What happened first of what wasn't taken.
    pub fn next(&mut self) -> Result<Option<Event>, Fault> {
        let mut n = Numbers::default();
        plain(unsafe { jd_connection_next(&mut self.handle, &mut n) })?;
        let outcome = match n.outcome {
            0 => Outcome::Results { caps: n.caps },
            1 => Outcome::Exception { kind: n.exception },
            _ => Outcome::Canceled,
        };
        let method = Method { interface: n.interface, method: n.method };
        Ok(match n.kind {
            0 => None,
            1 => Some(Event::Delivered { object: n.object, origin: n.origin, ticket: n.ticket, method, caps: n.caps }),
            2 => Some(Event::Settled { question: n.question, outcome }),
            _ => Some(Event::Closing { fault: n.outcome, exception: n.exception }),
        })
    }

    /// The params or the results of the event: a plain frame.
    pub fn content(&mut self) -> Result<&[u8], Fault> {
        self.lent(jd_connection_content)
    }

    /// The reason of the event's exception, or of the peer's Abort.
    pub fn reason(&mut self) -> Result<&[u8], Fault> {
        self.lent(jd_connection_reason)
    }

    /// A capability of the event's table.
    pub fn cap(&mut self, place: usize) -> Result<Cap, Fault> {
        let mut cap = Cap::default();
        plain(unsafe { jd_connection_cap(&mut self.handle, place, &mut cap) }).map(|()| cap)
    }

    /// Asks for the peer's bootstrap capability, and gives the question's number.
    pub fn bootstrap(&mut self) -> Result<u32, Fault> {
        let mut question = 0;
        plain(unsafe { jd_connection_bootstrap(&mut self.handle, &mut question) }).map(|()| question)
    }

    /// Calls a capability with the struct of a plain frame, or null, and gives the question's number.
    pub fn call(&mut self, target: &Cap, method: &Method, params: &[u8], caps: &[Cap]) -> Result<u32, Fault> {
        let mut question = 0;
        let (at, table) = (params.as_ptr(), caps.as_ptr());
        plain(unsafe { jd_connection_call(&mut self.handle, target, method, at, params.len(), table, caps.len(), &mut question) }).map(|()| question)
    }

    /// Answers a call with the struct of a plain frame, or null.
    pub fn answer(&mut self, origin: &Origin, results: &[u8], caps: &[Cap]) -> Result<(), Fault> {
        plain(unsafe { jd_connection_answer(&mut self.handle, origin, results.as_ptr(), results.len(), caps.as_ptr(), caps.len()) })
    }

    /// Answers a call with an exception of this type.
    pub fn fail(&mut self, origin: &Origin, kind: u16, reason: &str) -> Result<(), Fault> {
        plain(unsafe { jd_connection_fail(&mut self.handle, origin, kind, reason.as_ptr(), reason.len()) })
    }

    /// Gives a question up.
    pub fn finish(&mut self, question: u32) -> Result<(), Fault> {
        plain(unsafe { jd_connection_finish(&mut self.handle, question) })
    }

    /// Gives back one hold of an import: each entry of an event's table that is this import is one. The last one has it released.
    pub fn release(&mut self, import: u32) -> Result<(), Fault> {
        plain(unsafe { jd_connection_release(&mut self.handle, import) })
    }

    /// Makes an open promise.
    pub fn promise(&mut self) -> Result<u32, Fault> {
        let mut promise = 0;
        plain(unsafe { jd_connection_promise(&mut self.handle, &mut promise) }).map(|()| promise)
    }

    /// Settles a promise that this end made.
    pub fn resolve(&mut self, promise: u32, value: &Cap) -> Result<(), Fault> {
        plain(unsafe { jd_connection_resolve(&mut self.handle, promise, value) })
    }

    /// Drops a settled promise.
    pub fn forget(&mut self, promise: u32) -> Result<(), Fault> {
        plain(unsafe { jd_connection_forget(&mut self.handle, promise) })
    }

    /// Whether the connection refers to an object of this end. Once it doesn't, the peer has dropped it.
    pub fn uses(&mut self, object: u32) -> Result<bool, Fault> {
        let mut uses = false;
        plain(unsafe { jd_connection_uses(&mut self.handle, object, &mut uses) }).map(|()| uses)
    }

    /// The fault that ended the connection, and how many bytes of messages came before it.
    pub fn fault(&mut self) -> Result<(), (Fault, u64)> {
        let (mut at, mut spot) = (0, Spot::default());
        let code = unsafe { jd_connection_fault(&mut self.handle, &mut at, &mut spot) };
        done(code, spot).map_err(|fault| (fault, at))
    }

    fn lent(&mut self, call: unsafe extern "C" fn(&mut Handle, &mut Bytes) -> u32) -> Result<&[u8], Fault> {
        let mut bytes = Bytes { at: std::ptr::null(), len: 0 };
        plain(unsafe { call(&mut self.handle, &mut bytes) })?;
        // SAFETY: they are lent until the next call, which needs `self` again.
        Ok(unsafe { slice::from_raw_parts(bytes.at, bytes.len) })
    }
}

impl Drop for Connection {
    fn drop(&mut self) {
        unsafe { jd_connection_close(&mut self.handle) }
    }
}
