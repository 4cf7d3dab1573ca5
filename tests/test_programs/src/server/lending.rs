//! Calls that are lent to their objects out of their frames.

ghost use Rattle.std.specs.Prelude.{◌≡◌, ◌<◌, IfOk, length};
ghost use Rattle.cp_servants.specs.declared.servant.Reply.TheVariants.{Later};

use crate::frames::{AT_ONCE, BOOTSTRAP, LATER, bytes_of};
use cp_connection::Connection;
use cp_fields::PointerReader;
use cp_frame::Mode;
use cp_objects::ObjectTable;
use cp_dispatch::Dispatcher;
use cp_refs::{Caps, Request};
use cp_servants::{Reply, RequestView, Servant, Settled, call_at};
use cp_tree::Whole;
use cp_words::Limits;
use std::alloc::{AllocError, Global};
use std::process::Abort;

/// Counts the calls that it gets, and those of them that were lent, and answers none.
#[derive(Drop)]
struct Counter {
    calls: u64,
    lent: u64,
}

impl Servant for Counter {
    ghost use Rattle.std.specs.Prelude.{◌+◌, ◌%◌, ◌^◌};
    ghost use Rattle.cp_servants.specs.Servant.{any};

    ghost kind = { record any { takes = λ old ticket request reply new. (reply ≡ Later) × (new.calls ≡ (old.calls + 1) % 2 ^ 64) } };

    fn call(&mut self, _ticket: u64, request: Request) -> Result<Reply, AllocError> {
        drop(request);
        self.calls = self.calls.wrapping_add(1);
        Ok(Reply::Later)
    }

    fn call_view(
        &mut self,
        _alloc: Global,
        _ticket: u64,
        _request: RequestView<'_>,
    ) -> Result<Reply, AllocError> {
        self.calls = self.calls.wrapping_add(1);
        self.lent = self.lent.wrapping_add(1);
        Ok(Reply::Later)
    }

    fn poll(&mut self) -> Result<Option<Settled>, AllocError> {
        Ok(None)
    }

    fn has_more(&self) -> bool {
        false
    }
}

/// What a counter replies. That it is later follows from its relation alone.
fn reply_of(
    alloc: Global,
    objects: &mut [Counter],
    place: usize,
    request: Request,
) -> Result<Reply, AllocError>
    requires { place < length objects.old }
    ensures { IfOk result (λ reply. reply ≡ Later) }
{
    let Request {
        interface,
        method,
        content,
        caps,
    } = request;
    let request = RequestView {
        interface,
        method,
        content: PointerReader::of_whole(&content),
        caps,
    };
    let reply = call_at(alloc, objects, place, 0, request)?;
    Ok(reply)
}

/// A call of method 0 of interface 0.
fn request(alloc: Global) -> Request {
    Request {
        interface: 0,
        method: 0,
        content: Whole::null(),
        caps: Caps::new(Vec::new(alloc)),
    }
}

#[test]
fn an_object_does_what_its_kind_says(rt: HostRuntime) {
    let mut counters = [Counter { calls: 0, lent: 0 }, Counter { calls: 1, lent: 0 }];
    let reply = reply_of(rt.alloc(), &mut counters, 1, request(rt.alloc()));
    check!(&rt; matches!(reply, Ok(Reply::Later)));
    drop(reply);
    check!(&rt; counters[0].calls == 0 && counters[1].calls == 2);
}

const FRAMES: &[&str] = &[BOOTSTRAP, AT_ONCE, LATER];

/// A frame comes to a connection with these objects, to which calls are lent or aren't.
fn take<H: ObjectTable>(
    connection: &mut Connection,
    owed: &mut Dispatcher,
    objects: &mut H,
    bytes: &[u8],
    lends: bool,
) -> Option<usize> {
    if lends {
        let (count, _) = owed.receive(connection, objects, bytes).ok()?;
        return Some(count);
    }
    let count = connection.receive(bytes).ok()?;
    owed.work_off(connection, objects).ok()?;
    Some(count)
}

/// A Bootstrap and two calls come for these objects.
fn call<H: ObjectTable>(rt: &impl Abort, alloc: Global, objects: &mut H, lends: bool) {
    let mut connection = Connection::new(alloc, Mode::Plain, Limits::standard(), Some(0));
    let mut owed = Dispatcher::new(alloc);
    for frame in FRAMES {
        let bytes = bytes_of(rt, alloc, &[*frame]);
        let taken = take(&mut connection, &mut owed, objects, &bytes, lends);
        check!(rt; taken == Some(bytes.len()));
        drop(bytes);
    }
    drop(owed);
    drop(connection);
}

/// Each call is lent, out of its frame or out of its tree: its object may look at the params in place.
#[test]
fn a_call_is_lent(rt: HostRuntime) {
    let mut counters = Vec::new(rt.alloc());
    let counter = Counter { calls: 0, lent: 0 };
    counters.push(counter).expect(&rt, "memory");
    for (lends, calls) in [(true, 2), (false, 4)] {
        call(&rt, rt.alloc(), &mut counters, lends);
        expect_counted(&rt, &counters, calls, calls);
    }
    drop(counters);
}

/// The first object has had so many calls, and so many of them were lent.
fn expect_counted(rt: &impl Abort, counters: &[Counter], calls: u64, lent: u64) {
    let first = counters.get(0).expect(rt, "a counter");
    check!(rt; first.calls == calls && first.lent == lent);
}
