//! Once a call of a method with `-> stream` failed, all later calls of its object fail.

use crate::services::ends::{Ends, Got, Step, With};
use crate::services::notebook::NOTES;
use cp_interfaces::{Dispatch, MethodCall, MethodFault, ObjectDispatch, ServiceObject, refuse, reply};
use cp_objects::{Context, Objects};
use cp_servants::{PayloadBuilder, Reply, outcome_of};
use cp_vat_machine::Ids;
use std::alloc::AllocError;
use std::process::Abort;

/// The method with `-> stream`: it takes two calls.
const SEND: u16 = 0;

/// How many calls of it were taken.
const COUNT: u16 = 1;

/// No such method.
const OTHER: u16 = 2;

#[derive(Drop)]
struct Sink {
    taken: u64,
}

impl ServiceObject for Sink {
    type Makes = ObjectDispatch<Sink, SinkClient>;

    fn has_more(&self) -> bool {
        false
    }
}

struct SinkClient;

impl Dispatch<Sink> for SinkClient {
    ghost use Rattle.std.specs.Prelude.{Unit};
    ghost use Rattle.cp_interfaces.specs.Streams.{no_streams, with_stream};

    ghost takes = { λ old call reply new. Unit {0} };

    ghost streams = { with_stream 0xe5a1000000000007 0 no_streams };

    fn dispatch(
        object: &mut Sink,
        call: &MethodCall<'_>,
        context: &mut Context<ObjectDispatch<Sink, SinkClient>>,
    ) -> Result<Reply, AllocError> {
        let alloc = context.alloc();
        match call.request.method {
            SEND if object.taken == 2 => return refuse(alloc, call, MethodFault::TooLong),
            SEND => object.taken += 1,
            COUNT => {}
            _ => return refuse(alloc, call, MethodFault::Unimplemented),
        }
        let outcome = outcome_of(alloc, PayloadBuilder::new(alloc).word(object.taken))?;
        reply(alloc, call, outcome, &Ids::new(Vec::new(alloc)))
    }

    fn is_stream(interface: u64, method: u16) -> bool {
        interface == NOTES && method == SEND
    }
}

type Served = Objects<ObjectDispatch<Sink, SinkClient>>;

/// What a call of object 0 comes to.
fn call(rt: &impl Abort, ends: &mut Ends<Served, Served>, method: u16) -> Got {
    let asked = ends.act(rt, Step::Call(0, method, With::Word(0))).asked;
    let (question, got) = ends.act(rt, Step::Take).got.expect(rt, "an outcome");
    check!(rt; asked == Some(question));
    got
}

#[test]
fn all_fail_after_one_that_failed(rt: HostRuntime) {
    let alloc = rt.alloc();
    let mut objects = Objects::new(alloc);
    let sink = ObjectDispatch::new(Sink { taken: 0 });
    drop(objects.add(sink).expect(&rt, "an object"));
    let mut ends = Ends::new(alloc, Objects::new(alloc), objects, 1);
    ends.act(&rt, Step::Bootstrap);
    check!(&rt; ends.act(&rt, Step::Take).got.is_some());
    // A call that fails and isn't of the stream breaks nothing.
    check!(&rt; call(&rt, &mut ends, OTHER).is_failed);
    check!(&rt; !call(&rt, &mut ends, SEND).is_failed);
    check!(&rt; !call(&rt, &mut ends, SEND).is_failed);
    check!(&rt; call(&rt, &mut ends, COUNT).word == 2);
    check!(&rt; call(&rt, &mut ends, SEND).is_failed);
    check!(&rt; call(&rt, &mut ends, COUNT).is_failed);
    check!(&rt; call(&rt, &mut ends, SEND).is_failed);
    drop(ends);
}
