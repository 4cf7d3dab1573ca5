//! Two ends of a connection as C drives them: capabilities and events are numbers, and contents are frames.

use crate::frames::bytes_of;
use c_handles::{CallFault, CapNumbers, ConnectionState, EventNumbers, OriginNumbers};
use cp_frame::Mode;
use cp_vat_machine::VatFault;
use cp_words::Limits;
use std::alloc::Global;
use std::process::Abort;

/// A struct with the number 41.
const NUMBER: &str = "000000000200000000000000010000002900000000000000";

/// A struct with capability 0.
const CAP: &str = "000000000200000000000000000001000300000000000000";

/// What a peer calls, before it is there.
const BOOTSTRAP: CapNumbers = CapNumbers {
    kind: 4,
    ..CapNumbers::NONE
};

/// An object of this end.
const OBJECT: CapNumbers = CapNumbers {
    kind: 1,
    number: 5,
    ..CapNumbers::NONE
};

/// Question 1 of the peer's.
const CALL: OriginNumbers = OriginNumbers {
    is_own: false,
    number: 1,
};

/// What the peer sent as its own.
const IMPORT: CapNumbers = CapNumbers {
    kind: 3,
    ..CapNumbers::NONE
};

/// The results of the Bootstrap.
const SETTLED: EventNumbers = EventNumbers {
    kind: 2,
    caps: 1,
    ..EventNumbers::NOTHING
};

/// The results of the call.
const RESULTS: EventNumbers = EventNumbers {
    kind: 2,
    question: 1,
    ..EventNumbers::NOTHING
};

/// The call failed, since the method isn't implemented.
const FAILED: EventNumbers = EventNumbers {
    outcome: 1,
    exception: 3,
    ..RESULTS
};

/// The end that calls, and the end whose object 7 is called.
fn ends(alloc: Global) -> (ConnectionState, ConnectionState) {
    let limits = Limits::standard();
    (
        ConnectionState::new(alloc, Mode::Packed, limits, None),
        ConnectionState::new(alloc, Mode::Packed, limits, Some(7)),
    )
}

/// Gives one end what the other sent.
fn pass(rt: &impl Abort, from: &mut ConnectionState, to: &mut ConnectionState) {
    let sent = from.connection.outgoing();
    let count = sent.len();
    let mut left = sent;
    for _ in 0..8 {
        let taken = to.receive(left).expect(rt, "bytes of an end");
        left = left.get(taken..).unwrap_or(&[]);
    }
    check!(rt; left.is_empty());
    from.connection.wrote(count);
}

/// The event that an end tells next is this one.
fn expect_event(rt: &impl Abort, end: &mut ConnectionState, wanted: EventNumbers) {
    let event = end.next();
    check!(rt; event == Ok(wanted));
}

/// The content of the event is this frame.
fn expect_content(rt: &impl Abort, end: &mut ConnectionState, frame: &[u8]) {
    let lent = end.content();
    check!(rt; lent == Ok(()));
    check!(rt; end.lent.as_slice() == frame);
}

#[test]
fn a_call_crosses_as_numbers_and_frames(rt: HostRuntime) {
    let alloc = rt.alloc();
    let (mut client, mut server) = ends(alloc);
    let frames = (
        bytes_of(&rt, alloc, &[CAP]),
        bytes_of(&rt, alloc, &[NUMBER]),
    );
    let store = client.bootstrap();
    check!(&rt; store == Ok(0));
    let asked = client.call(&BOOTSTRAP, (9, 3), &frames.0, &[OBJECT]);
    check!(&rt; asked == Ok(1));
    pass(&rt, &mut client, &mut server);
    let delivered = EventNumbers {
        kind: 1,
        object: 7,
        origin: CALL,
        interface: 9,
        method: 3,
        caps: 1,
        ..EventNumbers::NOTHING
    };
    expect_event(&rt, &mut server, delivered);
    expect_content(&rt, &mut server, &frames.0);
    let cap = server.cap(0);
    check!(&rt; cap == Ok(IMPORT));
    let answered = server.answer(CALL.origin(), &frames.1, &[]);
    check!(&rt; answered == Ok(()));
    pass(&rt, &mut server, &mut client);
    expect_event(&rt, &mut client, SETTLED);
    let cap = client.cap(0);
    check!(&rt; cap == Ok(IMPORT));
    expect_event(&rt, &mut client, RESULTS);
    expect_content(&rt, &mut client, &frames.1);
    let done = (client.finish(1), client.finish(0), client.release(0));
    check!(&rt; done == (Ok(()), Ok(()), Ok(())));
    drop(frames);
    drop(server);
    drop(client);
}

#[test]
fn each_result_that_names_an_import_is_one_hold(rt: HostRuntime) {
    let alloc = rt.alloc();
    let (mut client, mut server) = ends(alloc);
    let asked = (client.bootstrap(), client.bootstrap());
    check!(&rt; asked == (Ok(0), Ok(1)));
    pass(&rt, &mut client, &mut server);
    pass(&rt, &mut server, &mut client);
    expect_event(&rt, &mut client, SETTLED);
    expect_event(&rt, &mut client, EventNumbers { caps: 1, ..RESULTS });
    let finished = (client.finish(0), client.finish(1));
    check!(&rt; finished == (Ok(()), Ok(())));
    pass(&rt, &mut client, &mut server);
    let first = client.release(0);
    check!(&rt; first == Ok(()));
    // The other result holds it still.
    check!(&rt; client.connection.outgoing().is_empty());
    let called = client.call(&IMPORT, (9, 3), &[], &[]);
    check!(&rt; called.is_ok());
    let second = client.release(0);
    check!(&rt; second == Ok(()));
    check!(&rt; !client.connection.outgoing().is_empty());
    let third = client.release(0);
    check!(&rt; third == Err(CallFault::Vat(VatFault::UnknownImport)));
    drop(server);
    drop(client);
}

#[test]
fn an_exception_crosses_with_its_reason(rt: HostRuntime) {
    let alloc = rt.alloc();
    let (mut client, mut server) = ends(alloc);
    let asked = (
        client.bootstrap(),
        client.call(&BOOTSTRAP, (9, 3), b"", &[]),
    );
    check!(&rt; asked == (Ok(0), Ok(1)));
    pass(&rt, &mut client, &mut server);
    let refused = server.fail(CALL.origin(), 3, b"\xff");
    check!(&rt; refused == Err(CallFault::Argument));
    let failed = server.fail(CALL.origin(), 3, b"no");
    check!(&rt; failed == Ok(()));
    pass(&rt, &mut server, &mut client);
    expect_event(&rt, &mut client, SETTLED);
    let unsaid = client.reason();
    check!(&rt; unsaid == Err(CallFault::NoContent));
    expect_event(&rt, &mut client, FAILED);
    let said = client.reason();
    check!(&rt; said == Ok(()));
    check!(&rt; client.lent.as_slice() == b"no".as_slice());
    let missing = client.content();
    check!(&rt; missing == Err(CallFault::NoContent));
    drop(server);
    drop(client);
}

#[test]
fn a_promise_is_settled_by_numbers(rt: HostRuntime) {
    let (mut end, other) = ends(rt.alloc());
    drop(other);
    let promise = end.promise();
    check!(&rt; promise == Ok(0));
    let unnamed = end.resolve(
        0,
        &CapNumbers {
            kind: 6,
            ..CapNumbers::NONE
        },
    );
    check!(&rt; unnamed == Err(CallFault::Argument));
    let settled = (end.resolve(0, &OBJECT), end.forget(0), end.end());
    check!(&rt; settled == (Ok(()), Ok(()), Ok(())));
    let strange = end.finish(9);
    check!(&rt; strange == Err(CallFault::Vat(VatFault::UnknownQuestion)));
    let junk = end.call(&CapNumbers::NONE, (9, 3), b"no frame", &[]);
    check!(&rt; junk.is_err());
    drop(end);
}
