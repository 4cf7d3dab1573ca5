//! How much memory contents are counted for.

use crate::frames::{ADD_FIVE, BOOTSTRAP, LATER, bytes_of};
use cp_connection::{Connection, ConnectionEvent};
use cp_frame::Mode;
use cp_refs::{Cap, Caps, Origin, Outcome};
use cp_tree::{Body, Tree, Whole};
use cp_words::Limits;
use std::alloc::Global;
use std::process::Abort;

/// Results that are a struct with the object 1.
fn object_results(rt: &impl Abort, alloc: Global) -> Outcome {
    let content = Tree::Struct(Body {
        words: Vec::new(alloc),
        ptrs: vec![in alloc; Tree::Cap(0)].expect(rt, "memory"),
    });
    Outcome::Results {
        content: Whole::new(content).ok().expect(rt, "a whole"),
        caps: Caps::new(vec![in alloc; Cap::Object(1)].expect(rt, "memory")),
    }
}

/// The connection takes a frame, and its vat keeps contents of so many bytes then.
fn expect_contents(rt: &impl Abort, connection: &mut Connection, frame: &[u8], contents: u64) {
    let count = connection.receive(frame).expect(rt, "a message");
    check!(rt; count == frame.len() && connection.held().contents == contents);
}

#[test]
fn what_waits_and_what_is_kept_is_counted(rt: HostRuntime) {
    let alloc = rt.alloc();
    let mut connection = Connection::new(alloc, Mode::Plain, Limits::standard(), Some(0));
    // The bootstrap's answer is kept: a capability.
    let frame = bytes_of(&rt, alloc, &[BOOTSTRAP]);
    expect_contents(&rt, &mut connection, &frame, 96);
    let frame = bytes_of(&rt, alloc, &[LATER]);
    expect_contents(&rt, &mut connection, &frame, 96);
    // A call of eight bytes that waits at a path of one field.
    let frame = bytes_of(&rt, alloc, &[ADD_FIVE]);
    expect_contents(&rt, &mut connection, &frame, 298);
    let first = connection.next();
    check!(&rt; matches!(first, Some(ConnectionEvent::Delivered { object: 0, .. })));
    drop(first);
    check!(&rt; connection.event_memory() == 0);
    let answered = connection.answer(Origin::Answer(1), object_results(&rt, alloc));
    check!(&rt; answered.is_ok());
    // The answer is kept, a pointer and a capability, and the call waits no more.
    check!(&rt; connection.held().contents == 288 && connection.event_memory() == 8);
    let next = connection.next();
    check!(&rt; matches!(next, Some(ConnectionEvent::Delivered { object: 1, .. })));
    drop(next);
    check!(&rt; connection.event_memory() == 0);
    drop(connection);
}
