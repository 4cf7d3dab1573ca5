//! Allocation failures of a connection. With ample memory there are none: nightly/memory/sweep.sh fails each allocation
//! of the test.

use crate::frames::{BOOTSTRAP, prepared};
use cp_connection::{Connection, ConnectionFault};
use cp_frame::Mode;
use cp_words::Limits;
use std::alloc::Global;
use std::process::Abort;

/// Two Bootstraps and a question of its own, up to the first failure: how many of the three were done, and why the rest
/// weren't.
fn play(connection: &mut Connection, frame: &[u8]) -> (u64, Option<ConnectionFault>) {
    match connection.receive(frame) {
        Err(fault) => return (0, Some(fault)),
        Ok(_) => {}
    }
    match connection.bootstrap() {
        Err(fault) => return (1, Some(fault)),
        Ok(_) => {}
    }
    match connection.bootstrap() {
        Err(fault) => return (2, Some(fault)),
        Ok(_) => {}
    }
    (3, None)
}

/// The bytes of the first Bootstrap.
fn frame(rt: &impl Abort, alloc: Global) -> Vec<u8> {
    match prepared(alloc, &[BOOTSTRAP]) {
        Some(bytes) => bytes,
        None => prepared(alloc, &[BOOTSTRAP]).expect(rt, "memory"),
    }
}

#[test]
fn an_allocation_failure_ends_it(rt: HostRuntime) {
    let alloc = rt.alloc();
    let frame = frame(&rt, alloc);
    let mut connection = Connection::new(alloc, Mode::Plain, Limits::standard(), Some(0));
    let (done, fault) = play(&mut connection, &frame);
    let outgoing = connection.outgoing().len();
    let sent = connection.stats().sent;
    let again = connection.bootstrap();
    let happened = connection.next();
    drop(connection);
    let is_quiet = happened.is_none();
    drop(happened);
    drop(frame);
    check!(&rt; is_quiet);
    check!(&rt; sent == done);
    // What goes out is the answer, of 96 bytes, and a Bootstrap of 48 bytes for each question that was asked.
    let answered = if done == 0 { 0u64 } else { 96 };
    let asked = done.saturating_sub(1).saturating_mul(48);
    check!(&rt; outgoing as u64 == answered.saturating_add(asked));
    match fault {
        None => check!(&rt; again == Ok(2)),
        Some(fault) => check!(&rt; fault == ConnectionFault::OutOfMemory && again == Err(fault)),
    }
}
