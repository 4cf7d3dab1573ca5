//! Allocation failures. With ample memory there are none: nightly/memory/sweep.sh fails each allocation of the test.

use crate::client::peer::{Scene, play};
use crate::frames::{DESK, SUM};
use cp_client::{Client, ClientFault, Question, request_of, word_at};
use cp_connection::ConnectionFault;
use cp_objects::ServedObject;
use std::alloc::Global;
use std::io::{Read, Write};
use std::process::Abort;

/// Asks what a field of the peer's object will give.
fn ask<R: Read + Drop, W: Write + Drop, O: ServedObject<Makes = O>>(
    alloc: Global,
    client: &mut Client<R, W, O>,
) -> Result<Question, ClientFault> {
    let desk = client.bootstrap()?;
    let request = request_of(alloc, 2, 0, &[41])?;
    match desk.at(alloc, &[0]) {
        Ok(cell) => client.call(cell, request),
        Err(error) => {
            drop(request);
            Err(ClientFault::from(error))
        }
    }
}

/// The word that it gives.
fn call<R: Read + Drop, W: Write + Drop, O: ServedObject<Makes = O>>(
    alloc: Global,
    client: &mut Client<R, W, O>,
) -> Result<Option<u64>, ClientFault> {
    let question = ask(alloc, client)?;
    let outcome = client.wait(question)?;
    let word = word_at(&outcome, 0);
    drop(outcome);
    Ok(word)
}

/// The word comes, or memory ran out. The writer's own allocations fail its writes.
pub(crate) fn expect_called_or_memory<R: Read + Drop, W: Write + Drop, O: ServedObject<Makes = O>>(
    rt: &impl Abort,
    alloc: Global,
    client: &mut Client<R, W, O>,
) {
    let memory = ClientFault::Connection(ConnectionFault::OutOfMemory);
    check!(rt; match call(alloc, client) {
        Ok(word) => word == Some(41),
        Err(fault) => fault == memory || matches!(fault, ClientFault::Device(_)),
    });
}

#[test]
fn allocation_failure_is_reported(rt: HostRuntime) {
    play(&rt, rt.alloc(), &[DESK, SUM], Scene::CallsOrFails);
}
