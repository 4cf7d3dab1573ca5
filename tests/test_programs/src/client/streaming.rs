//! Streams: calls of which several are under way.

use crate::client::peer::{Scene, play};
use crate::frames::{DESK, FAILED, NEXT_SUM, SUM};
use cp_client::{CallError, CallWindow, Client, ClientFault, request_of};
use cp_interfaces::{CallTarget, NoResults};
use cp_objects::{ServedObject, SessionCap};
use cp_refs::Cap;
use std::alloc::Global;
use std::io::{Read, Write};
use std::process::Abort;

/// The peer's object.
fn desk<R: Read + Drop, W: Write + Drop, O: ServedObject<Makes = O>>(
    rt: &impl Abort,
    alloc: Global,
    client: &mut Client<R, W, O>,
) -> CallTarget {
    let desk = client.bootstrap().expect(rt, "a bootstrap");
    CallTarget::new(alloc, client.own(desk.cap(alloc)))
}

/// Calls method 0 of an object, in a stream.
fn send<R: Read + Drop, W: Write + Drop, O: ServedObject<Makes = O>>(
    rt: &impl Abort,
    alloc: Global,
    stream: &mut CallWindow,
    client: &mut Client<R, W, O>,
    target: &CallTarget,
) -> Result<(), CallError> {
    let request = request_of(alloc, 1, 0, &[]).expect(rt, "memory");
    stream.send(client, target, request)
}

/// Whether a call of another session's capability is refused.
fn is_refused<R: Read + Drop, W: Write + Drop, O: ServedObject<Makes = O>>(
    rt: &impl Abort,
    alloc: Global,
    stream: &mut CallWindow,
    client: &mut Client<R, W, O>,
) -> bool {
    let other = CallTarget::new(alloc, SessionCap::new(7, Cap::Import(0)));
    let fault = send(rt, alloc, stream, client, &other).err();
    drop(other);
    matches!(&fault, Some(CallError::Client(ClientFault::OtherSession)))
}

/// Three calls go, two of them at once, and are waited for. One of another session's capability doesn't.
pub(crate) fn expect_in_order<R: Read + Drop, W: Write + Drop, O: ServedObject<Makes = O>>(
    rt: &impl Abort,
    alloc: Global,
    client: &mut Client<R, W, O>,
) {
    let target = desk(rt, alloc, client);
    let mut stream = CallWindow::new(alloc, 2);
    for _ in 0..3 {
        check!(rt; send(rt, alloc, &mut stream, client, &target).is_ok());
    }
    check!(rt; is_refused(rt, alloc, &mut stream, client));
    check!(rt; stream.end(client).is_ok());
    check!(rt; client.flush().is_ok());
    // A Bootstrap, and a Call and a Finish for each.
    check!(rt; client.stats().sent == 7);
    drop(stream);
    drop(target);
}

#[test]
fn streams_have_a_window(rt: HostRuntime) {
    let frames = &[DESK, SUM, NEXT_SUM, SUM];
    check!(&rt; play(&rt, rt.alloc(), frames, Scene::Streams).unread == 0);
}

/// The second of two calls, of which one goes at once, says that the first one failed.
pub(crate) fn expect_failed<R: Read + Drop, W: Write + Drop, O: ServedObject<Makes = O>>(
    rt: &impl Abort,
    alloc: Global,
    client: &mut Client<R, W, O>,
) {
    let target = desk(rt, alloc, client);
    let mut stream = CallWindow::new(alloc, 1);
    check!(rt; send(rt, alloc, &mut stream, client, &target).is_ok());
    let fault = send(rt, alloc, &mut stream, client, &target).err();
    let has_failed = matches!(
        &fault,
        Some(CallError::NoResults(NoResults::Failed(_)))
    );
    drop(fault);
    drop(stream);
    drop(target);
    check!(rt; has_failed);
}

#[test]
fn streams_say_what_failed(rt: HostRuntime) {
    check!(&rt; play(&rt, rt.alloc(), &[DESK, FAILED], Scene::StreamFails).unread == 0);
}
