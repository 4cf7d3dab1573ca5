//! Peers that end a conversation.

use crate::client::peer::{Scene, play_over};
use crate::devices::Fails;
use crate::frames::{ABORT, DESK, bytes_of};
use cp_client::{Client, ClientFault};
use cp_connection::ConnectionFault;
use cp_frame::FrameFault;
use cp_objects::ServedObject;
use cp_stream::Refusal;
use std::alloc::Global;
use std::io::{Read, Write};
use std::process::Abort;

/// What a client is told of its bootstrap, and of one more then; and whether its vat closed.
#[derive(Clone, Copy)]
pub(crate) struct End {
    first: Option<ClientFault>,
    next: Option<ClientFault>,
    is_closed: bool,
}

pub(crate) fn expect_end<R: Read + Drop, W: Write + Drop, O: ServedObject<Makes = O>>(
    rt: &impl Abort,
    client: &mut Client<R, W, O>,
    end: End,
) {
    let first = match client.bootstrap() {
        Ok(question) => client.wait(question).err(),
        Err(fault) => Some(fault),
    };
    check!(rt; first == end.first);
    check!(rt; client.bootstrap().err() == end.next);
    check!(rt; client.closed().is_some() == end.is_closed);
}

/// The fault of bytes that a reader of frames refuses.
fn unreadable(refusal: FrameFault) -> Option<ClientFault> {
    Some(ClientFault::Connection(ConnectionFault::Unreadable {
        at: 0,
        refusal: Refusal::Frame(refusal),
    }))
}

/// A client whose peer sends these bytes is told so.
fn expect_told(rt: &impl Abort, alloc: Global, bytes: &[u8], first: Option<ClientFault>) {
    let next = match first {
        // Where the bytes end after a message the client may still ask.
        Some(ClientFault::Ended) => None,
        other => other,
    };
    let is_closed = first == CLOSED;
    let end = End {
        first,
        next,
        is_closed,
    };
    play_over(
        rt,
        alloc,
        bytes,
        (Fails::Never, usize::MAX),
        Scene::Ends(end),
    );
}

const CLOSED: Option<ClientFault> = Some(ClientFault::Connection(ConnectionFault::Closed));

#[test]
fn a_peer_may_end_it(rt: HostRuntime) {
    let alloc = rt.alloc();
    let bytes = bytes_of(&rt, alloc, &[DESK, ABORT]);
    expect_told(&rt, alloc, &bytes, None);
    let abort = bytes_of(&rt, alloc, &[ABORT]);
    expect_told(&rt, alloc, &abort, CLOSED);
    let part = abort.get(..20).unwrap_or(&[]);
    expect_told(&rt, alloc, part, unreadable(FrameFault::Truncated));
    expect_told(&rt, alloc, &[], Some(ClientFault::Ended));
    let garbage = b"HTTP/1.1 400 Bad Request\r\n\r\n";
    expect_told(&rt, alloc, garbage, unreadable(FrameFault::TooManySegments));
    drop(abort);
    drop(bytes);
}
