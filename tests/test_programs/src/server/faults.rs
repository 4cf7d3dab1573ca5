//! What the faults of a server, of a client and of a connection print that no row of test_interop comes to, and what their
//! callers may do.

use crate::devices::ECONNRESET;
use cp_client::ClientFault;
use cp_connection::ConnectionFault;
use cp_frame::FrameFault;
use cp_rpc::ExceptionKind;
use cp_serve::ServeFault;
use cp_stream::{DeviceError, Refusal, StreamFault};
use cp_vat_machine::VatFault;
use std::alloc::Global;
use std::fmt::Display;
use std::io::ErrorKind;
use std::process::Abort;

/// Each fault prints its text.
fn expect_texts<F: Display>(rt: &impl Abort, alloc: Global, rows: &[(F, &str)]) {
    for row in rows {
        let fault = &row.0;
        let text = format!(in alloc; "{fault}").expect(rt, "memory");
        check!(rt; text.as_str() == row.1);
        drop(text);
    }
}

/// The error of a connection that is reset.
const RESET: DeviceError = DeviceError {
    kind: ErrorKind::ConnectionReset,
    code: Some(ECONNRESET),
};

const OF_SERVERS: &[(ServeFault, &str)] = &[(
    ServeFault::Stream(StreamFault::Device(RESET)),
    "device failed: Connection reset by peer (os error 104)",
)];

const OF_CLIENTS: &[(ClientFault, &str)] = &[
    (
        ClientFault::Device(RESET),
        "a call of a device failed: Connection reset by peer (os error 104)",
    ),
    (
        ClientFault::TooLong,
        "a struct, a list, a text, data or a table is longer than a message's can be",
    ),
];

const OF_CONNECTIONS: &[(ConnectionFault, &str)] = &[
    (ConnectionFault::Closed, "the connection is closed"),
    (ConnectionFault::OutOfMemory, "V10 OutOfMemory"),
    (ConnectionFault::Refused(VatFault::InUse), "V6 InUse"),
];

#[test]
fn texts(rt: HostRuntime) {
    expect_texts(&rt, rt.alloc(), OF_SERVERS);
    expect_texts(&rt, rt.alloc(), OF_CLIENTS);
    expect_texts(&rt, rt.alloc(), OF_CONNECTIONS);
}

#[test]
fn kinds(rt: HostRuntime) {
    let lost = StreamFault::Device(RESET);
    check!(&rt; lost.kind() == ExceptionKind::Disconnected);
    check!(&rt; ServeFault::Stream(lost).kind() == ExceptionKind::Disconnected);
    check!(&rt; ServeFault::OutOfMemory.kind() == ExceptionKind::Overloaded);
    check!(&rt; Refusal::Frame(FrameFault::OutOfMemory).kind() == ExceptionKind::Overloaded);
    check!(&rt; Refusal::Frame(FrameFault::Truncated).kind() == ExceptionKind::Failed);
    check!(&rt; ClientFault::Ended.kind() == ExceptionKind::Disconnected);
    check!(&rt; ClientFault::NotAsked.kind() == ExceptionKind::Failed);
    let full = ConnectionFault::Refused(VatFault::Full);
    check!(&rt; ClientFault::Connection(full).kind() == ExceptionKind::Overloaded);
    check!(&rt; ConnectionFault::Closed.kind() == ExceptionKind::Disconnected);
}
