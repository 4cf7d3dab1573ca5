//! Readers and writers of a client that fail.

use crate::client::peer::{Scene, call_twice, play, play_over};
use crate::devices::Fails;
use crate::frames::{DESK, NEXT_SUM, SUM, bytes_of};
use cp_client::{Client, ClientFault, Question, word_at};
use cp_objects::ServedObject;
use std::alloc::Global;
use std::io::{Read, Write};
use std::process::Abort;

/// Waits until a question's outcome comes, whatever the devices do, and gives its word and how often one failed.
fn insist<R: Read + Drop, W: Write + Drop, O: ServedObject<Makes = O>>(
    client: &mut Client<R, W, O>,
    question: Question,
) -> (Option<u64>, u64) {
    let mut failed = 0;
    for _ in 0..1_000 {
        match client.wait(question) {
            Ok(outcome) => {
                let word = word_at(&outcome, 0);
                drop(outcome);
                return (word, failed);
            }
            Err(ClientFault::Device(_)) => failed = failed.saturating_add(1),
            Err(_) => break,
        }
    }
    (None, failed)
}

/// Calls twice. The second outcome comes, though a device failed more than ten times, or none failed.
pub(crate) fn expect_insisted<R: Read + Drop, W: Write + Drop, O: ServedObject<Makes = O>>(
    rt: &impl Abort,
    alloc: Global,
    client: &mut Client<R, W, O>,
    fails: bool,
) {
    let (_, second) = call_twice(rt, alloc, client);
    let (word, failed) = insist(client, second);
    check!(rt; word == Some(42));
    check!(rt; if fails { failed > 10 } else { failed == 0 });
}

/// Calls over such devices, and nothing is lost.
fn expect_nothing_lost(rt: &impl Abort, alloc: Global, fails: Fails, scene: Scene) {
    let bytes = bytes_of(rt, alloc, &[DESK, SUM, NEXT_SUM]);
    let left = play_over(rt, alloc, &bytes, (fails, 7), scene);
    drop(bytes);
    // A Bootstrap has 48 bytes, the calls 152 and 128.
    check!(rt; left.unread == 0 && left.written == 328);
}

#[test]
fn nothing_is_lost_where_devices_fail(rt: HostRuntime) {
    let (each, none) = (
        Scene::Insists { fails: true },
        Scene::Insists { fails: false },
    );
    expect_nothing_lost(&rt, rt.alloc(), Fails::ButEachThird, each);
    expect_nothing_lost(&rt, rt.alloc(), Fails::InterruptedButEachThird, none);
}

/// A Bootstrap is written, and flushed.
pub(crate) fn expect_flushed<R: Read + Drop, W: Write + Drop, O: ServedObject<Makes = O>>(
    rt: &impl Abort,
    client: &mut Client<R, W, O>,
) {
    check!(rt; client.bootstrap().is_ok());
    check!(rt; client.flush().is_ok());
}

// No contract of a writer shows it.
#[test]
fn a_flush_reaches_the_writer(rt: HostRuntime) {
    let left = play(&rt, rt.alloc(), &[], Scene::Flushes);
    check!(&rt; left.is_flushed && left.written == 48);
}
