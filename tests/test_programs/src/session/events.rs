//! What a session tells, and how it ends.

use crate::frames::{ABORT, ABORTED, ANSWER, AT_ONCE, BOOTSTRAP, DESK, STRANGE_FINISH, bytes_of};
use crate::session::{Step, Told, Trial};
use cp_connection::ConnectionFault;
use cp_dispatch::Limit;
use cp_session::SessionLimits;
use std::alloc::Global;
use std::process::Abort;

/// A session without objects, within the standard limits.
fn session(alloc: Global) -> Trial {
    Trial::new(alloc, Vec::new(alloc), SessionLimits::standard(), 0)
}

/// Nothing is told.
fn expect_silence(rt: &impl Abort, session: &mut Trial) {
    check!(rt; matches!(session.told(), Told::Nothing));
}

#[test]
fn an_outcome_is_told_once(rt: HostRuntime) {
    let alloc = rt.alloc();
    let mut session = Trial::new(alloc, Vec::new(alloc), SessionLimits::unlimited(), 0);
    check!(&rt; session.act(&rt, Step::Bootstrap).given == Some(0));
    // With no bytes ahead nothing is taken before all was written.
    check!(&rt; !session.act(&rt, Step::Waits(&[BOOTSTRAP])).takes_bytes);
    session.act(&rt, Step::Write(0));
    session.act(&rt, Step::Frames(&[DESK], 0));
    check!(&rt; matches!(session.told(), Told::Outcome(0)));
    expect_silence(&rt, &mut session);
    drop(session);
}

#[test]
fn an_end_is_told_once_all_was_written(rt: HostRuntime) {
    let mut session = session(rt.alloc());
    session.act(&rt, Step::Frames(&[BOOTSTRAP], 0));
    check!(&rt; !session.act(&rt, Step::End(1)).is_over);
    expect_silence(&rt, &mut session);
    check!(&rt; session.act(&rt, Step::Write(2)).is_over);
    check!(&rt; matches!(session.told(), Told::Ended));
    expect_silence(&rt, &mut session);
    drop(session);
}

#[test]
fn an_abort_goes_out_before_the_peers_close(rt: HostRuntime) {
    let mut session = session(rt.alloc());
    session.act(&rt, Step::Frames(&[STRANGE_FINISH], 0));
    check!(&rt; matches!(session.told(), Told::OwnAbort));
    expect_silence(&rt, &mut session);
    check!(&rt; !session.act(&rt, Step::Waits(&[ABORTED])).takes_bytes);
    let written = session.act(&rt, Step::Write(3));
    check!(&rt; written.is_draining && written.deadline == Some(5_003));
    // What comes before the close is dropped.
    check!(&rt; session.act(&rt, Step::Frames(&[AT_ONCE], 4)).waits == 0);
    check!(&rt; session.act(&rt, Step::End(4)).is_over);
    expect_silence(&rt, &mut session);
    drop(session);
}

#[test]
fn a_peers_abort_is_told(rt: HostRuntime) {
    let mut session = session(rt.alloc());
    check!(&rt; session.act(&rt, Step::Frames(&[ABORT], 0)).is_draining);
    check!(&rt; matches!(session.told(), Told::PeersAbort));
    drop(session);
}

#[test]
fn a_stream_that_is_cut_is_a_fault(rt: HostRuntime) {
    let mut session = session(rt.alloc());
    let bytes = bytes_of(&rt, rt.alloc(), &[BOOTSTRAP]);
    check!(&rt; bytes.len() > 9);
    check!(&rt; session.act(&rt, Step::Bytes(&bytes[..9], 0)).given == Some(9));
    session.act(&rt, Step::Cut(1));
    let fault = session.told();
    check!(&rt; matches!(fault, Told::Fault(ConnectionFault::Unreadable { at: 0, .. })));
    expect_silence(&rt, &mut session);
    drop(session);
    drop(bytes);
}

#[test]
fn a_limit_ends_it(rt: HostRuntime) {
    let mut session = session(rt.alloc());
    let before = session.act(&rt, Step::Tick(299_999));
    check!(&rt; !before.is_over && before.deadline == Some(300_000));
    let after = session.act(&rt, Step::Tick(300_000));
    check!(&rt; after.is_over && after.deadline.is_none());
    check!(&rt; matches!(session.told(), Told::Limit(Limit::Idle)));
    drop(session);
}

/// A Return to question 3, an exception of type failed with the reason `no such object`, as the layouts say.
const NO_SUCH_OBJECT: &str = "\
    000000000b0000000000000001000100030000000000000000000000020001000300000001000100\
    000000000000000000000000010002000000000000000000050000007a0000000000000000000000\
    6e6f2073756368206f626a6563740000";

#[test]
fn a_call_of_nobody_fails(rt: HostRuntime) {
    let mut session = session(rt.alloc());
    session.act(&rt, Step::Frames(&[BOOTSTRAP], 0));
    session.act(&rt, Step::Waits(&[ANSWER]));
    session.act(&rt, Step::Write(0));
    session.act(&rt, Step::Frames(&[AT_ONCE], 0));
    session.act(&rt, Step::Waits(&[NO_SUCH_OBJECT]));
    drop(session);
}
