//! When a session takes bytes of its peer, and when its objects have more to give.

use crate::frames::{ANSWER, BOOTSTRAP, DESK_ANSWER, LATER, bytes_of};
use crate::session::{Step, Trial};
use cp_servants::{Desk, Sample};
use cp_session::SessionLimits;
use std::alloc::Global;
use std::process::Abort;

/// A session with a Desk, of which so many bytes may wait while more is taken.
fn session(rt: &impl Abort, alloc: Global, ahead: usize) -> Trial {
    let limits = SessionLimits {
        ahead,
        ..SessionLimits::standard()
    };
    let desk = Sample::Desk(Desk::new(alloc));
    let objects = Vec::from_array(alloc, [desk]).expect(rt, "memory");
    Trial::new(alloc, objects, limits, 0)
}

/// What waits to be written are these frames, and goes out.
fn expect_out(rt: &impl Abort, session: &mut Trial, frames: &[&str]) {
    session.act(rt, Step::Waits(frames));
    check!(rt; session.act(rt, Step::Write(1)).waits == 0);
}

#[test]
fn nothing_is_taken_while_too_much_waits(rt: HostRuntime) {
    // The answer has 96 bytes.
    let mut session = session(&rt, rt.alloc(), 95);
    check!(&rt; session.act(&rt, Step::Look).takes_bytes);
    let answered = session.act(&rt, Step::Frames(&[BOOTSTRAP], 0));
    check!(&rt; answered.waits == 96 && !answered.takes_bytes);
    let more = bytes_of(&rt, rt.alloc(), &[LATER]);
    check!(&rt; session.act(&rt, Step::Bytes(&more, 0)).given == Some(0));
    drop(more);
    // One byte less is little enough.
    check!(&rt; session.act(&rt, Step::Wrote(1, 1)).takes_bytes);
    drop(session);
}

#[test]
fn objects_give_what_they_owe_after_the_peers_end(rt: HostRuntime) {
    let mut session = session(&rt, rt.alloc(), 65_536);
    session.act(&rt, Step::Frames(&[BOOTSTRAP, LATER], 0));
    expect_out(&rt, &mut session, &[ANSWER]);
    check!(&rt; session.act(&rt, Step::Look).has_more);
    let ended = session.act(&rt, Step::End(2));
    check!(&rt; !ended.takes_bytes && !ended.is_over);
    expect_out(&rt, &mut session, &[DESK_ANSWER]);
    // One that gave what was awaited is polled once more.
    let polled = session.act(&rt, Step::Poll(2));
    check!(&rt; !polled.has_more && polled.is_over);
    drop(session);
}
