//! Each limit of a session, met and not met.

use crate::frames::{
    ANSWER, BOOTSTRAP, FINISH, LATER, STRANGE_FINISH, TOO_LARGE, TOO_MANY, TOO_MUCH, bytes_of,
};
use crate::session::{Stand, Step, Told, Trial};
use cp_dispatch::Limit;
use cp_servants::{Sample, Script};
use cp_session::{Budget, SessionLimits};
use std::alloc::Global;
use std::process::Abort;

/// A session without objects that began at 5,000, of which so many bytes may be kept.
fn session(alloc: Global, kept: u64) -> Trial {
    let limits = SessionLimits {
        message: 1_000,
        idle: 9_000,
        closing: 500,
        ahead: 65_536,
        kept,
    };
    Trial::new(alloc, Vec::new(alloc), limits, 5_000)
}

/// These bytes come at this time, and then the next limit of time is met at that.
fn expect_deadline(
    rt: &impl Abort,
    session: &mut Trial,
    bytes: &[u8],
    now: u64,
    deadline: u64,
) -> Stand {
    let stand = session.act(rt, Step::Bytes(bytes, now));
    check!(rt; stand.given == Some(bytes.len()) && stand.deadline == Some(deadline));
    stand
}

/// The session ends at this time, and no sooner.
fn expect_over(rt: &impl Abort, session: &mut Trial, deadline: u64) {
    check!(rt; !session.act(rt, Step::Tick(deadline.saturating_sub(1))).is_over);
    let over = session.act(rt, Step::Tick(deadline));
    check!(rt; over.is_over && over.deadline.is_none());
}

/// Too much is kept, and nothing more is told.
fn expect_kept_told(rt: &impl Abort, session: &mut Trial) {
    check!(rt; matches!(session.told(), Told::Limit(Limit::Kept)));
    check!(rt; matches!(session.told(), Told::Nothing));
}

#[test]
fn times_are_looked_at(rt: HostRuntime) {
    check!(&rt; SessionLimits::standard().tick() == 1_250);
}

#[test]
fn a_message_comes_in_time(rt: HostRuntime) {
    let bytes = bytes_of(&rt, rt.alloc(), &[BOOTSTRAP]);
    let mut session = session(rt.alloc(), 10_000);
    check!(&rt; bytes.len() > 20);
    // A silent peer is asked before.
    check!(&rt; session.act(&rt, Step::Look).deadline == Some(9_500));
    // A message begins. What comes of it later gives it no more time.
    expect_deadline(&rt, &mut session, &bytes[..9], 6_000, 7_000);
    expect_deadline(&rt, &mut session, &bytes[9..20], 6_900, 7_000);
    // It came whole, and the next one begins.
    expect_deadline(&rt, &mut session, &bytes[20..], 6_950, 15_950);
    expect_deadline(&rt, &mut session, &bytes[..9], 7_000, 8_000);
    expect_over(&rt, &mut session, 8_000);
    check!(&rt; matches!(session.told(), Told::Limit(Limit::Message)));
    drop(session);
    drop(bytes);
}

#[test]
fn a_byte_moves_in_time(rt: HostRuntime) {
    let bytes = bytes_of(&rt, rt.alloc(), &[BOOTSTRAP]);
    let mut session = session(rt.alloc(), 10_000);
    expect_deadline(&rt, &mut session, &bytes, 6_000, 15_000);
    session.act(&rt, Step::Waits(&[ANSWER]));
    // One that is written counts too.
    session.act(&rt, Step::Wrote(1, 7_000));
    expect_over(&rt, &mut session, 16_000);
    check!(&rt; matches!(session.told(), Told::Limit(Limit::Idle)));
    drop(session);
    drop(bytes);
}

/// The peer is asked at 9,500, and that went out by 9,600.
fn expect_asked(rt: &impl Abort, session: &mut Trial) {
    check!(rt; session.act(rt, Step::Tick(9_499)).waits == 0);
    check!(rt; session.act(rt, Step::Tick(9_500)).deadline == Some(14_000));
    session.act(rt, Step::Waits(&[BOOTSTRAP, FINISH]));
    check!(rt; session.act(rt, Step::Wrote(10, 9_550)).deadline == Some(14_000));
    check!(rt; session.act(rt, Step::Write(9_600)).deadline == Some(14_000));
}

#[test]
fn a_silent_peer_is_asked_once(rt: HostRuntime) {
    let mut session = session(rt.alloc(), 10_000);
    expect_asked(&rt, &mut session);
    check!(&rt; session.act(&rt, Step::Tick(13_000)).waits == 0);
    expect_over(&rt, &mut session, 14_000);
    check!(&rt; matches!(session.told(), Told::Limit(Limit::Idle)));
    drop(session);
}

#[test]
fn a_silent_peer_that_answers_is_not_idle(rt: HostRuntime) {
    let mut session = session(rt.alloc(), 10_000);
    let before = session.act(&rt, Step::Look).kept;
    expect_asked(&rt, &mut session);
    let answered = session.act(&rt, Step::Frames(&[ANSWER], 9_700));
    check!(&rt; answered.deadline == Some(14_200) && answered.waits == 0 && answered.kept == before);
    check!(&rt; matches!(session.told(), Told::Nothing));
    // And it is asked again.
    check!(&rt; session.act(&rt, Step::Tick(14_199)).waits == 0);
    check!(&rt; session.act(&rt, Step::Tick(14_200)).waits > 0);
    drop(session);
}

#[test]
fn few_bytes_are_kept(rt: HostRuntime) {
    let bytes = bytes_of(&rt, rt.alloc(), &[BOOTSTRAP]);
    let mut session = session(rt.alloc(), 9);
    check!(&rt; bytes.len() > 20);
    expect_deadline(&rt, &mut session, &bytes[..9], 6_000, 7_000);
    check!(&rt; !session.act(&rt, Step::Tick(6_000)).is_over);
    expect_deadline(&rt, &mut session, &bytes[9..10], 6_000, 7_000);
    session.act(&rt, Step::Tick(6_000));
    expect_last(&rt, &mut session, TOO_MUCH);
    expect_kept_told(&rt, &mut session);
    // What comes before the peer's close is dropped, and nothing of it is kept.
    let dropped = expect_deadline(&rt, &mut session, &bytes, 6_200, 6_500);
    check!(&rt; dropped.kept == 0 && dropped.waits == 0);
    expect_over(&rt, &mut session, 6_500);
    drop(session);
    drop(bytes);
}

/// This frame is the last that goes out, and nothing is taken; once it was written, at 6,000, the peer's close is waited for.
fn expect_last(rt: &impl Abort, session: &mut Trial, frame: &str) {
    let last = session.act(rt, Step::Waits(&[frame]));
    check!(rt; !last.takes_bytes && !last.is_over);
    let written = session.act(rt, Step::Write(6_000));
    check!(rt; written.is_draining && written.waits == 0);
}

#[test]
fn an_abort_says_what_is_kept_once(rt: HostRuntime) {
    // More waits to be written than may be kept, so the peer that doesn't read is told nothing more.
    let bytes = bytes_of(&rt, rt.alloc(), &[BOOTSTRAP]);
    let mut session = session(rt.alloc(), 9);
    expect_deadline(&rt, &mut session, &bytes, 6_000, 15_000);
    session.act(&rt, Step::Tick(6_000));
    session.act(&rt, Step::Waits(&[ANSWER, TOO_MUCH]));
    check!(&rt; session.act(&rt, Step::Tick(6_001)).is_over);
    drop(session);
    drop(bytes);
}

#[test]
fn a_host_allows_no_more(rt: HostRuntime) {
    // Less is kept than the session's own limit.
    let mut session = kept_answer(&rt, rt.alloc(), 10_000);
    session.act(&rt, Step::Refuse(6_000));
    expect_last(&rt, &mut session, TOO_MUCH);
    check!(&rt; matches!(session.told(), Told::Limit(Limit::Kept)));
    // The peer was told once.
    let refused = session.act(&rt, Step::Refuse(6_000));
    check!(&rt; refused.is_over && refused.waits == 0);
    check!(&rt; matches!(session.told(), Told::Nothing));
    drop(session);
}

/// A session ends by bytes that a frame begins with, and this Abort says why.
fn expect_refused(rt: &impl Abort, alloc: Global, begin: &str, frame: &str) {
    let mut session = session(alloc, 10_000);
    let bytes = bytes_of(rt, alloc, &[begin]);
    check!(rt; session.act(rt, Step::Bytes(&bytes, 6_000)).given.is_none());
    drop(bytes);
    expect_last(rt, &mut session, frame);
    check!(rt; matches!(session.told(), Told::Fault(_)));
    drop(session);
}

#[test]
fn frames_that_are_too_large_are_refused(rt: HostRuntime) {
    // 513 segments, and one of 8,388,609 words.
    expect_refused(&rt, rt.alloc(), "0002000001000000", TOO_MANY);
    expect_refused(&rt, rt.alloc(), "0000000001008000", TOO_LARGE);
}

/// A session that may keep so many bytes keeps the answer to a Bootstrap, and all was written.
fn kept_answer(rt: &impl Abort, alloc: Global, kept: u64) -> Trial {
    let bytes = bytes_of(rt, alloc, &[BOOTSTRAP]);
    let mut session = session(alloc, kept);
    expect_deadline(rt, &mut session, &bytes, 6_000, 15_000);
    drop(bytes);
    session.act(rt, Step::Write(6_000));
    session.act(rt, Step::Tick(6_000));
    session
}

#[test]
fn few_contents_are_kept(rt: HostRuntime) {
    // An entry, and a capability.
    let mut session = kept_answer(&rt, rt.alloc(), 736);
    let kept = session.act(&rt, Step::Look);
    check!(&rt; !kept.is_over && kept.kept == 736);
    drop(session);
    let mut too_much = kept_answer(&rt, rt.alloc(), 735);
    check!(&rt; matches!(too_much.told(), Told::Limit(Limit::Kept)));
    drop(too_much);
}

/// Calls what question 1 will give, under question 2, with a content of six levels, each of whose structs two pointers name: 63 structs.
const DOUBLING: &str = "\
    000000001d0000000000000001000100020000000000000000000000030003000200000000000000\
    020000000000a1e5000000000000000008000000010001001c000000000002000000000000000000\
    000000000100000000000000010001000100000000000000010000000f0000000400000001000000\
    01000000000000000400000000000200000000000000000004000000000002000000000000000200\
    04000000000002000000000000000200040000000000020000000000000002000400000000000200\
    00000000000002000400000000000200000000000000020000000000000000000000000000000000";

/// A call of an object that answers later, and one that waits for that answer.
const WAITING: &[&str] = &[BOOTSTRAP, LATER, DOUBLING];

/// A session with an object that answers later, which may keep so many bytes. Its peer made these calls.
fn waiting(rt: &impl Abort, alloc: Global, kept: u64) -> Trial {
    let script = Script::new(Vec::new(alloc), Vec::new(alloc));
    let objects = Vec::from_array(alloc, [Sample::Script(script)]).expect(rt, "memory");
    let limits = SessionLimits {
        kept,
        ..SessionLimits::standard()
    };
    let mut session = Trial::new(alloc, objects, limits, 0);
    for frame in WAITING {
        session.act(rt, Step::Frames(&[*frame], 0));
        session.act(rt, Step::Write(0));
    }
    session.act(rt, Step::Tick(0));
    session
}

#[test]
fn a_call_that_waits_is_kept(rt: HostRuntime) {
    // Three answers and a capability of 96; the call with its path, and 126 pointers.
    let kept = 3 * 640 + 96 + 192 + 2 + 126 * 96;
    let mut session = waiting(&rt, rt.alloc(), kept);
    let stand = session.act(&rt, Step::Look);
    check!(&rt; !stand.is_over && stand.kept == kept);
    drop(session);
    let mut session = waiting(&rt, rt.alloc(), kept - 1);
    check!(&rt; matches!(session.told(), Told::Limit(Limit::Kept)));
    drop(session);
}

#[test]
fn sessions_keep_to_a_budget(rt: HostRuntime) {
    // Each may keep 10, and all of them 5 beyond that.
    let mut budget = Budget::new(rt.alloc(), 10, 5);
    check!(&rt; budget.allowed(7) == 15);
    check!(&rt; budget.note(7, 13).is_ok() && budget.is_within());
    check!(&rt; budget.allowed(7) == 15 && budget.allowed(8) == 12);
    check!(&rt; budget.note(8, 14).is_ok() && !budget.is_within());
    budget.forget(7);
    check!(&rt; budget.is_within() && budget.allowed(9) == 11);
    drop(budget);
}

#[test]
fn the_peer_closes_in_time(rt: HostRuntime) {
    let bytes = bytes_of(&rt, rt.alloc(), &[STRANGE_FINISH]);
    let mut session = session(rt.alloc(), 10_000);
    expect_deadline(&rt, &mut session, &bytes, 6_000, 15_000);
    check!(&rt; session.act(&rt, Step::Write(7_500)).is_draining);
    // Only this time counts from now on, and no byte gives more of it.
    expect_deadline(&rt, &mut session, &bytes, 7_900, 8_000);
    expect_over(&rt, &mut session, 8_000);
    check!(&rt; matches!(session.told(), Told::OwnAbort));
    check!(&rt; matches!(session.told(), Told::Nothing));
    drop(session);
    drop(bytes);
}
