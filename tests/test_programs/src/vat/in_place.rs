//! What memory is taken for messages that are read in place.

use cp_stream::view_in;
use cp_vat::Vat;
use cp_vat_machine::{Acted, Effect, PeerFault, Reason, VatFault};
use cp_words::{Limits, Segments};
use std::alloc::Global;
use std::process::Abort;

/// A call q=0 on import:9, without a content, and words for one.
const CALL: [u64; 21] = [
    0x0001_0001_0000_0000,
    2,
    0x0003_0003_0000_0000,
    0,
    9,
    0,
    0x0001_0001_0000_0008,
    0x0002_0000_0000_000c,
    0,
    9,
    0,
    0,
    0,
    0x1_0000_000c,
    0x1_0000_000c,
    0x1_0000_000c,
    0x1_0000_000c,
    1,
    2,
    3,
    4,
];

/// The Return of a=0 with results, without a content, and words for one.
const RETURN: [u64; 16] = [
    0x0001_0001_0000_0000,
    3,
    0x0001_0002_0000_0000,
    0,
    0,
    0x0002_0000_0000_0000,
    0,
    0,
    0x1_0000_000c,
    0x1_0000_000c,
    0x1_0000_000c,
    0x1_0000_000c,
    1,
    2,
    3,
    4,
];

/// No content, and one of four structs, as the pointer that a message has.
const NONE: u64 = 0;

const FOUR: u64 = 0x0004_0000_0000_0004;

/// These words, with another one at a place. An allocation that fails once is tried again.
fn message(rt: &impl Abort, alloc: Global, words: &[u64], place: usize, word: u64) -> Segments {
    let mut words = match Vec::from_slice(alloc, words) {
        Ok(words) => words,
        Err(_) => Vec::from_slice(alloc, words).expect(rt, "memory"),
    };
    *words.get_mut(place).expect(rt, "a place") = word;
    Segments::one(words)
}

/// A call whose content is one struct deeper than a vat takes.
fn deep_call(rt: &impl Abort, alloc: Global) -> Segments {
    let mut words = [0x0001_0000_0000_0000; 74];
    words[..13].copy_from_slice(&CALL[..13]);
    words[73] = 0;
    message(rt, alloc, &words, 11, 0x0001_0000_0000_0004)
}

/// What a new vat does with the message.
fn receive(rt: &impl Abort, alloc: Global, segments: &Segments) -> Result<Acted<()>, VatFault> {
    let view = view_in(segments, Limits::standard()).expect(rt, "a message");
    let mut vat = Vat::new(alloc, None);
    let acted = vat.receive_view(view);
    drop(vat);
    acted
}

/// The fault of the peer at which a vat closed.
fn fault_of(rt: &impl Abort, acted: &Acted<()>) -> PeerFault {
    match acted.effects.effects() {
        [_, Effect::Closed(Reason::Fault(fault))] => *fault,
        _ => panic!(rt; "the vat goes on"),
    }
}

/// A new vat reports this fault of the message, or that memory ran out.
fn expect_fault(rt: &impl Abort, alloc: Global, segments: &Segments, fault: PeerFault) {
    match receive(rt, alloc, segments) {
        Ok(acted) => {
            check!(rt; fault_of(rt, &acted) == fault);
            drop(acted);
        }
        Err(refusal) => check!(rt; refusal == VatFault::OutOfMemory),
    }
}

/// A vat that asked for the bootstrap object and gave the question up, unless memory ran out.
fn finished(alloc: Global) -> Option<Vat> {
    let mut vat = Vat::new(alloc, None);
    if vat.bootstrap().is_ok() && vat.finish(0).is_ok() {
        return Some(vat);
    }
    drop(vat);
    None
}

/// A Return to a question that was given up has no effect.
fn expect_nothing(rt: &impl Abort, alloc: Global, segments: &Segments) {
    if let Some(mut vat) = finished(alloc) {
        let view = view_in(segments, Limits::standard()).expect(rt, "a message");
        let acted = vat.receive_view(view).expect(rt, "no memory is taken");
        drop(vat);
        check!(rt; acted.effects.effects().is_empty());
        drop(acted);
    }
}

// This test and the next take as much memory: nightly/memory/sweep.sh counts the allocations of each.
#[test]
fn allocation_failure_at_faults_without_a_content(rt: HostRuntime) {
    let alloc = rt.alloc();
    let call = message(&rt, alloc, &CALL, 11, NONE);
    expect_fault(&rt, alloc, &call, PeerFault::UnknownExport);
    drop(call);
    let more = message(&rt, alloc, &CALL, 11, NONE);
    expect_fault(&rt, alloc, &more, PeerFault::UnknownExport);
    drop(more);
    let answer = message(&rt, alloc, &RETURN, 6, NONE);
    expect_fault(&rt, alloc, &answer, PeerFault::UnknownQuestion);
    expect_nothing(&rt, alloc, &answer);
    drop(answer);
}

#[test]
fn allocation_failure_at_faults_with_a_content(rt: HostRuntime) {
    let alloc = rt.alloc();
    let call = message(&rt, alloc, &CALL, 11, FOUR);
    expect_fault(&rt, alloc, &call, PeerFault::UnknownExport);
    drop(call);
    let deep = deep_call(&rt, alloc);
    expect_fault(&rt, alloc, &deep, PeerFault::PayloadTooLarge);
    drop(deep);
    let answer = message(&rt, alloc, &RETURN, 6, FOUR);
    expect_fault(&rt, alloc, &answer, PeerFault::UnknownQuestion);
    expect_nothing(&rt, alloc, &answer);
    drop(answer);
}

/// Whether a vat does nothing more.
fn is_closed(vat: &mut Vat) -> bool {
    matches!(vat.promise(), Err(VatFault::Closed))
}

/// A vat's question is settled by the message, unless memory runs out; then the vat is closed.
fn expect_settled(rt: &impl Abort, vat: &mut Vat, segments: &Segments) {
    let view = view_in(segments, Limits::standard()).expect(rt, "a message");
    match vat.receive_view(view) {
        Ok(acted) => {
            check!(rt; acted.effects.effects().len() == 1);
            drop(acted);
        }
        Err(refusal) => {
            check!(rt; refusal == VatFault::OutOfMemory);
            check!(rt; is_closed(vat));
        }
    }
}

/// A content that is kept is made, unless memory runs out.
#[test]
fn allocation_failure_for_a_content_that_is_kept(rt: HostRuntime) {
    let segments = message(&rt, rt.alloc(), &RETURN, 6, FOUR);
    let mut vat = Vat::new(rt.alloc(), None);
    if vat.bootstrap().is_ok() {
        expect_settled(&rt, &mut vat, &segments);
    }
    drop(vat);
    drop(segments);
}
