//! Pages are promised, called before they are there, and come to a page, to what a client gave, or to nothing.

use crate::services::ends::{Step, With};
use crate::services::notebook::{
    BREAK, COUNT, JOIN, KEEP, KEPT, OPEN, PROMISE, READ, RESOLVE, SAME, VOW,
};
use crate::services::pair::{Pair, WATCHER};
use std::process::Abort;

/// No outcome waits.
fn expect_silence(rt: &impl Abort, pair: &mut Pair) {
    check!(rt; pair.act(rt, Step::Take).got.is_none());
}

/// Three calls of a page, whose outcomes don't come before it is there.
fn call_early(rt: &impl Abort, pair: &mut Pair, page: u32, method: u16) -> [u32; 3] {
    let mut questions = [0; 3];
    for place in 0..3 {
        questions[place] = pair.begin(rt, page, method, With::Word(place as u64));
    }
    expect_silence(rt, pair);
    questions
}

/// What the notebook promised comes to this.
fn resolve(rt: &impl Abort, pair: &mut Pair, with: With) {
    let book = pair.book;
    check!(rt; !pair.call(rt, book, RESOLVE, with).is_failed);
}

#[test]
fn calls_wait_for_a_page_in_order(rt: HostRuntime) {
    let mut pair = Pair::new(&rt, rt.alloc(), 1);
    let book = pair.book;
    let page = pair.page(&rt, PROMISE, 0);
    let questions = call_early(&rt, &mut pair, page, COUNT);
    let resolved = pair.begin(&rt, book, RESOLVE, With::Word(7));
    let mut counted = 0;
    for _ in 0..4 {
        let (question, got) = pair.take(&rt);
        check!(&rt; !got.is_failed);
        if question != resolved {
            check!(&rt; got.word == counted && questions.get(counted as usize).copied() == Some(question));
            counted = counted.saturating_add(1);
        }
    }
    check!(&rt; counted == 3);
    check!(&rt; pair.call(&rt, page, COUNT, With::Word(0)).word == 3);
    check!(&rt; pair.call(&rt, page, READ, With::Word(0)).word == 7);
    drop(pair);
}

#[test]
fn a_promise_comes_to_what_the_client_gave(rt: HostRuntime) {
    let mut pair = Pair::new(&rt, rt.alloc(), 1);
    let book = pair.book;
    let page = pair.page(&rt, PROMISE, 0);
    let questions = call_early(&rt, &mut pair, page, READ);
    let resolved = pair.begin(&rt, book, RESOLVE, WATCHER);
    for _ in 0..4 {
        let (question, got) = pair.take(&rt);
        check!(&rt; !got.is_failed && (question == resolved || questions.contains(&question)));
    }
    check!(&rt; pair.words() == [0, 1, 2].as_slice());
    drop(pair);
}

#[test]
fn a_promise_comes_to_an_exception(rt: HostRuntime) {
    let mut pair = Pair::new(&rt, rt.alloc(), 1);
    let book = pair.book;
    let page = pair.page(&rt, PROMISE, 0);
    let early = pair.begin(&rt, page, READ, With::Word(0));
    let broken = pair.begin(&rt, book, BREAK, With::Word(0));
    // The call that waited fails at once, before the call is answered by which it does.
    check!(&rt; pair.expect_outcome(&rt, early).is_failed);
    check!(&rt; !pair.expect_outcome(&rt, broken).is_failed);
    check!(&rt; pair.call(&rt, page, READ, With::Word(0)).is_failed);
    drop(pair);
}

#[test]
fn a_promise_that_leads_to_itself_is_broken(rt: HostRuntime) {
    let mut pair = Pair::new(&rt, rt.alloc(), 1);
    let page = pair.page(&rt, PROMISE, 0);
    resolve(&rt, &mut pair, With::Import(page));
    check!(&rt; pair.call(&rt, page, READ, With::Word(0)).is_failed);
    drop(pair);
}

#[test]
fn an_object_that_is_woken_resolves(rt: HostRuntime) {
    let mut pair = Pair::new(&rt, rt.alloc(), 1);
    let page = pair.page(&rt, PROMISE, 250);
    let early = pair.begin(&rt, page, READ, With::Word(0));
    pair.act(&rt, Step::Pass(249));
    expect_silence(&rt, &mut pair);
    pair.act(&rt, Step::Pass(1));
    check!(&rt; pair.expect_outcome(&rt, early).word == 250);
    drop(pair);
}

#[test]
fn who_promised_stays_until_it_resolved(rt: HostRuntime) {
    let mut pair = Pair::new(&rt, rt.alloc(), 1);
    let first = pair.page(&rt, OPEN, 1);
    let page = pair.call(&rt, first, VOW, With::Word(5_000)).import;
    let page = page.expect(&rt, "a page");
    pair.act(&rt, Step::Drop(first));
    let early = pair.begin(&rt, page, READ, With::Word(0));
    pair.act(&rt, Step::Pass(4_000));
    expect_silence(&rt, &mut pair);
    check!(&rt; pair.objects() == 2);
    pair.act(&rt, Step::Pass(1_000));
    check!(&rt; pair.expect_outcome(&rt, early).word == 5_000);
    pair.act(&rt, Step::Pass(2_000));
    check!(&rt; pair.objects() == 2);
    expect_none_left(&rt, &mut pair);
    drop(pair);
}

/// Once all capabilities but that of the notebook are dropped, those of promises first and then what these came to, the notebook is the
/// only object.
fn expect_none_left(rt: &impl Abort, pair: &mut Pair) {
    let book = pair.book;
    for _ in 0..2 {
        pair.act(rt, Step::ReleaseOthers(book));
    }
    pair.act(rt, Step::Pass(2_000));
    check!(rt; pair.objects() == 1);
}

#[test]
fn a_promise_that_was_given_up_goes(rt: HostRuntime) {
    let mut pair = Pair::new(&rt, rt.alloc(), 1);
    let kept = pair.act(&rt, Step::Pass(0)).kept;
    let page = pair.page(&rt, PROMISE, 0);
    pair.act(&rt, Step::Drop(page));
    resolve(&rt, &mut pair, With::Word(7));
    check!(&rt; pair.act(&rt, Step::Pass(2_000)).kept == kept);
    check!(&rt; pair.objects() == 1);
    drop(pair);
}

#[test]
fn what_was_promised_goes(rt: HostRuntime) {
    let mut pair = Pair::new(&rt, rt.alloc(), 1);
    let book = pair.book;
    let kept = pair.act(&rt, Step::Pass(0)).kept;
    for number in 0..20 {
        let page = pair.page(&rt, PROMISE, 0);
        // It comes back under the name that the notebook gave it, and goes out again.
        let same = pair.call(&rt, book, SAME, With::Import(page)).import;
        check!(&rt; same == Some(page));
        resolve(&rt, &mut pair, With::Word(number));
        check!(&rt; pair.call(&rt, page, READ, With::Word(0)).word == number);
        expect_none_left(&rt, &mut pair);
        check!(&rt; pair.act(&rt, Step::Pass(0)).kept == kept);
    }
    drop(pair);
}

#[test]
fn results_that_were_named_before_they_came_are_kept_and_go(rt: HostRuntime) {
    let mut pair = Pair::new(&rt, rt.alloc(), 1);
    let book = pair.book;
    let kept = pair.act(&rt, Step::Pass(0)).kept;
    for number in 0..20 {
        let page = pair.page(&rt, PROMISE, 0);
        let made = pair.begin(&rt, page, KEEP, With::Word(number));
        let early = pair.begin(&rt, page, KEPT, With::Word(0));
        // The call that gives it waits, so what is named is a promise of the server's.
        let joined = pair.call(&rt, book, JOIN, With::Result(early)).import;
        let joined = joined.expect(&rt, "a page");
        resolve_early(&rt, &mut pair, [made, early]);
        pair.act(&rt, Step::Pass(2_000));
        let named = pair.call(&rt, joined, KEPT, With::Word(0)).import;
        let named = named.expect(&rt, "what it keeps");
        check!(&rt; pair.call(&rt, named, READ, With::Word(0)).word == number);
        expect_none_left(&rt, &mut pair);
        check!(&rt; pair.act(&rt, Step::Pass(0)).kept == kept);
    }
    drop(pair);
}

#[test]
fn results_that_failing_calls_named_go(rt: HostRuntime) {
    let mut pair = Pair::new(&rt, rt.alloc(), 1);
    let book = pair.book;
    let kept = pair.act(&rt, Step::Pass(0)).kept;
    for _ in 0..20 {
        let page = pair.page(&rt, PROMISE, 0);
        let early = pair.begin(&rt, page, KEPT, With::Word(0));
        // It waits for the page too, so no object is given what it names.
        let naming = pair.begin(&rt, page, KEPT, With::Result(early));
        let broken = pair.begin(&rt, book, BREAK, With::Word(0));
        check!(&rt; pair.expect_outcome(&rt, early).is_failed);
        check!(&rt; pair.expect_outcome(&rt, naming).is_failed);
        check!(&rt; !pair.expect_outcome(&rt, broken).is_failed);
        expect_none_left(&rt, &mut pair);
        check!(&rt; pair.act(&rt, Step::Pass(0)).kept == kept);
    }
    drop(pair);
}

/// What the notebook promised comes to a page, and these calls that waited are answered.
fn resolve_early(rt: &impl Abort, pair: &mut Pair, waited: [u32; 2]) {
    let book = pair.book;
    let resolved = pair.begin(rt, book, RESOLVE, With::Word(0));
    for _ in 0..3 {
        let (question, got) = pair.take(rt);
        check!(rt; !got.is_failed && (question == resolved || waited.contains(&question)));
    }
}
