//! Watchers are told of what others did, and of the time, while they are silent; and of what an object tells, in order.

use crate::services::ends::{Step, With};
use crate::services::notebook::{ADD, HEARD, JOIN, LEAVE, REMIND, TELL, WATCH};
use crate::services::pair::{Pair, WATCHER};
use std::alloc::Global;
use std::process::Abort;

/// A client whose watcher watches.
fn watching(rt: &impl Abort, alloc: Global) -> Pair {
    let mut pair = Pair::new(rt, alloc, 1);
    let book = pair.book;
    check!(rt; !pair.call(rt, book, WATCH, WATCHER).is_failed);
    pair
}

#[test]
fn a_silent_client_is_told_what_another_added(rt: HostRuntime) {
    let mut silent = watching(&rt, rt.alloc());
    let mut busy = silent.beside(&rt, rt.alloc(), 2);
    let book = busy.book;
    busy.call(&rt, book, ADD, With::Word(5));
    let waker = busy.act(&rt, Step::HandOn).woken.expect(&rt, "a wake");
    check!(&rt; waker.session == 1 && waker.object == 0);
    check!(&rt; busy.act(&rt, Step::HandOn).woken.is_none());
    check!(&rt; !silent.act(&rt, Step::HandOn).has_more);
    check!(&rt; silent.act(&rt, Step::Wake(waker.object)).has_more);
    silent.act(&rt, Step::Pass(0));
    check!(&rt; silent.words() == [5].as_slice());
    drop(silent);
    drop(busy);
}

#[test]
fn a_time_is_told(rt: HostRuntime) {
    let mut pair = watching(&rt, rt.alloc());
    let book = pair.book;
    pair.call(&rt, book, REMIND, With::Word(250));
    check!(&rt; pair.act(&rt, Step::Pass(0)).deadline == Some(250));
    pair.act(&rt, Step::Pass(249));
    check!(&rt; pair.words().is_empty());
    pair.act(&rt, Step::Pass(1));
    check!(&rt; pair.words() == [250].as_slice());
    drop(pair);
}

#[test]
fn what_is_told_is_called_in_order_and_heard_once(rt: HostRuntime) {
    let mut pair = watching(&rt, rt.alloc());
    let book = pair.book;
    pair.call(&rt, book, TELL, With::Word(30));
    check!(&rt; pair.call(&rt, book, HEARD, With::Word(0)).word == 4);
    check!(&rt; pair.words() == [30, 31, 32, 33].as_slice());
    drop(pair);
}

#[test]
fn what_is_told_and_refused_is_heard(rt: HostRuntime) {
    let mut pair = Pair::new(&rt, rt.alloc(), 1);
    let book = pair.book;
    pair.call(&rt, book, TELL, With::Word(30));
    check!(&rt; pair.call(&rt, book, HEARD, With::Word(0)).word == 4);
    drop(pair);
}

#[test]
fn a_watcher_that_is_given_up_is_released_at_once(rt: HostRuntime) {
    let mut pair = Pair::new(&rt, rt.alloc(), 1);
    let book = pair.book;
    let before = pair.act(&rt, Step::Pass(0)).kept;
    check!(&rt; !pair.call(&rt, book, WATCH, WATCHER).is_failed);
    pair.call(&rt, book, LEAVE, With::Word(250));
    check!(&rt; pair.act(&rt, Step::Pass(249)).kept > before);
    // Nobody is answered from now on.
    check!(&rt; pair.act(&rt, Step::Pass(1)).kept == before);
    pair.call(&rt, book, ADD, With::Word(5));
    check!(&rt; pair.words().is_empty());
    drop(pair);
}

#[test]
fn a_page_that_is_dropped_releases_its_watcher_at_once(rt: HostRuntime) {
    let mut pair = Pair::new(&rt, rt.alloc(), 1);
    let book = pair.book;
    let before = pair.act(&rt, Step::Pass(0)).kept;
    let joined = pair.call(&rt, book, JOIN, WATCHER);
    let page = joined.import.expect(&rt, "a page");
    check!(&rt; pair.objects() == 2);
    check!(&rt; pair.act(&rt, Step::Drop(page)).kept == before);
    check!(&rt; pair.objects() == 1);
    drop(pair);
}
