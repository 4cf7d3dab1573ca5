//! Pages are made, read and dropped.

use crate::services::ends::{Step, With};
use crate::services::notebook::{GIVE_UP, KEEP, KEPT, NAME, OPEN, READ};
use crate::services::pair::Pair;
use std::process::Abort;

/// A page has this number.
fn expect_number(rt: &impl Abort, pair: &mut Pair, page: u32, number: u64) {
    let got = pair.call(rt, page, READ, With::Word(0));
    check!(rt; !got.is_failed && got.word == number);
}

/// The page that a page keeps, or names.
fn kept(rt: &impl Abort, pair: &mut Pair, page: u32) -> u32 {
    let got = pair.call(rt, page, KEPT, With::Word(0));
    got.import.expect(rt, "a page")
}

/// Once all that is due was done, the server has so many objects.
fn expect_objects(rt: &impl Abort, pair: &mut Pair, objects: usize) {
    pair.act(rt, Step::Pass(2_000));
    check!(rt; pair.objects() == objects);
}

#[test]
fn pages_come_and_go(rt: HostRuntime) {
    let mut pair = Pair::new(&rt, rt.alloc(), 1);
    for number in 0..100 {
        check!(&rt; pair.objects() == 1);
        let page = pair.page(&rt, OPEN, number);
        check!(&rt; pair.objects() == 2);
        expect_number(&rt, &mut pair, page, number);
        pair.act(&rt, Step::Drop(page));
    }
    check!(&rt; pair.objects() == 1);
    drop(pair);
}

#[test]
fn a_page_that_is_kept_stays(rt: HostRuntime) {
    let mut pair = Pair::new(&rt, rt.alloc(), 1);
    let page = pair.page(&rt, OPEN, 7);
    pair.call(&rt, page, KEEP, With::Word(8));
    expect_objects(&rt, &mut pair, 3);
    let kept = kept(&rt, &mut pair, page);
    expect_number(&rt, &mut pair, kept, 8);
    pair.act(&rt, Step::Drop(kept));
    check!(&rt; pair.objects() == 3);
    pair.call(&rt, page, GIVE_UP, With::Word(0));
    check!(&rt; pair.objects() == 2);
    pair.call(&rt, page, KEEP, With::Word(9));
    check!(&rt; pair.objects() == 3);
    // Its keeper goes, and so it goes.
    pair.act(&rt, Step::Drop(page));
    expect_objects(&rt, &mut pair, 1);
    drop(pair);
}

#[test]
fn many_pages_at_once(rt: HostRuntime) {
    let mut pair = Pair::new(&rt, rt.alloc(), 1);
    let mut pages = Vec::new(rt.alloc());
    for number in 0..300 {
        pages
            .push(pair.page(&rt, OPEN, number))
            .expect(&rt, "memory");
    }
    check!(&rt; pair.objects() == 301);
    for page in pages {
        pair.act(&rt, Step::Drop(page));
    }
    expect_objects(&rt, &mut pair, 1);
    drop(pair);
}

#[test]
fn a_stale_name_reaches_no_other(rt: HostRuntime) {
    let mut pair = Pair::new(&rt, rt.alloc(), 1);
    let page = pair.page(&rt, OPEN, 7);
    // The page names another, and doesn't keep it: so that one goes.
    pair.call(&rt, page, NAME, With::Word(8));
    expect_objects(&rt, &mut pair, 2);
    // Others come, and none has its number.
    pair.page(&rt, OPEN, 9);
    let gone = kept(&rt, &mut pair, page);
    check!(&rt; pair.call(&rt, gone, READ, With::Word(0)).is_failed);
    drop(pair);
}
