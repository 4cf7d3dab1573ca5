//! The packed form's groups and words of bytes, as cp_packed takes and writes them.

use crate::checks::{expect_bytes, expect_words};
use crate::packed::{TWO, TWO_PACKED};
use cp_packed::*;

#[test]
fn a_new_group_takes_a_tag(rt: HostRuntime) {
    let mut group = OpenGroup::new(rt.alloc());
    check!(&rt; group.is_empty());
    check!(&rt; group.needs() == 2);
    let (_, known) = group.laid();
    check!(&rt; known == 0);
    let run = group.take(0).expect(&rt, "memory");
    check!(&rt; run.count == 0);
    check!(&rt; !group.is_empty());
    drop(group)
}

#[test]
fn a_group_is_taken_at_once(rt: HostRuntime) {
    let mut words = Vec::new(rt.alloc());
    let mut run = 0;
    let bytes = [0, 3, 1, 7, 0, 0, 0, 0, 0, 0, 0, 0];
    let left = take_groups(&mut words, &mut run, 4, &bytes).expect(&rt, "memory");
    check!(&rt; left.len() == LONGEST);
    check!(&rt; run == 0);
    expect_words(&rt, &words, &[0; 4]);
    drop(words)
}

#[test]
fn groups_are_written(rt: HostRuntime) {
    let mut out = Vec::new(rt.alloc());
    let left = push_groups(&mut out, &[0, 0, 7, 0], 2).expect(&rt, "memory");
    expect_words(&rt, left, &[7, 0]);
    push_packed(&mut out, left).expect(&rt, "memory");
    expect_bytes(&rt, &out, &[0, 1, 1, 7, 0, 0]);
    out.clear();
    push_packed(&mut out, &TWO).expect(&rt, "memory");
    expect_bytes(&rt, &out, &TWO_PACKED);
    drop(out)
}

#[test]
fn bytes_are_words(rt: HostRuntime) {
    let mut out = Vec::new(rt.alloc());
    push_plain(&mut out, &[0x0807_0605_0403_0201, 9]).expect(&rt, "memory");
    expect_bytes(&rt, &out, &[1, 2, 3, 4, 5, 6, 7, 8, 9, 0, 0, 0, 0, 0, 0, 0]);
    let mut words = Vec::new(rt.alloc());
    reserve_words(&mut words, 2, 4).expect(&rt, "memory");
    check!(&rt; 2 <= words.capacity());
    take_in(&mut words, &out).expect(&rt, "memory");
    expect_words(&rt, &words, &[0x0807_0605_0403_0201, 9]);
    check!(&rt; word_of(&[1, 2, 3, 4, 5, 6, 7, 8]) == 0x0807_0605_0403_0201);
    drop(words);
    drop(out)
}
