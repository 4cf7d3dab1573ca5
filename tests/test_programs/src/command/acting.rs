//! What the commands do with large frames, a device that fails and an allocation that fails. What they do with other files is in
//! the rows of test_interop.

use crate::checks::{expect_status, expect_text};
use cp_commands::{Plan, act};
use cp_frame::Mode;
use cp_words::Limits;
use std::alloc::Global;
use std::io::{self, ErrorKind, Read};
use std::process::Abort;

/// The plan of this name, within the standard limits, for bytes that it doesn't outlive.
fn plan_of<'p>(name: &str, mode: Mode, _bytes: &'p [u8]) -> Option<Plan<'p>> {
    let limits = Limits::standard();
    match name {
        "show" => Some(Plan::Show { mode, limits }),
        "check" => Some(Plan::Check { mode, limits }),
        "recut" => Some(Plan::Recut { mode, words: 3 }),
        "pack" => Some(Plan::Pack),
        "unpack" => Some(Plan::Unpack),
        _ => None,
    }
}

/// What a command that accepts all makes of the bytes.
fn taken(rt: &impl Abort, alloc: Global, name: &str, bytes: &[u8]) -> Vec<u8> {
    let (mut out, mut err) = (Vec::new(alloc), Vec::new(alloc));
    let Some(plan) = plan_of(name, Mode::Plain, bytes) else {
        return out;
    };
    let mut from = bytes;
    let status = act(alloc, &plan, &mut from, &mut out, &mut err);
    expect_status(rt, status, 0);
    check!(rt; err.is_empty());
    drop(err);
    out
}

/// The table of a frame of one segment of 20,000 words.
const HEADER: &[u8] = &[0, 0, 0, 0, 0x20, 0x4e, 0, 0];

// Two frames of one segment of 20,000 words, which take several pieces each, and short ones around them, which wait for others.
#[test]
fn frames_may_be_larger_than_a_piece(rt: HostRuntime) {
    let alloc = rt.alloc();
    let mut frames = Vec::new(alloc);
    for end in &[160_048, 320_096] {
        frames.extend_from_slice(&PLAIN).expect(&rt, "memory");
        frames.extend_from_slice(HEADER).expect(&rt, "memory");
        frames.resize(*end, 7).expect(&rt, "memory");
    }
    frames.extend_from_slice(&PLAIN).expect(&rt, "memory");
    let packed = taken(&rt, alloc, "pack", &frames);
    let plain = taken(&rt, alloc, "unpack", &packed);
    check!(&rt; plain.as_slice() == frames.as_slice());
    drop(plain);
    drop(packed);
    drop(frames);
}

/// A reader whose device fails.
#[derive(Drop)]
struct Broken;

impl Read for Broken {
    fn read(&mut self, _buf: &mut [u8]) -> io::Result<usize> {
        Err(io::Error::from(ErrorKind::Other))
    }
}

/// A command says that its device failed.
fn expect_failure(rt: &impl Abort, alloc: Global, plan: &Plan<'_>) {
    let (mut out, mut err) = (Vec::new(alloc), Vec::new(alloc));
    let status = act(alloc, plan, &mut Broken, &mut out, &mut err);
    expect_status(rt, status, 2);
    check!(rt; err.as_slice() == b"device: can't read: other error\n".as_slice());
    drop(out);
    drop(err);
}

#[test]
fn a_device_may_fail(rt: HostRuntime) {
    let plan = plan_of("show", Mode::Plain, &PLAIN);
    check!(&rt; plan.is_some());
    let Some(plan) = plan else {
        return;
    };
    expect_failure(&rt, rt.alloc(), &plan);
}

/// A `finish` as bytes, which lie in no memory that could be refused.
const PLAIN: [u8; 40] = [
    0x00, 0x00, 0x00, 0x00, 0x04, 0x00, 0x00, 0x00, 0x00, 0x00, 0x00, 0x00, 0x01, 0x00, 0x01, 0x00,
    0x04, 0x00, 0x00, 0x00, 0x00, 0x00, 0x00, 0x00, 0x00, 0x00, 0x00, 0x00, 0x01, 0x00, 0x00, 0x00,
    0x07, 0x00, 0x00, 0x00, 0x00, 0x00, 0x00, 0x00,
];

/// The same and a return of a capability, packed.
const PACKED: [u8; 40] = [
    0x10, 0x04, 0x50, 0x01, 0x01, 0x01, 0x04, 0x10, 0x01, 0x01, 0x07, 0x10, 0x0b, 0x50, 0x01, 0x01,
    0x01, 0x03, 0x50, 0x02, 0x01, 0x10, 0x01, 0x00, 0x00, 0x40, 0x02, 0x01, 0x03, 0x11, 0x01, 0x17,
    0x51, 0x04, 0x01, 0x01, 0x01, 0x01, 0x00, 0x00,
];

/// A command ends well, or says that memory ran out.
fn expect_memory_reported(rt: &impl Abort, alloc: Global, plan: &Plan<'_>, bytes: &[u8]) {
    let (mut from, mut err) = (bytes, Vec::new(alloc));
    let status = act(alloc, plan, &mut from, &mut io::sink(), &mut err);
    let said = String::from_utf8(err).expect(rt, "UTF-8");
    if status == 0 {
        expect_text(rt, said.as_str(), "");
    } else {
        expect_status(rt, status, 1);
        check!(rt; said.as_str().starts_with("refused at byte "));
        check!(rt; said.as_str().ends_with(" OutOfMemory\n"));
    }
    drop(said);
}

/// The same, of the command of this name.
fn expect_reported(rt: &impl Abort, alloc: Global, name: &str, (mode, bytes): (Mode, &[u8])) {
    let Some(plan) = plan_of(name, mode, bytes) else {
        return;
    };
    expect_memory_reported(rt, alloc, &plan, bytes);
}

// With ample memory no allocation fails. `rt try --test --fail-alloc N` fails the Nth.
#[test]
fn allocation_failure_is_reported(rt: HostRuntime) {
    for name in &["show", "check", "recut"] {
        expect_reported(&rt, rt.alloc(), name, (Mode::Plain, PLAIN.as_slice()));
        expect_reported(&rt, rt.alloc(), name, (Mode::Packed, PACKED.as_slice()));
    }
    expect_reported(&rt, rt.alloc(), "pack", (Mode::Plain, PLAIN.as_slice()));
    expect_reported(&rt, rt.alloc(), "unpack", (Mode::Packed, PACKED.as_slice()));
}
