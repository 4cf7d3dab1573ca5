//! Readers and writers of a server that fail, and allocations that fail.

use crate::devices::{Device, ECONNRESET, Fails};
use crate::frames::{
    ABORTED, ADD_FIVE, ANSWER, BOOTSTRAP, CELL_ANSWER, DESK_ANSWER, LATER, STRANGE_FINISH,
    bytes_of, prepared,
};
use cp_frame::{FrameFault, Mode};
use cp_rpc::SchemaFault;
use cp_servants::{Cell, Desk, Sample, Servant};
use cp_serve::{ServeFault, serve, serve_each};
use cp_stream::{DeviceError, Refusal, StreamFault, Tap};
use cp_tree::WriteFault;
use std::alloc::Global;
use std::io::{self, ErrorKind, Write};
use std::process::Abort;

/// The calls of a reader and a writer that fail, and the most bytes that the others move.
#[derive(Clone, Copy)]
struct Trial {
    read: u64,
    write: u64,
    with_error: bool,
    most_read: usize,
    most_written: usize,
}

/// A call that no device is asked for.
const NEVER: u64 = u64::MAX;

/// No call fails.
const SOUND: Trial = Trial {
    read: NEVER,
    write: NEVER,
    with_error: true,
    most_read: 40,
    most_written: 40,
};

/// How a Desk and a Cell were served over such devices, and the calls of these.
#[derive(Drop)]
struct Tried {
    fault: Option<ServeFault>,
    failures: u64,
    reads: u64,
    writes: u64,
    written: Vec<u8>,
}

fn over(alloc: Global, bytes: &[u8], trial: Trial) -> Tried {
    let writing = if trial.with_error {
        Fails::At(trial.write)
    } else {
        Fails::TakesNone(trial.write)
    };
    let from = Device::new(bytes, Fails::At(trial.read), trial.most_read);
    let to = Device::new(Vec::new(alloc), writing, trial.most_written);
    served_over(alloc, from, to)
}

fn served_over(alloc: Global, from: Device<&[u8]>, to: Device<Vec<u8>>) -> Tried {
    let (mut from, mut to) = (Tap::new(from), Tap::new(to));
    let mut objects = Vec::new(alloc);
    drop(objects.push(Sample::Desk(Desk::new(alloc))));
    drop(objects.push(Sample::Cell(Cell::new(alloc))));
    let ended = serve_each(alloc, &mut from, &mut to, &mut objects, Mode::Plain);
    drop(objects);
    let fault = ended.err();
    let failures = from.failures().saturating_add(to.failures());
    let Device { calls: reads, .. } = from.into_inner();
    let Device {
        inner: written,
        calls: writes,
        ..
    } = to.into_inner();
    Tried {
        fault,
        failures,
        reads,
        writes,
        written,
    }
}

/// The fault of a device whose connection is reset.
const RESET: StreamFault = StreamFault::Device(DeviceError {
    kind: ErrorKind::ConnectionReset,
    code: Some(ECONNRESET),
});

/// The fault of a writer that takes no byte.
const TAKES_NONE: StreamFault = StreamFault::Device(DeviceError {
    kind: ErrorKind::WriteZero,
    code: None,
});

/// Where a call fails, the answer says why, no call follows, and a beginning of the whole was written. Says whether one fails.
fn expect_tried(rt: &impl Abort, tried: &Tried, whole: &[u8], trial: Trial) -> bool {
    check!(rt; tried.reads <= trial.read && tried.writes <= trial.write);
    if tried.failures > 0 {
        check!(rt; tried.failures == 1);
        let fault = if trial.with_error { RESET } else { TAKES_NONE };
        check!(rt; tried.fault == Some(ServeFault::Stream(fault)));
        check!(rt; whole.starts_with(&tried.written));
        return true;
    }
    check!(rt; tried.fault.is_none());
    check!(rt; tried.written.as_slice() == whole);
    false
}

/// Serves a Desk and a Cell over such devices, and says whether one fails.
fn fails(rt: &impl Abort, alloc: Global, bytes: &[u8], whole: &[u8], trial: Trial) -> bool {
    let tried = over(alloc, bytes, trial);
    let fails = expect_tried(rt, &tried, whole, trial);
    drop(tried);
    fails
}

/// Whether a device fails at the call of this number: a read, a write by an error, or a write that takes no byte.
fn any_fails(rt: &impl Abort, alloc: Global, bytes: &[u8], whole: &[u8], call: u64) -> bool {
    let (read, write) = (call, call);
    let with_error = false;
    let read = fails(rt, alloc, bytes, whole, Trial { read, ..SOUND });
    let written = fails(rt, alloc, bytes, whole, Trial { write, ..SOUND });
    let trial = Trial {
        write,
        with_error,
        ..SOUND
    };
    fails(rt, alloc, bytes, whole, trial) || read || written
}

/// Each call of the devices fails in turn, until none fails.
fn expect_each(rt: &impl Abort, alloc: Global, bytes: &[u8], whole: &[u8]) {
    for call in 1..1_000 {
        if !any_fails(rt, alloc, bytes, whole, call) {
            return;
        }
    }
    check!(rt; false);
}

/// What the peer sends, and what is sent to it.
const SESSIONS: &[(&[&str], &[&str])] = &[
    (&[STRANGE_FINISH], &[ABORTED]),
    (&[BOOTSTRAP], &[ANSWER]),
    (CALLS, ANSWERS),
];

const CALLS: &[&str] = &[BOOTSTRAP, LATER, ADD_FIVE];

const ANSWERS: &[&str] = &[ANSWER, DESK_ANSWER, CELL_ANSWER];

#[test]
fn each_call_of_a_device_may_fail(rt: HostRuntime) {
    for (frames, answers) in SESSIONS {
        let bytes = bytes_of(&rt, rt.alloc(), frames);
        let whole = bytes_of(&rt, rt.alloc(), answers);
        expect_each(&rt, rt.alloc(), &bytes, &whole);
        drop(whole);
        drop(bytes);
    }
}

#[test]
fn an_interrupted_call_is_made_again(rt: HostRuntime) {
    let alloc = rt.alloc();
    for (frames, answers) in SESSIONS {
        let bytes = bytes_of(&rt, alloc, frames);
        let whole = bytes_of(&rt, alloc, answers);
        let from = Device::new(bytes.as_slice(), Fails::InterruptedButEachThird, 40);
        let to = Device::new(Vec::new(alloc), Fails::InterruptedButEachThird, 40);
        let tried = served_over(alloc, from, to);
        check!(&rt; tried.failures == 0);
        check!(&rt; !expect_tried(&rt, &tried, &whole, SOUND));
        drop(tried);
        drop(whole);
        drop(bytes);
    }
}

/// The calls of the writer where no device fails and a call moves so many bytes.
fn writes_of(rt: &impl Abort, alloc: Global, most_read: usize, most_written: usize) -> u64 {
    let bytes = bytes_of(rt, alloc, CALLS);
    let whole = bytes_of(rt, alloc, ANSWERS);
    let trial = Trial {
        most_read,
        most_written,
        ..SOUND
    };
    let tried = over(alloc, &bytes, trial);
    drop(bytes);
    check!(rt; !expect_tried(rt, &tried, &whole, trial));
    drop(whole);
    let writes = tried.writes;
    drop(tried);
    writes
}

#[test]
fn a_piece_is_answered_in_one_write(rt: HostRuntime) {
    let all = usize::MAX;
    check!(&rt; writes_of(&rt, rt.alloc(), all, all) == 1);
    // Each read brings at most one frame. The second is answered with the third, by the second poll.
    check!(&rt; writes_of(&rt, rt.alloc(), 40, all) == 2);
    // One byte a call is enough.
    check!(&rt; writes_of(&rt, rt.alloc(), 1, 1) > 2);
}

#[test]
fn nothing_is_read_after_an_abort(rt: HostRuntime) {
    let alloc = rt.alloc();
    let first = bytes_of(&rt, alloc, &[STRANGE_FINISH]);
    let most_read = first.len();
    drop(first);
    let bytes = bytes_of(&rt, alloc, &[STRANGE_FINISH, BOOTSTRAP]);
    let whole = bytes_of(&rt, alloc, &[ABORTED]);
    // The second read would fail.
    let trial = Trial {
        read: 2,
        most_read,
        ..SOUND
    };
    let tried = over(alloc, &bytes, trial);
    drop(bytes);
    check!(&rt; tried.reads == 1);
    check!(&rt; !expect_tried(&rt, &tried, &whole, trial));
    drop(whole);
    drop(tried);
}

/// A writer that takes all, keeps none of it, and compares it with what is wanted.
#[derive(Drop)]
struct Compared<'a> {
    /// What wasn't written yet.
    left: &'a [u8],
    differs: bool,
    /// Whether all that was written was flushed.
    is_flushed: bool,
}

impl<'a> Write for Compared<'a> {
    fn write(&mut self, buf: &[u8]) -> io::Result<usize> {
        if self.left.starts_with(buf) {
            self.left = &self.left[buf.len()..];
        } else {
            self.differs = true;
        }
        self.is_flushed = false;
        Ok(buf.len())
    }

    fn flush(&mut self) -> io::Result<()> {
        self.is_flushed = true;
        Ok(())
    }
}

/// Whether an allocation failed.
fn is_memory(fault: ServeFault) -> bool {
    match fault {
        ServeFault::OutOfMemory => true,
        ServeFault::Stream(StreamFault::Refused { refusal, .. }) => matches!(
            refusal,
            Refusal::Frame(FrameFault::OutOfMemory)
                | Refusal::Schema(SchemaFault::OutOfMemory)
                | Refusal::Write(WriteFault::OutOfMemory)
        ),
        ServeFault::Stream(StreamFault::Device(_)) => false,
    }
}

/// Serves a Desk and a Cell in boxes. `None` says that there is no memory for them.
fn serve_both(
    alloc: Global,
    bytes: &[u8],
    to: &mut Tap<Compared>,
) -> Option<Result<(), ServeFault>> {
    let desk: Box<dyn Servant> = Box::new(alloc, Sample::Desk(Desk::new(alloc))).ok()?;
    let cell: Box<dyn Servant> = Box::new(alloc, Sample::Cell(Cell::new(alloc))).ok()?;
    let mut objects = Vec::from_array(alloc, [desk, cell]).ok()?;
    let served = serve(alloc, &mut Tap::new(bytes), to, &mut objects, Mode::Plain);
    drop(objects);
    Some(served.map(|report| drop(report)))
}

/// All answers are written and flushed, or an allocation failed after a beginning of them.
fn expect_whole_or_memory(rt: &impl Abort, alloc: Global, bytes: &[u8], answers: &[u8]) {
    let mut to = Tap::new(Compared {
        left: answers,
        differs: false,
        is_flushed: false,
    });
    let ended = serve_both(alloc, bytes, &mut to);
    check!(rt; to.failures() == 0);
    let to = to.into_inner();
    check!(rt; !to.differs);
    match ended {
        Some(Ok(())) => check!(rt; to.left.is_empty() && to.is_flushed),
        Some(Err(fault)) => check!(rt; is_memory(fault)),
        None => {}
    }
}

// With ample memory no allocation fails. nightly/memory/sweep.sh makes each fail in turn.
#[test]
fn allocation_failure_is_reported(rt: HostRuntime) {
    let alloc = rt.alloc();
    let (Some(bytes), Some(answers)) = (prepared(alloc, CALLS), prepared(alloc, ANSWERS)) else {
        return;
    };
    expect_whole_or_memory(&rt, alloc, &bytes, &answers);
    drop(answers);
    drop(bytes);
}
