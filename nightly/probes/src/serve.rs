//! A server over bytes in memory.

ghost use Rattle.std.specs.Prelude.{◌≡◌, ◌⊎◌, IfOk, map};
ghost use Rattle.cp_probes.specs.Given.{GivesNone};
ghost use Rattle.cp_probes.specs.Serve.{IsUnserved, GivesServed, mode_of, how_ended, cap_of, reply_of};

use crate::fill::fill;
use crate::pieces::Pieces;
use cp_frame::Mode;
use cp_refs::{Cap, Caps, Outcome};
use cp_servants::{Cell, Desk, Reply, Sample, Script};
use cp_serve::{Report, ServeFault, serve_each};
use cp_stream::{StreamFault, Tap};
use cp_tree::{Tree, Whole};
use cp_vat_machine::Ids;
use std::alloc::{AllocError, Global};

/// What was written, and how the server ended.
#[repr(C)]
#[derive(Drop)]
pub struct Served {
    /// The number of bytes.
    pub written: usize,
    /// 0 where the messages ended, 1 where the vat closed, 2 where what was read is refused, 3 where a
    /// device failed, 4 where memory ran out.
    pub how: u8,
}

/// Where memory ran out before a server began.
const UNSERVED: Served = Served { written: 0, how: 4 };

/// Serves a Script, a Cell and a Desk, objects 0 to 2, to a peer that sends these bytes, a piece of at most
/// `first` and then pieces of at most `piece` (0 counts as 1). Of the Script's first calls each is answered with a
/// capability, which the next number of `named` says: an object, or from 2^32 on an import, counted from there; 0
/// leaves it without an answer, as each later call is left. Says how many bytes were written and how that ended,
/// and puts what fits of them into the buffer. Where memory runs out before it begins, nothing is written, and
/// the buffer stays as it was.
#[unsafe(no_mangle)]
pub extern "C" fn cpb_serve(
    alloc: Global,
    bytes: &[u8],
    packed: bool,
    first: usize,
    piece: usize,
    named: &[u64],
    buffer: &mut [u8],
) -> Served
    ensures { IsUnserved result buffer.old buffer.new ⊎ GivesServed (mode_of packed) bytes.now result buffer.old buffer.new }
{
    let Ok(written) = Vec::with_capacity(alloc, buffer.len()) else {
        return UNSERVED;
    };
    let Ok(mut objects) = objects_of(alloc, named) else {
        return UNSERVED;
    };
    let left = bytes;
    let mut from = Tap::new(Pieces { left, first, piece });
    let mut to = Tap::new(written);
    let ended = serve_each(alloc, &mut from, &mut to, &mut objects, mode_of(packed));
    let written = to.into_inner();
    fill(buffer, &written);
    Served {
        written: written.len(),
        how: how_ended(&ended),
    }
}

/// The objects, in order.
fn objects_of(alloc: Global, named: &[u64]) -> Result<Vec<Sample>, AllocError> {
    let script = Script::new(replies_of(alloc, named)?, Vec::new(alloc));
    let mut objects = Vec::new(alloc);
    objects.push(Sample::Script(script))?;
    objects.push(Sample::Cell(Cell::new(alloc)))?;
    objects.push(Sample::Desk(Desk::new(alloc)))?;
    Ok(objects)
}

/// What the Script answers its first calls with.
fn replies_of(alloc: Global, named: &[u64]) -> Result<Vec<Reply>, AllocError>
    ensures { IfOk result (λ replies. replies.items ≡ map reply_of named.now) }
{
    let mut replies = Vec::new(alloc);
    for number in named {
        replies.push(reply_of(alloc, *number)?)?;
    }
    Ok(replies)
}

/// What a number of `named` says.
fn reply_of(alloc: Global, number: u64) -> Result<Reply, AllocError>
    ensures { IfOk result (λ reply. reply ≡ reply_of number) }
{
    if number == 0 {
        return Ok(Reply::Later);
    }
    Ok(Reply::Now {
        outcome: Outcome::Results {
            content: Whole::from_shaped(Tree::Cap(0)),
            caps: Caps::new(vec![in alloc; cap_of(number)]?),
        },
        gives_up: Ids::new(Vec::new(alloc)),
    })
}

/// The object of a number, or from 2^32 on the import.
fn cap_of(number: u64) -> Cap
    ensures { result ≡ cap_of number }
{
    match u32::try_from(number) {
        Ok(object) => Cap::Object(object),
        Err(_) => Cap::Import((number % 0x1_0000_0000) as u32),
    }
}

/// The form that bytes are in.
pub fn mode_of(packed: bool) -> Mode
    ensures { result ≡ mode_of packed }
{
    if packed { Mode::Packed } else { Mode::Plain }
}

/// How a server ended, as a number.
fn how_ended(ended: &Result<Report, ServeFault>) -> u8
    ensures { result ≡ how_ended ended.now }
{
    match ended {
        Ok(report) => report.closed.is_some() as u8,
        Err(ServeFault::Stream(StreamFault::Refused { .. })) => 2,
        Err(ServeFault::Stream(StreamFault::Device(_))) => 3,
        Err(ServeFault::OutOfMemory) => 4,
    }
}
