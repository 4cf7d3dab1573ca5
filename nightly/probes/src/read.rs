//! Reading the frames of a stream.

ghost use Rattle.std.specs.Prelude.{◌≡◌, ◌⊎◌, IfSome, IsTrue};
ghost use Rattle.cp_frame.specs.declared.mode.Mode.TheVariants.{Plain, Packed};
ghost use Rattle.cp_probes.specs.Read.{IsOfKind, Counts, CountsWithin, within};

use cp_frame::{FrameReader, Mode};
use cp_reading::read_root;
use cp_stream::view_in;
use cp_words::{Limits, Segments};
use std::alloc::Global;

/// The standard limits, but for these two. `None` where one is out of its range.
pub(crate) fn limits_of(nesting: u32, traversal: u32) -> Option<Limits>
    ensures { IfSome result (λ l. l ≡ within nesting traversal) }
{
    let standard = Limits::standard();
    Limits::new(
        nesting,
        traversal,
        standard.segments(),
        standard.frame_words(),
    )
}

/// How many frames a plain stream has, each of which gives what is asked for: at 0 nothing but its words,
/// at 1 a view of its message, else an owned tree.
#[unsafe(no_mangle)]
pub extern "C" fn cpb_read_frames(alloc: Global, bytes: &[u8], kind: u8) -> u64
    ensures { (result ≡ 0) ⊎ Counts Plain kind bytes.now result }
{
    count(alloc, Mode::Plain, bytes, kind, Limits::standard()).unwrap_or(0)
}

/// How many frames a packed stream has, each of which gives what `cpb_read_frames` says.
#[unsafe(no_mangle)]
pub extern "C" fn cpb_packed_frames(alloc: Global, bytes: &[u8], kind: u8) -> u64
    ensures { (result ≡ 0) ⊎ Counts Packed kind bytes.now result }
{
    count(alloc, Mode::Packed, bytes, kind, Limits::standard()).unwrap_or(0)
}

/// What `cpb_read_frames` gives within limits on nesting and traversal.
#[unsafe(no_mangle)]
pub extern "C" fn cpb_read_frames_within(
    alloc: Global,
    bytes: &[u8],
    kind: u8,
    nesting: u32,
    traversal: u32,
) -> u64
    ensures { (result ≡ 0) ⊎ CountsWithin (within nesting traversal) Plain kind bytes.now result }
{
    match limits_of(nesting, traversal) {
        Some(limits) => count(alloc, Mode::Plain, bytes, kind, limits).unwrap_or(0),
        None => 0,
    }
}

/// What `cpb_packed_frames` gives within limits on nesting and traversal.
#[unsafe(no_mangle)]
pub extern "C" fn cpb_packed_frames_within(
    alloc: Global,
    bytes: &[u8],
    kind: u8,
    nesting: u32,
    traversal: u32,
) -> u64
    ensures { (result ≡ 0) ⊎ CountsWithin (within nesting traversal) Packed kind bytes.now result }
{
    match limits_of(nesting, traversal) {
        Some(limits) => count(alloc, Mode::Packed, bytes, kind, limits).unwrap_or(0),
        None => 0,
    }
}

/// How many frames a whole stream has, if each gives what is asked for.
fn count(alloc: Global, mode: Mode, bytes: &[u8], kind: u8, limits: Limits) -> Option<u64>
    ensures { IfSome result (CountsWithin limits mode kind bytes.now) }
{
    let mut reader = FrameReader::new(alloc, mode, limits);
    let mut count: u64 = 0;
    let mut left = bytes;
    'reading: while !left.is_empty() {
        let Ok(next) = reader.next(left) else {
            return None;
        };
        let Some((_, segments, back)) = next else {
            return None;
        };
        if !gives(alloc, &segments, kind, limits) {
            return None;
        }
        reader.reuse(segments);
        count = count.checked_add(1)?;
        left = back;
    }
    Some(count)
}

/// Whether the segments give what is asked for: at 0 nothing, at 1 a view of a message, else an owned tree.
fn gives(alloc: Global, segments: &Segments, kind: u8, limits: Limits) -> bool
    ensures { IsTrue result → IsOfKind limits kind segments.now }
{
    match kind {
        0 => true,
        1 => view_in(segments, limits).is_ok(),
        _ => read_root(alloc, segments, limits).is_ok(),
    }
}
