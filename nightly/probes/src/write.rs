//! Writing frames.

ghost use Rattle.std.specs.Prelude.{◌≡◌, ◌⊎◌, [], None, IfSome, IsTrue};
ghost use Rattle.cp_probes.specs.Given.{Gives, GivesNone};
ghost use Rattle.cp_probes.specs.Read.{within};
ghost use Rattle.cp_probes.specs.Write.{AreTreesOf, AreWritten, IsRewritten, GivesWritten, GivesWrittenWithin};

use crate::fill::fill;
use crate::read::limits_of;
use cp_frame::{FrameReader, Mode, write_after};
use cp_reading::read_root;
use cp_tree::Object;
use cp_words::{Limits, Segments};
use cp_writing::write_segments;
use std::alloc::Global;

/// A plain stream's frames are read into owned trees, and these are written as frames `turns` times. Gives
/// the number of bytes of a turn, and puts what fits of the last into the buffer. Where a frame has no tree
/// it gives 0, and the buffer stays as it was.
#[unsafe(no_mangle)]
pub extern "C" fn cpb_write_frames(
    alloc: Global,
    bytes: &[u8],
    turns: u32,
    buffer: &mut [u8],
) -> usize
    ensures { GivesNone result buffer.old buffer.new ⊎ GivesWritten bytes.now turns result buffer.old buffer.new }
{
    let limits = Limits::standard();
    give(
        &rewrite(alloc, bytes, turns, limits.frame_words(), limits),
        buffer,
    )
}

/// What `cpb_write_frames` gives for one turn within limits on nesting and traversal, in segments of at
/// most this many words.
#[unsafe(no_mangle)]
pub extern "C" fn cpb_write_frames_within(
    alloc: Global,
    bytes: &[u8],
    words: u32,
    nesting: u32,
    traversal: u32,
    buffer: &mut [u8],
) -> usize
    ensures { GivesNone result buffer.old buffer.new ⊎ GivesWrittenWithin words (within nesting traversal) bytes.now 1 result buffer.old buffer.new }
{
    let Some(limits) = limits_of(nesting, traversal) else {
        return 0;
    };
    give(&rewrite(alloc, bytes, 1, words, limits), buffer)
}

/// Gives the number of the bytes that were written, and puts what fits of them into the buffer.
fn give(written: &Option<Vec<u8>>, buffer: &mut [u8]) -> usize
    ensures some { IfSome written.now (λ out. Gives out.items result buffer.old buffer.new) }
    ensures none { written.now ≡ None → GivesNone result buffer.old buffer.new }
{
    match written {
        Some(out) => {
            fill(buffer, out);
            out.len()
        }
        None => 0,
    }
}

/// The frames of a plain stream's owned trees, written `turns` times.
fn rewrite(alloc: Global, bytes: &[u8], turns: u32, words: u32, limits: Limits) -> Option<Vec<u8>>
    ensures { IfSome result (λ out. IsRewritten words limits bytes.now turns out.items) }
{
    let mut reader = FrameReader::plain(alloc, limits);
    let Ok(frames) = reader.feed(bytes) else {
        return None;
    };
    if reader.finish().is_err() {
        return None;
    }
    let trees = trees_of(alloc, &frames, limits)?;
    let mut out = Vec::new(alloc);
    for _turn in 0..turns {
        if !write_all(alloc, &trees, words, limits, &mut out) {
            return None;
        }
    }
    Some(out)
}

/// The frames' owned trees, if each has one.
fn trees_of(alloc: Global, frames: &[(u64, Segments)], limits: Limits) -> Option<Vec<Object>>
    ensures { IfSome result (λ trees. AreTreesOf limits frames.now trees.items) }
{
    let mut trees = Vec::new(alloc);
    for frame in frames {
        let Ok(tree) = read_root(alloc, &frame.1, limits) else {
            return None;
        };
        trees.push(tree).ok()?;
    }
    Some(trees)
}

/// The frames of the trees, one after another, in segments of at most this many words, in place of what was
/// in `out`.
fn write_all(alloc: Global, trees: &[Object], words: u32, limits: Limits, out: &mut Vec<u8>) -> bool
    ensures { IsTrue result → AreWritten words limits trees.now out.new.items }
{
    out.clear();
    for tree in trees {
        let Ok(segments) = write_segments(alloc, tree, words, limits) else {
            return false;
        };
        let Ok(()) = write_after(alloc, out, &segments, Mode::Plain, limits) else {
            return false;
        };
    }
    true
}
