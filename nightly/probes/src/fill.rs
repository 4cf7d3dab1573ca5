//! Buffers that the caller gives.

ghost use Rattle.std.specs.Prelude.{◌≡◌};
ghost use Rattle.cp_probes.specs.Given.{over};

/// Puts what fits of these at the front, and leaves the rest as it was.
pub fn fill<T: Copy>(buffer: &mut [T], items: &[T])
    ensures { buffer.new ≡ over items.now buffer.old }
{
    let count = items.len().min(buffer.len());
    buffer[..count].copy_from_slice(&items[..count]);
}

/// How many bytes the lines have that say what was given, and how many were written.
#[repr(C)]
#[derive(Drop)]
pub struct Told {
    pub lines: usize,
    pub written: usize,
}
