//! What the command reads as text, over memory, for ../words.cpp alone: texts by a schema, calls by name, and rules with the streams that they
//! guard. A slice crosses as a pointer and then a length, an allocator as nothing.
#![tactic(auto)]

mod calls;
mod guard;
mod pieces;
mod texts;

pub use calls::wp_calls;
pub use guard::wp_guard;
pub use texts::wp_texts;

/// Puts what fits of these at the front, and says how many there are.
fn give(buffer: &mut [u8], bytes: &[u8]) -> usize {
    let count = bytes.len().min(buffer.len());
    buffer[..count].copy_from_slice(&bytes[..count]);
    bytes.len()
}
