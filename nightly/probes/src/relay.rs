//! One direction of a relay, over bytes in memory.

use crate::fill::{Told, fill};
use crate::serve::mode_of;
use cp_frame::Mode;
use cp_relay::{AllowAll, Output, Relay, RelayFault};
use cp_words::Limits;
use std::alloc::Global;

/// Feeds these bytes to a relay, a piece of at most `first` and then pieces of at most `piece` (0 counts as 1), and ends them. At
/// `form` 0 a message goes out as it was read, at 1 anew in the plain form, else anew in the packed one. Puts what fits of what
/// went out into `buffer`, and of the fault that ended it, if there was one, into `line`, and says how many bytes each has.
#[unsafe(no_mangle)]
pub extern "C" fn cpb_relay(
    alloc: Global,
    bytes: &[u8],
    packed: bool,
    form: u8,
    first: usize,
    piece: usize,
    line: &mut [u8],
    buffer: &mut [u8],
) -> Told {
    let mut relay = Relay::new(alloc, mode_of(packed), output_of(form), Limits::standard());
    let mut out = Vec::new(alloc);
    let ended = pass(&mut relay, bytes, first, piece, &mut out);
    fill(buffer, &out);
    Told {
        lines: tell(alloc, ended, line),
        written: out.len(),
    }
}

/// Feeds bytes in pieces, and ends them.
fn pass(
    relay: &mut Relay,
    bytes: &[u8],
    first: usize,
    piece: usize,
    out: &mut Vec<u8>,
) -> Result<(), RelayFault> {
    let (front, back) = bytes.split_at(bytes.len().min(first.max(1)));
    relay.feed(&mut AllowAll, front, out)?;
    for piece in back.chunks(piece.max(1)) {
        relay.feed(&mut AllowAll, piece, out)?;
    }
    relay.finish()
}

/// What goes out for a message.
fn output_of(form: u8) -> Output {
    match form {
        0 => Output::AsRead,
        1 => Output::Anew(Mode::Plain),
        _ => Output::Anew(Mode::Packed),
    }
}

/// Puts what fits of a fault's line into the buffer, and gives its length.
fn tell(alloc: Global, ended: Result<(), RelayFault>, line: &mut [u8]) -> usize {
    let Err(fault) = ended else {
        return 0;
    };
    let Ok(text) = format!(in alloc; "{fault}") else {
        return 0;
    };
    fill(line, text.as_bytes());
    text.len()
}
