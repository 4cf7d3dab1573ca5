//! Texts by a schema.

use crate::give;
use crate::pieces::Pieces;
use cp_commands::{ACCEPTED, Encoding, Names, Plan, act, encode};
use cp_encoder::Encoder;
use cp_frame::Mode;
use cp_schema::{Decoder, Schema};
use cp_words::Limits;
use std::alloc::Global;

/// Makes frames of texts of a struct of a request, which come in pieces, and puts what fits of their lines into `said`, or of why one isn't
/// a text of it. Says how many bytes there are, or 0 where there is no such request or struct. A first byte says what was said: `=` lines, `!` why
/// not, `?` that what was made can't be shown.
#[unsafe(no_mangle)]
pub extern "C" fn wp_texts(
    alloc: Global,
    request: &[u8],
    name: &[u8],
    texts: &[u8],
    first: usize,
    piece: usize,
    said: &mut [u8],
) -> usize {
    let Ok(schema) = Schema::read(alloc, request) else {
        return 0;
    };
    let from = Pieces {
        left: texts,
        first,
        piece,
    };
    let text = said_of(alloc, &schema, str::from_utf8(name).unwrap_or(""), from);
    drop(schema);
    match text {
        Some(text) => {
            let count = give(said, &text);
            drop(text);
            count
        }
        None => 0,
    }
}

/// What is said of texts.
fn said_of(alloc: Global, schema: &Schema, name: &str, mut from: Pieces<'_>) -> Option<Vec<u8>> {
    let encoder = Encoder::by_name(schema, name)?;
    let decoder = Decoder::by_name(schema, name)?;
    let (mut frames, mut said, mut why) = (Vec::new(alloc), Vec::new(alloc), Vec::new(alloc));
    let by = Encoding {
        encoder,
        mode: Mode::Packed,
    };
    let status = encode(alloc, &by, &mut from, &mut frames, &mut why);
    let mark = if status != ACCEPTED {
        b'!'
    } else if is_shown(alloc, decoder, &frames, &mut why) {
        b'='
    } else {
        b'?'
    };
    drop(frames);
    let put = put_both(&mut said, mark, &why);
    drop(why);
    if put.is_err() {
        drop(said);
        return None;
    }
    Some(said)
}

/// Adds the lines of frames. Says whether all could be shown.
fn is_shown(alloc: Global, decoder: Decoder<'_>, mut frames: &[u8], lines: &mut Vec<u8>) -> bool {
    // (The prover wants the type of another plan's part to be named here.)
    let _names: Option<&Names> = None;
    let plan = Plan::Decode {
        mode: Mode::Packed,
        limits: Limits::standard(),
        decoder,
    };
    let mut fault = Vec::new(alloc);
    let status = act(alloc, &plan, &mut frames, lines, &mut fault);
    drop(fault);
    status == ACCEPTED
}

fn put_both(said: &mut Vec<u8>, mark: u8, bytes: &[u8]) -> Result<(), std::alloc::AllocError> {
    said.push(mark)?;
    said.extend_from_slice(bytes)
}
