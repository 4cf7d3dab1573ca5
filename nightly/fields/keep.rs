//! Writes each message of standard input again, by the draft of an older schema, which keeps the fields that it doesn't know.
#![tactic(auto)]

use anyhow::anyhow;
use cp_builder::StructBuilder;
use cp_fields::PointerReader;
use cp_frame::{FrameReader, Mode};
use cp_reading::View;
use cp_stream::{Tap, write_struct};
use cp_words::{Limits, Segments};
use older::{ThingBuilder, ThingReader};
use std::alloc::Global;
use std::io::{self, Read};

/// The draft of a message, with a field that the older schema knows set again.
fn kept(alloc: Global, segments: &Segments) -> anyhow::Result<ThingBuilder> {
    let view = View::root(segments, Limits::standard()).map_err(|fault| anyhow!("{fault}"))?;
    let thing = ThingReader::of(PointerReader::of_view(view))?;
    let mut draft = ThingBuilder {
        body: StructBuilder::of_view(alloc, &thing.body)?,
    };
    draft.set_id(thing.id());
    Ok(draft)
}

fn main(rt: HostRuntime) -> anyhow::Result<()> {
    let alloc = rt.alloc();
    let mut bytes = Vec::new(alloc);
    rt.stdin().read_to_end(&mut bytes)?;
    let mut reader = FrameReader::plain(alloc, Limits::standard());
    let mut out = Tap::new(io::writer(&rt));
    for (_, segments) in &reader.feed(&bytes)? {
        let object = kept(alloc, segments)?.body.into_object();
        write_struct(alloc, &mut out, &object, Mode::Plain, Limits::standard())?;
    }
    Ok(reader.finish()?)
}
