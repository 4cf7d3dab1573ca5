//! A row of the file of recordings.

use crate::fault::Fault;
use crate::row::{decoded, expect};
use cp_recordings::{Recording, SessionFault, Teller};
use cp_schema::Schema;
use cp_words::Limits;
use std::alloc::Global;

/// A recording of a row: its times, and the streams of both ends.
#[derive(Drop)]
struct Recorded {
    times: String,
    client: Vec<u8>,
    server: Vec<u8>,
}

impl Recorded {
    /// The lines that are told of it by the names of a schema, and a fault after them.
    fn told(&self, alloc: Global, schema: &Schema, has_times: bool) -> Result<String, Fault> {
        let mut out = Vec::new(alloc);
        let told = self.tell(alloc, schema, has_times, &mut out);
        let mut text = match String::from_utf8(out) {
            Ok(text) => text,
            Err(_) => return Err(Fault::Bytes),
        };
        if let Err(fault) = told {
            write!(text, "! {fault}")?;
        }
        Ok(text)
    }

    /// Tells it to its end.
    fn tell(
        &self,
        alloc: Global,
        schema: &Schema,
        has_times: bool,
        out: &mut Vec<u8>,
    ) -> Result<(), SessionFault> {
        let (limits, times) = (Limits::standard(), self.times.as_str());
        let (client, server) = (self.client.as_slice(), self.server.as_slice());
        let mut recording = Recording::new(alloc, limits, times, client, server)?;
        let mut teller = Teller::new(alloc, out, Some(schema), has_times);
        let ending = recording.play(&mut teller);
        let told = match ending {
            Ok(ending) => teller.end(ending),
            Err(fault) => Err(fault),
        };
        drop(teller);
        drop(recording);
        told
    }
}

/// A text with line feeds in the place of bars.
fn lines_of(alloc: Global, text: &str) -> Result<String, Fault> {
    let mut lines = String::new(alloc);
    for c in text.chars() {
        lines.push(if c == '|' { '\n' } else { c })?;
    }
    Ok(lines)
}

/// Tells a recording, and compares what is told. The line has `lines` or `times`, the times with bars for line feeds, both streams
/// in hexadecimal, and what is told, between tabs.
pub fn try_line(alloc: Global, request: &[u8], line: &str) -> Result<u64, Fault> {
    let mut parts = line.splitn(5, '\t');
    let has_times = parts.next().ok_or(Fault::Row)? == "times";
    let times = parts.next().ok_or(Fault::Row)?;
    let client = parts.next().ok_or(Fault::Row)?;
    let server = parts.next().ok_or(Fault::Row)?;
    let wanted = parts.next().ok_or(Fault::Row)?;
    let recorded = Recorded {
        times: lines_of(alloc, times)?,
        client: decoded(alloc, client)?,
        server: decoded(alloc, server)?,
    };
    let schema = Schema::read(alloc, request)?;
    let told = recorded.told(alloc, &schema, has_times);
    drop(schema);
    drop(recorded);
    let wanted = lines_of(alloc, wanted)?;
    let tried = expect(told?, wanted.as_str());
    drop(wanted);
    tried?;
    Ok(1)
}
