//! Frames of the reference C++ writer and streams that real peers sent, which lie beside this
//! program: each is read in every way, written again, and compared with the line that the reference
//! reader confirmed. Beside them are files, and what each command does with them, and exchanges, each with what follows each event.
//! With the name of a file it tries that one alone.
#![tactic(auto)]

mod call;
mod command;
mod exchanges;
mod fault;
mod frame;
mod guard;
mod message;
mod recording;
mod row;
mod stream;
mod text;

use crate::fault::Fault;
use cp_schema::Notation;
use std::alloc::Global;
use std::process::ExitCode;
use std::{env, fs};

/// The streams, each beside the file of its lines.
const STREAMS: [(&str, &str); 3] = [
    ("desk.1.c2s", "desk.1.c2s.show"),
    ("desk.1.s2c", "desk.1.s2c.show"),
    ("rust.1.c2s", "rust.1.c2s.show"),
];

/// The files of rows.
const ROWS: [Rows; 8] = [
    Rows::Frames,
    Rows::Commands,
    Rows::Texts,
    Rows::Json,
    Rows::Calls,
    Rows::Messages,
    Rows::Guards,
    Rows::Recordings,
];

/// A file of rows.
#[derive(Clone, Copy)]
enum Rows {
    Frames,
    Commands,
    Texts,
    Json,
    Calls,
    Messages,
    Guards,
    Recordings,
}

impl Rows {
    fn name(self) -> &'static str {
        match self {
            Rows::Frames => "frames.txt",
            Rows::Commands => "commands.txt",
            Rows::Texts => "texts.txt",
            Rows::Json => "json.txt",
            Rows::Calls => "calls.txt",
            Rows::Messages => "messages.txt",
            Rows::Guards => "guards.txt",
            Rows::Recordings => "recordings.txt",
        }
    }

    /// The schema of its structs: what `capnp compile -o-` printed of the file of the same name.
    fn request(self) -> &'static str {
        match self {
            Rows::Frames | Rows::Commands | Rows::Messages => "shown.request",
            Rows::Texts => "texts.request",
            Rows::Json => "json.request",
            Rows::Calls => "calls.request",
            Rows::Guards => "guards.request",
            Rows::Recordings => "recordings.request",
        }
    }

    /// Tries a row, and answers how many trials it took.
    fn try_line(self, alloc: Global, request: &[u8], line: &str) -> Result<u64, Fault> {
        match self {
            Rows::Frames => row::try_line(alloc, line),
            Rows::Commands => command::try_line(alloc, request, line),
            Rows::Texts => text::try_line(alloc, request, Notation::Text, line),
            Rows::Json => {
                text::try_line(alloc, request, Notation::Json { is_pretty: false }, line)
            }
            Rows::Calls => call::try_line(alloc, request, line),
            Rows::Messages => message::try_line(alloc, line),
            Rows::Guards => guard::try_line(alloc, request, line),
            Rows::Recordings => recording::try_line(alloc, request, line),
        }
    }

    /// Tries each row of the file, and prints what was tried.
    fn try_all(self, rt: &HostRuntime) -> anyhow::Result<bool> {
        let (name, alloc) = (self.name(), rt.alloc());
        let request = fs::read(rt, self.request())?;
        let text = fs::read_to_string(rt, name)?;
        let (mut rows, mut trials, mut failed) = (0u64, 0u64, 0u64);
        for (i, line) in text.as_str().lines().enumerate() {
            if line.starts_with('#') {
                continue;
            }
            match self.try_line(alloc, &request, line) {
                Ok(tried) => trials = trials.saturating_add(tried),
                Err(fault) => {
                    println!(rt; "{name} line {}: {fault}", i.saturating_add(1))?;
                    failed = failed.saturating_add(1);
                }
            }
            rows = rows.saturating_add(1);
        }
        println!(rt; "{name}: rows {rows}, trials {trials}, failed {failed}")?;
        Ok(failed == 0)
    }
}

/// Whether all files are to be tried, or this one.
pub fn is_wanted(only: Option<&str>, name: &str) -> bool {
    match only {
        Some(it) => it == name,
        None => true,
    }
}

/// Tries the files of rows, or this one.
fn rows(rt: &HostRuntime, only: Option<&str>) -> anyhow::Result<bool> {
    let mut good = true;
    for rows in ROWS {
        if is_wanted(only, rows.name()) {
            good = rows.try_all(rt)? && good;
        }
    }
    Ok(good)
}

/// Tries each stream, or this one, and prints how many messages it has.
fn streams(rt: &HostRuntime, only: Option<&str>) -> anyhow::Result<bool> {
    let alloc = rt.alloc();
    let mut good = true;
    for (name, lines) in STREAMS {
        if !is_wanted(only, name) {
            continue;
        }
        let bytes = fs::read(rt, name)?;
        let lines = fs::read_to_string(rt, lines)?;
        match stream::try_all(alloc, &bytes, lines.as_str()) {
            Ok(messages) => println!(rt; "{name}: messages {messages}")?,
            Err(fault) => {
                println!(rt; "{name}: {fault}")?;
                good = false;
            }
        }
    }
    Ok(good)
}

fn main(rt: HostRuntime) -> anyhow::Result<ExitCode> {
    let word = env::args(&rt)?.nth(1);
    let only = match &word {
        Some(it) => Some(it.as_str()),
        None => None,
    };
    let good = rows(&rt, only)? & streams(&rt, only)? & exchanges::play_all(&rt, only)?;
    Ok(if good {
        ExitCode::SUCCESS
    } else {
        ExitCode::FAILURE
    })
}
