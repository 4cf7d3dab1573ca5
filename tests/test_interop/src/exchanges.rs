//! Exchanges of a vat with its peer, and of two vats, and sessions of objects with their peer. Each is a section of a file of the
//! folder `exchanges`: what comes, and after it all that follows.

mod bytes;
mod connecting;
mod exchange;
mod objects;
mod pairs;
mod playing;
mod running;
mod script;
mod sessions;
mod written;

use crate::exchanges::exchange::{Fault, failure};
use crate::exchanges::script::{Section, script_of};
use crate::is_wanted;
use std::alloc::Global;
use std::{fs, io};

/// The files of exchanges. The lines that several of these begin with are in `parts.txt`.
const FILES: [&str; 14] = [
    "exchanges/calls.txt",
    "exchanges/connections.txt",
    "exchanges/counts.txt",
    "exchanges/embargoes.txt",
    "exchanges/faults.txt",
    "exchanges/limits.txt",
    "exchanges/lines.txt",
    "exchanges/promises.txt",
    "exchanges/references.txt",
    "exchanges/refusals.txt",
    "exchanges/sessions.txt",
    "exchanges/state.txt",
    "exchanges/tails.txt",
    "exchanges/worlds.txt",
];

/// Plays all files, or this one. Says whether all sections went as their scripts say.
pub fn play_all(rt: &HostRuntime, only: Option<&str>) -> io::Result<bool> {
    let parts = fs::read_to_string(rt, "exchanges/parts.txt")?;
    let played = play_files(rt, parts.as_str(), only);
    drop(parts);
    played
}

/// The same with these parts.
fn play_files(rt: &HostRuntime, parts: &str, only: Option<&str>) -> io::Result<bool> {
    let mut is_good = true;
    for file in FILES {
        if is_wanted(only, file) {
            is_good = play_file(rt, parts, file)? && is_good;
        }
    }
    Ok(is_good)
}

/// Plays the sections of a file, and prints how many went as their scripts say, of how many. Says whether all did.
fn play_file(rt: &HostRuntime, parts: &str, file: &str) -> io::Result<bool> {
    let text = fs::read_to_string(rt, file)?;
    let counts = play_sections(rt, parts, text.as_str());
    drop(text);
    let (played, right) = counts?;
    println!(rt; "{file}: {right} of {played}")?;
    Ok(right == played)
}

/// Plays the sections of a text. Says how many there are, and how many went as their scripts say.
fn play_sections(rt: &HostRuntime, parts: &str, text: &str) -> io::Result<(u64, u64)> {
    let (mut played, mut right) = (0u64, 0u64);
    for section in text.split("\n== ").skip(1) {
        if is_right(rt, rt.alloc(), parts, Section::of(section))? {
            right = right.saturating_add(1);
        }
        played = played.saturating_add(1);
    }
    Ok((played, right))
}

/// Plays a section, and says whether it goes as its script says. Prints how it went where not.
fn is_right(rt: &HostRuntime, alloc: Global, parts: &str, section: Section) -> io::Result<bool> {
    let script = script_of(alloc, parts, section.lines);
    let failed = failure(alloc, section.players, &script);
    drop(script);
    match failed {
        Some(fault) => {
            let printed = print_failure(rt, section.name, &fault);
            drop(fault);
            printed?;
            Ok(false)
        }
        None => Ok(true),
    }
}

/// Prints how an exchange went.
fn print_failure(rt: &HostRuntime, name: &str, fault: &Fault) -> io::Result<()> {
    let lines = fault.lines.text().unwrap_or("memory ran out\n");
    println!(rt; "{name}, {}, went so:\n{lines}", fault.way)
}
