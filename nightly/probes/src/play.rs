//! Scripts of a vat, played.

ghost use Rattle.std.specs.Prelude.{◌⊎◌, ℕ, List};
ghost use Rattle.cp_probes.specs.Given.{Gives, GivesNone};

use crate::fill::fill;
use cp_scripts::{Lines, Taken, act, event_of};
use cp_vat::Vat;
use std::alloc::Global;

/// Plays a script on a new vat. Its first line is `vat`, or `vat object:N` with the object that is given
/// to a Bootstrap, and after that ` in place`, if the vat is to read messages in place; each other is an
/// event. Gives the number of bytes of the events' lines but the first `skipped`, with all that follows
/// after each, and puts what fits of them into the buffer. Where there is none, the script isn't UTF-8, or
/// memory runs out, it gives 0, and the buffer stays as it was.
#[unsafe(no_mangle)]
pub extern "C" fn cpb_play(alloc: Global, script: &[u8], skipped: usize, buffer: &mut [u8]) -> usize
    ensures { GivesNone result buffer.old buffer.new ⊎ ((lines : List ℕ) × Gives lines result buffer.old buffer.new) }
{
    let Ok(script) = str::from_utf8(script) else {
        return 0;
    };
    match play(alloc, script, skipped).text() {
        Some(lines) => {
            fill(buffer, lines.as_bytes());
            lines.len()
        }
        None => 0,
    }
}

/// Plays a script on a new vat, and gives what each event but the first ones gave.
fn play(alloc: Global, script: &str, skipped: usize) -> Lines {
    let mut given = Lines::with_frames(alloc);
    let mut lines = script.lines();
    let (line, taken) = taken_of(lines.next().unwrap_or(""));
    let Some(mut vat) = vat_of(alloc, line) else {
        return given;
    };
    for (place, line) in lines.enumerate() {
        if !play_line(alloc, &mut vat, taken, line, &mut given) {
            break;
        }
        if place < skipped {
            given.clear();
        }
    }
    drop(vat);
    given
}

/// What the first line says of the vat, and how it takes in messages.
fn taken_of(line: &str) -> (&str, Taken) {
    match line.strip_suffix(" in place") {
        Some(line) => (line, Taken::InPlace),
        None => (line, Taken::Owned),
    }
}

/// A new vat, as its line says: `vat`, or `vat object:N` with the object that it gives to a Bootstrap.
fn vat_of(alloc: Global, line: &str) -> Option<Vat> {
    if line == "vat" {
        return Some(Vat::new(alloc, None));
    }
    match line.strip_prefix("vat object:")?.parse::<u32>() {
        Ok(object) => Some(Vat::new(alloc, Some(object))),
        Err(_) => None,
    }
}

/// Plays an event's line, adds what it gave, and says whether it is an event that can be played.
fn play_line(alloc: Global, vat: &mut Vat, taken: Taken, line: &str, given: &mut Lines) -> bool {
    let Some(event) = event_of(alloc, line) else {
        given.push_line("= unread");
        return false;
    };
    given.push_line(line);
    match act(alloc, vat, event, taken) {
        Some(acted) => {
            given.push_given(acted);
            true
        }
        None => {
            given.push_line("= unread");
            false
        }
    }
}
