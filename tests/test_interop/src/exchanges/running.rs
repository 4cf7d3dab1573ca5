//! Scripts, played by `run` as one list of events.

use crate::exchanges::playing::{is_reported, said};
use cp_scripts::{Lines, event_of};
use cp_vat::run;
use cp_vat_machine::{Event, Ran};
use std::alloc::Global;

/// The lines of what a new vat does when it runs all events of a script, up to the first that it refuses.
pub fn ran(alloc: Global, bootstrap: Option<u32>, script: &str) -> Lines {
    let mut events = Vec::new(alloc);
    for line in script.lines() {
        if !is_reported(line) {
            push_event(alloc, &mut events, said(line).0);
        }
    }
    let ran = run(alloc, bootstrap, events);
    lines_of(alloc, script, &ran)
}

/// Adds the event of a line. Where it can't be read it is missing, which the lines show.
fn push_event(alloc: Global, events: &mut Vec<Event>, line: &str) {
    if let Some(event) = event_of(alloc, line) {
        drop(events.push(event));
    }
}

/// The lines of the events that were run, and of what followed each.
fn lines_of(alloc: Global, script: &str, ran: &Ran) -> Lines {
    let mut lines = Lines::new(alloc);
    let mut done = ran.done.iter();
    for line in script.lines() {
        if is_reported(line) {
            continue;
        }
        lines.push_line(line);
        match done.next() {
            Some(acted) => {
                if said(line).1 {
                    lines.push_acted(acted);
                }
            }
            None => {
                if let Some((_, fault)) = ran.refused {
                    lines.push_fault(fault);
                }
                return lines;
            }
        }
    }
    lines
}
