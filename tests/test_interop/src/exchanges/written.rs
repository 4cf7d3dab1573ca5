//! Lines that are read as calls.

use crate::exchanges::playing::is_reported;
use crate::exchanges::script::push_text;
use cp_lines::{WrittenCall, call_of};
use cp_refs::Outcome;
use cp_scripts::Lines;
use std::alloc::Global;

/// The lines of a script that are read as calls, and after each its params as `show` prints contents, or why it isn't a call.
pub fn calls_read(alloc: Global, script: &str) -> Lines {
    let mut lines = Lines::new(alloc);
    for line in script.lines() {
        if !is_reported(line) {
            lines.push_line(line);
            push_read(alloc, &mut lines, line);
        }
    }
    lines
}

/// Adds what a line is read as.
fn push_read(alloc: Global, lines: &mut Lines, line: &str) {
    match call_of(alloc, line) {
        Ok(call) => push_params(lines, call),
        Err(wrong) => push_text(lines, format!(in alloc; "= {wrong}\n").ok()),
    }
}

/// Adds the params of a call.
fn push_params(lines: &mut Lines, call: WrittenCall) {
    let WrittenCall { params, .. } = call;
    match params {
        Some((content, caps)) => {
            let outcome = Outcome::Results { content, caps };
            lines.push("= ");
            lines.push_outcome_of(1, &outcome);
            drop(outcome);
        }
        None => lines.push_line("= no params"),
    }
}
