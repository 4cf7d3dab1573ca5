//! Scripts, played event by event.

use crate::exchanges::script::UNREAD;
use cp_scripts::{Lines, Taken, act, event_of};
use cp_vat::Vat;
use cp_vat_machine::{Acted, Value, VatFault};
use std::alloc::Global;

/// A vat, which takes in messages in one way.
#[derive(Drop)]
pub struct Player {
    alloc: Global,
    taken: Taken,
    vat: Vat,
}

impl Player {
    pub fn new(alloc: Global, bootstrap: Option<u32>, taken: Taken) -> Player {
        Player {
            alloc,
            taken,
            vat: Vat::new(alloc, bootstrap),
        }
    }

    /// The lines of what follows the event of a line. Where that isn't to be said, of a refusal alone.
    pub fn turn(&mut self, line: &str, is_said: bool) -> Lines {
        let mut lines = Lines::new(self.alloc);
        let given = match event_of(self.alloc, line) {
            Some(event) => act(self.alloc, &mut self.vat, event, self.taken),
            None => None,
        };
        match given {
            Some(given) => {
                if is_said {
                    lines.push_given(given);
                } else {
                    push_refusal(&mut lines, given);
                }
            }
            None => lines.push(UNREAD),
        }
        lines
    }
}

/// Adds a line where a call is refused.
fn push_refusal(lines: &mut Lines, given: Result<Acted<Value>, VatFault>) {
    match given {
        Ok(acted) => drop(acted),
        Err(fault) => lines.push_fault(fault),
    }
}

/// An event's line without the two dots that it may begin with, and whether what follows it is said: it isn't after the dots.
pub fn said(line: &str) -> (&str, bool) {
    match line.strip_prefix(".. ") {
        Some(line) => (line, false),
        None => (line, true),
    }
}

/// Whether a line says what follows.
pub fn is_reported(line: &str) -> bool {
    line.starts_with("> ") || line.starts_with("! ") || line.starts_with("= ")
}

/// The lines of the events of a script, and of what a new vat does at each.
pub fn played(alloc: Global, bootstrap: Option<u32>, taken: Taken, script: &str) -> Lines {
    let mut player = Player::new(alloc, bootstrap, taken);
    let mut lines = Lines::new(alloc);
    play(&mut player, &mut lines, script);
    drop(player);
    lines
}

/// Adds the lines of the events of a script, and of what a player does at each.
fn play(player: &mut Player, lines: &mut Lines, script: &str) {
    for line in script.lines() {
        if !is_reported(line) {
            let (event, is_said) = said(line);
            lines.push_line(line);
            let told = player.turn(event, is_said);
            lines.push(told.text().unwrap_or(UNREAD));
            drop(told);
        }
    }
}
