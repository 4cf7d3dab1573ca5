//! Lines of text.

use crate::effects::{push_acted, push_message};
use cp_lines::push_outcome_of;
use cp_refs::Outcome;
use cp_rpc::Message;
use cp_vat_machine::{Acted, Value, VatFault};
use std::alloc::{AllocError, Global};

/// Lines of text. Where memory runs out, something is missing.
#[derive(Drop)]
pub struct Lines {
    alloc: Global,
    text: String,
    has_frames: bool,
    is_whole: bool,
}

impl Lines {
    pub fn new(alloc: Global) -> Lines {
        Lines {
            alloc,
            text: String::new(alloc),
            has_frames: false,
            is_whole: true,
        }
    }

    /// Lines in which the frame of each message that is sent comes after it.
    pub fn with_frames(alloc: Global) -> Lines {
        let mut lines = Lines::new(alloc);
        lines.has_frames = true;
        lines
    }

    /// The lines, unless something is missing.
    pub fn text(&self) -> Option<&str> {
        if self.is_whole {
            Some(self.text.as_str())
        } else {
            None
        }
    }

    /// Takes all lines away.
    pub fn clear(&mut self) {
        self.text.clear();
    }

    /// Adds a text.
    pub fn push(&mut self, text: &str) {
        let pushed = self.text.push_str(text);
        self.keep(pushed);
    }

    /// Adds a line, if it isn't empty.
    pub fn push_line(&mut self, line: &str) {
        if !line.is_empty() {
            self.push(line);
            self.push("\n");
        }
    }

    /// Adds a message's line, as `show` prints it.
    pub fn push_message(&mut self, message: &Message) {
        let pushed = push_message(self.alloc, &mut self.text, message);
        self.keep(pushed);
    }

    /// Adds a line for what a vat answered, if that is something, and one for each effect, or its refusal.
    pub fn push_given(&mut self, given: Result<Acted<Value>, VatFault>) {
        match given {
            Ok(acted) => {
                self.push_acted(&acted);
                drop(acted);
            }
            Err(fault) => self.push_fault(fault),
        }
    }

    /// Adds a line for what a vat answered, if that is something, and one for each effect.
    pub fn push_acted(&mut self, acted: &Acted<Value>) {
        let pushed = push_acted(self.alloc, &mut self.text, acted, self.has_frames);
        self.keep(pushed);
    }

    /// Adds the line of a refusal.
    pub fn push_fault(&mut self, fault: VatFault) {
        let pushed = write!(self.text, "= refused {fault:?}\n");
        self.keep(pushed);
    }

    /// Adds the line of what a question came to.
    pub fn push_outcome_of(&mut self, question: u32, outcome: &Outcome) {
        let pushed = push_outcome_of(self.alloc, &mut self.text, question, outcome);
        self.keep(pushed);
    }

    /// Notes where something is missing.
    fn keep(&mut self, kept: Result<(), AllocError>) {
        if kept.is_err() {
            self.is_whole = false;
        }
    }
}
