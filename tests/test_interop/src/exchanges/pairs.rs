//! Scripts of two vats, played. A line that begins with A or B is what that vat does; `takes` is the next message that is on
//! the way to it.

use crate::exchanges::playing::Player;
use crate::exchanges::script::UNREAD;
use cp_scripts::{Lines, Taken};
use std::alloc::Global;

/// One of two vats, the lines of the messages that were sent to it, and how many of them it took.
struct End {
    alloc: Global,
    player: Player,
    sent: Lines,
    taken: usize,
}

// Not derived: who lets one go calls this function, and need not prove the drop of what it holds.
impl Drop for End {
    fn drop(self) {
        let End {
            alloc: _,
            player: _,
            sent: _,
            taken: _,
        } = self;
    }
}

impl End {
    fn new(alloc: Global, bootstrap: Option<u32>, taken: Taken) -> End {
        End {
            alloc,
            player: Player::new(alloc, bootstrap, taken),
            sent: Lines::new(alloc),
            taken: 0,
        }
    }

    /// Plays the event of a line, and gives the lines of what follows. Where a message is taken its line is added.
    fn turn(&mut self, line: &str, lines: &mut Lines) -> Lines {
        if line != "takes" {
            return self.player.turn(line, true);
        }
        let next = self.next();
        let event = next.text().unwrap_or(UNREAD).trim_end();
        lines.push_line(event);
        let told = self.player.turn(event, true);
        drop(next);
        told
    }

    /// The line by which the next message comes.
    fn next(&mut self) -> Lines {
        let mut line = Lines::new(self.alloc);
        line.push("< ");
        line.push(self.sent_line());
        self.taken = self.taken.saturating_add(1);
        line
    }

    /// The line of the next message.
    fn sent_line(&self) -> &str {
        let mut left = self.sent.text().unwrap_or(UNREAD).lines().skip(self.taken);
        left.next().unwrap_or("nothing")
    }

    /// What is sent comes.
    fn come(&mut self, lines: &str) {
        for line in lines.lines() {
            if let Some(message) = line.strip_prefix("> ") {
                self.sent.push_line(message);
            }
        }
    }
}

/// Plays the event of a line at one end. What is sent is then on the way to the other.
fn turn(near: &mut End, far: &mut End, line: &str, lines: &mut Lines) {
    let told = near.turn(line, lines);
    lines.push(told.text().unwrap_or(UNREAD));
    far.come(told.text().unwrap_or(UNREAD));
    drop(told);
}

/// Plays a line, if it is an event.
fn play(first: &mut End, second: &mut End, line: &str, lines: &mut Lines) {
    if let Some(event) = line.strip_prefix("A ") {
        lines.push_line(line);
        turn(first, second, event, lines);
    } else if let Some(event) = line.strip_prefix("B ") {
        lines.push_line(line);
        turn(second, first, event, lines);
    }
}

/// The lines of the events of a script, and of what two new vats do.
pub fn both_played(
    alloc: Global,
    (first, second): (Option<u32>, Option<u32>),
    taken: Taken,
    script: &str,
) -> Lines {
    let mut first = End::new(alloc, first, taken);
    let mut second = End::new(alloc, second, taken);
    let mut lines = Lines::new(alloc);
    play_all(&mut first, &mut second, script, &mut lines);
    drop(first);
    drop(second);
    lines
}

/// Plays all lines.
fn play_all(first: &mut End, second: &mut End, script: &str, lines: &mut Lines) {
    for line in script.lines() {
        play(first, second, line, lines);
    }
}
