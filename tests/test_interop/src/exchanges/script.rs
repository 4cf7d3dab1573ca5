//! Sections of a file, and their scripts.

use cp_scripts::Lines;
use std::alloc::Global;

/// A section: its name, the line that says who plays it, and its lines.
#[derive(Clone, Copy)]
pub struct Section<'a> {
    pub name: &'a str,
    pub players: &'a str,
    pub lines: &'a str,
}

impl<'a> Section<'a> {
    /// The section of a text that begins with its name.
    pub fn of(text: &'a str) -> Section<'a> {
        let (name, rest) = text.split_once('\n').unwrap_or((text, ""));
        let (players, lines) = rest.split_once('\n').unwrap_or((rest, ""));
        Section {
            name,
            players,
            lines,
        }
    }
}

/// The script that lines stand for: comments and what is empty are left out, `@NAME` is the part of that name, and what is
/// written once for many times is repeated. What can't be read stands there as `= unread`, which no vat says.
pub fn script_of(alloc: Global, parts: &str, lines: &str) -> Lines {
    let mut short = Lines::new(alloc);
    for line in lines.lines() {
        match line.strip_prefix('@') {
            Some(name) => push_kept(&mut short, part_of(parts, name)),
            None => push_kept(&mut short, line),
        }
    }
    let mut script = Lines::new(alloc);
    fill(&mut script, alloc, short.text().unwrap_or(UNREAD));
    drop(short);
    script
}

/// Stands for what can't be read.
pub const UNREAD: &str = "= unread\n";

/// Adds a text, if there was memory for it.
pub fn push_text(lines: &mut Lines, text: Option<String>) {
    match text {
        Some(text) => {
            lines.push(text.as_str());
            drop(text);
        }
        None => lines.push(UNREAD),
    }
}

/// The lines of the part of this name.
fn part_of<'a>(parts: &'a str, name: &str) -> &'a str {
    for part in parts.split("\n== ") {
        if let Some((first, lines)) = part.split_once('\n') {
            if first == name {
                return lines;
            }
        }
    }
    UNREAD
}

/// Adds the lines of a text but comments and what is empty.
fn push_kept(script: &mut Lines, text: &str) {
    for line in text.lines() {
        if !line.starts_with('#') {
            script.push_line(line);
        }
    }
}

/// Adds a text in which `%N%TEXT%` stands for N times the text between the last two marks.
fn fill(script: &mut Lines, alloc: Global, text: &str) {
    let mut parts = text.split('%');
    script.push(parts.next().unwrap_or(""));
    for _ in 0..text.len() {
        let Some(times) = parts.next() else {
            return;
        };
        let body = parts.next().unwrap_or(UNREAD);
        repeat(script, alloc, times, body);
        // Where lines are repeated, the last mark stands alone in its line.
        let rest = parts.next().unwrap_or(UNREAD);
        script.push(match rest.strip_prefix('\n') {
            Some(after) if body.ends_with('\n') => after,
            _ => rest,
        });
    }
}

/// Adds a text so many times. After a comma stands the first number to be put in the place of each `*`.
fn repeat(script: &mut Lines, alloc: Global, times: &str, body: &str) {
    let (times, first) = times.split_once(',').unwrap_or((times, "0"));
    match (times.parse::<u32>(), first.parse::<u32>()) {
        (Ok(times), Ok(first)) => {
            for i in 0..times {
                push_numbered(script, alloc, body, first.saturating_add(i));
            }
        }
        _ => script.push(UNREAD),
    }
}

/// Adds a text with a number in the place of each `*`.
fn push_numbered(script: &mut Lines, alloc: Global, body: &str, number: u32) {
    for (i, part) in body.split('*').enumerate() {
        if i > 0 {
            push_number(script, alloc, number);
        }
        script.push(part);
    }
}

fn push_number(script: &mut Lines, alloc: Global, number: u32) {
    push_text(script, format!(in alloc; "{number}").ok());
}
