//! A row of the file of commands.

use crate::fault::Fault;
use crate::row::{decoded, expect, parts_of};
use cp_commands::{Asked, Names, Plan, act_to_end};
use cp_frame::Mode;
use cp_schema::{Decoder, Schema};
use cp_words::Limits;
use std::alloc::Global;

/// The form that a word names.
pub fn mode_of(word: &str) -> Option<Mode> {
    match word {
        "plain" => Some(Mode::Plain),
        "packed" => Some(Mode::Packed),
        _ => None,
    }
}

/// A number of a row.
pub fn number_of(word: Option<&str>) -> Option<u32> {
    u32::from_str_radix(word?, 10).ok()
}

/// Limits on nesting and traversal, or the standard ones where no numbers follow.
fn limits_of(nesting: Option<&str>, traversal: Option<&str>) -> Option<Limits> {
    if nesting.is_none() {
        return Some(Limits::standard());
    }
    Limits::new(number_of(nesting)?, number_of(traversal)?, 512, 8_388_608)
}

/// The command of a row: `pack`, `unpack`, `recut MODE WORDS`, `decode MODE STRUCT`, `names MODE`, `returns MODE`, or `show`,
/// `check`, `is_canonical`, `canonical` or `flat` with a mode and maybe limits.
pub fn plan_of<'p>(text: &str, names: &'p Names) -> Option<Plan<'p>> {
    let mut words = text.split(' ');
    let name = words.next()?;
    if name == "pack" {
        return Some(Plan::Pack);
    }
    if name == "unpack" {
        return Some(Plan::Unpack);
    }
    let mode = mode_of(words.next()?)?;
    let first = words.next();
    match name {
        "recut" => Some(Plan::Recut {
            mode,
            words: number_of(first)?,
        }),
        "decode" => {
            let decoder = Decoder::by_name(&names.schema, first?)?;
            Some(Plan::Decode {
                mode,
                limits: Limits::standard(),
                decoder,
            })
        }
        name => shown(name, mode, limits_of(first, words.next())?, names),
    }
}

/// The command of a row that shows or checks messages of rpc.capnp.
fn shown<'p>(name: &str, mode: Mode, limits: Limits, names: &'p Names) -> Option<Plan<'p>> {
    match name {
        "show" => Some(Plan::Show { mode, limits }),
        "check" => Some(Plan::Check { mode, limits }),
        "is_canonical" => Some(Plan::CheckCanonical { mode, limits }),
        "canonical" | "flat" => Some(Plan::Canonical {
            mode,
            limits,
            is_flat: name == "flat",
        }),
        "names" | "returns" => Some(Plan::Name {
            mode,
            limits,
            names,
        }),
        _ => None,
    }
}

/// Adds lines, the end of each as a bar.
fn push_lines(text: &mut String, bytes: &[u8]) -> Result<(), Fault> {
    for byte in bytes {
        let shown = if *byte == b'\n' { b'|' } else { *byte };
        text.push(shown as char)?;
    }
    Ok(())
}

/// Adds what a command wrote: lines, or a file in hexadecimal.
fn push_written(
    alloc: Global,
    text: &mut String,
    plan: &Plan<'_>,
    out: &[u8],
) -> Result<(), Fault> {
    match plan {
        Plan::Pack | Plan::Unpack | Plan::Recut { .. } | Plan::Canonical { .. } => {
            let digits = hex::encode(alloc, out)?;
            let pushed = text.push_str(digits.as_str());
            drop(digits);
            Ok(pushed?)
        }
        _ => push_lines(text, out),
    }
}

/// What a command does with a file: its status, what it says, or its hint in place of that, and what it writes, between tabs.
fn done(alloc: Global, plan: &Plan<'_>, mut file: &[u8], hints: bool) -> Result<String, Fault> {
    let (mut out, mut err) = (Vec::new(alloc), Vec::new(alloc));
    let ended = act_to_end(alloc, plan, &mut file, &mut out, &mut err);
    let mut text = String::new(alloc);
    let said = if hints { ended.hint.unwrap_or("").as_bytes() } else { err.as_slice() };
    let pushed = push_done(alloc, &mut text, plan, ended.status, (out.as_slice(), said));
    drop(out);
    drop(err);
    match pushed {
        Ok(()) => Ok(text),
        Err(fault) => {
            drop(text);
            Err(fault)
        }
    }
}

/// Adds a status, what was said and what was written.
fn push_done(
    alloc: Global,
    text: &mut String,
    plan: &Plan<'_>,
    status: u8,
    (out, err): (&[u8], &[u8]),
) -> Result<(), Fault> {
    write!(text, "{status}\t")?;
    push_lines(text, err)?;
    text.push('\t')?;
    push_written(alloc, text, plan, out)
}

/// The calls of a row's own file, by which `returns` shows what they return.
fn asked_of(alloc: Global, words: &str, file: &[u8]) -> Result<Option<Asked>, Fault> {
    if words != "returns plain" {
        return Ok(None);
    }
    let asked = Asked::read(alloc, file, Mode::Plain, Limits::standard())?;
    Ok(Some(asked))
}

/// By what a row's messages are shown: a schema, and for `returns` the calls of the row's own file.
pub fn names_of(alloc: Global, request: &[u8], words: &str, file: &[u8]) -> Result<Names, Fault> {
    let asked = asked_of(alloc, words, file)?;
    match Schema::read(alloc, request) {
        Ok(schema) => Ok(Names { schema, asked }),
        Err(fault) => {
            drop(asked);
            Err(Fault::from(fault))
        }
    }
}

/// Does the command of a line with its file, in hexadecimal, and compares what comes of it with the rest of the line.
pub fn try_line(alloc: Global, request: &[u8], line: &str) -> Result<u64, Fault> {
    let (words, file, wanted) = parts_of(line).ok_or(Fault::Row)?;
    let file = decoded(alloc, file)?;
    let tried = try_file(alloc, request, words, &file, wanted);
    drop(file);
    tried
}

/// The same with the file's bytes.
fn try_file(
    alloc: Global,
    request: &[u8],
    words: &str,
    file: &[u8],
    wanted: &str,
) -> Result<u64, Fault> {
    let names = names_of(alloc, request, words, file)?;
    let done = done_by(alloc, &names, words, file);
    drop(names);
    expect(done?, wanted)?;
    Ok(1)
}

/// What the command of a row does, by these names. After `hint` the row has its hint in place of what it says.
fn done_by(alloc: Global, names: &Names, words: &str, file: &[u8]) -> Result<String, Fault> {
    let (words, hints) = match words.strip_prefix("hint ") {
        Some(rest) => (rest, true),
        None => (words, false),
    };
    match plan_of(words, names) {
        Some(plan) => done(alloc, &plan, file, hints),
        None => Err(Fault::Row),
    }
}
