//! A row of the file of texts, or of that of JSON.

use crate::command::{names_of, plan_of};
use crate::fault::Fault;
use crate::row::{expect, parts_of};
use cp_commands::{ACCEPTED, Encoding, Names, Plan, act, encode};
use cp_encoder::Encoder;
use cp_frame::Mode;
use cp_schema::Notation;
use std::alloc::Global;

/// By what texts are made frames of, and these are shown.
#[derive(Clone, Copy)]
struct TextPlan<'s> {
    encoder: Encoder<'s>,
    plan: Plan<'s>,
}

/// The struct of this name in a notation.
fn struct_of<'s>(
    alloc: Global,
    names: &'s Names,
    name: &str,
    notation: Notation,
) -> Result<TextPlan<'s>, Fault> {
    let command = format!(in alloc; "decode packed {name}")?;
    let plan = plan_of(command.as_str(), names);
    drop(command);
    match (Encoder::by_name(&names.schema, name), plan) {
        (
            Some(encoder),
            Some(
                Plan::Decode {
                    mode,
                    limits,
                    decoder,
                },
            ),
        ) => Ok(TextPlan {
            encoder: encoder.written_as(notation),
            plan: Plan::Decode {
                mode,
                limits,
                decoder: decoder.written_as(notation),
            },
        }),
        _ => Err(Fault::Row),
    }
}

/// What is shown of the frames that texts are made, or what is said where one is refused.
fn line_of(alloc: Global, of: &TextPlan<'_>, mut texts: &[u8]) -> Result<String, Fault> {
    let (mut frames, mut said) = (Vec::new(alloc), Vec::new(alloc));
    let by = Encoding {
        encoder: of.encoder,
        mode: Mode::Packed,
    };
    let status = encode(alloc, &by, &mut texts, &mut frames, &mut said);
    let is_shown = status != ACCEPTED || is_shown(alloc, &of.plan, &frames, &mut said);
    drop(frames);
    if !is_shown {
        drop(said);
        return Err(Fault::Refused);
    }
    String::from_utf8(said).map_err(|_| Fault::Refused)
}

/// Adds what is shown of frames. Says whether all are.
fn is_shown(alloc: Global, plan: &Plan<'_>, mut frames: &[u8], said: &mut Vec<u8>) -> bool {
    let mut fault = Vec::new(alloc);
    let status = act(alloc, plan, &mut frames, said, &mut fault);
    drop(fault);
    status == ACCEPTED
}

/// Makes frames of the texts of a line, shows them, and compares that, or what is said of a fault, with the rest of the line.
/// What is shown is read again, and is the same.
pub fn try_line(
    alloc: Global,
    request: &[u8],
    notation: Notation,
    line: &str,
) -> Result<u64, Fault> {
    let (name, texts, wanted) = parts_of(line).ok_or(Fault::Row)?;
    let names = names_of(alloc, request, "", &[])?;
    let tried = match struct_of(alloc, &names, name, notation) {
        Ok(of) => try_by(alloc, &of, texts, wanted),
        Err(fault) => Err(fault),
    };
    drop(names);
    tried
}

/// The same by this struct.
fn try_by(alloc: Global, of: &TextPlan<'_>, texts: &str, wanted: &str) -> Result<u64, Fault> {
    let texts = texts.replace(alloc, '|', "\n")?;
    let lines = line_of(alloc, of, texts.as_bytes());
    drop(texts);
    let lines = lines?;
    let tried = try_lines(alloc, of, lines.as_str(), wanted);
    drop(lines);
    tried
}

/// The lines are the wanted ones, and are read as themselves.
fn try_lines(alloc: Global, of: &TextPlan<'_>, lines: &str, wanted: &str) -> Result<u64, Fault> {
    expect(lines.replace(alloc, '\n', "|")?, wanted)?;
    if lines.starts_with("refused") {
        return Ok(1);
    }
    expect(line_of(alloc, of, lines.as_bytes())?, lines)?;
    Ok(2)
}
