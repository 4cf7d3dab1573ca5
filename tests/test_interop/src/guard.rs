//! A row of the file of guarded connections.

use crate::command::number_of;
use crate::fault::Fault;
use crate::frame::lines_of;
use crate::row::{decoded, expect, parts_of};
use cp_frame::Mode;
use cp_methods::{RuledGiven, named_methods, ruled_given, ruled_method};
use cp_relay::{CallLimits, Callable, Filter, Guard, MethodId, MethodName, Output, Rules};
use cp_schema::{MethodNumber, Schema};
use cp_words::Limits;
use std::alloc::Global;

/// A guarded connection.
#[derive(Drop)]
struct Session<'r> {
    alloc: Global,
    guard: Guard<'r>,
    there: Filter,
    back: Filter,
}

impl<'r> Session<'r> {
    /// A connection on which nothing was sent.
    fn new(alloc: Global, rules: &'r Rules) -> Session<'r> {
        Session {
            alloc,
            guard: Guard::new(alloc, rules),
            there: filter_of(alloc, false),
            back: filter_of(alloc, true),
        }
    }

    /// Plays messages, and adds what is put out for each, with bars between.
    fn play(&mut self, messages: &str, text: &mut String) -> Result<(), Fault> {
        for message in messages.split(' ') {
            self.step(message, text)?;
        }
        Ok(())
    }

    /// Plays a message of the caller, or of the callee after `<`, or ends a second by a dot.
    fn step(&mut self, message: &str, text: &mut String) -> Result<(), Fault> {
        if message == "." {
            self.guard.pass_second();
            return Ok(());
        }
        match message.strip_prefix('<') {
            Some(digits) => self.take(digits, true, text),
            None => self.take(message, false, text),
        }
    }

    /// Adds what is put out for a frame.
    fn take(&mut self, digits: &str, comes_back: bool, text: &mut String) -> Result<(), Fault> {
        let frame = decoded(self.alloc, digits)?;
        let (mut out, mut answers) = (Vec::new(self.alloc), Vec::new(self.alloc));
        let is_open = self.next(comes_back, &frame, &mut out, &mut answers);
        let outputs = (out.as_slice(), answers.as_slice());
        let pushed = self.push(is_open, &frame, outputs, text);
        drop(frame);
        drop(out);
        drop(answers);
        pushed
    }

    /// Gives a frame to the filter of its direction. Says whether the connection goes on.
    fn next(
        &mut self,
        comes_back: bool,
        frame: &[u8],
        out: &mut Vec<u8>,
        answers: &mut Vec<u8>,
    ) -> bool {
        if comes_back {
            return self.back.next(&mut self.guard, frame, out, answers).is_ok();
        }
        self.there
            .next(&mut self.guard, frame, out, answers)
            .is_ok()
    }

    /// Adds what became of a frame, and the call that it is.
    fn push(
        &self,
        is_open: bool,
        frame: &[u8],
        outputs: (&[u8], &[u8]),
        text: &mut String,
    ) -> Result<(), Fault> {
        match self.guard.breach() {
            Some(breach) => write!(text, "! {breach}")?,
            None if !is_open => text.push('!')?,
            None => push_outputs(self.alloc, frame, outputs, text)?,
        }
        self.push_call(text)?;
        Ok(text.push('|')?)
    }

    /// Adds the last message's call, if it is one of the caller, and why it was refused.
    fn push_call(&self, text: &mut String) -> Result<(), Fault> {
        let Some(call) = self.guard.last_call() else {
            return Ok(());
        };
        write!(text, " call {} m={}", call.question, call.method.method)?;
        if let Some(cause) = call.cause {
            write!(text, " {cause}")?;
        }
        Ok(())
    }
}

/// Adds what is put out for a frame: `=` is the frame itself, `>` a line of what goes on in its place, `<` one of what goes back,
/// and `-` nothing.
fn push_outputs(
    alloc: Global,
    frame: &[u8],
    (out, answers): (&[u8], &[u8]),
    text: &mut String,
) -> Result<(), Fault> {
    if out == frame {
        return Ok(text.push('=')?);
    }
    if out.is_empty() && answers.is_empty() {
        return Ok(text.push('-')?);
    }
    push_line(alloc, text, "> ", out)?;
    push_line(alloc, text, "< ", answers)
}

/// Adds the line of a frame, if there is one, after a mark.
fn push_line(alloc: Global, text: &mut String, mark: &str, frame: &[u8]) -> Result<(), Fault> {
    if frame.is_empty() {
        return Ok(());
    }
    text.push_str(mark)?;
    let lines = lines_of(alloc, frame, &[], Mode::Plain)?;
    let pushed = text.push_str(lines.as_str().trim_end());
    drop(lines);
    Ok(pushed?)
}

/// A filter of one direction.
fn filter_of(alloc: Global, comes_back: bool) -> Filter {
    let limits = Limits::standard();
    Filter::new(alloc, Mode::Plain, Output::AsRead, limits, comes_back)
}

/// The most questions under way, and in a second.
fn limits_of(text: &str) -> Option<CallLimits> {
    let mut words = text.split(' ');
    Some(CallLimits {
        under_way: number_of(words.next())?,
        a_second: number_of(words.next())?,
    })
}

/// Adds the rules of a row after its limits: `only`, `strict` and methods. Of a method that isn't in the schema that is said.
fn add_rules(
    alloc: Global,
    schema: &Schema,
    rules: &mut Rules,
    words: &str,
    text: &mut String,
) -> Result<(), Fault> {
    for named in named_methods(alloc, schema)? {
        rules.add_name(MethodName {
            method: id_of(named.number),
            name: named.name,
        })?;
    }
    for word in words.split(' ').skip(2) {
        match word {
            "only" => rules.only = true,
            "strict" => rules.strict = true,
            name => add_rule(alloc, schema, rules, name, text)?,
        }
    }
    Ok(())
}

/// Adds a rule on a method, or what is said of it.
fn add_rule(
    alloc: Global,
    schema: &Schema,
    rules: &mut Rules,
    name: &str,
    text: &mut String,
) -> Result<(), Fault> {
    let (name, given) = match name.split_once("->") {
        Some((name, given)) => (name, Some(given)),
        None => (name, None),
    };
    match ruled_method(alloc, schema, name) {
        Ok(number) => {
            rules.add_rule(id_of(number))?;
            match given {
                Some(given) => add_grant(alloc, schema, rules, id_of(number), given),
                None => Ok(()),
            }
        }
        Err(fault) => Ok(write!(text, "{fault}|")?),
    }
}

/// Adds rules on what calls of a method gave.
fn add_grant(
    alloc: Global,
    schema: &Schema,
    rules: &mut Rules,
    after: MethodId,
    given: &str,
) -> Result<(), Fault> {
    for one in ruled_given(alloc, schema, given).map_err(|_| Fault::Row)? {
        rules.add_grant(after, callable_of(one))?;
    }
    Ok(())
}

/// What may be called, as rules have it.
fn callable_of(given: RuledGiven) -> Callable {
    match given {
        RuledGiven::All => Callable::All,
        RuledGiven::Interface(interface) => Callable::Interface(interface),
        RuledGiven::Method(number) => Callable::Method(id_of(number)),
    }
}

/// A schema's method, as rules have it.
fn id_of(number: MethodNumber) -> MethodId {
    MethodId {
        interface: number.interface,
        method: number.method,
    }
}

/// Plays messages by rules.
fn play(alloc: Global, rules: &Rules, messages: &str, text: &mut String) -> Result<(), Fault> {
    let mut session = Session::new(alloc, rules);
    let played = session.play(messages, text);
    drop(session);
    played
}

/// The same by the rules of a row.
fn play_by(
    alloc: Global,
    schema: &Schema,
    words: &str,
    messages: &str,
    text: &mut String,
) -> Result<(), Fault> {
    let mut rules = Rules::new(alloc, limits_of(words).ok_or(Fault::Row)?);
    let played = match add_rules(alloc, schema, &mut rules, words, text) {
        Ok(()) => play(alloc, &rules, messages, text),
        Err(fault) => Err(fault),
    };
    drop(rules);
    played
}

/// What is said of the messages of a row by its rules.
fn said_of(alloc: Global, schema: &Schema, words: &str, messages: &str) -> Result<String, Fault> {
    let mut text = String::new(alloc);
    match play_by(alloc, schema, words, messages, &mut text) {
        Ok(()) => Ok(text),
        Err(fault) => {
            drop(text);
            Err(fault)
        }
    }
}

/// Plays the messages of a line by its rules, and compares what is put out for them with the rest of the line.
pub fn try_line(alloc: Global, request: &[u8], line: &str) -> Result<u64, Fault> {
    let (words, messages, wanted) = parts_of(line).ok_or(Fault::Row)?;
    let schema = Schema::read(alloc, request)?;
    let said = said_of(alloc, &schema, words, messages);
    drop(schema);
    expect(said?, wanted)?;
    Ok(1)
}
