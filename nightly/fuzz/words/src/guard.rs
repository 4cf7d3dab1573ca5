//! Rules, and the streams that they guard.

use crate::give;
use cp_frame::Mode;
use cp_methods::{named_methods, ruled_method};
use cp_relay::{CallLimits, Filter, Guard, MethodId, MethodName, Output, Rules};
use cp_schema::{MethodNumber, Schema};
use cp_words::Limits;
use std::alloc::{AllocError, Global};

/// Plays a guarded connection by rules, words with blanks between: `only`, `strict`, and methods of a request. Of its stream each part begins with
/// a byte that is odd where it comes of the callee, and the number of its bytes, which come in pieces. Puts what fits into `said` of what was said
/// of the rules, what went on and back, and why it ended, and says how many bytes there are.
#[unsafe(no_mangle)]
pub extern "C" fn wp_guard(
    alloc: Global,
    request: &[u8],
    words: &[u8],
    stream: &[u8],
    piece: usize,
    said: &mut [u8],
) -> usize {
    let Ok(schema) = Schema::read(alloc, request) else {
        return 0;
    };
    let words = str::from_utf8(words).unwrap_or("");
    let mut text = String::new(alloc);
    let played = play_by(alloc, &schema, words, stream, piece, &mut text);
    drop(schema);
    let count = match played {
        Ok(()) => give(said, text.as_bytes()),
        Err(_) => 0,
    };
    drop(text);
    count
}

fn play_by(
    alloc: Global,
    schema: &Schema,
    words: &str,
    stream: &[u8],
    piece: usize,
    text: &mut String,
) -> Result<(), AllocError> {
    let limits = CallLimits {
        under_way: 3,
        a_second: 9,
    };
    let mut rules = Rules::new(alloc, limits);
    let played = match add_rules(alloc, schema, &mut rules, words, text) {
        Ok(()) => play(alloc, &rules, stream, piece, text),
        Err(fault) => Err(fault),
    };
    drop(rules);
    played
}

fn add_rules(
    alloc: Global,
    schema: &Schema,
    rules: &mut Rules,
    words: &str,
    text: &mut String,
) -> Result<(), AllocError> {
    for named in named_methods(alloc, schema)? {
        rules.add_name(MethodName {
            method: id_of(named.number),
            name: named.name,
        })?;
    }
    for word in words.split(' ') {
        match word {
            "only" => rules.only = true,
            "strict" => rules.strict = true,
            name => add_rule(alloc, schema, rules, name, text)?,
        }
    }
    Ok(())
}

fn add_rule(
    alloc: Global,
    schema: &Schema,
    rules: &mut Rules,
    name: &str,
    text: &mut String,
) -> Result<(), AllocError> {
    match ruled_method(alloc, schema, name) {
        Ok(number) => rules.add_rule(id_of(number)),
        Err(fault) => write!(text, "{fault}|"),
    }
}

fn id_of(number: MethodNumber) -> MethodId {
    MethodId {
        interface: number.interface,
        method: number.method,
    }
}

/// Both directions of a guarded connection, and what came out of each.
#[derive(Drop)]
struct Session<'r> {
    guard: Guard<'r>,
    there: Filter,
    back: Filter,
    to_callee: Vec<u8>,
    to_caller: Vec<u8>,
}

fn play(
    alloc: Global,
    rules: &Rules,
    stream: &[u8],
    piece: usize,
    text: &mut String,
) -> Result<(), AllocError> {
    let mut session = Session::new(alloc, rules);
    let is_open = session.parts(stream, piece);
    let put = session.tell(alloc, is_open, text);
    drop(session);
    put
}

impl<'r> Session<'r> {
    fn new(alloc: Global, rules: &'r Rules) -> Session<'r> {
        Session {
            guard: Guard::new(alloc, rules),
            there: filter_of(alloc, false),
            back: filter_of(alloc, true),
            to_callee: Vec::new(alloc),
            to_caller: Vec::new(alloc),
        }
    }

    /// Plays the parts of a stream. Says whether the connection goes on.
    fn parts(&mut self, stream: &[u8], piece: usize) -> bool {
        let mut left = stream;
        for _ in 0..stream.len() {
            let [side, count, rest @ ..] = left else {
                break;
            };
            let (part, behind) = rest.split_at(rest.len().min(usize::from(*count)));
            for bytes in part.chunks(piece.max(1)) {
                if !self.take(*side % 2 == 1, bytes) {
                    return false;
                }
            }
            left = behind;
        }
        true
    }

    /// Takes bytes of one side. Says whether the connection goes on.
    fn take(&mut self, comes_back: bool, bytes: &[u8]) -> bool {
        let mut left = bytes;
        for _ in 0..=bytes.len() {
            let next = if comes_back {
                self.back.next(
                    &mut self.guard,
                    left,
                    &mut self.to_caller,
                    &mut self.to_callee,
                )
            } else {
                self.there.next(
                    &mut self.guard,
                    left,
                    &mut self.to_callee,
                    &mut self.to_caller,
                )
            };
            match next {
                Ok(Some(rest)) => left = rest,
                Ok(None) => return true,
                Err(_) => return false,
            }
        }
        true
    }

    fn tell(&self, alloc: Global, is_open: bool, text: &mut String) -> Result<(), AllocError> {
        match self.guard.breach() {
            Some(breach) => write!(text, "! {breach}|")?,
            None if !is_open => text.push('!')?,
            None => {}
        }
        put_digits(alloc, text, &self.to_callee)?;
        text.push('|')?;
        put_digits(alloc, text, &self.to_caller)
    }
}

fn put_digits(alloc: Global, text: &mut String, bytes: &[u8]) -> Result<(), AllocError> {
    let digits = hex::encode(alloc, bytes)?;
    let put = text.push_str(digits.as_str());
    drop(digits);
    put
}

fn filter_of(alloc: Global, comes_back: bool) -> Filter {
    Filter::new(
        alloc,
        Mode::Plain,
        Output::AsRead,
        Limits::standard(),
        comes_back,
    )
}
