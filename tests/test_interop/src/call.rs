//! A row of the file of calls.

use crate::fault::Fault;
use crate::row::expect;
use cp_encoder::Encoded;
use cp_methods::{
    CallReader, NamedCall, describe, is_named, list_methods, nearest_names, plain_params,
    type_named,
};
use cp_reading::View;
use cp_schema::{Decoder, NodeKind, Notation, Schema, push_message};
use cp_tree::Object;
use cp_words::{Limits, Segments};
use cp_writing::write_root;
use std::alloc::{AllocError, Global};

/// A schema, and what is said of words by it, one line after another.
#[derive(Drop)]
struct Said<'s> {
    alloc: Global,
    schema: &'s Schema,
    lines: String,
}

impl<'s> Said<'s> {
    /// Adds what is said of the words of a row.
    fn row(&mut self, words: &str) -> Result<(), Fault> {
        if words == "--list" {
            return self.text(list_methods(self.alloc, self.schema));
        }
        if let Some(name) = words.strip_prefix("--describe ") {
            return self.text(self.described(name));
        }
        match words.strip_prefix("--json ") {
            Some(words) => self.calls(words, Notation::Json { is_pretty: false }),
            None => self.calls(words, Notation::Text),
        }
    }

    /// The text of a type, or the nearest names.
    fn described(&self, name: &str) -> Result<String, AllocError> {
        match type_named(self.schema, name) {
            Some(node) => describe(self.alloc, self.schema, node),
            None => nearest_names(self.alloc, self.schema, name),
        }
    }

    /// Adds a text, if there was memory for it, with a bar for the end of each line.
    fn text(&mut self, text: Result<String, AllocError>) -> Result<(), Fault> {
        let text = text?;
        let put = self.put(text.as_str());
        drop(text);
        Ok(put?)
    }

    /// Adds lines, with a bar for the end of each.
    fn put(&mut self, lines: &str) -> Result<(), AllocError> {
        for c in lines.chars() {
            self.lines.push(if c == '\n' { '|' } else { c })?;
        }
        Ok(())
    }

    /// Adds a line for each call of these words: by numbers, and with params as they are shown, or what is wrong with it.
    fn calls(&mut self, words: &str, notation: Notation) -> Result<(), Fault> {
        let mut reader = CallReader::new(self.alloc, self.schema, notation);
        let put = self.each_call(&mut reader, words);
        drop(reader);
        put
    }

    /// Adds the lines of calls, of which later ones may name what earlier ones give.
    fn each_call(&mut self, reader: &mut CallReader<'_>, words: &str) -> Result<(), Fault> {
        for word in words.split('|') {
            self.word(reader, word)?;
            self.lines.push('|')?;
        }
        Ok(())
    }

    /// Adds what a word is.
    fn word(&mut self, reader: &mut CallReader<'_>, word: &str) -> Result<(), Fault> {
        if !is_named(word) {
            return Ok(self.lines.push_str("by numbers")?);
        }
        match reader.read(word) {
            Ok(call) => {
                let put = self.call(reader, &call, word);
                drop(call);
                put
            }
            Err(fault) => {
                let put = write!(self.lines, "{fault}");
                drop(fault);
                Ok(put?)
            }
        }
    }

    /// Adds a call, and has later ones name what it gives.
    fn call(
        &mut self,
        reader: &mut CallReader<'_>,
        call: &NamedCall,
        word: &str,
    ) -> Result<(), Fault> {
        reader.note(call.number)?;
        let (interface, method) = (call.number.interface, call.number.method);
        write!(
            self.lines,
            "{} i={interface:016x} m={method} ",
            call.target.as_str()
        )?;
        match &call.params {
            Some(params) => self.params(params, interface, method),
            None => Ok(self.lines.push_str(plain_params(word).unwrap_or("?"))?),
        }
    }

    /// Adds params as they are shown, and their capabilities.
    fn params(&mut self, params: &Encoded, interface: u64, method: u16) -> Result<(), Fault> {
        let Some(decoder) = params_decoder(self.schema, interface, method) else {
            return Err(Fault::Row);
        };
        let text = shown(self.alloc, &decoder, &params.object)?;
        let put = self.lines.push_str(text.as_str().trim_end_matches('\n'));
        drop(text);
        put?;
        for cap in &params.caps {
            self.lines.push(' ')?;
            self.lines.push_str(cap.as_str())?;
        }
        Ok(())
    }
}

/// By what the params of a method are shown.
fn params_decoder<'s>(schema: &'s Schema, interface: u64, method: u16) -> Option<Decoder<'s>> {
    let NodeKind::Interface(of) = &schema.find(interface)?.kind else {
        return None;
    };
    let params = of.methods.get(method as usize)?.params;
    Decoder::by_name(schema, schema.find(params)?.name())
}

/// A struct as it is shown.
fn shown(alloc: Global, decoder: &Decoder<'_>, object: &Object) -> Result<String, Fault> {
    let limits = Limits::standard();
    let Ok(words) = write_root(alloc, object, limits) else {
        return Err(Fault::Refused);
    };
    let segments = Segments::one(words);
    let mut line = String::new(alloc);
    let is_shown = match View::root(&segments, limits) {
        Ok(view) => push_message(alloc, &mut line, decoder, view).is_ok(),
        Err(_) => false,
    };
    drop(segments);
    if is_shown {
        return Ok(line);
    }
    drop(line);
    Err(Fault::Refused)
}

/// What is said of the words of a row by a schema.
fn said_of(alloc: Global, schema: &Schema, words: &str) -> Result<String, Fault> {
    let mut said = Said {
        alloc,
        schema,
        lines: String::new(alloc),
    };
    match said.row(words) {
        Ok(()) => Ok(said.lines),
        Err(fault) => {
            drop(said);
            Err(fault)
        }
    }
}

/// Reads the calls of a line, or lists methods, or describes a type, and compares what is said with the rest of the line.
pub fn try_line(alloc: Global, request: &[u8], line: &str) -> Result<u64, Fault> {
    let Some((words, wanted)) = line.split_once('\t') else {
        return Err(Fault::Row);
    };
    let schema = Schema::read(alloc, request)?;
    let said = said_of(alloc, &schema, words);
    drop(schema);
    expect(said?, wanted)?;
    Ok(1)
}
