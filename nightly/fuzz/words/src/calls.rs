//! Calls by name.

use crate::give;
use cp_encoder::{EncodeFault, Encoded};
use cp_methods::{
    CallReader, NamedCall, describe, is_named, nearest_names, plain_params, type_named,
};
use cp_reading::View;
use cp_schema::{Decoder, NodeKind, Notation, Schema, push_message};
use cp_tree::Object;
use cp_words::{Limits, Segments};
use cp_writing::write_root;
use std::alloc::{AllocError, Global};

/// Reads calls of the methods of a request, with bars between, of which later ones may name what earlier ones give; and after each says what
/// a type of its name is, or which are nearest. Puts what fits into `said`: each call by numbers, and with params as they are shown, or what is wrong
/// with it. Says how many bytes there are.
#[unsafe(no_mangle)]
pub extern "C" fn wp_calls(alloc: Global, request: &[u8], words: &[u8], said: &mut [u8]) -> usize {
    let Ok(schema) = Schema::read(alloc, request) else {
        return 0;
    };
    let mut told = Said {
        alloc,
        schema: &schema,
        lines: String::new(alloc),
    };
    let mut reader = CallReader::new(alloc, &schema, Notation::Text);
    let put = told.each(&mut reader, str::from_utf8(words).unwrap_or(""));
    drop(reader);
    let count = match put {
        Ok(()) => give(said, told.lines.as_bytes()),
        Err(_) => 0,
    };
    drop(told);
    drop(schema);
    count
}

/// A schema, and what is said of words by it.
#[derive(Drop)]
struct Said<'s> {
    alloc: Global,
    schema: &'s Schema,
    lines: String,
}

impl<'s> Said<'s> {
    fn each(&mut self, reader: &mut CallReader<'_>, words: &str) -> Result<(), AllocError> {
        for word in words.split('|') {
            self.word(reader, word)?;
            self.lines.push('|')?;
            self.name(word)?;
        }
        Ok(())
    }

    /// Adds what a type of this name is, or which names are nearest.
    fn name(&mut self, name: &str) -> Result<(), AllocError> {
        let text = match type_named(self.schema, name) {
            Some(node) => describe(self.alloc, self.schema, node)?,
            None => nearest_names(self.alloc, self.schema, name)?,
        };
        let put = self.lines.push_str(text.as_str());
        drop(text);
        put
    }

    /// Adds what a word is.
    fn word(&mut self, reader: &mut CallReader<'_>, word: &str) -> Result<(), AllocError> {
        if !is_named(word) {
            return self.lines.push_str("by numbers");
        }
        match reader.read(word) {
            Ok(call) => {
                let put = self.call(reader, &call, word);
                drop(call);
                put
            }
            Err(fault) => self.fault(fault),
        }
    }

    fn fault(&mut self, fault: EncodeFault) -> Result<(), AllocError> {
        let put = write!(self.lines, "{fault}");
        drop(fault);
        put
    }

    /// Adds a call, and has later ones name what it gives.
    fn call(
        &mut self,
        reader: &mut CallReader<'_>,
        call: &NamedCall,
        word: &str,
    ) -> Result<(), AllocError> {
        reader.note(call.number)?;
        let (interface, method) = (call.number.interface, call.number.method);
        write!(
            self.lines,
            "{} i={interface:016x} m={method} ",
            call.target.as_str()
        )?;
        match &call.params {
            Some(params) => self.params(params, interface, method),
            None => self.lines.push_str(plain_params(word).unwrap_or("?")),
        }
    }

    /// Adds params as they are shown, and their capabilities.
    fn params(&mut self, params: &Encoded, interface: u64, method: u16) -> Result<(), AllocError> {
        let shown = match params_decoder(self.schema, interface, method) {
            Some(decoder) => shown(self.alloc, &decoder, &params.object),
            None => None,
        };
        let put = match shown {
            Some(text) => {
                let put = self.lines.push_str(text.as_str());
                drop(text);
                put
            }
            None => self.lines.push_str("not shown"),
        };
        put?;
        for cap in &params.caps {
            self.lines.push(' ')?;
            self.lines.push_str(cap.as_str())?;
        }
        Ok(())
    }
}

/// By what the params of a method are shown.
fn params_decoder<'s>(schema: &'s Schema, interface: u64, method: u16) -> Option<Decoder<'s>> {
    let NodeKind::Interface(of) = &schema.find(interface)?.kind else {
        return None;
    };
    let params = of.methods.get(method as usize)?.params;
    Decoder::by_name(schema, schema.find(params)?.name())
}

/// A struct as it is shown.
fn shown(alloc: Global, decoder: &Decoder<'_>, object: &Object) -> Option<String> {
    let limits = Limits::standard();
    let Ok(words) = write_root(alloc, object, limits) else {
        return None;
    };
    let segments = Segments::one(words);
    let mut line = String::new(alloc);
    let is_shown = match View::root(&segments, limits) {
        Ok(view) => push_message(alloc, &mut line, decoder, view).is_ok(),
        Err(_) => false,
    };
    drop(segments);
    if is_shown {
        return Some(line);
    }
    drop(line);
    None
}
