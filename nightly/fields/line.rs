//! A line in the reference tool's notation, as it is put together.

use cp_fields::{DataReader, StructReader, TextReader};
use std::alloc::Global;

/// A line, and whether a bracket was opened last.
#[derive(Drop)]
pub struct Line {
    pub alloc: Global,
    pub text: String,
    opened: bool,
}

impl Line {
    pub fn new(alloc: Global) -> Line {
        Line {
            alloc,
            text: String::new(alloc),
            opened: true,
        }
    }

    pub fn open(&mut self, mark: char) -> anyhow::Result<()> {
        self.text.push(mark)?;
        self.opened = true;
        Ok(())
    }

    pub fn close(&mut self, mark: char) -> anyhow::Result<()> {
        self.text.push(mark)?;
        self.opened = false;
        Ok(())
    }

    /// What comes before an element.
    pub fn item(&mut self) -> anyhow::Result<()> {
        if !self.opened {
            self.text.push_str(", ")?;
        }
        self.opened = false;
        Ok(())
    }

    /// What comes before a field's value.
    pub fn field(&mut self, name: &str) -> anyhow::Result<()> {
        self.item()?;
        write!(self.text, "{name} = ")?;
        Ok(())
    }

    pub fn float(&mut self, written: &str) -> anyhow::Result<()> {
        self.text.push_str(match written {
            "NaN" => "nan",
            _ => match written.strip_suffix(".0") {
                Some(whole) => whole,
                None => written,
            },
        })?;
        Ok(())
    }

    pub fn string(&mut self, text: &TextReader<'_>) -> anyhow::Result<()> {
        let text = text.text(self.alloc)?;
        self.text.push('"')?;
        for c in text.as_str().chars() {
            if c.is_ascii() {
                self.byte(c as u8)?;
            } else {
                self.text.push(c)?;
            }
        }
        self.text.push('"')?;
        Ok(())
    }

    pub fn bytes(&mut self, data: &DataReader<'_>) -> anyhow::Result<()> {
        self.text.push('"')?;
        for i in 0..data.len() {
            self.byte(data.get(i))?;
        }
        self.text.push('"')?;
        Ok(())
    }

    fn byte(&mut self, byte: u8) -> anyhow::Result<()> {
        match byte {
            7 => self.text.push_str("\\a")?,
            8 => self.text.push_str("\\b")?,
            9 => self.text.push_str("\\t")?,
            10 => self.text.push_str("\\n")?,
            11 => self.text.push_str("\\v")?,
            12 => self.text.push_str("\\f")?,
            13 => self.text.push_str("\\r")?,
            34 => self.text.push_str("\\\"")?,
            39 => self.text.push_str("\\'")?,
            92 => self.text.push_str("\\\\")?,
            32..=126 => self.text.push(byte as char)?,
            _ => write!(self.text, "\\{byte:03o}")?,
        }
        Ok(())
    }
}

/// Whether pointer `i` is there.
pub fn has(body: &StructReader<'_>, i: u32) -> bool {
    !body.pointer(i).is_null()
}
