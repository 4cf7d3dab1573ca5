//! Bytes that come in pieces.

ghost use Rattle.std.specs.Io.{ReadsAtMost};
ghost use Rattle.std.specs.Io.KnownBytes.{ReadConsumes};

use std::io::{self, Read};

/// A reader that gives at most `first` bytes at first, and then at most `piece` at once; 0 counts as 1.
#[derive(Drop)]
pub struct Pieces<'a> {
    pub left: &'a [u8],
    pub first: usize,
    pub piece: usize,
}

impl<'a> Read for Pieces<'a> {
    ghost use Rattle.std.specs.Prelude.{Some};

    ghost remaining = { λ p. Some p.left.now };

    fn read(&mut self, buf: &mut [u8]) -> io::Result<usize>
        ensures bound { ReadsAtMost result buf.new }
        ensures bytes { ReadConsumes (Some self.old.left.now) (Some self.new.left.now) result buf.new }
    {
        let most = self.left.len().min(self.first.max(1));
        let mut piece = &self.left[..most];
        let count = piece.read(buf)?;
        self.left = &self.left[count..];
        self.first = self.piece;
        Ok(count)
    }
}
