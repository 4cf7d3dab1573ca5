//! A reader or a writer that fails.

use std::io::{self, ErrorKind, Read, Write};

/// Which calls of a device fail.
#[derive(Clone, Copy)]
pub enum Fails {
    Never,
    /// The call of this number: the connection is reset.
    At(u64),
    /// The call of this number, by taking no byte.
    TakesNone(u64),
    /// Each but every third, by an error after which it is tried again.
    ButEachThird,
    /// Each but every third, which a signal interrupts.
    InterruptedButEachThird,
}

/// Linux's number of the error of a connection that is reset.
pub const ECONNRESET: i32 = 104;

/// A device of which calls fail.
#[derive(Drop)]
pub struct Device<T> {
    pub inner: T,
    pub calls: u64,
    pub fails: Fails,
    /// The most bytes that a call moves.
    pub most: usize,
    /// Whether all that was written was flushed.
    pub is_flushed: bool,
}

impl<T> Device<T> {
    /// A device whose calls move so many bytes at most.
    pub fn new(inner: T, fails: Fails, most: usize) -> Device<T> {
        Device {
            inner,
            calls: 0,
            fails,
            most,
            is_flushed: false,
        }
    }

    /// How many bytes a call may move.
    fn moved(&mut self) -> io::Result<usize> {
        self.calls = self.calls.saturating_add(1);
        match self.fails {
            Fails::At(call) if call == self.calls => Err(io::Error::from_raw_os_error(ECONNRESET)),
            Fails::TakesNone(call) if call == self.calls => Ok(0),
            Fails::ButEachThird if self.calls % 3 != 0 => {
                Err(io::Error::from(ErrorKind::WouldBlock))
            }
            Fails::InterruptedButEachThird if self.calls % 3 != 0 => {
                Err(io::Error::from(ErrorKind::Interrupted))
            }
            _ => Ok(self.most),
        }
    }
}

impl<R: Read> Read for Device<R> {
    fn read(&mut self, buf: &mut [u8]) -> io::Result<usize> {
        let most = self.moved()?.min(buf.len());
        self.inner.read(&mut buf[..most])
    }
}

impl<W: Write> Write for Device<W> {
    fn write(&mut self, buf: &[u8]) -> io::Result<usize> {
        let most = self.moved()?.min(buf.len());
        self.is_flushed = false;
        self.inner.write(&buf[..most])
    }

    fn flush(&mut self) -> io::Result<()> {
        self.is_flushed = true;
        self.inner.flush()
    }
}
