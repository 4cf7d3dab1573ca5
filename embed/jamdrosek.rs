//! libjamdrosek for Rust: a reader of streams as a type of its own, which closes its handle when it is dropped. A message is lent until the
//! next call, as the borrow checker sees it.
//!
//! The reader is neither `Send` nor `Sync`, since its handle holds a pointer: so it stays on its thread.
pub mod connection;

use std::ffi::{c_char, c_void};
use std::fmt;

#[repr(C)]
struct Handle {
    at: *mut c_void,
    is_open: bool,
}

/// Which pointer word of a frame is to blame, or which field of rpc.capnp.
#[repr(C)]
#[derive(Clone, Copy, Default, PartialEq, Eq, Debug)]
pub struct Spot {
    pub segment: usize,
    pub word: usize,
    pub field: u32,
}

#[repr(C)]
struct Bytes {
    at: *const u8,
    len: usize,
}

#[repr(C)]
#[derive(Default)]
struct Step {
    taken: usize,
    has_frame: bool,
}

/// What a message may ask for at most.
#[repr(C)]
#[derive(Clone, Copy, PartialEq, Eq, Debug)]
pub struct Limits {
    pub nesting: u32,
    pub traversal: u32,
    pub segments: u32,
    pub frame_words: u32,
}

/// A message of rpc.capnp: the number of its member, and its numbers.
#[repr(C)]
#[derive(Clone, Copy, Default, PartialEq, Eq, Debug)]
pub struct Message {
    pub kind: u32,
    pub id: u32,
    pub interface: u64,
    pub method: u16,
    pub releases: bool,
    pub count: u32,
}

unsafe extern "C" {
    fn jd_text(code: u32, spot: &Spot, out: *mut c_char, room: usize) -> usize;
    fn jd_reader_open(reader: &mut Handle, packed: bool, limits: &Limits) -> u32;
    fn jd_reader_next(reader: &mut Handle, piece: *const u8, len: usize, step: &mut Step) -> u32;
    fn jd_reader_end(reader: &mut Handle) -> u32;
    fn jd_reader_message(reader: &mut Handle, message: &mut Message, spot: &mut Spot) -> u32;
    fn jd_reader_check(reader: &mut Handle, spot: &mut Spot) -> u32;
    fn jd_reader_write(reader: &mut Handle, packed: bool, bytes: &mut Bytes) -> u32;
    fn jd_reader_recut(reader: &mut Handle, packed: bool, words: u32, bytes: &mut Bytes, spot: &mut Spot) -> u32;
    fn jd_reader_canonical(reader: &mut Handle, packed: bool, bytes: &mut Bytes, spot: &mut Spot) -> u32;
    fn jd_reader_check_canonical(reader: &mut Handle, spot: &mut Spot) -> u32;
    fn jd_reader_close(reader: &mut Handle);
}

/// The number of a fault, and what is to blame.
#[derive(Clone, Copy, PartialEq, Eq, Debug)]
pub struct Fault {
    pub code: u32,
    pub spot: Spot,
}

impl fmt::Display for Fault {
    fn fmt(&self, f: &mut fmt::Formatter<'_>) -> fmt::Result {
        let mut line = [0u8; 256];
        // SAFETY: the buffer has this length.
        let count = unsafe { jd_text(self.code, &self.spot, line.as_mut_ptr().cast(), line.len()) };
        f.write_str(&String::from_utf8_lossy(&line[..count.min(line.len())]))
    }
}

impl std::error::Error for Fault {}

fn done(code: u32, spot: Spot) -> Result<(), Fault> {
    if code == 0 { Ok(()) } else { Err(Fault { code, spot }) }
}

impl Limits {
    pub const STANDARD: Limits = Limits { nesting: 64, traversal: 8_388_608, segments: 512, frame_words: 8_388_608 };
}

/// The frames of a stream, as it comes in pieces.
pub struct Reader {
    handle: Handle,
}

// SAFETY of each call below: the handle is what an earlier call left, is in this call alone, and slices are there for its time.
impl Reader {
    /// A reader of a stream of which nothing has come.
    pub fn new(packed: bool, limits: &Limits) -> Result<Reader, Fault> {
        let mut handle = Handle { at: std::ptr::null_mut(), is_open: false };
        done(unsafe { jd_reader_open(&mut handle, packed, limits) }, Spot::default())?;
        Ok(Reader { handle })
    }

    /// Takes bytes up to the end of the next frame, and says how many, and whether a frame is there.
    pub fn next(&mut self, piece: &[u8]) -> Result<(usize, bool), Fault> {
        let mut step = Step::default();
        done(unsafe { jd_reader_next(&mut self.handle, piece.as_ptr(), piece.len(), &mut step) }, Spot::default())?;
        Ok((step.taken, step.has_frame))
    }

    /// Ends the stream, after a frame.
    pub fn end(&mut self) -> Result<(), Fault> {
        done(unsafe { jd_reader_end(&mut self.handle) }, Spot::default())
    }

    /// The message of rpc.capnp that the frame holds.
    pub fn message(&mut self) -> Result<Message, Fault> {
        let (mut message, mut spot) = (Message::default(), Spot::default());
        let code = unsafe { jd_reader_message(&mut self.handle, &mut message, &mut spot) };
        done(code, spot).map(|()| message)
    }

    /// Checks that the frame holds a struct.
    pub fn check(&mut self) -> Result<(), Fault> {
        let mut spot = Spot::default();
        let code = unsafe { jd_reader_check(&mut self.handle, &mut spot) };
        done(code, spot)
    }

    /// The bytes of the frame, plain or packed.
    pub fn frame(&mut self, packed: bool) -> Result<&[u8], Fault> {
        let mut bytes = Bytes { at: std::ptr::null(), len: 0 };
        done(unsafe { jd_reader_write(&mut self.handle, packed, &mut bytes) }, Spot::default())?;
        // SAFETY: they are lent until the next call, which needs `self` again.
        Ok(unsafe { std::slice::from_raw_parts(bytes.at, bytes.len) })
    }

    /// The bytes of a frame of the same struct, in segments of at most this many words.
    pub fn recut(&mut self, packed: bool, words: u32) -> Result<&[u8], Fault> {
        let (mut bytes, mut spot) = (Bytes { at: std::ptr::null(), len: 0 }, Spot::default());
        done(unsafe { jd_reader_recut(&mut self.handle, packed, words, &mut bytes, &mut spot) }, spot)?;
        // SAFETY: as above.
        Ok(unsafe { std::slice::from_raw_parts(bytes.at, bytes.len) })
    }

    /// The bytes of the message in its canonical form, a frame of one segment.
    pub fn canonical(&mut self, packed: bool) -> Result<&[u8], Fault> {
        let (mut bytes, mut spot) = (Bytes { at: std::ptr::null(), len: 0 }, Spot::default());
        done(unsafe { jd_reader_canonical(&mut self.handle, packed, &mut bytes, &mut spot) }, spot)?;
        // SAFETY: as above.
        Ok(unsafe { std::slice::from_raw_parts(bytes.at, bytes.len) })
    }

    /// Checks that the message is in its canonical form.
    pub fn check_canonical(&mut self) -> Result<(), Fault> {
        let mut spot = Spot::default();
        let code = unsafe { jd_reader_check_canonical(&mut self.handle, &mut spot) };
        done(code, spot)
    }
}

impl Drop for Reader {
    fn drop(&mut self) {
        unsafe { jd_reader_close(&mut self.handle) }
    }
}
