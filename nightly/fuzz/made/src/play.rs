//! What a peer sends, the time that passes, and what the session does.

use crate::Served;
use crate::trial::Trial;
use cp_frame::Mode;
use cp_objects::Objects;
use cp_session::{DrivenSession, Session, SessionLimits, SessionOptions};
use cp_words::Limits;
use std::alloc::{AllocError, Global};

/// How often objects are polled in one go, and how often time passes at the end.
const MOST: u32 = 10_000;

/// The milliseconds after which nothing is waited for at the end.
const PATIENCE: u64 = 10_000;

/// Serves a Trial to a peer. Each part of its stream begins with the milliseconds that pass before it, and how many bytes it has, in two bytes with
/// the low one first; they come in pieces. Where the stream ends, time passes then until nothing waits for it. Puts what fits into `said` of what
/// the peer gets, and then one byte, how many objects are left, and says how many bytes there are. 0: memory ran out.
#[unsafe(no_mangle)]
pub extern "C" fn mp_serve(
    alloc: Global,
    stream: &[u8],
    piece: usize,
    ends: bool,
    said: &mut [u8],
) -> usize {
    let Ok(mut play) = Play::new(alloc) else {
        return 0;
    };
    let played = play.all(stream, piece, ends);
    let count = match played {
        Ok(()) => play.give(said),
        Err(_) => 0,
    };
    drop(play);
    count
}

#[derive(Drop)]
struct Play {
    session: Session<Served>,
    now: u64,
    got: Vec<u8>,
}

fn new_objects(alloc: Global) -> Result<Objects<Served>, AllocError> {
    let mut objects = Objects::new(alloc);
    objects.add(Served::Left(Trial::new(alloc)?))?;
    Ok(objects)
}

impl Play {
    fn new(alloc: Global) -> Result<Play, AllocError> {
        let options = SessionOptions {
            mode: Mode::Plain,
            messages: Limits::standard(),
            bootstrap: Some(0),
            may_call: true,
            releases_idle: true,
            limits: SessionLimits::standard(),
        };
        Ok(Play {
            session: Session::new(alloc, &options, new_objects(alloc)?, 0),
            now: 0,
            got: Vec::new(alloc),
        })
    }

    fn all(&mut self, stream: &[u8], piece: usize, ends: bool) -> Result<(), AllocError> {
        self.parts(stream, piece)?;
        if ends {
            self.end()?;
        }
        self.got.push(self.session.objects().len().min(255) as u8)?;
        Ok(())
    }

    fn parts(&mut self, stream: &[u8], piece: usize) -> Result<(), AllocError> {
        let mut left = stream;
        for _ in 0..stream.len() {
            let [milliseconds, low, high, rest @ ..] = left else {
                break;
            };
            let count = usize::from(*low) + 256 * usize::from(*high);
            let (part, behind) = rest.split_at(rest.len().min(count));
            self.pass(u64::from(*milliseconds))?;
            for bytes in part.chunks(piece.max(1)) {
                self.take(bytes)?;
            }
            left = behind;
        }
        Ok(())
    }

    fn end(&mut self) -> Result<(), AllocError> {
        drop(self.session.end(self.now));
        self.work()?;
        for _ in 0..MOST {
            match self.session.deadline() {
                Some(at) if at <= self.now.saturating_add(PATIENCE) => {
                    self.pass(at.saturating_sub(self.now))?;
                }
                _ => break,
            }
        }
        Ok(())
    }

    /// Time passes.
    fn pass(&mut self, milliseconds: u64) -> Result<(), AllocError> {
        self.now = self.now.saturating_add(milliseconds);
        self.session.tick(self.now);
        self.work()
    }

    /// Bytes come. After each message the objects do what they can.
    fn take(&mut self, bytes: &[u8]) -> Result<(), AllocError> {
        let mut left = bytes;
        for _ in 0..bytes.len() {
            let count = self.session.receive(left, self.now).unwrap_or(0);
            self.work()?;
            if count == 0 || count >= left.len() {
                break;
            }
            left = left.get(count..).unwrap_or(&[]);
        }
        Ok(())
    }

    /// The objects do what they can, and all goes out.
    fn work(&mut self) -> Result<(), AllocError> {
        for _ in 0..MOST {
            self.write()?;
            if !self.session.has_more() {
                break;
            }
            self.session.poll(self.now)?;
        }
        for _ in 0..MOST {
            let Some(event) = self.session.poll_event() else {
                break;
            };
            drop(event);
        }
        Ok(())
    }

    fn write(&mut self) -> Result<(), AllocError> {
        let count = self.session.outgoing().len();
        self.got.extend_from_slice(self.session.outgoing())?;
        self.session.wrote(count, self.now);
        Ok(())
    }

    /// Puts what fits at the front, and says how many bytes there are.
    fn give(&self, buffer: &mut [u8]) -> usize {
        let count = self.got.len().min(buffer.len());
        buffer[..count].copy_from_slice(&self.got[..count]);
        self.got.len()
    }
}
