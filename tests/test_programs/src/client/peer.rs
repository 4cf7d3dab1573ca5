//! A client of a peer whose bytes are in memory.

use crate::client::asking::{expect_any, expect_full, expect_kept, expect_left_open, expect_room, expect_whole};
use crate::client::devices::{expect_flushed, expect_insisted};
use crate::client::endings::{End, expect_end};
use crate::client::memory::expect_called_or_memory;
use crate::client::streaming::{expect_failed, expect_in_order};
use crate::devices::{Device, Fails};
use crate::frames::bytes_of;
use cp_client::{Client, Question, request_of};
use cp_frame::Mode;
use cp_objects::ServedObject;
use cp_words::Limits;
use std::alloc::Global;
use std::io::{Read, Write};
use std::process::Abort;

/// What a client does. All of it is over any reader, writer and objects: a call of a client of named types takes seconds to prove.
#[derive(Clone, Copy)]
pub enum Scene {
    /// It is given outcomes in another order than they come.
    Keeps,
    AsksWhole,
    /// It waits for any of its questions.
    TakesAny,
    /// It takes results, which finishes each question.
    TakesResults,
    /// It takes results, and calls a path of them.
    KeepsResults,
    /// It finishes no question.
    FinishesNone,
    /// It calls, or memory runs out.
    CallsOrFails,
    /// It waits for an outcome, while its devices fail or don't.
    Insists { fails: bool },
    Flushes,
    Streams,
    StreamFails,
    Ends(End),
}

/// How many bytes of the peer weren't read and by how many calls the others were, how many were written to it, and whether these were flushed.
#[derive(Clone, Copy)]
pub struct Left {
    pub unread: usize,
    pub reads: u64,
    pub written: usize,
    pub is_flushed: bool,
}

/// Plays a scene with a client of a peer that sends these frames.
pub fn play(rt: &impl Abort, alloc: Global, frames: &[&str], scene: Scene) -> Left {
    let bytes = bytes_of(rt, alloc, frames);
    let left = play_over(rt, alloc, &bytes, (Fails::Never, usize::MAX), scene);
    drop(bytes);
    left
}

/// The same of a peer that sends these bytes, over devices that fail so, and of which a call moves so many bytes at most.
pub fn play_over(
    rt: &impl Abort,
    alloc: Global,
    bytes: &[u8],
    (fails, most): (Fails, usize),
    scene: Scene,
) -> Left {
    let from = Device::new(bytes, fails, most);
    let to = Device::new(Vec::new(alloc), fails, most);
    let mut client = Client::new(alloc, from, to, Mode::Plain, Limits::standard());
    play_with(rt, alloc, &mut client, scene);
    let (from, to) = client.into_devices();
    let left = Left {
        unread: from.inner.len(),
        reads: from.calls,
        written: to.inner.len(),
        is_flushed: to.is_flushed,
    };
    drop(to);
    left
}

fn play_with<R: Read + Drop, W: Write + Drop, O: ServedObject<Makes = O>>(
    rt: &impl Abort,
    alloc: Global,
    client: &mut Client<R, W, O>,
    scene: Scene,
) {
    match scene {
        Scene::Keeps => expect_kept(rt, alloc, client),
        Scene::AsksWhole => expect_whole(rt, alloc, client),
        Scene::TakesAny => expect_any(rt, alloc, client),
        Scene::TakesResults => expect_room(rt, alloc, client),
        Scene::KeepsResults => expect_left_open(rt, alloc, client),
        Scene::FinishesNone => expect_full(rt, alloc, client),
        Scene::CallsOrFails => expect_called_or_memory(rt, alloc, client),
        Scene::Insists { fails } => expect_insisted(rt, alloc, client, fails),
        Scene::Flushes => expect_flushed(rt, client),
        Scene::Streams => expect_in_order(rt, alloc, client),
        Scene::StreamFails => expect_failed(rt, alloc, client),
        Scene::Ends(end) => expect_end(rt, client, end),
    }
}

/// Asks for the peer's object, and calls it twice before it is known.
pub fn call_twice<R: Read + Drop, W: Write + Drop, O: ServedObject<Makes = O>>(
    rt: &impl Abort,
    alloc: Global,
    client: &mut Client<R, W, O>,
) -> (Question, Question) {
    let desk = client.bootstrap().expect(rt, "a bootstrap");
    let add = request_of(alloc, 2, 0, &[41]).expect(rt, "memory");
    let cell = desk.at(alloc, &[0]).expect(rt, "memory");
    let first = client.call(cell, add).expect(rt, "a call");
    let get = request_of(alloc, 2, 1, &[]).expect(rt, "memory");
    let second = client.call(desk.cap(alloc), get).expect(rt, "a call");
    (first, second)
}
