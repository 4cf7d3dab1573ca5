//! A client and a server of a notebook.

use crate::services::ends::{Ends, Got, Seen, Step, With};
use crate::services::notebook::{Served, Shared, new_book, new_notes};
use cp_objects::Objects;
use cp_refs::Request;
use cp_servants::{PayloadBuilder, Reply, Servant, Settled, named_imports, outcome_of, word_in};
use std::alloc::{AllocError, Global};
use std::process::Abort;
use std::rc::Rc;

/// Notes the words that it is told of.
#[derive(Drop)]
struct Watcher {
    alloc: Global,
    words: Vec<u64>,
}

impl Servant for Watcher {
    fn call(&mut self, _ticket: u64, request: Request) -> Result<Reply, AllocError> {
        self.words.push(word_in(&request.content, 0))?;
        Ok(Reply::Now {
            outcome: outcome_of(self.alloc, Ok(PayloadBuilder::new(self.alloc)))?,
            gives_up: named_imports(self.alloc, &request.caps)?,
        })
    }

    fn poll(&mut self) -> Result<Option<Settled>, AllocError> {
        Ok(None)
    }

    fn has_more(&self) -> bool {
        false
    }
}

/// The client's watcher.
pub(crate) const WATCHER: With = With::Object(0);

/// A client that has a watcher, and a server of a notebook.
pub(crate) struct Pair {
    ends: Ends<Vec<Watcher>, Objects<Served>>,
    notes: Shared,
    /// The client's capability of the notebook.
    pub(crate) book: u32,
}

// Not derived: who lets one go calls this function, and need not prove the drop of its sessions.
impl Drop for Pair {
    fn drop(self) {
        let Pair {
            ends: _,
            notes: _,
            book: _,
        } = self;
    }
}

impl Pair {
    /// A client of a notebook whose session has this number.
    pub(crate) fn new(rt: &impl Abort, alloc: Global, session: u64) -> Pair {
        let notes = new_notes(alloc).expect(rt, "notes");
        Pair::of(rt, alloc, session, notes)
    }

    /// A client of another notebook, which has the same notes.
    pub(crate) fn beside(&self, rt: &impl Abort, alloc: Global, session: u64) -> Pair {
        let notes = Rc::clone(&self.notes).expect(rt, "memory");
        Pair::of(rt, alloc, session, notes)
    }

    fn of(rt: &impl Abort, alloc: Global, session: u64, notes: Shared) -> Pair {
        let words = Vec::new(alloc);
        let watchers = Vec::from_array(alloc, [Watcher { alloc, words }]).expect(rt, "memory");
        let mut family = Objects::new(alloc);
        let root = new_book(&notes).expect(rt, "a book");
        drop(family.add(root).expect(rt, "a first object"));
        let mut pair = Pair {
            ends: Ends::new(alloc, watchers, family, session),
            notes,
            book: 0,
        };
        pair.act(rt, Step::Bootstrap);
        pair.book = pair.take(rt).1.import.expect(rt, "a book");
        pair
    }

    /// Does a step.
    pub(crate) fn act(&mut self, rt: &impl Abort, step: Step) -> Seen {
        self.ends.act(rt, step)
    }

    /// The first outcome that wasn't taken, of a question that is finished.
    pub(crate) fn take(&mut self, rt: &impl Abort) -> (u32, Got) {
        self.act(rt, Step::Take).got.expect(rt, "an outcome")
    }

    /// Calls a method of an import.
    pub(crate) fn begin(&mut self, rt: &impl Abort, import: u32, method: u16, with: With) -> u32 {
        let seen = self.act(rt, Step::Call(import, method, with));
        seen.asked.expect(rt, "a question")
    }

    /// Calls a method of an import, and waits.
    pub(crate) fn call(&mut self, rt: &impl Abort, import: u32, method: u16, with: With) -> Got {
        let question = self.begin(rt, import, method, with);
        self.expect_outcome(rt, question)
    }

    /// What a question came to, first of those whose outcomes weren't taken. It is finished.
    pub(crate) fn expect_outcome(&mut self, rt: &impl Abort, question: u32) -> Got {
        let (asked, got) = self.take(rt);
        check!(rt; asked == question);
        got
    }

    /// The page that a method of the notebook gives.
    pub(crate) fn page(&mut self, rt: &impl Abort, method: u16, word: u64) -> u32 {
        let book = self.book;
        let got = self.call(rt, book, method, With::Word(word));
        got.import.expect(rt, "a page")
    }

    /// How many objects the server has.
    pub(crate) fn objects(&self) -> usize {
        self.ends.server.objects().len()
    }

    /// The words that the client's watcher was told of.
    pub(crate) fn words(&self) -> &[u64] {
        match self.ends.client.objects().as_slice() {
            [watcher, ..] => watcher.words.as_slice(),
            [] => &[],
        }
    }
}
