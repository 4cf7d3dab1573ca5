//! Two sessions over bytes in memory, whatever objects they have. All that is done with both is a step of `act`: a call of a session whose
//! objects are of a named type takes seconds to prove, and one whose objects are of a type parameter next to nothing.

use crate::services::notebook::NOTES;
use cp_dispatch::SessionEvent;
use cp_frame::Mode;
use cp_objects::{Letter, LetterBody, ObjectTable, Waker};
use cp_refs::{Cap, Caps, Outcome, Path, Request};
use cp_servants::{PayloadBuilder, results_of, word_in};
use cp_session::{CallingSession, DrivenSession, SessionLimits, SessionOptions, SessionOver};
use cp_words::Limits;
use std::alloc::Global;
use std::process::Abort;

/// A client and a server, each of which gets what the other sends.
pub(crate) struct Ends<C, S> {
    pub(crate) alloc: Global,
    pub(crate) client: SessionOver<C>,
    pub(crate) server: SessionOver<S>,
    pub(crate) now: u64,
}

// Not derived: who lets one go calls this function, and need not prove the drop of its sessions.
impl<C: Drop, S: Drop> Drop for Ends<C, S> {
    fn drop(self) {
        let Ends {
            alloc: _,
            client: _,
            server: _,
            now: _,
        } = self;
    }
}

/// What is done.
#[derive(Clone, Copy)]
pub(crate) enum Step {
    /// The client asks for the server's object.
    Bootstrap,
    /// The client calls a method of an import.
    Call(u32, u16, With),
    /// The client calls a method of an object of its own.
    CallOwn(u32, u16),
    /// The client calls a method of what the first pointer of this question's results will be.
    CallResult(u32, u16),
    /// All bytes go over.
    Carry,
    /// The client finishes a question before it takes its outcome, and all bytes go over.
    Finish(u32),
    /// All bytes go over. The client takes its first event, and finishes the question.
    Take,
    /// The client drops an import, once for each result that named it, and all bytes go over.
    Drop(u32),
    /// The client gives an import back once, and all bytes go over.
    Release(u32),
    /// The client drops all imports but this one that it may drop, and all bytes go over.
    ReleaseOthers(u32),
    /// Time passes, and the server does what is due.
    Pass(u64),
    /// The server hands on whom it has woken in another session.
    HandOn,
    /// An object of the server is woken.
    Wake(u32),
}

/// What a method is called with.
#[derive(Clone, Copy)]
pub(crate) enum With {
    Word(u64),
    /// A capability that the server gave.
    Import(u32),
    /// An object of the client.
    Object(u32),
    /// What the first pointer of this question's results will be.
    Result(u32),
}

/// What is seen of a step.
#[derive(Clone, Copy)]
pub(crate) struct Seen {
    /// The question that was asked.
    pub(crate) asked: Option<u32>,
    /// The question whose outcome was taken, and that.
    pub(crate) got: Option<(u32, Got)>,
    /// Who is woken in another session.
    pub(crate) woken: Option<Waker>,
    /// How many bytes the server keeps.
    pub(crate) kept: u64,
    /// When the server is due.
    pub(crate) deadline: Option<u64>,
    /// Whether the server has more to do.
    pub(crate) has_more: bool,
}

/// What a call gave: its first data word, and the import that its table names first.
#[derive(Clone, Copy)]
pub(crate) struct Got {
    pub(crate) word: u64,
    pub(crate) import: Option<u32>,
    /// Whether its table names an object of the client first.
    pub(crate) is_own: bool,
    pub(crate) is_failed: bool,
}

impl<C: ObjectTable, S: ObjectTable> Ends<C, S> {
    /// A client with these objects, and a server with those, whose first one the client may ask for. The server's session has this number.
    pub(crate) fn new(alloc: Global, client: C, server: S, session: u64) -> Ends<C, S> {
        Ends {
            alloc,
            client: SessionOver::new(alloc, &options(None), client, 0),
            server: SessionOver::begin(alloc, &options(Some(0)), session, server, 0),
            now: 0,
        }
    }

    /// Does a step.
    pub(crate) fn act(&mut self, rt: &impl Abort, step: Step) -> Seen {
        let mut asked = None;
        let mut got = None;
        let mut woken = None;
        match step {
            Step::Bootstrap => asked = self.client.bootstrap().ok(),
            Step::Call(import, method, with) => {
                let request = request(rt, self.alloc, method, with);
                asked = self.client.call(Cap::Import(import), request).ok();
            }
            Step::CallOwn(object, method) => {
                let request = request(rt, self.alloc, method, With::Word(0));
                asked = self.client.call(Cap::Object(object), request).ok();
            }
            Step::CallResult(question, method) => {
                let request = request(rt, self.alloc, method, With::Word(0));
                let result = Cap::Pipelined(question, first_pointer(rt, self.alloc));
                asked = self.client.call(result, request).ok();
            }
            Step::Take => got = self.take(rt),
            Step::HandOn => woken = waker_in(self.server.next_letter()),
            other => self.go_on(rt, other),
        }
        Seen {
            asked,
            got,
            woken,
            kept: self.server.kept(),
            deadline: self.server.deadline(),
            has_more: self.server.has_more(),
        }
    }

    /// Whether the client may give an import back.
    pub(crate) fn releases(&mut self, import: u32) -> bool {
        self.client.release(import).is_ok()
    }

    /// All bytes go over. The client takes its first event, and finishes the question.
    fn take(&mut self, rt: &impl Abort) -> Option<(u32, Got)> {
        self.run(rt);
        let got = told(self.client.poll_event());
        if let Some((question, _)) = got {
            self.client.finish(question).expect(rt, "a finish");
            self.run(rt);
        }
        got
    }

    /// Does a step that gives nothing.
    fn go_on(&mut self, rt: &impl Abort, step: Step) {
        match step {
            Step::Release(import) => {
                self.client.release(import).expect(rt, "a release");
                self.run(rt);
            }
            Step::ReleaseOthers(kept) => {
                for import in 0..16 {
                    if import != kept {
                        while self.client.release(import).is_ok() {}
                    }
                }
                self.run(rt);
            }
            Step::Drop(import) => {
                self.client.release(import).expect(rt, "a release");
                while self.client.release(import).is_ok() {}
                self.run(rt);
            }
            Step::Carry => self.run(rt),
            Step::Finish(question) => {
                self.client.finish(question).expect(rt, "a finish");
                self.run(rt);
            }
            Step::Pass(time) => self.pass(rt, time),
            Step::Wake(object) => self.server.wake(object).expect(rt, "memory"),
            _ => {}
        }
    }

    /// Time passes, and the server does what is due.
    fn pass(&mut self, rt: &impl Abort, time: u64) {
        self.now = self.now.saturating_add(time);
        for _ in 0..1_000 {
            self.server.tick(self.now);
            give(rt, &mut self.server, &[], self.now);
            self.run(rt);
            match self.server.deadline() {
                Some(due) if due <= self.now => {}
                _ => return,
            }
        }
        check!(rt; false);
    }

    /// All bytes go over, both ways, until none is left and none may give more.
    fn run(&mut self, rt: &impl Abort) {
        let at = (self.alloc, self.now);
        for _ in 0..1_000_000 {
            let went = carry(rt, &mut self.client, &mut self.server, at);
            let came = carry(rt, &mut self.server, &mut self.client, at);
            if !went && !came {
                return;
            }
        }
        check!(rt; false);
    }
}

/// The options of a session that gives its peer this object. Only that of a server lets go what no object has: the test has imports of the
/// client.
fn options(bootstrap: Option<u32>) -> SessionOptions {
    SessionOptions {
        mode: Mode::Plain,
        messages: Limits::standard(),
        bootstrap,
        may_call: true,
        releases_idle: bootstrap.is_some(),
        limits: SessionLimits::standard(),
    }
}

/// All bytes that one session sends come to the other. Says whether there were any.
fn carry<F: ObjectTable, T: ObjectTable>(
    rt: &impl Abort,
    from: &mut SessionOver<F>,
    to: &mut SessionOver<T>,
    (alloc, now): (Global, u64),
) -> bool {
    let bytes = from.outgoing().to_vec(alloc).expect(rt, "memory");
    from.wrote(bytes.len(), now);
    give(rt, to, &bytes, now);
    let were_any = !bytes.is_empty();
    drop(bytes);
    were_any
}

/// Gives bytes to a session, and has it do all that they lead to.
fn give<H: ObjectTable>(rt: &impl Abort, session: &mut SessionOver<H>, bytes: &[u8], now: u64) {
    let mut left = bytes;
    for _ in 0..bytes.len() {
        if left.is_empty() {
            break;
        }
        let count = session.receive(left, now).expect(rt, "a message");
        check!(rt; count > 0);
        left = left.get(count..).unwrap_or(&[]);
    }
    for _ in 0..1_000_000 {
        if !session.has_more() {
            return;
        }
        session.poll(now).expect(rt, "a poll");
    }
    check!(rt; false);
}

/// Who is woken by a letter.
pub(crate) fn waker_in(letter: Option<Letter>) -> Option<Waker> {
    let letter = letter?;
    let session = letter.to;
    match letter.body {
        LetterBody::Wake(object) => Some(Waker { session, object }),
        other => {
            drop(other);
            None
        }
    }
}

/// A call of a method.
fn request(rt: &impl Abort, alloc: Global, method: u16, with: With) -> Request {
    let params = PayloadBuilder::new(alloc);
    let params = match with {
        With::Word(word) => params.word(word),
        With::Import(import) => params.cap(Cap::Import(import)),
        With::Object(object) => params.cap(Cap::Object(object)),
        With::Result(question) => {
            params.cap(Cap::Pipelined(question, first_pointer(rt, alloc)))
        }
    };
    params.expect(rt, "params").request(NOTES, method)
}

/// The path to the first pointer.
fn first_pointer(rt: &impl Abort, alloc: Global) -> Path {
    Path::new(Vec::from_array(alloc, [0]).expect(rt, "memory"))
}

/// The question that an event settles, and what that gave.
fn told(event: Option<SessionEvent>) -> Option<(u32, Got)> {
    match event {
        Some(SessionEvent::Outcome { question, outcome }) => {
            let got = got_of(&outcome);
            drop(outcome);
            Some((question, got))
        }
        other => {
            drop(other);
            None
        }
    }
}

fn got_of(outcome: &Outcome) -> Got {
    match outcome {
        Outcome::Results { caps, .. } => Got {
            word: match results_of(outcome) {
                Some(content) => word_in(content, 0),
                None => 0,
            },
            import: first_import(caps),
            is_own: matches!(caps.caps().first(), Some(Cap::Object(_))),
            is_failed: false,
        },
        _ => Got {
            word: 0,
            import: None,
            is_own: false,
            is_failed: true,
        },
    }
}

fn first_import(caps: &Caps) -> Option<u32> {
    match caps.caps().first() {
        Some(Cap::Import(import)) => Some(*import),
        _ => None,
    }
}
