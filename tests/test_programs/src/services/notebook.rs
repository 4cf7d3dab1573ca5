//! A notebook: its pages are objects, and it tells watchers what was added.

use cp_objects::{Either, Context, ServedObject, Resolver, Waker};
use cp_refs::{Cap, Caps, Outcome, Request};
use cp_servants::{
    OutgoingCall, PayloadBuilder, Reply, Settled, named_imports, no_such_method, outcome_of, word_in, RequestView,
};
use cp_vat_machine::Ids;
use std::alloc::{AllocError, Global};
use std::cell::RefCell;
use std::mem;
use std::rc::Rc;

/// Both interfaces.
pub(crate) const NOTES: u64 = 0xe5a1_0000_0000_0007;

/// Methods of a notebook: a new page of a number, a watcher more, a note more, and a word after some milliseconds. Then a page that is
/// promised, what it comes to (the capability that is named, or a page of a number), that it comes to nothing, and what was named. Then to
/// tell a watcher of a number and of three more, how often it heard what came of that, to give its watcher up after some milliseconds, and
/// a new page that keeps a capability.
pub(crate) const OPEN: u16 = 0;

pub(crate) const WATCH: u16 = 1;

pub(crate) const ADD: u16 = 2;

pub(crate) const REMIND: u16 = 3;

pub(crate) const PROMISE: u16 = 4;

pub(crate) const RESOLVE: u16 = 5;

pub(crate) const BREAK: u16 = 6;

pub(crate) const SAME: u16 = 7;

pub(crate) const TELL: u16 = 8;

pub(crate) const HEARD: u16 = 9;

pub(crate) const LEAVE: u16 = 10;

pub(crate) const JOIN: u16 = 11;

/// Methods of a page: its number, to make a page that it keeps, that page, to keep it no more, to make one that it only names, how
/// often it was counted before, and to promise one.
pub(crate) const READ: u16 = 0;

pub(crate) const KEEP: u16 = 1;

pub(crate) const KEPT: u16 = 2;

pub(crate) const GIVE_UP: u16 = 3;

pub(crate) const NAME: u16 = 4;

pub(crate) const COUNT: u16 = 5;

pub(crate) const VOW: u16 = 6;

/// All objects of a connection.
pub(crate) type Served = Either<Book, Page>;

/// The notes of all sessions, and whom to wake when there is one more.
#[derive(Drop)]
pub(crate) struct Notes {
    words: Vec<u64>,
    wakers: Vec<Waker>,
}

pub(crate) type Shared = Rc<RefCell<Notes>>;

/// No notes.
pub(crate) fn new_notes(alloc: Global) -> Result<Shared, AllocError> {
    let notes = Notes {
        words: Vec::new(alloc),
        wakers: Vec::new(alloc),
    };
    Ok(Rc::new(alloc, RefCell::new(notes))?)
}

/// The notebook of a session.
#[derive(Drop)]
pub(crate) struct Book {
    pub(crate) notes: Shared,
    watcher: Option<u32>,
    /// How many notes its watcher was told of.
    told: usize,
    /// The word that it asks for a call with.
    next: Option<u64>,
    /// How many outcomes it heard.
    heard: u64,
    /// What it says when it is woken next.
    reminder: Option<(u64, u64)>,
    /// When it gives its watcher up.
    leaves_at: Option<u64>,
    vow: Vow,
}

/// A page.
#[derive(Drop)]
pub(crate) struct Page {
    number: u64,
    /// A page that it keeps.
    kept: Option<Cap>,
    counted: u64,
    vow: Vow,
}

/// The page that an object promised last, and when the object resolves that itself.
#[derive(Drop)]
struct Vow {
    resolver: Option<Resolver>,
    at: Option<u64>,
}

/// The notebook of a session.
pub(crate) fn new_book(notes: &Shared) -> Result<Served, AllocError> {
    Ok(Served::Left(Book {
        notes: Rc::clone(notes)?,
        watcher: None,
        told: 0,
        next: None,
        heard: 0,
        reminder: None,
        leaves_at: None,
        vow: Vow::none(),
    }))
}

fn new_page(number: u64) -> Served {
    Served::Right(Page {
        number,
        kept: None,
        counted: 0,
        vow: Vow::none(),
    })
}

/// An answer that keeps no import.
fn now(alloc: Global, outcome: Outcome, caps: &Caps) -> Result<Reply, AllocError> {
    match named_imports(alloc, caps) {
        Ok(gives_up) => Ok(Reply::Now { outcome, gives_up }),
        Err(error) => {
            drop(outcome);
            Err(error)
        }
    }
}

/// The same without content.
pub(crate) fn done(alloc: Global, caps: &Caps) -> Result<Reply, AllocError> {
    now(alloc, outcome_of(alloc, Ok(PayloadBuilder::new(alloc)))?, caps)
}

/// The same of a word.
fn counted(alloc: Global, word: u64, caps: &Caps) -> Result<Reply, AllocError> {
    now(
        alloc,
        outcome_of(alloc, PayloadBuilder::new(alloc).word(word))?,
        caps,
    )
}

/// The same of a capability.
fn named(alloc: Global, cap: Cap, caps: &Caps) -> Result<Reply, AllocError> {
    now(
        alloc,
        outcome_of(alloc, PayloadBuilder::new(alloc).cap(cap))?,
        caps,
    )
}

/// The same of a method that there isn't.
fn refused(alloc: Global, caps: &Caps) -> Result<Reply, AllocError> {
    now(alloc, no_such_method(alloc)?, caps)
}

/// The time after some milliseconds, when the object is woken.
fn time_after(milliseconds: u64, context: &mut Context<Served>) -> Result<u64, AllocError> {
    context.wake_after(milliseconds)?;
    Ok(context.now().saturating_add(milliseconds))
}

impl Vow {
    /// Nothing was promised.
    fn none() -> Vow {
        Vow {
            resolver: None,
            at: None,
        }
    }

    /// Promises a page, which it makes itself after some milliseconds, if these are more than none.
    fn make(&mut self, after: u64, context: &mut Context<Served>) -> Result<Cap, AllocError> {
        let resolver = context.promise()?;
        let cap = resolver.cap().into_cap(context.session())?;
        drop(mem::replace(&mut self.resolver, Some(resolver)));
        if after > 0 {
            self.at = Some(time_after(after, context)?);
        }
        Ok(cap)
    }

    /// What was promised comes to this.
    fn keep(&mut self, value: Cap, context: &mut Context<Served>) -> Result<(), AllocError> {
        match self.resolver.take() {
            Some(resolver) => {
                let value = context.own(value);
                Ok(context.resolve(resolver, value)?)
            }
            None => {
                drop(value);
                Ok(())
            }
        }
    }

    /// What was promised comes to a page, if it is time for that.
    fn keep_in_time(&mut self, context: &mut Context<Served>) -> Result<(), AllocError> {
        let Some(at) = self.at else {
            return Ok(());
        };
        if context.now() < at {
            return Ok(());
        }
        self.at = None;
        let page = made(new_page(at), context)?;
        self.keep(page, context)
    }
}

/// Makes an object.
fn made(object: Served, context: &mut Context<Served>) -> Result<Cap, AllocError> {
    let cap = context.make(object)?;
    Ok(cap.into_cap(context.session())?)
}

/// The first capability of a table.
fn first_of(alloc: Global, caps: &Caps) -> Result<Cap, AllocError> {
    match caps.caps().first() {
        Some(cap) => cap.copy(alloc),
        None => Ok(Cap::None),
    }
}

/// A page that keeps this.
fn new_keeper(kept: Cap) -> Served {
    Served::Right(Page {
        number: 0,
        kept: Some(kept),
        counted: 0,
        vow: Vow::none(),
    })
}

/// Makes a page that keeps the first capability of a table.
fn join(caps: &Caps, context: &mut Context<Served>) -> Result<Reply, AllocError> {
    let alloc = context.alloc();
    let page = context.make(new_keeper(first_of(alloc, caps)?))?;
    let kept = match caps.caps().first() {
        Some(watcher) => {
            let watcher = context.own(watcher.copy(alloc)?);
            context.keep_for(&page, &watcher)
        }
        None => Ok(()),
    };
    let page = page.into_cap(context.session())?;
    let outcome = outcome_of(alloc, PayloadBuilder::new(alloc).cap(page))?;
    match kept {
        Ok(()) => Ok(Reply::Now {
            outcome,
            gives_up: Ids::new(Vec::new(alloc)),
        }),
        Err(error) => {
            drop(outcome);
            Err(AllocError::from(error))
        }
    }
}

/// A capability whose calls fail.
fn broken(alloc: Global) -> Result<Cap, AllocError> {
    match no_such_method(alloc)? {
        Outcome::Failed(exception) => Ok(Cap::Broken(exception)),
        other => {
            drop(other);
            Ok(Cap::None)
        }
    }
}

impl Notes {
    /// Adds a note, and has all woken.
    fn add(&mut self, word: u64, context: &mut Context<Served>) -> Result<(), AllocError> {
        self.words.push(word)?;
        for waker in &self.wakers {
            context.wake(*waker)?;
        }
        Ok(())
    }
}

impl Book {
    /// What a call comes to.
    fn reply(&mut self, request: &Request, context: &mut Context<Served>) -> Result<Reply, AllocError> {
        let (alloc, caps) = (context.alloc(), &request.caps);
        let word = word_in(&request.content, 0);
        match request.method {
            OPEN => named(alloc, made(new_page(word), context)?, caps),
            WATCH => self.watch(caps, context),
            JOIN => join(caps, context),
            ADD => {
                self.add(word, context)?;
                done(alloc, caps)
            }
            REMIND => {
                self.reminder = Some((time_after(word, context)?, word));
                done(alloc, caps)
            }
            LEAVE => {
                self.leaves_at = Some(time_after(word, context)?);
                done(alloc, caps)
            }
            PROMISE => named(alloc, self.vow.make(word, context)?, caps),
            RESOLVE => self.resolve(word, caps, context),
            BREAK => {
                self.vow.keep(broken(alloc)?, context)?;
                done(alloc, caps)
            }
            SAME => named(alloc, first_of(alloc, caps)?, caps),
            TELL => {
                self.tell_four(word, context)?;
                done(alloc, caps)
            }
            HEARD => counted(alloc, self.heard, caps),
            _ => refused(alloc, caps),
        }
    }

    /// What it promised comes to the capability that is named, or to a page of this number.
    fn resolve(
        &mut self,
        number: u64,
        caps: &Caps,
        context: &mut Context<Served>,
    ) -> Result<Reply, AllocError> {
        let value = match first_of(context.alloc(), caps)? {
            Cap::None => made(new_page(number), context)?,
            other => other,
        };
        self.vow.keep(value, context)?;
        done(context.alloc(), caps)
    }

    /// Keeps a watcher, if one is named.
    fn watch(&mut self, caps: &Caps, context: &mut Context<Served>) -> Result<Reply, AllocError> {
        if let Some(Cap::Import(import)) = caps.caps().first() {
            self.watcher = Some(*import);
        }
        if let Ok(mut notes) = self.notes.try_borrow_mut() {
            let pushed = notes.wakers.push(context.waker());
            drop(notes);
            pushed?;
        }
        let alloc = context.alloc();
        Ok(Reply::Now {
            outcome: outcome_of(alloc, Ok(PayloadBuilder::new(alloc)))?,
            gives_up: Ids::new(Vec::new(alloc)),
        })
    }

    /// Gives its watcher up, if it has one and it is time for that.
    fn leave_in_time(&mut self, context: &mut Context<Served>) -> Result<(), AllocError> {
        let Some(at) = self.leaves_at else {
            return Ok(());
        };
        if context.now() < at {
            return Ok(());
        }
        self.leaves_at = None;
        match self.watcher.take() {
            Some(import) => {
                let watcher = context.own(Cap::Import(import));
                Ok(context.give_up(&watcher)?)
            }
            None => Ok(()),
        }
    }

    /// Adds a note for all.
    fn add(&mut self, word: u64, context: &mut Context<Served>) -> Result<(), AllocError> {
        let Ok(mut notes) = self.notes.try_borrow_mut() else {
            return Ok(());
        };
        let added = notes.add(word, context);
        drop(notes);
        added
    }

    /// A call that tells its watcher of a word. Where it has none, it is a call of an import that isn't there.
    fn telling(&self, alloc: Global, word: u64) -> Result<OutgoingCall, AllocError> {
        let Ok(content) = PayloadBuilder::new(alloc).word(word) else {
            return Err(AllocError);
        };
        Ok(OutgoingCall {
            cap: Cap::Import(self.watcher.unwrap_or(u32::MAX)),
            request: content.request(NOTES, ADD),
            call_id: word,
        })
    }

    /// Tells its watcher of a word, if it has one.
    fn tell(&self, word: u64, context: &mut Context<Served>) -> Result<(), AllocError> {
        if self.watcher.is_none() {
            return Ok(());
        }
        let next_call = self.telling(context.alloc(), word)?;
        let next_call = context.own_call(next_call);
        Ok(context.send(next_call)?)
    }

    /// Tells a watcher of a word and of the next one at once, and of two more when it is asked.
    fn tell_four(&mut self, word: u64, context: &mut Context<Served>) -> Result<(), AllocError> {
        let first = self.telling(context.alloc(), word)?;
        let first = context.own_call(first);
        context.send(first)?;
        let second = self.telling(context.alloc(), word.saturating_add(1))?;
        let second = context.own_call(second);
        context.send(second)?;
        self.next = Some(word.saturating_add(2));
        Ok(())
    }

    /// Tells its watcher of the notes that it wasn't told of.
    fn tell_all(&mut self, context: &mut Context<Served>) -> Result<(), AllocError> {
        let words = self.words_to_tell(context.alloc())?;
        let told = self.tell_each(&words, context);
        drop(words);
        told
    }

    fn tell_each(&mut self, words: &[u64], context: &mut Context<Served>) -> Result<(), AllocError> {
        for word in words {
            self.told = self.told.saturating_add(1);
            self.tell(*word, context)?;
        }
        Ok(())
    }

    /// The notes that its watcher wasn't told of.
    fn words_to_tell(&self, alloc: Global) -> Result<Vec<u64>, AllocError> {
        match self.notes.try_borrow() {
            Ok(notes) => {
                let words = notes.words.get(self.told..).unwrap_or(&[]).to_vec(alloc);
                drop(notes);
                words
            }
            Err(_) => Ok(Vec::new(alloc)),
        }
    }
}

impl ServedObject for Book {
    type Makes = Served;

    fn call(
        &mut self,
        _ticket: u64,
        request: RequestView<'_>,
        context: &mut Context<Served>,
    ) -> Result<Reply, AllocError> {
        let request = request.request(context.alloc())?;
        let reply = self.reply(&request, context);
        drop(request);
        reply
    }

    fn poll(&mut self, context: &mut Context<Served>) -> Result<Option<Settled>, AllocError> {
        self.tell_all(context)?;
        self.vow.keep_in_time(context)?;
        if let Some((at, word)) = self.reminder {
            if at <= context.now() {
                self.reminder = None;
                self.tell(word, context)?;
            }
        }
        self.leave_in_time(context)?;
        Ok(None)
    }

    fn has_more(&self) -> bool {
        false
    }

    fn next_call(&mut self, context: &mut Context<Served>) -> Result<Option<OutgoingCall>, AllocError> {
        let Some(word) = self.next.take() else {
            return Ok(None);
        };
        let last = self.telling(context.alloc(), word.saturating_add(1))?;
        let last = context.own_call(last);
        context.send(last)?;
        Ok(Some(self.telling(context.alloc(), word)?))
    }

    fn on_response(
        &mut self,
        _mark: u64,
        outcome: Outcome,
        _context: &mut Context<Served>,
    ) -> Result<(), AllocError> {
        self.heard = self.heard.saturating_add(1);
        drop(outcome);
        Ok(())
    }

    fn on_cancel(&mut self, _ticket: u64, _context: &mut Context<Served>) -> Result<(), AllocError> {
        Ok(())
    }
}

impl Page {
    /// What a call comes to.
    fn reply(&mut self, request: &Request, context: &mut Context<Served>) -> Result<Reply, AllocError> {
        let (alloc, caps) = (context.alloc(), &request.caps);
        let word = word_in(&request.content, 0);
        match request.method {
            READ => counted(alloc, self.number, caps),
            KEEP => {
                self.give_up(context)?;
                self.keep(word, context)?;
                done(alloc, caps)
            }
            KEPT => named(alloc, self.kept(alloc)?, caps),
            GIVE_UP => {
                self.give_up(context)?;
                done(alloc, caps)
            }
            NAME => {
                let cap = made(new_page(word), context)?;
                drop(mem::replace(&mut self.kept, Some(cap)));
                done(alloc, caps)
            }
            VOW => named(alloc, self.vow.make(word, context)?, caps),
            COUNT => {
                let reply = counted(alloc, self.counted, caps);
                self.counted = self.counted.saturating_add(1);
                reply
            }
            _ => refused(alloc, caps),
        }
    }

    /// Keeps its page no more.
    fn give_up(&mut self, context: &mut Context<Served>) -> Result<(), AllocError> {
        let Some(kept) = self.kept.take() else {
            return Ok(());
        };
        let kept = context.own(kept);
        Ok(context.give_up(&kept)?)
    }

    /// Makes a page that it keeps.
    fn keep(&mut self, number: u64, context: &mut Context<Served>) -> Result<(), AllocError> {
        let cap = context.make(new_page(number))?;
        if let Err(error) = context.keep(&cap) {
            drop(cap);
            return Err(AllocError::from(error));
        }
        let cap = cap.into_cap(context.session())?;
        drop(mem::replace(&mut self.kept, Some(cap)));
        Ok(())
    }

    /// The page that it keeps or names, if there is one.
    fn kept(&self, alloc: Global) -> Result<Cap, AllocError> {
        match &self.kept {
            Some(cap) => cap.copy(alloc),
            None => Ok(Cap::None),
        }
    }
}

impl ServedObject for Page {
    type Makes = Served;

    fn call(
        &mut self,
        _ticket: u64,
        request: RequestView<'_>,
        context: &mut Context<Served>,
    ) -> Result<Reply, AllocError> {
        let request = request.request(context.alloc())?;
        let reply = self.reply(&request, context);
        drop(request);
        reply
    }

    fn poll(&mut self, context: &mut Context<Served>) -> Result<Option<Settled>, AllocError> {
        self.vow.keep_in_time(context)?;
        Ok(None)
    }

    fn has_more(&self) -> bool {
        false
    }

    fn next_call(&mut self, _context: &mut Context<Served>) -> Result<Option<OutgoingCall>, AllocError> {
        Ok(None)
    }

    fn on_response(
        &mut self,
        _mark: u64,
        outcome: Outcome,
        _context: &mut Context<Served>,
    ) -> Result<(), AllocError> {
        drop(outcome);
        Ok(())
    }

    fn on_cancel(&mut self, _ticket: u64, _context: &mut Context<Served>) -> Result<(), AllocError> {
        Ok(())
    }
}
