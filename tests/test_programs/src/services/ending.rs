//! Calls that are answered later by another object, or dropped, and objects that are told their end.

use crate::services::ends::{Ends, Got, Seen, Step, With, waker_in};
use crate::services::notebook::NOTES;
use cp_objects::{Objects, ObjectTable, Context, LaterCall, ServedObject, ServantObject, Waker};
use cp_refs::{Cap, Caps, Outcome, Request};
use cp_servants::{
    OutgoingCall, PayloadBuilder, Reply, RequestView, Servant, Settled, named_imports, outcome_of, word_in,
};
use cp_vat_machine::Ids;
use std::alloc::{AllocError, Global};
use std::cell::RefCell;
use std::process::Abort;
use std::rc::Rc;

/// What the objects of a test have in common.
#[derive(Drop)]
struct Board {
    /// The calls that aren't answered.
    calls: Vec<LaterCall>,
    /// The objects that were told their end, in order.
    ended: Vec<u32>,
    /// The words that the client's object was called with.
    words: Vec<u64>,
}

type Shared = Rc<RefCell<Board>>;

fn new_board(rt: &impl Abort, alloc: Global) -> Shared {
    let board = Board {
        calls: Vec::new(alloc),
        ended: Vec::new(alloc),
        words: Vec::new(alloc),
    };
    Rc::new(alloc, RefCell::new(board)).expect(rt, "memory")
}

/// Takes the first call out that isn't answered.
fn first_call(board: &Shared) -> Option<LaterCall> {
    match board.try_borrow_mut() {
        Ok(mut board) => {
            if board.calls.is_empty() {
                return None;
            }
            Some(board.calls.remove(0))
        }
        Err(_) => None,
    }
}

fn note_call(board: &Shared, call: LaterCall) -> Result<(), AllocError> {
    match board.try_borrow_mut() {
        Ok(mut board) => {
            board.calls.push(call)?;
            Ok(())
        }
        Err(_) => {
            drop(call);
            Err(AllocError)
        }
    }
}

fn note_end(board: &Shared, object: u32) -> Result<(), AllocError> {
    match board.try_borrow_mut() {
        Ok(mut board) => {
            board.ended.push(object)?;
            Ok(())
        }
        Err(_) => Err(AllocError),
    }
}

fn note_word(board: &Shared, word: u64) -> Result<(), AllocError> {
    match board.try_borrow_mut() {
        Ok(mut board) => {
            board.words.push(word)?;
            Ok(())
        }
        Err(_) => Err(AllocError),
    }
}

/// Results of one word.
fn word_of(alloc: Global, word: u64) -> Result<Outcome, AllocError> {
    outcome_of(alloc, PayloadBuilder::new(alloc).word(word))
}

/// Puts off a call.
const PUT_OFF: u16 = 0;
/// Makes an object, which has the first capability of the params until it ends.
const MAKE: u16 = 1;
/// Answers the first call that was put off.
const ANSWER: u16 = 2;
/// Drops it.
const DROP: u16 = 3;

/// An object of the server.
#[derive(Drop)]
struct Desk {
    board: Shared,
    /// What it calls as it ends.
    target: Option<Cap>,
}

impl Desk {
    /// An object with the same board.
    fn another(&self, target: Option<Cap>) -> Result<Desk, AllocError> {
        Ok(Desk {
            board: Rc::clone(&self.board)?,
            target,
        })
    }

    /// The first call that was put off comes to this.
    fn answer(&self, word: u64, context: &mut Context<Desk>) -> Result<(), AllocError> {
        match first_call(&self.board) {
            Some(call) => context.settle(call.into_settled(word_of(context.alloc(), word)?)),
            None => Ok(()),
        }
    }

    /// Makes an object. It holds the import that the table names first.
    fn make(&self, caps: &Caps, context: &mut Context<Desk>) -> Result<Reply, AllocError> {
        let (target, kept) = match caps.caps().first() {
            Some(Cap::Import(import)) => (Some(Cap::Import(*import)), Cap::Import(*import)),
            _ => (None, Cap::None),
        };
        let made = context.make(self.another(target)?)?;
        let kept = context.own(kept);
        context.keep_for(&made, &kept)?;
        drop(kept);
        let made = made.into_cap(context.session())?;
        let results = PayloadBuilder::new(context.alloc()).cap(made);
        Ok(Reply::Now {
            outcome: outcome_of(context.alloc(), results)?,
            gives_up: Ids::new(Vec::new(context.alloc())),
        })
    }

    /// Puts a call off.
    fn put_off(
        &self,
        ticket: u64,
        caps: &Caps,
        context: &mut Context<Desk>,
    ) -> Result<Reply, AllocError> {
        let gives_up = named_imports(context.alloc(), caps)?;
        let later = context.later(ticket, gives_up)?;
        let is_right = later.ticket() == ticket;
        note_call(&self.board, later)?;
        if is_right {
            return Ok(Reply::Later);
        }
        Err(AllocError)
    }

    fn reply(
        &self,
        method: u16,
        ticket: u64,
        caps: &Caps,
        context: &mut Context<Desk>,
    ) -> Result<Reply, AllocError> {
        match method {
            PUT_OFF => return self.put_off(ticket, caps, context),
            MAKE => return self.make(caps, context),
            ANSWER => self.answer(4, context)?,
            _ => drop(first_call(&self.board)),
        }
        Ok(Reply::Now {
            outcome: word_of(context.alloc(), 0)?,
            gives_up: named_imports(context.alloc(), caps)?,
        })
    }
}

impl ServedObject for Desk {
    type Makes = Desk;

    fn call(
        &mut self,
        ticket: u64,
        request: RequestView<'_>,
        context: &mut Context<Desk>,
    ) -> Result<Reply, AllocError> {
        self.reply(request.method, ticket, &request.caps, context)
    }

    fn poll(&mut self, _context: &mut Context<Desk>) -> Result<Option<Settled>, AllocError> {
        Ok(None)
    }

    fn has_more(&self) -> bool {
        false
    }

    fn next_call(&mut self, _context: &mut Context<Desk>) -> Result<Option<OutgoingCall>, AllocError> {
        Ok(None)
    }

    fn on_response(
        &mut self,
        _mark: u64,
        outcome: Outcome,
        _context: &mut Context<Desk>,
    ) -> Result<(), AllocError> {
        drop(outcome);
        Ok(())
    }

    fn on_cancel(&mut self, _ticket: u64, _context: &mut Context<Desk>) -> Result<(), AllocError> {
        Ok(())
    }

    fn ended(&mut self, context: &mut Context<Desk>) -> Result<(), AllocError> {
        note_end(&self.board, context.waker().object)?;
        context.wake(Waker {
            session: 9,
            object: 3,
        })?;
        // It isn't kept.
        drop(context.make(self.another(None)?)?);
        if let Some(cap) = self.target.take() {
            let params = match PayloadBuilder::new(context.alloc()).word(5) {
                Ok(params) => params,
                Err(_) => return Err(AllocError),
            };
            let request = params.request(NOTES, 0);
            let call = context.own_call(OutgoingCall {
                cap,
                request,
                call_id: 0,
            });
            context.send(call)?;
        }
        self.answer(6, context)
    }
}

/// The client's object, which notes the words that it is called with.
#[derive(Drop)]
struct Pad {
    alloc: Global,
    board: Shared,
}

impl Servant for Pad {
    fn call(&mut self, _ticket: u64, request: Request) -> Result<Reply, AllocError> {
        note_word(&self.board, word_in(&request.content, 0))?;
        Ok(Reply::Now {
            outcome: word_of(self.alloc, 0)?,
            gives_up: named_imports(self.alloc, &request.caps)?,
        })
    }

    fn poll(&mut self) -> Result<Option<Settled>, AllocError> {
        Ok(None)
    }

    fn has_more(&self) -> bool {
        false
    }
}

type Both = Ends<Objects<ServantObject<Pad>>, Objects<Desk>>;

/// A client that has a pad and a server that has a desk, and the client's capability of that.
fn both(rt: &impl Abort, alloc: Global, board: &Shared) -> (Both, u32) {
    let pad = Pad {
        alloc,
        board: Rc::clone(board).expect(rt, "memory"),
    };
    let pads = Vec::from_array(alloc, [pad]).expect(rt, "memory");
    let client = Objects::of_servants(alloc, pads).expect(rt, "memory");
    let mut server = Objects::new(alloc);
    let desk = Desk {
        board: Rc::clone(board).expect(rt, "memory"),
        target: None,
    };
    drop(server.add(desk).expect(rt, "an object"));
    let mut ends = Ends::new(alloc, client, server, 1);
    act(rt, &mut ends, Step::Bootstrap);
    let (_, got) = take(rt, &mut ends).expect(rt, "an outcome");
    let import = got.import.expect(rt, "an object");
    (ends, import)
}

fn act(rt: &impl Abort, ends: &mut Both, step: Step) -> Seen {
    ends.act(rt, step)
}

fn take(rt: &impl Abort, ends: &mut Both) -> Option<(u32, Got)> {
    act(rt, ends, Step::Take).got
}

/// The next outcome is that of this question, and has this word; or it failed.
fn expect_outcome(rt: &impl Abort, ends: &mut Both, asked: Option<u32>, word: Option<u64>) {
    let (question, got) = take(rt, ends).expect(rt, "an outcome");
    check!(rt; asked == Some(question) && got.is_failed == word.is_none());
    check!(rt; got.word == word.unwrap_or(0));
}

fn expect_ended(rt: &impl Abort, board: &Shared, wanted: &[u32]) {
    let is_right = match board.try_borrow() {
        Ok(board) => board.ended.as_slice() == wanted,
        Err(_) => false,
    };
    check!(rt; is_right);
}

fn expect_words(rt: &impl Abort, board: &Shared, wanted: &[u64]) {
    let is_right = match board.try_borrow() {
        Ok(board) => board.words.as_slice() == wanted,
        Err(_) => false,
    };
    check!(rt; is_right);
}

/// A call is answered in a method of another call, or dropped there: then it fails.
#[test]
fn later_calls_are_answered_or_fail(rt: HostRuntime) {
    let board = new_board(&rt, rt.alloc());
    let (mut ends, desk) = both(&rt, rt.alloc(), &board);
    for (method, word) in [(ANSWER, Some(4)), (DROP, None)] {
        let first = act(&rt, &mut ends, Step::Call(desk, PUT_OFF, With::Word(0))).asked;
        check!(&rt; take(&rt, &mut ends).is_none());
        let second = act(&rt, &mut ends, Step::Call(desk, method, With::Word(0))).asked;
        expect_outcome(&rt, &mut ends, second, Some(0));
        expect_outcome(&rt, &mut ends, first, word);
    }
    expect_ended(&rt, &board, &[]);
    drop(ends);
    drop(board);
}

/// An object that goes answers a call, calls the client's object, and wakes an object of another session. What it makes isn't kept.
#[test]
fn an_end_is_told(rt: HostRuntime) {
    let board = new_board(&rt, rt.alloc());
    let (mut ends, desk) = both(&rt, rt.alloc(), &board);
    let first = act(&rt, &mut ends, Step::Call(desk, PUT_OFF, With::Word(0))).asked;
    check!(&rt; take(&rt, &mut ends).is_none());
    act(&rt, &mut ends, Step::Call(desk, MAKE, With::Object(0)));
    let (_, got) = take(&rt, &mut ends).expect(&rt, "an outcome");
    let made = got.import.expect(&rt, "an object");
    act(&rt, &mut ends, Step::Drop(made));
    act(&rt, &mut ends, Step::Pass(10_000));
    expect_ended(&rt, &board, &[1]);
    expect_words(&rt, &board, &[5]);
    expect_outcome(&rt, &mut ends, first, Some(6));
    let woken = act(&rt, &mut ends, Step::HandOn).woken.expect(&rt, "a wake");
    check!(&rt; woken.session == 9 && woken.object == 3);
    check!(&rt; ends.server.objects().len() == 1);
    drop(ends);
    drop(board);
}

/// A servant in a family is the one that was put there.
#[test]
fn a_servant_is_served(rt: HostRuntime) {
    let board = new_board(&rt, rt.alloc());
    let served = ServantObject::new(Pad {
        alloc: rt.alloc(),
        board: Rc::clone(&board).expect(&rt, "memory"),
    });
    expect_words(&rt, &served.servant().board, &[]);
    drop(served);
    drop(board);
}

/// All objects are told their end in order, each once, and none is left.
#[test]
fn all_ends_are_told(rt: HostRuntime) {
    let alloc = rt.alloc();
    let board = new_board(&rt, alloc);
    let mut family = Objects::new(alloc);
    for _ in 0..3 {
        let desk = Desk {
            board: Rc::clone(&board).expect(&rt, "memory"),
            target: None,
        };
        drop(family.add(desk).expect(&rt, "an object"));
    }
    for _ in 0..2 {
        check!(&rt; family.end_all().is_ok() && family.len() == 0);
        expect_ended(&rt, &board, &[0, 1, 2]);
    }
    for _ in 0..3 {
        let woken = waker_in(family.next_letter()).expect(&rt, "a wake");
        check!(&rt; woken.session == 9);
    }
    check!(&rt; family.next_letter().is_none());
    drop(family);
    drop(board);
}
