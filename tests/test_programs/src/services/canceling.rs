//! Calls that the client gives up before they are answered: their object is told, once, and nothing is kept of them.

use crate::services::ends::{Ends, Seen, Step, With};
use crate::services::notebook::NOTES;
use cp_objects::{Context, LaterCall, Objects, ServantObject, ServedObject, SessionCap};
use cp_refs::{Cap, Caps, Outcome, Request};
use cp_servants::{
    OutgoingCall, PayloadBuilder, Reply, RequestView, Servant, Settled, named_imports, outcome_of,
};
use cp_vat_machine::Ids;
use std::alloc::{AllocError, Global};
use std::process::Abort;

/// Puts the call off, and lets it go once it is given up.
const WAIT: u16 = 0;
/// Puts the call off, whatever happens.
const STAY: u16 = 1;
/// Answers all calls that were put off, and says how many.
const ANSWER: u16 = 2;
/// Says how often the object was told that a call was given up.
const TOLD: u16 = 3;
/// Calls the object itself, and gives that up before it is made.
const TAKE_BACK: u16 = 4;
/// With one of those: that is called of the object which the params name, or else of object 1, and its outcome is the answer.
const FORWARD: u16 = 16;

#[derive(Drop)]
struct Waiter {
    calls: Vec<LaterCall>,
    /// Whether calls that are given up stay.
    stays: bool,
    told: u64,
}

impl Waiter {
    fn new(alloc: Global) -> Waiter {
        Waiter {
            calls: Vec::new(alloc),
            stays: false,
            told: 0,
        }
    }

    /// Answers all calls with the object itself.
    fn answer_all(&mut self, context: &mut Context<Waiter>) -> Result<u64, AllocError> {
        let mut count = 0;
        while let Some(call) = self.calls.pop() {
            let this = context.this_cap().into_cap(context.session())?;
            let results = PayloadBuilder::new(context.alloc()).cap(this);
            context.answer(call, outcome_of(context.alloc(), results)?)?;
            count += 1;
        }
        Ok(count)
    }

    /// Takes the call of this ticket out.
    fn take(&mut self, ticket: u64) -> Option<LaterCall> {
        for place in 0..self.calls.len() {
            if self.calls[place].ticket() == ticket {
                return Some(self.calls.swap_remove(place));
            }
        }
        None
    }

    /// Puts a call off.
    fn put_off(
        &mut self,
        ticket: u64,
        caps: &Caps,
        context: &mut Context<Waiter>,
    ) -> Result<Reply, AllocError> {
        let gives_up = named_imports(context.alloc(), caps)?;
        let later = context.later(ticket, gives_up)?;
        self.calls.push(later)?;
        Ok(Reply::Later)
    }
}

impl ServedObject for Waiter {
    type Makes = Waiter;

    fn call(
        &mut self,
        ticket: u64,
        request: RequestView<'_>,
        context: &mut Context<Waiter>,
    ) -> Result<Reply, AllocError> {
        let word = match request.method {
            ANSWER => self.answer_all(context)?,
            TOLD => self.told,
            TAKE_BACK => {
                send(ticket, context.this_cap(), STAY, context)?;
                context.cancel(ticket)?;
                self.calls.len() as u64
            }
            method if method >= FORWARD => {
                let target = context.own(target_in(&request.caps));
                send(ticket, target, method - FORWARD, context)?;
                return self.put_off(ticket, &request.caps, context);
            }
            method => {
                self.stays = method == STAY;
                return self.put_off(ticket, &request.caps, context);
            }
        };
        let results = PayloadBuilder::new(context.alloc()).word(word);
        Ok(Reply::Now {
            outcome: outcome_of(context.alloc(), results)?,
            gives_up: Ids::new(Vec::new(context.alloc())),
        })
    }

    fn poll(&mut self, _context: &mut Context<Waiter>) -> Result<Option<Settled>, AllocError> {
        Ok(None)
    }

    fn has_more(&self) -> bool {
        false
    }

    fn next_call(&mut self, _context: &mut Context<Waiter>) -> Result<Option<OutgoingCall>, AllocError> {
        Ok(None)
    }

    fn on_response(
        &mut self,
        call_id: u64,
        outcome: Outcome,
        context: &mut Context<Waiter>,
    ) -> Result<(), AllocError> {
        match self.take(call_id) {
            Some(call) => Ok(context.answer(call, outcome)?),
            None => {
                drop(outcome);
                Ok(())
            }
        }
    }

    fn on_cancel(&mut self, ticket: u64, context: &mut Context<Waiter>) -> Result<(), AllocError> {
        self.told += 1;
        if !self.stays {
            drop(self.take(ticket));
        }
        context.cancel(ticket)
    }
}

/// The capability that a table names first, or else object 1.
fn target_in(caps: &Caps) -> Cap {
    match caps.caps().first() {
        Some(Cap::Import(import)) => Cap::Import(*import),
        _ => Cap::Object(1),
    }
}

/// Calls a method of an object, under the number of a ticket.
fn send(
    ticket: u64,
    target: SessionCap,
    method: u16,
    context: &mut Context<Waiter>,
) -> Result<(), AllocError> {
    let Ok(params) = PayloadBuilder::new(context.alloc()).word(0) else {
        drop(target);
        return Err(AllocError);
    };
    let call = context.own_call(OutgoingCall {
        cap: target.into_cap(context.session())?,
        request: params.request(NOTES, method),
        call_id: ticket,
    });
    Ok(context.send(call)?)
}

/// A servant that answers each call after the next one, with its number.
#[derive(Drop)]
struct Sleeper {
    alloc: Global,
    tickets: Vec<u64>,
}

impl Servant for Sleeper {
    fn call(&mut self, ticket: u64, request: Request) -> Result<Reply, AllocError> {
        drop(request);
        self.tickets.push(ticket)?;
        Ok(Reply::Later)
    }

    fn poll(&mut self) -> Result<Option<Settled>, AllocError> {
        if self.tickets.len() < 2 {
            return Ok(None);
        }
        let ticket = self.tickets.remove(0);
        Ok(Some(Settled {
            ticket,
            outcome: outcome_of(self.alloc, PayloadBuilder::new(self.alloc).word(ticket))?,
            gives_up: Ids::new(Vec::new(self.alloc)),
        }))
    }

    fn has_more(&self) -> bool {
        self.tickets.len() >= 2
    }
}

type Waiting = Ends<Objects<Waiter>, Objects<Waiter>>;

/// Does a step.
fn act(rt: &impl Abort, ends: &mut Waiting, step: Step) -> Seen {
    ends.act(rt, step)
}

/// Two objects.
fn two(rt: &impl Abort, alloc: Global) -> Objects<Waiter> {
    let mut objects = Objects::new(alloc);
    drop(objects.add(Waiter::new(alloc)).expect(rt, "an object"));
    drop(objects.add(Waiter::new(alloc)).expect(rt, "an object"));
    objects
}

/// Both ends, each with two objects, and the server's first.
fn begin(rt: &impl Abort, alloc: Global) -> (Waiting, u32) {
    let mut ends = Ends::new(alloc, two(rt, alloc), two(rt, alloc), 1);
    act(rt, &mut ends, Step::Bootstrap);
    let (_, got) = act(rt, &mut ends, Step::Take).got.expect(rt, "an outcome");
    (ends, got.import.expect(rt, "an object"))
}

/// A call of the server's object, which goes there.
fn call(rt: &impl Abort, ends: &mut Waiting, object: u32, method: u16) -> u32 {
    call_with(rt, ends, object, method, With::Word(0))
}

fn call_with(rt: &impl Abort, ends: &mut Waiting, object: u32, method: u16, with: With) -> u32 {
    let asked = act(rt, ends, Step::Call(object, method, with)).asked;
    act(rt, ends, Step::Carry);
    asked.expect(rt, "a question")
}

/// What a call says at once.
fn said(rt: &impl Abort, ends: &mut Waiting, object: u32, method: u16) -> u64 {
    said_with(rt, ends, object, method, With::Word(0))
}

fn said_with(rt: &impl Abort, ends: &mut Waiting, object: u32, method: u16, with: With) -> u64 {
    let asked = call_with(rt, ends, object, method, with);
    let (question, got) = act(rt, ends, Step::Take).got.expect(rt, "an outcome");
    check!(rt; question == asked && !got.is_failed);
    got.word
}

#[test]
fn a_call_that_is_given_up_goes(rt: HostRuntime) {
    let (mut ends, object) = begin(&rt, rt.alloc());
    let before = act(&rt, &mut ends, Step::Carry).kept;
    let waits = call(&rt, &mut ends, object, WAIT);
    let other = call(&rt, &mut ends, object, WAIT);
    check!(&rt; act(&rt, &mut ends, Step::Carry).kept > before);
    act(&rt, &mut ends, Step::Finish(waits));
    check!(&rt; said(&rt, &mut ends, object, TOLD) == 1);
    // The one that goes is the one that was given up.
    check!(&rt; said(&rt, &mut ends, object, ANSWER) == 1);
    let (question, got) = act(&rt, &mut ends, Step::Take).got.expect(&rt, "an outcome");
    check!(&rt; question == other && !got.is_failed);
    // Its Finish comes after the answer, so nobody is told of it.
    check!(&rt; said(&rt, &mut ends, object, TOLD) == 1);
    check!(&rt; act(&rt, &mut ends, Step::Carry).kept == before);
    drop(ends);
}

#[test]
fn a_late_answer_of_it_is_dropped(rt: HostRuntime) {
    let (mut ends, object) = begin(&rt, rt.alloc());
    let before = act(&rt, &mut ends, Step::Carry).kept;
    let stays = call(&rt, &mut ends, object, STAY);
    act(&rt, &mut ends, Step::Finish(stays));
    check!(&rt; said(&rt, &mut ends, object, TOLD) == 1);
    check!(&rt; act(&rt, &mut ends, Step::Carry).kept > before);
    check!(&rt; said(&rt, &mut ends, object, ANSWER) == 1);
    check!(&rt; act(&rt, &mut ends, Step::Take).got.is_none());
    check!(&rt; act(&rt, &mut ends, Step::Carry).kept == before);
    // The number is free again.
    check!(&rt; said(&rt, &mut ends, object, TOLD) == 1);
    drop(ends);
}

#[test]
fn calls_on_its_results_take_its_answer(rt: HostRuntime) {
    let (mut ends, object) = begin(&rt, rt.alloc());
    let stays = call(&rt, &mut ends, object, STAY);
    let piped = act(&rt, &mut ends, Step::CallResult(stays, TOLD)).asked;
    act(&rt, &mut ends, Step::Finish(stays));
    check!(&rt; act(&rt, &mut ends, Step::Take).got.is_none());
    act(&rt, &mut ends, Step::Call(object, ANSWER, With::Word(0)));
    let mut words = Vec::new(rt.alloc());
    while let Some((question, got)) = act(&rt, &mut ends, Step::Take).got {
        check!(&rt; !got.is_failed);
        words.push((Some(question) == piped, got.word)).expect(&rt, "memory");
    }
    check!(&rt; words.len() == 2);
    for (is_piped, word) in words {
        check!(&rt; word == 1 || !is_piped);
    }
    drop(ends);
}

#[test]
fn calls_on_results_of_one_that_goes_fail(rt: HostRuntime) {
    let (mut ends, object) = begin(&rt, rt.alloc());
    let waits = call(&rt, &mut ends, object, WAIT);
    let piped = act(&rt, &mut ends, Step::CallResult(waits, TOLD)).asked;
    act(&rt, &mut ends, Step::Finish(waits));
    let (question, got) = act(&rt, &mut ends, Step::Take).got.expect(&rt, "an outcome");
    check!(&rt; Some(question) == piped && got.is_failed);
    drop(ends);
}

#[test]
fn nothing_is_kept_of_many_calls_that_are_given_up(rt: HostRuntime) {
    let (mut ends, object) = begin(&rt, rt.alloc());
    let before = act(&rt, &mut ends, Step::Carry).kept;
    for _ in 0..2_000 {
        let waits = call(&rt, &mut ends, object, WAIT);
        act(&rt, &mut ends, Step::Finish(waits));
    }
    check!(&rt; act(&rt, &mut ends, Step::Carry).kept == before);
    check!(&rt; said(&rt, &mut ends, object, TOLD) == 2_000);
    drop(ends);
}

#[test]
fn a_call_that_is_forwarded_is_given_up_there(rt: HostRuntime) {
    let (mut ends, object) = begin(&rt, rt.alloc());
    let to = With::Object(0);
    let waits = call_with(&rt, &mut ends, object, FORWARD + WAIT, to);
    act(&rt, &mut ends, Step::Finish(waits));
    // The client's object that the server's one called is told, and what it kept is gone.
    check!(&rt; said_with(&rt, &mut ends, object, FORWARD + TOLD, to) == 1);
    check!(&rt; said_with(&rt, &mut ends, object, FORWARD + ANSWER, to) == 0);
    check!(&rt; said(&rt, &mut ends, object, TOLD) == 1);
    check!(&rt; act(&rt, &mut ends, Step::Take).got.is_none());
    // Nothing of it is kept: one more takes no more.
    let before = act(&rt, &mut ends, Step::Carry).kept;
    let waits = call_with(&rt, &mut ends, object, FORWARD + WAIT, to);
    check!(&rt; act(&rt, &mut ends, Step::Carry).kept > before);
    act(&rt, &mut ends, Step::Finish(waits));
    check!(&rt; act(&rt, &mut ends, Step::Carry).kept == before);
    drop(ends);
}

#[test]
fn a_call_of_an_object_here_is_given_up_there(rt: HostRuntime) {
    let (mut ends, object) = begin(&rt, rt.alloc());
    let before = act(&rt, &mut ends, Step::Carry).kept;
    let waits = call(&rt, &mut ends, object, FORWARD + WAIT);
    check!(&rt; said(&rt, &mut ends, object, FORWARD + TOLD) == 0);
    act(&rt, &mut ends, Step::Finish(waits));
    check!(&rt; said(&rt, &mut ends, object, FORWARD + TOLD) == 1);
    check!(&rt; said(&rt, &mut ends, object, FORWARD + ANSWER) == 0);
    check!(&rt; act(&rt, &mut ends, Step::Carry).kept == before);
    drop(ends);
}

#[test]
fn a_call_that_was_answered_is_not_given_up(rt: HostRuntime) {
    let (mut ends, object) = begin(&rt, rt.alloc());
    let waits = call(&rt, &mut ends, object, FORWARD + WAIT);
    // The answer of the other object comes before the Finish.
    check!(&rt; said(&rt, &mut ends, object, FORWARD + ANSWER) == 1);
    let (question, got) = act(&rt, &mut ends, Step::Take).got.expect(&rt, "an outcome");
    check!(&rt; question == waits && !got.is_failed);
    check!(&rt; said(&rt, &mut ends, object, FORWARD + TOLD) == 0);
    drop(ends);
}

#[test]
fn a_call_that_was_not_made_is_taken_back(rt: HostRuntime) {
    let (mut ends, object) = begin(&rt, rt.alloc());
    let before = act(&rt, &mut ends, Step::Carry).kept;
    check!(&rt; said(&rt, &mut ends, object, TAKE_BACK) == 0);
    check!(&rt; said(&rt, &mut ends, object, ANSWER) == 0);
    check!(&rt; said(&rt, &mut ends, object, TOLD) == 0);
    check!(&rt; act(&rt, &mut ends, Step::Carry).kept == before);
    drop(ends);
}

#[test]
fn a_call_that_is_given_up_while_it_waits_is_told_of(rt: HostRuntime) {
    let (mut ends, object) = begin(&rt, rt.alloc());
    let before = act(&rt, &mut ends, Step::Carry).kept;
    let first = call(&rt, &mut ends, object, WAIT);
    let piped = act(&rt, &mut ends, Step::CallResult(first, WAIT)).asked;
    act(&rt, &mut ends, Step::Finish(piped.expect(&rt, "a question")));
    check!(&rt; said(&rt, &mut ends, object, TOLD) == 0);
    // The answer names the object itself, so the call that waited goes there, and goes at once.
    check!(&rt; said(&rt, &mut ends, object, ANSWER) == 1);
    let (question, got) = act(&rt, &mut ends, Step::Take).got.expect(&rt, "an outcome");
    check!(&rt; question == first && !got.is_failed);
    check!(&rt; said(&rt, &mut ends, object, TOLD) == 1);
    check!(&rt; said(&rt, &mut ends, object, ANSWER) == 0);
    check!(&rt; act(&rt, &mut ends, Step::Carry).kept == before);
    drop(ends);
}

/// A call of the client's first object by the client itself, which goes there.
fn call_own(rt: &impl Abort, ends: &mut Waiting, method: u16) -> u32 {
    let asked = act(rt, ends, Step::CallOwn(0, method)).asked;
    act(rt, ends, Step::Carry);
    asked.expect(rt, "a question")
}

/// What such a call says at once.
fn said_own(rt: &impl Abort, ends: &mut Waiting, method: u16) -> u64 {
    let asked = call_own(rt, ends, method);
    let (question, got) = act(rt, ends, Step::Take).got.expect(rt, "an outcome");
    check!(rt; question == asked && !got.is_failed);
    got.word
}

#[test]
fn a_call_of_an_object_of_ones_own_is_given_up(rt: HostRuntime) {
    let (mut ends, _) = begin(&rt, rt.alloc());
    let waits = call_own(&rt, &mut ends, WAIT);
    act(&rt, &mut ends, Step::Finish(waits));
    check!(&rt; said_own(&rt, &mut ends, TOLD) == 1);
    check!(&rt; said_own(&rt, &mut ends, ANSWER) == 0);
    // Nor does one stay that is given up before it came to the object.
    let waits = act(&rt, &mut ends, Step::CallOwn(0, WAIT)).asked;
    act(&rt, &mut ends, Step::Finish(waits.expect(&rt, "a question")));
    check!(&rt; said_own(&rt, &mut ends, TOLD) == 2);
    check!(&rt; said_own(&rt, &mut ends, ANSWER) == 0);
    // One that was answered isn't told of.
    let answered = call_own(&rt, &mut ends, STAY);
    check!(&rt; said_own(&rt, &mut ends, ANSWER) == 1);
    let (question, got) = act(&rt, &mut ends, Step::Take).got.expect(&rt, "an outcome");
    check!(&rt; question == answered && !got.is_failed);
    check!(&rt; said_own(&rt, &mut ends, TOLD) == 2);
    drop(ends);
}

type Sleeping = Ends<Objects<Waiter>, Objects<ServantObject<Sleeper>>>;

#[test]
fn a_servant_answers_for_nobody(rt: HostRuntime) {
    let alloc = rt.alloc();
    let mut servants = Vec::new(alloc);
    let tickets = Vec::new(alloc);
    servants
        .push(Sleeper { alloc, tickets })
        .expect(&rt, "memory");
    let objects = Objects::of_servants(alloc, servants).expect(&rt, "memory");
    let mut ends: Sleeping = Ends::new(alloc, Objects::new(alloc), objects, 1);
    ends.act(&rt, Step::Bootstrap);
    let (_, got) = ends.act(&rt, Step::Take).got.expect(&rt, "an outcome");
    let object = got.import.expect(&rt, "an object");
    let first = ends.act(&rt, Step::Call(object, 0, With::Word(0))).asked;
    ends.act(&rt, Step::Finish(first.expect(&rt, "a question")));
    let one = ends.act(&rt, Step::Carry).kept;
    let second = ends.act(&rt, Step::Call(object, 0, With::Word(0))).asked;
    check!(&rt; ends.act(&rt, Step::Take).got.is_none());
    // The second is there in place of the first, which was answered.
    check!(&rt; ends.act(&rt, Step::Carry).kept == one);
    ends.act(&rt, Step::Call(object, 0, With::Word(0)));
    let (question, got) = ends.act(&rt, Step::Take).got.expect(&rt, "an outcome");
    check!(&rt; Some(question) == second && got.word == 1);
    drop(ends);
}
