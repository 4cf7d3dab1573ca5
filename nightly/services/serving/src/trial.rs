//! A Trial: it makes Cells and promises, and answers at once, in time, or once what it calls has answered.

use crate::Served;
use crate::cell::{CELL, Cell};
use crate::later::{Answer, Asked, Vow, Wait, passed_on};
use cp_objects::{Context, ServedObject};
use cp_refs::{Cap, Outcome, Request, failed};
use cp_servants::{
    OutgoingCall, PayloadBuilder, Reply, RequestView, Settled, named_imports, no_such_method, outcome_of, word_in,
};
use cp_vat_machine::Ids;
use std::alloc::{AllocError, Global};
use std::collections::VecDeque;
use std::mem;
use std::rc::Rc;

const DESK: u64 = 0xe5a1_0000_0000_0001;

const TRIAL: u64 = 0xe5a1_0000_0000_0003;

/// Milliseconds in which `later` answers.
const LATER: u64 = 100;

#[derive(Drop)]
pub struct Trial {
    /// Each Cell of the connection has it too.
    alive: Rc<()>,
    waits: Vec<Wait>,
    vows: Vec<Vow>,
    asks: VecDeque<OutgoingCall>,
    asked: Vec<Asked>,
}

/// The first capability of the params.
fn first_of(alloc: Global, request: &Request) -> Result<Cap, AllocError> {
    match request.caps.caps().first() {
        Some(cap) => cap.copy(alloc),
        None => Ok(Cap::None),
    }
}

fn now(outcome: Outcome, request: &Request, context: &Context<Served>) -> Result<Reply, AllocError> {
    let gives_up = named_imports(context.alloc(), &request.caps)?;
    Ok(Reply::Now { outcome, gives_up })
}

impl Trial {
    pub fn new(alloc: Global) -> Result<Trial, AllocError> {
        Ok(Trial {
            alive: Rc::new(alloc, ())?,
            waits: Vec::new(alloc),
            vows: Vec::new(alloc),
            asks: VecDeque::new(alloc),
            asked: Vec::new(alloc),
        })
    }

    fn cell(&self, held: u64, context: &mut Context<Served>) -> Result<Cap, AllocError> {
        let alive = self.alive.clone()?;
        let cell = context.make(Served::Right(Cell { held, alive }))?;
        Ok(cell.into_cap(context.session())?)
    }

    /// How many Cells there are.
    fn cells(&self) -> u64 {
        Rc::strong_count(&self.alive).saturating_sub(1) as u64
    }

    fn answered(&self, answer: Answer, context: &mut Context<Served>) -> Result<Outcome, AllocError> {
        let content = PayloadBuilder::new(context.alloc());
        let results = match answer {
            Answer::Gives(held) => content.cap(self.cell(held, context)?),
            Answer::Says(number) => content.word(number),
            Answer::Fails(exception) => return Ok(Outcome::Failed(exception)),
        };
        outcome_of(context.alloc(), results)
    }

    /// Answers so many milliseconds later.
    fn wait(
        &mut self,
        ticket: u64,
        milliseconds: u64,
        answer: Answer,
        request: &Request,
        context: &mut Context<Served>,
    ) -> Result<Reply, AllocError> {
        self.waits.push(Wait {
            at: context.now().saturating_add(milliseconds),
            ticket,
            answer,
            gives_up: named_imports(context.alloc(), &request.caps)?,
        })?;
        Ok(Reply::Later)
    }

    /// Answers what this call of the capability that is given answers.
    fn pass(
        &mut self,
        ticket: u64,
        call: Request,
        gives: bool,
        request: &Request,
        context: &mut Context<Served>,
    ) -> Result<Reply, AllocError> {
        let alloc = context.alloc();
        let cap = context.own(first_of(alloc, request)?);
        context.keep(&cap)?;
        self.asks.push_back(OutgoingCall {
            cap: cap.cap().copy(alloc)?,
            request: call,
            call_id: ticket,
        })?;
        self.asked.push(Asked {
            ticket,
            cap,
            gives,
            gives_up: named_imports(alloc, &request.caps)?,
        })?;
        Ok(Reply::Later)
    }

    /// Gives a Cell. With a gift, 5 is added to that first, and the Cell holds what that came to.
    fn give(
        &mut self,
        ticket: u64,
        request: &Request,
        context: &mut Context<Served>,
    ) -> Result<Reply, AllocError> {
        if let Cap::None = first_of(context.alloc(), request)? {
            let outcome = self.answered(Answer::Gives(0), context)?;
            return now(outcome, request, context);
        }
        let Ok(content) = PayloadBuilder::new(context.alloc()).word(5) else {
            return Err(AllocError);
        };
        self.pass(ticket, content.request(CELL, 0), true, request, context)
    }

    /// Gives a promise, which comes to what is given so much later.
    fn vow(&mut self, request: &Request, context: &mut Context<Served>) -> Result<Reply, AllocError> {
        let alloc = context.alloc();
        let value = match first_of(alloc, request)? {
            Cap::None => Cap::Broken(failed(alloc, "it came to nothing")?),
            value => value,
        };
        let value = context.own(value);
        context.keep(&value)?;
        let resolver = context.promise()?;
        let promise = resolver.cap().into_cap(context.session())?;
        let outcome = outcome_of(alloc, PayloadBuilder::new(alloc).cap(promise))?;
        self.vows.push(Vow {
            at: context.now().saturating_add(word_in(&request.content, 0)),
            resolver,
            value,
        })?;
        let gives_up = Ids::new(Vec::new(alloc));
        Ok(Reply::Now { outcome, gives_up })
    }

    fn reply(
        &mut self,
        ticket: u64,
        request: &Request,
        context: &mut Context<Served>,
    ) -> Result<Reply, AllocError> {
        let alloc = context.alloc();
        let (first, second) = (word_in(&request.content, 0), word_in(&request.content, 1));
        match (request.interface, request.method) {
            (DESK, 0) => self.give(ticket, request, context),
            (DESK, 1) => self.wait(ticket, LATER, Answer::Gives(LATER), request, context),
            (DESK, 2) => {
                let no = Outcome::Failed(failed(alloc, "no")?);
                now(no, request, context)
            }
            (TRIAL, 0) => {
                let outcome = Outcome::Results {
                    content: request.content.copy(alloc)?,
                    caps: request.caps.copy(alloc)?,
                };
                now(outcome, request, context)
            }
            (TRIAL, 1) => self.wait(ticket, first, Answer::Says(second), request, context),
            (TRIAL, 2) => self.vow(request, context),
            (TRIAL, 3) => {
                let get = PayloadBuilder::new(alloc).request(CELL, 1);
                self.pass(ticket, get, false, request, context)
            }
            (TRIAL, 4) => {
                let outcome = self.answered(Answer::Says(self.cells()), context)?;
                now(outcome, request, context)
            }
            _ => now(no_such_method(alloc)?, request, context),
        }
    }

    /// Each promise comes to its value whose time has come.
    fn keep_vows(&mut self, context: &mut Context<Served>) -> Result<(), AllocError> {
        let mut later = Vec::new(context.alloc());
        for vow in mem::replace(&mut self.vows, Vec::new(context.alloc())) {
            if vow.at > context.now() {
                later.push(vow)?;
            } else {
                context.give_up(&vow.value)?;
                context.resolve(vow.resolver, vow.value)?;
            }
        }
        self.vows = later;
        Ok(())
    }

    /// Takes a call out whose time has come, the one of the earliest time.
    fn take(&mut self, now: u64) -> Option<Wait> {
        let mut first: Option<(usize, u64)> = None;
        for (place, wait) in self.waits.iter().enumerate() {
            if wait.at <= now && first.is_none_or(|(_, at)| wait.at < at) {
                first = Some((place, wait.at));
            }
        }
        let (place, _) = first?;
        if place < self.waits.len() {
            return Some(self.waits.remove(place));
        }
        None
    }

    /// Is woken at the first time that is to come.
    fn rest(&self, context: &mut Context<Served>) -> Result<(), AllocError> {
        let mut first = u64::MAX;
        for wait in &self.waits {
            first = first.min(wait.at);
        }
        for vow in &self.vows {
            first = first.min(vow.at);
        }
        if first < u64::MAX {
            context.wake_after(first.saturating_sub(context.now()))?;
        }
        Ok(())
    }

    /// Takes out what is asked by this ticket.
    fn take_asked(&mut self, ticket: u64) -> Option<Asked> {
        for place in 0..self.asked.len() {
            if self
                .asked
                .get(place)
                .is_some_and(|asked| asked.ticket == ticket)
            {
                return Some(self.asked.swap_remove(place));
            }
        }
        None
    }
}

impl ServedObject for Trial {
    type Makes = Served;

    fn call(
        &mut self,
        ticket: u64,
        request: RequestView<'_>,
        context: &mut Context<Served>,
    ) -> Result<Reply, AllocError> {
        let request = request.request(context.alloc())?;
        self.reply(ticket, &request, context)
    }

    fn poll(&mut self, context: &mut Context<Served>) -> Result<Option<Settled>, AllocError> {
        self.keep_vows(context)?;
        let Some(wait) = self.take(context.now()) else {
            self.rest(context)?;
            return Ok(None);
        };
        let outcome = self.answered(wait.answer, context)?;
        Ok(Some(Settled {
            ticket: wait.ticket,
            outcome,
            gives_up: wait.gives_up,
        }))
    }

    fn has_more(&self) -> bool {
        false
    }

    fn next_call(&mut self, _context: &mut Context<Served>) -> Result<Option<OutgoingCall>, AllocError> {
        Ok(self.asks.pop_front())
    }

    fn on_response(
        &mut self,
        call_id: u64,
        outcome: Outcome,
        context: &mut Context<Served>,
    ) -> Result<(), AllocError> {
        let Some(asked) = self.take_asked(call_id) else {
            return Ok(());
        };
        // (An import is given up with the answer.)
        if let Cap::Object(_) = asked.cap.cap() {
            context.give_up(&asked.cap)?;
        }
        let answer = match &outcome {
            Outcome::Results { content, .. } if asked.gives => Answer::Gives(word_in(content, 0)),
            Outcome::Results { content, .. } => Answer::Says(word_in(content, 0)),
            Outcome::Failed(of) => Answer::Fails(passed_on(context.alloc(), of)?),
            Outcome::Canceled => Answer::Fails(failed(context.alloc(), "it was given up")?),
        };
        self.waits.push(Wait {
            at: 0,
            ticket: call_id,
            answer,
            gives_up: asked.gives_up,
        })?;
        Ok(())
    }

    fn on_cancel(&mut self, ticket: u64, context: &mut Context<Served>) -> Result<(), AllocError> {
        for place in 0..self.waits.len() {
            // A Cell is still given: other calls may name it.
            let is_that = self.waits.get(place).is_some_and(|wait| {
                wait.ticket == ticket && matches!(wait.answer, Answer::Says(_))
            });
            if is_that {
                let gives_up = self.waits.remove(place).gives_up;
                let outcome = Outcome::Canceled;
                return context.settle(Settled {
                    ticket,
                    outcome,
                    gives_up,
                });
            }
        }
        Ok(())
    }
}
