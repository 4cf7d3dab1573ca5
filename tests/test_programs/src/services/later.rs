//! Calls of services are answered later, by their own handles, in another order than they came.

use crate::services::ends::{Ends, Seen, Step, With};
use cp_objects::{Objects, Context, ServedObject};
use cp_refs::Outcome;
use cp_servants::{OutgoingCall, Reply, RequestView, Settled};
use cp_interfaces::{LaterAnswer, MethodResult, ServiceCall};
use cp_interfaces::{MethodCall, MethodFault, NoFieldsBuilder};
use std::alloc::AllocError;
use std::process::Abort;

/// Answers no call until there are two: then the second one with results, and the first one with an exception.
#[derive(Drop)]
struct Slow {
    calls: Vec<LaterAnswer<NoFieldsBuilder>>,
    is_ready: bool,
}

impl Slow {
    /// The call is to be answered later.
    fn put_off(
        &mut self,
        call: &mut ServiceCall<'_, (), NoFieldsBuilder>,
        context: &mut Context<Slow>,
    ) -> MethodResult {
        let later = call.later(context)?;
        self.calls.push(later)?;
        self.is_ready = self.calls.len() == 2;
        Ok(())
    }
}

impl ServedObject for Slow {
    type Makes = Slow;

    fn call(
        &mut self,
        ticket: u64,
        request: RequestView<'_>,
        context: &mut Context<Slow>,
    ) -> Result<Reply, AllocError> {
        let session = context.session();
        let call = MethodCall {
            ticket,
            session,
            request,
        };
        let results = NoFieldsBuilder::new(context.alloc())?;
        let mut passed = ServiceCall::new(context.alloc(), &call, (), results);
        let done = self.put_off(&mut passed, context);
        passed.reply(&call, done)
    }

    fn poll(&mut self, context: &mut Context<Slow>) -> Result<Option<Settled>, AllocError> {
        if !self.is_ready {
            return Ok(None);
        }
        while let Some(call) = self.calls.pop() {
            if self.calls.is_empty() {
                call.fail(context, MethodFault::InUse)?;
            } else {
                let results = NoFieldsBuilder::new(context.alloc())?;
                call.answer(context, results)?;
            }
        }
        Ok(None)
    }

    fn has_more(&self) -> bool {
        false
    }

    fn next_call(&mut self, _context: &mut Context<Slow>) -> Result<Option<OutgoingCall>, AllocError> {
        Ok(None)
    }

    fn on_response(
        &mut self,
        _mark: u64,
        outcome: Outcome,
        _context: &mut Context<Slow>,
    ) -> Result<(), AllocError> {
        drop(outcome);
        Ok(())
    }

    fn on_cancel(&mut self, _ticket: u64, _context: &mut Context<Slow>) -> Result<(), AllocError> {
        Ok(())
    }
}

type Both = Ends<Objects<Slow>, Objects<Slow>>;

/// Does a step.
fn act(rt: &impl Abort, ends: &mut Both, step: Step) -> Seen {
    ends.act(rt, step)
}

/// The next outcome is that of this question.
fn expect_outcome(rt: &impl Abort, ends: &mut Both, asked: Option<u32>, is_failed: bool) {
    let (question, got) = act(rt, ends, Step::Take).got.expect(rt, "an outcome");
    check!(rt; asked == Some(question) && got.is_failed == is_failed);
}

#[test]
fn calls_are_answered_later(rt: HostRuntime) {
    let alloc = rt.alloc();
    let mut family = Objects::new(alloc);
    let calls = Vec::new(alloc);
    let is_ready = false;
    drop(
        family
            .add(Slow { calls, is_ready })
            .expect(&rt, "an object"),
    );
    let mut ends = Ends::new(alloc, Objects::new(alloc), family, 1);
    act(&rt, &mut ends, Step::Bootstrap);
    let (_, got) = act(&rt, &mut ends, Step::Take)
        .got
        .expect(&rt, "an outcome");
    let call = Step::Call(got.import.expect(&rt, "an object"), 0, With::Word(0));
    let first = act(&rt, &mut ends, call).asked;
    check!(&rt; act(&rt, &mut ends, Step::Take).got.is_none());
    let second = act(&rt, &mut ends, call).asked;
    expect_outcome(&rt, &mut ends, second, false);
    expect_outcome(&rt, &mut ends, first, true);
    drop(ends);
}
