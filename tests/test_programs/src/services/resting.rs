//! Objects that always say that they have more, and give nothing.

use crate::services::ends::{Ends, Step, With};
use cp_dispatch::SessionEvent;
use cp_objects::ObjectTable;
use cp_refs::Request;
use cp_servants::{
    OutgoingCall, PayloadBuilder, Reply, Servant, Settled, named_imports, outcome_of,
};
use cp_session::DrivenSession;
use std::alloc::{AllocError, Global};
use std::process::Abort;

/// Answers with how often it was polled.
#[derive(Drop)]
struct Busy {
    alloc: Global,
    polls: u64,
}

impl Servant for Busy {
    fn call(&mut self, _ticket: u64, request: Request) -> Result<Reply, AllocError> {
        let gives_up = named_imports(self.alloc, &request.caps)?;
        match outcome_of(self.alloc, PayloadBuilder::new(self.alloc).word(self.polls)) {
            Ok(outcome) => Ok(Reply::Now { outcome, gives_up }),
            Err(error) => {
                drop(gives_up);
                Err(error)
            }
        }
    }

    fn poll(&mut self) -> Result<Option<Settled>, AllocError> {
        self.polls = self.polls.saturating_add(1);
        Ok(None)
    }

    fn has_more(&self) -> bool {
        true
    }

    fn next_call(&mut self) -> Result<Option<OutgoingCall>, AllocError> {
        Ok(None)
    }
}

/// A client that knows the one object of its server.
fn busy_ends(rt: &impl Abort, alloc: Global) -> Ends<Vec<Busy>, Vec<Busy>> {
    let busy = Vec::from_array(alloc, [Busy { alloc, polls: 0 }]);
    let mut ends = Ends::new(alloc, Vec::new(alloc), busy.expect(rt, "memory"), 1);
    ends.act(rt, Step::Bootstrap);
    check!(rt; ends.act(rt, Step::Take).got.is_some());
    ends
}

/// How often the server's object was polled before this call.
fn polls<C: ObjectTable, S: ObjectTable>(rt: &impl Abort, ends: &mut Ends<C, S>) -> u64 {
    ends.act(rt, Step::Call(0, 0, With::Word(0)));
    let seen = ends.act(rt, Step::Take);
    check!(rt; !seen.has_more);
    seen.got.expect(rt, "an outcome").1.word
}

/// How many events say that the server's object gives nothing.
fn restless<C: ObjectTable, S: ObjectTable>(ends: &mut Ends<C, S>) -> usize {
    let mut told = 0;
    'telling: while let Some(event) = ends.server.poll_event() {
        if matches!(&event, SessionEvent::Restless) {
            told += 1;
        }
        drop(event);
    }
    told
}

/// Ends the peer's bytes, and says whether the server's session is over then.
fn is_over<C: ObjectTable, S: ObjectTable>(rt: &impl Abort, ends: &mut Ends<C, S>) -> bool {
    ends.server.end(0).expect(rt, "an end");
    ends.act(rt, Step::Carry);
    ends.server.is_over()
}

#[test]
fn they_are_let_rest_until_something_comes(rt: HostRuntime) {
    let mut ends = busy_ends(&rt, rt.alloc());
    let first = polls(&rt, &mut ends);
    check!(&rt; first > 1_000 && first < 4_000);
    let second = polls(&rt, &mut ends);
    check!(&rt; second > first + 1_000 && second < first + 4_000);
    check!(&rt; restless(&mut ends) == 1);
    drop(ends);
}

#[test]
fn their_connection_ends(rt: HostRuntime) {
    let mut ends = busy_ends(&rt, rt.alloc());
    check!(&rt; is_over(&rt, &mut ends));
    drop(ends);
}
