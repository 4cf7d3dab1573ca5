//! Typed clients, and what their calls come to.

use cp_objects::SessionCap;
use cp_refs::{Cap, Caps, Outcome, Request, failed};
use cp_interfaces::{Caller, NamingError, NoResults, payload_of};
use cp_tree::Whole;
use directory::{DirectoryClient, DirectoryFindResultsPipeline, FriendClient};
use std::alloc::Global;
use std::process::Abort;

/// Keeps what it is asked. Its questions have the numbers from 1 on.
#[derive(Drop)]
struct Log {
    asked: Vec<(Cap, Request)>,
    /// The number of the last question.
    last: u32,
}

impl Caller for Log {
    type Fault = NamingError;

    ghost number = { λ _. 0 };

    ghost sends = { λ _ _ _ _ _. Unit {0} };

    fn session(&self) -> u64 {
        0
    }

    fn send(&mut self, alloc: Global, cap: &Cap, request: Request) -> Result<u32, NamingError> {
        self.asked.push((cap.copy(alloc)?, request))?;
        self.last = self.last.saturating_add(1);
        Ok(self.last)
    }
}

/// A call of `find` on import 7.
fn find(alloc: Global, log: &mut Log) -> Result<DirectoryFindResultsPipeline, NamingError> {
    DirectoryClient::new(alloc, SessionCap::new(0, Cap::Import(7))).find(log, "")
}

/// Who speaks for the person that a call will find.
fn friend(rt: &impl Abort, found: &DirectoryFindResultsPipeline) -> FriendClient {
    let person = found.person().expect(rt, "memory");
    person.friend().expect(rt, "memory")
}

/// Whether import 7 was asked to find someone.
fn was_asked(log: &Log) -> bool {
    match log.asked.as_slice() {
        [(Cap::Import(7), request)] => {
            (request.interface, request.method) == (DirectoryClient::ID, 0)
        }
        _ => false,
    }
}

#[test]
fn promises_are_called_by_their_fields(rt: HostRuntime) {
    let alloc = rt.alloc();
    let mut log = Log {
        asked: Vec::new(alloc),
        last: 0,
    };
    let found = find(alloc, &mut log).expect(&rt, "a call");
    let friend = friend(&rt, &found).target.into_cap();
    check!(&rt; was_asked(&log));
    check!(&rt; found.question() == 1);
    check!(&rt; matches!(friend.cap(), Cap::Pipelined(1, path) if path.fields() == [0, 1].as_slice()));
}

/// Results that are null, without capabilities.
fn null(alloc: Global) -> Outcome {
    Outcome::Results {
        content: Whole::null(),
        caps: Caps::new(Vec::new(alloc)),
    }
}

/// Whether the results that an outcome is are a struct.
fn is_struct(outcome: Outcome) -> bool {
    match payload_of(0, outcome) {
        Ok(came) => came.results().is_ok(),
        Err(_) => false,
    }
}

#[test]
fn outcomes_are_results_or_not(rt: HostRuntime) {
    let alloc = rt.alloc();
    check!(&rt; is_struct(null(alloc)));
    let exception = failed(alloc, "no").expect(&rt, "memory");
    let fault = payload_of(0, Outcome::Failed(exception)).err();
    check!(&rt; matches!(&fault, Some(NoResults::Failed(_))));
    let fault = payload_of(0, Outcome::Canceled).err();
    check!(&rt; matches!(&fault, Some(NoResults::Canceled)));
}
